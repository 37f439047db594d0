//! What can be wrong with a sheet: values at and just past the end of a range or a rule, and texts that are not well made.

use crate::product::Numbers;
use crate::random::Random;
use crate::sheets::{farthest, joined, listed, longest_transfer, ranges, warning, KEYS};
use crate::sheets::{DWELL, L18, L19, L20, L31, L47, PHASES, POINTS, TRACK};

/// The ends of a range, and the numbers just past them.
fn edge(random: &mut Random, (least, most): (u32, u32)) -> u32 {
    random.of_these(&[least.saturating_sub(1), least, most, most + 1])
}

/// One number put at an end of its range or just past it.
pub fn value(random: &mut Random, n: &mut Numbers) {
    let place = random.below(n.len());
    // neither kind of sheet has a fifth vehicle, nor an issue that takes more than 16 bits
    let (least, most) = ranges()[place];
    n[place] = match place {
        0 => random.within(0, 1),
        1 => random.within(least, most),
        _ => edge(random, (least, most)),
    };
}

/// A rule between numbers, kept with equality or broken by one: refusals 3 to 10 and 12.
pub fn rule(random: &mut Random, n: &mut Numbers) {
    let phases = n[PHASES - 1] as usize;
    let points = n[POINTS - 1] as usize;
    let phase = PHASES + 8 * random.below(phases);
    let point = POINTS + 2 * random.below(points);
    let over = random.below(2) as u32;
    match random.below(10) {
        0 => n[phase] = random.within(1, 8),
        1 => n[point + random.below(2)] = random.within(0, 400),
        2 => {
            n[phase + 7] = 0;
            n[phase + 5] = over;
            n[phase + 6] = random.below(2) as u32;
        }
        3 => {
            n[phase + 7] = 2;
            n[phase + 6] = n[phase + 3] + n[phase + 4] - over;
        }
        4 => n[L47] = (n[L18] + over).min(1000),
        5 => n[L31] = warning(n[L19]).saturating_sub(over),
        6 => {
            let last = farthest(n[POINTS + 2 * (points - 1)]);
            n[L47] = (last + over).saturating_sub(n[L19] + n[L20]);
            n[L18] = n[L18].max(n[L47]).min(1000);
        }
        // numbers for dwell that need not rise
        7 => {
            let count = random.within(1, 8);
            n[DWELL - 1] = count;
            n[DWELL..][..count as usize].fill_with(|| random.within(1, 8));
        }
        // those listed, and one that need not be
        8 => {
            let mut named = listed(n);
            let number = random.within(1, 8);
            if !named.contains(&number) {
                named.push(number);
                named.sort_unstable();
            }
            n[DWELL - 1] = named.len() as u32;
            n[DWELL..][..named.len()].copy_from_slice(&named);
        }
        _ => {
            let longest = longest_transfer(n);
            n[TRACK] = longest.clamp(30, 60);
            n[TRACK + 1] = (longest + over).saturating_sub(n[TRACK]).min(60);
        }
    }
}

/// Entries past the counts, which are no part of a sheet.
pub fn past_the_counts(random: &mut Random, n: &mut Numbers) {
    let ends = [
        (PHASES + 8 * n[PHASES - 1].min(8) as usize, TRACK),
        (DWELL + n[DWELL - 1].min(8) as usize, L18),
        (POINTS + 2 * n[POINTS - 1].min(16) as usize, n.len()),
    ];
    for (from, to) in ends {
        for x in &mut n[from..to] {
            *x = random.below(65536) as u32;
        }
    }
}

/// A number of a line, put otherwise: out of range, too long, with a leading zero, a sign, or not at all.
fn number(random: &mut Random, line: &mut Vec<u8>) {
    let words = String::from_utf8_lossy(line).trim_end().to_string();
    let Some((key, values)) = words.split_once('=') else { return };
    let mut values: Vec<String> = values.split(',').map(str::to_string).collect();
    let at = random.below(values.len());
    let Some(range) = KEYS.iter().find(|(k, _)| *k == key).and_then(|(_, ranges)| ranges.get(at).copied()) else {
        return;
    };
    let old = values[at].clone();
    values[at] = match random.below(12) {
        0..=3 if key.starts_with("grade") => random.of_these(&["-81", "-80", "-1", "0", "1", "80", "81"]).to_string(),
        0..=3 => edge(random, range).to_string(),
        4 => random.of_these(&["65535", "65536", "99999", "100000", "999999", "131072", "4294967296"]).to_string(),
        5 => random.of_these(&["1000000", "0000001", "1234567"]).to_string(),
        6 => format!("0{old}"),
        7 => format!("-{old}"),
        8 => "-0".to_string(),
        9 => format!("+{old}"),
        10 => random.of_these(&["", " ", "x", "car", "wb", "su ", "0x1"]).to_string(),
        _ => format!("{old},{old}"),
    };
    *line = format!("{key}={}\n", values.join(",")).into_bytes();
}

/// Numbers for dwell: not well made, too many, out of range, not rising; a fault of one kind before one of another.
#[rustfmt::skip]
const LISTS: [&str; 26] = [
    "", ",", "2,", ",2", "2,,4", "00", "02", "0,", "-2", "2 ", "2, 4", "1000000", "2,1000000", "4,2,1000000",
    "1,2,3,4,5,6,7,8,9", "1,2,3,4,5,6,7,8,", "8,7,6,5,4,3,2,1,0",
    "9", "0,2", "2,0", "0,0", "65538", "999999", "4,2,9",
    "4,2", "1,2,3,4,5,6,7,8",
];

/// The line for dwell with other numbers.
fn dwell(random: &mut Random, lines: &mut [Vec<u8>]) {
    let Some(line) = lines.iter_mut().find(|line| line.starts_with(b"dwell=")) else { return };
    let list = if random.one_in(4) {
        joined(&(0..1 + random.below(9)).map(|_| random.within(0, 9)).collect::<Vec<_>>())
    } else {
        random.of_these(&LISTS).to_string()
    };
    *line = format!("dwell={list}\n").into_bytes();
}

/// A text that is no longer as it was written.
pub fn text(random: &mut Random, mut lines: Vec<Vec<u8>>) -> Vec<u8> {
    let line = random.below(lines.len());
    match random.below(13) {
        0 | 1 | 2 => number(random, &mut lines[line]),
        3 => drop(lines.remove(line)),
        4 => lines.insert(line, lines[line].clone()),
        5 => {
            let other = random.below(lines.len());
            lines.swap(line, other);
        }
        6 => dwell(random, &mut lines),
        _ => return bytes(random, lines.concat()),
    }
    lines.concat()
}

fn bytes(random: &mut Random, mut text: Vec<u8>) -> Vec<u8> {
    let at = random.below(text.len());
    match random.below(7) {
        0 => text[at] = random.next() as u8,
        1 => text[at] = random.of_these(b"0123456789-=,\n\r psu"),
        2 => drop(text.remove(at)),
        3 => text.insert(at, text[at]),
        4 => text.truncate(at),
        5 => drop(text.pop()),
        _ => (0..1 + random.below(40)).for_each(|_| text.push(random.of_these(b"\n\r 0=l,\x00\xff"))),
    }
    text
}

/// Bytes that never were a sheet.
pub fn garbage(random: &mut Random) -> Vec<u8> {
    (0..random.below(1024)).map(|_| random.next() as u8).collect()
}
