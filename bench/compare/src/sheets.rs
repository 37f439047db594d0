//! Sheets over the whole of their ranges, as numbers, as values of the plain crate, and as texts.

use crate::product::{Numbers, NUMBERS};
use crate::random::Random;
use plain::{Phase, Point, Sheet, Vehicle};

pub const L01: usize = 4;
pub const L02: usize = 5;
pub const PHASES: usize = 7;
pub const TRACK: usize = 71;
pub const DWELL: usize = 74;
pub const L18: usize = 82;
pub const L19: usize = 83;
pub const L20: usize = 84;
pub const L31: usize = 87;
pub const L33: usize = 88;
pub const L39: usize = 90;
pub const L47: usize = 91;
pub const POINTS: usize = 96;

/// The lines of a text: key, and the range of each number. A grade's is 1,000,000 more; a vehicle is a word; the first of dwell is the count of
/// the others, which does not stand in a text.
pub const KEYS: [(&str, &[(u32, u32)]); 25] = [
    ("issue", &[(1, 65535)]),
    ("vehicle", &[(0, 3)]),
    ("grade", &[(999920, 1000080)]),
    ("grade2", &[(999920, 1000080)]),
    ("l01", &[(0, 999)]),
    ("l02", &[(1, 999)]),
    ("phases", &[(1, 8)]),
    ("phase", &[(1, 8), (0, 999), (0, 999), (30, 60), (0, 60), (0, 999), (0, 999), (0, 2)]),
    ("track", &[(30, 60), (0, 60)]),
    ("dwell", &[(0, 8), (1, 8), (1, 8), (1, 8), (1, 8), (1, 8), (1, 8), (1, 8), (1, 8)]),
    ("l18", &[(0, 1000)]),
    ("l19", &[(1, 400)]),
    ("l20", &[(1, 150)]),
    ("l28", &[(0, 999)]),
    ("l30", &[(200, 999)]),
    ("l31", &[(0, 999)]),
    ("l33", &[(0, 999)]),
    ("l37", &[(100, 999)]),
    ("l39", &[(0, 999)]),
    ("l47", &[(0, 1000)]),
    ("l56", &[(30, 999)]),
    ("l57", &[(1, 999)]),
    ("l58", &[(0, 100)]),
    ("points", &[(2, 16)]),
    ("point", &[(0, 400), (0, 9999)]),
];

/// The lines that a key may have, in the array of numbers.
pub fn most(key: &str) -> usize {
    match key {
        "phase" => 8,
        "point" => 16,
        _ => 1,
    }
}

/// The range of each of the numbers.
pub fn ranges() -> Vec<(u32, u32)> {
    KEYS.iter().flat_map(|(key, ranges)| ranges.repeat(most(key))).collect()
}

/// Times over the whole of their ranges; or short ones, so that a run of ticks comes through all stages soon, and line 16 can be below the
/// track's yellow and red.
#[derive(Clone, Copy, PartialEq)]
pub enum Times {
    Any,
    Short,
}

impl Times {
    /// The most that a time may be, where its range allows as much.
    fn at_most(self, short: u32, most: u32) -> u32 {
        match self {
            Times::Any => most,
            Times::Short => short,
        }
    }
}

fn phase(random: &mut Random, number: u32, times: Times) -> [u32; 8] {
    let longest = times.at_most(6, 999);
    let (yellow, red) = (random.within(30, 60), random.within(0, times.at_most(4, 60)));
    let mode = random.below(3) as u32;
    let walk = if mode == 0 { 0 } else { random.within(0, longest) };
    let clearance = match mode {
        0 => 0,
        1 => random.within(0, longest),
        _ => random.within(yellow + red, yellow + red + longest.min(999 - 120)),
    };
    [number, random.within(0, longest), random.within(0, longest), yellow, red, walk, clearance, mode]
}

/// Numbers that rise, from 1 to `last`, `last` among them.
fn rising(random: &mut Random, count: usize, last: u32) -> Vec<u32> {
    let mut all: Vec<u32> = (1..last).collect();
    while all.len() >= count {
        let gone = random.below(all.len());
        all.swap_remove(gone);
    }
    all.push(last);
    all.sort_unstable();
    all
}

/// The numbers of the phases listed.
pub fn listed(n: &Numbers) -> Vec<u32> {
    n[PHASES..TRACK].chunks(8).take(n[PHASES - 1] as usize).map(|p| p[0]).collect()
}

/// Some of the phases listed, none, or all.
fn dwell(random: &mut Random, n: &Numbers) -> Vec<u32> {
    match random.below(6) {
        0 => Vec::new(),
        1 => listed(n),
        _ => listed(n).into_iter().filter(|_| random.one_in(2)).collect(),
    }
}

/// A sheet that is accepted.
pub fn accepted(random: &mut Random, times: Times) -> Numbers {
    let mut n: Numbers = [0; NUMBERS];
    for (place, (least, most)) in ranges().into_iter().enumerate() {
        n[place] = random.within(least, most);
    }
    n[PHASES..TRACK].fill(0);
    n[DWELL - 1..L18].fill(0);
    n[POINTS..].fill(0);
    n[L01] = random.within(0, times.at_most(3, 999));
    n[L02] = random.within(1, times.at_most(4, 999));
    n[L33] = random.within(0, times.at_most(20, 999));
    n[L39] = random.within(0, times.at_most(20, 999));

    let count = random.within(1, 8) as usize;
    n[PHASES - 1] = count as u32;
    let last = random.within(count as u32, 8);
    for (i, number) in rising(random, count, last).into_iter().enumerate() {
        n[PHASES + 8 * i..][..8].copy_from_slice(&phase(random, number, times));
    }

    let named = dwell(random, &n);
    n[DWELL - 1] = named.len() as u32;
    n[DWELL..][..named.len()].copy_from_slice(&named);

    let count = random.within(2, 16) as usize;
    n[POINTS - 1] = count as u32;
    // a third of the curves reach 400 ft, and the far times go on to 1000
    let reach = if random.one_in(3) {
        times.at_most(40, 400)
    } else {
        random.within((count as u32 - 1).max(2), times.at_most(40, 400))
    };
    let mut tenths: Vec<u32> = (1..count).map(|_| random.within(0, times.at_most(30, 9999))).collect();
    tenths.sort_unstable();
    for (i, feet) in rising(random, count - 1, reach).into_iter().enumerate() {
        n[POINTS + 2 * (i + 1)] = feet;
        n[POINTS + 2 * (i + 1) + 1] = tenths[i];
    }

    let farthest = farthest(reach);
    n[L20] = random.within(1, (farthest - 1).min(150));
    n[L19] = random.within(1, (farthest - n[L20]).min(400));
    n[L47] = random.within(0, farthest - n[L20] - n[L19]);
    n[L18] = random.within(n[L47], times.at_most(40, 1000));
    n[L31] = random.within(warning(n[L19]), 999);
    let longest = longest_transfer(&n);
    n[TRACK] = random.within(30, longest.min(60));
    n[TRACK + 1] = random.within(0, (longest - n[TRACK]).min(60));
    n
}

/// What lines 19, 20 and 47 come to at most: no more than the last point, or 1000 where that is 400.
pub fn farthest(last: u32) -> u32 {
    if last < 400 {
        last
    } else {
        1000
    }
}

/// The least line 31 of a line 19.
pub fn warning(l19: u32) -> u32 {
    10 * l19.saturating_sub(35).div_ceil(10)
}

/// Line 16.
pub fn longest_transfer(n: &Numbers) -> u32 {
    let time = |p: &[u32]| match p[7] {
        0 => p[1] + p[2] + p[3] + p[4],
        1 => (p[1] + p[2]).max(p[5] + p[6]) + p[3] + p[4],
        _ => (p[1] + p[2] + p[3] + p[4]).max(p[5] + p[6]),
    };
    n[PHASES..TRACK].chunks(8).take(n[PHASES - 1] as usize).map(time).max().unwrap_or(0)
}

pub fn joined(values: &[u32]) -> String {
    values.iter().map(u32::to_string).collect::<Vec<_>>().join(",")
}

/// The lines of a sheet's text, each with its line feed.
pub fn text(n: &Numbers) -> Vec<Vec<u8>> {
    let mut lines = Vec::new();
    let mut at = 0;
    for (key, ranges) in KEYS {
        let count = match key {
            "phase" => n[PHASES - 1].min(8) as usize,
            "point" => n[POINTS - 1].min(16) as usize,
            _ => 1,
        };
        for i in 0..count {
            let values = &n[at + i * ranges.len()..][..ranges.len()];
            let word = match key {
                "vehicle" => ["car", "su", "bus", "wb50"][values[0] as usize].to_string(),
                "grade" | "grade2" => (i64::from(values[0]) - 1_000_000).to_string(),
                "dwell" if values[0] == 0 => "0".to_string(),
                "dwell" => joined(&values[1..][..values[0].min(8) as usize]),
                _ => joined(values),
            };
            lines.push(format!("{key}={word}\n").into_bytes());
        }
        at += most(key) * ranges.len();
    }
    lines
}

/// The plain crate's sheet of these numbers.
pub fn sheet(n: &Numbers) -> Sheet {
    let small = |place: usize| u16::try_from(n[place]).unwrap();
    let mut s = Sheet {
        issue: small(0),
        vehicle: [Vehicle::Car, Vehicle::Su, Vehicle::Bus, Vehicle::Wb50][n[1] as usize],
        grade: (n[2] as i32 - 1_000_000) as i16,
        grade2: (n[3] as i32 - 1_000_000) as i16,
        l01: small(L01),
        l02: small(L02),
        phase_count: n[PHASES - 1] as u8,
        track_yellow: small(TRACK),
        track_red: small(TRACK + 1),
        dwell_count: n[DWELL - 1] as u8,
        dwell: std::array::from_fn(|i| small(DWELL + i)),
        l18: small(L18),
        l19: small(L19),
        l20: small(L20),
        l28: small(85),
        l30: small(86),
        l31: small(L31),
        l33: small(L33),
        l37: small(89),
        l39: small(L39),
        l47: small(L47),
        l56: small(92),
        l57: small(93),
        l58: small(94),
        point_count: n[POINTS - 1] as u8,
        ..Sheet::default()
    };
    for (i, p) in s.phases.iter_mut().enumerate() {
        let at = |k: usize| small(PHASES + 8 * i + k);
        *p = Phase {
            number: at(0),
            green: at(1),
            other: at(2),
            yellow: at(3),
            red: at(4),
            walk: at(5),
            clearance: at(6),
            mode: at(7),
        };
    }
    for (i, p) in s.points.iter_mut().enumerate() {
        *p = Point { feet: small(POINTS + 2 * i), tenths: small(POINTS + 2 * i + 1) };
    }
    s
}

/// Its numbers.
pub fn numbers(s: &Sheet) -> Numbers {
    let mut all: Vec<u32> = vec![s.issue.into(), s.vehicle as u32];
    all.extend([s.grade, s.grade2].map(|grade| (i32::from(grade) + 1_000_000) as u32));
    all.extend([s.l01, s.l02, s.phase_count.into()].map(u32::from));
    for p in &s.phases {
        all.extend([p.number, p.green, p.other, p.yellow, p.red, p.walk, p.clearance, p.mode].map(u32::from));
    }
    all.extend([s.track_yellow, s.track_red, s.dwell_count.into()].map(u32::from));
    all.extend(s.dwell.map(u32::from));
    all.extend([s.l18, s.l19, s.l20, s.l28, s.l30, s.l31].map(u32::from));
    all.extend([s.l33, s.l37, s.l39, s.l47, s.l56, s.l57, s.l58, s.point_count.into()].map(u32::from));
    for p in &s.points {
        all.extend([p.feet, p.tenths].map(u32::from));
    }
    all.try_into().unwrap()
}
