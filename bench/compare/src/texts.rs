//! Both sides on texts, accepted and damaged: the same answer and line, the same 61 lines, the same bytes written, in ample room, in just
//! enough, and in one byte less.

use crate::counts::{shared_out, Counts};
use crate::damage;
use crate::product::{self, LINES};
use crate::random::Random;
use crate::sheets::{self, Times};
use plain::Refused;

/// What stands in lent memory before a call: a refusal must leave it.
const BEFORE: u8 = 0xa5;

fn drawn(random: &mut Random) -> (&'static str, Vec<u8>) {
    let times = if random.one_in(4) { Times::Short } else { Times::Any };
    let mut n = sheets::accepted(random, times);
    match random.below(16) {
        0..=4 => ("whole", sheets::text(&n).concat()),
        5 | 6 => {
            damage::value(random, &mut n);
            ("with a value at an edge", sheets::text(&n).concat())
        }
        7..=9 => {
            damage::rule(random, &mut n);
            ("with a rule at its edge", sheets::text(&n).concat())
        }
        10..=14 => ("with a line or byte damaged", damage::text(random, sheets::text(&n))),
        _ if random.one_in(4) => ("of no sheet", damage::garbage(random)),
        _ => {
            let once = damage::text(random, sheets::text(&n));
            let lines = once.split_inclusive(|b| *b == b'\n').map(<[u8]>::to_vec).collect::<Vec<_>>();
            ("damaged twice", if lines.is_empty() { once } else { damage::text(random, lines) })
        }
    }
}

fn written(text: &[u8], room: usize) -> (Result<usize, Refused>, Vec<u8>) {
    let mut out = vec![BEFORE; room];
    let answer = product::write(text, &mut out);
    (answer, out)
}

fn written_plainly(text: &[u8], room: usize) -> (Result<usize, Refused>, Vec<u8>) {
    let mut out = vec![BEFORE; room];
    let answer = plain::read(text).and_then(|sheet| plain::write(&sheet, &mut out));
    (answer, out)
}

/// One text on both sides.
pub fn compare(text: &[u8]) -> Result<product::Answer, String> {
    let told = |what: &str| format!("{what}, text {:?}", String::from_utf8_lossy(text));
    let mut lines = [u64::MAX; LINES];
    let answer = product::worksheet(text, &mut lines);
    let read = plain::read(text);
    if answer != read.map(|_| ()) {
        return Err(told(&format!("answer {answer:?}, plainly {:?}", read.map(|_| ()))));
    }
    let expected = read.map_or([u64::MAX; LINES], |sheet| plain::worksheet(&sheet));
    if let Some(i) = (0..LINES).find(|i| lines[*i] != expected[*i]) {
        return Err(told(&format!("line {} is {}, plainly {}", i + 1, lines[i], expected[i])));
    }
    let rooms = match written(text, 1024) {
        (Ok(length), out) if out[..length] != *text => return Err(told("not the text that was read")),
        (Ok(length), _) => vec![1024, length, length - 1],
        (Err(_), _) => vec![1024, 0],
    };
    for room in rooms {
        if written(text, room) != written_plainly(text, room) {
            return Err(told(&format!("written in room {room}: {:?}", written(text, room).0)));
        }
    }
    if let Ok(sheet) = read {
        if plain::worksheet_of_values(&sheet) != Ok(expected) {
            return Err(told("the plain side does not agree with itself"));
        }
    }
    Ok(answer)
}

/// So many texts drawn from the seed; whether all are the same on both sides.
pub fn all(count: u64, seed: u64) -> bool {
    let (counts, same) = shared_out(count, |i, counts: &mut Counts| {
        let random = &mut Random::of(seed, i);
        let (kind, text) = drawn(random);
        let answer = compare(&text)?;
        counts.add(&format!("drawn: {kind}"));
        counts.answer("text:", answer);
        if answer.is_ok() {
            counts.answer("written in one byte less:", written(&text, text.len() - 1).0.map(|_| ()));
        }
        Ok(())
    });
    println!(
        "# {count} texts from seed {seed}: answer, line, 61 lines and bytes written {}",
        if same { "are the same" } else { "DIFFER" }
    );
    counts.print();
    same
}
