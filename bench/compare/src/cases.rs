//! The cases that are measured, each on three sides: the proved functions, the plain ones that check what is handed over as values on each
//! call, as the paper asks, and the plain ones that keep what they worked out.

use crate::product::{self, LINES};
use crate::{sheets, stages};
use plain::{Refused, Running, Unit};
use std::hint::black_box;

#[derive(Clone, Copy, PartialEq)]
pub enum Side {
    Product,
    Checks,
    Keeps,
}

pub const SIDES: [(&str, Side); 3] = [("product", Side::Product), ("checks", Side::Checks), ("keeps", Side::Keeps)];

/// Ticks without a command, the call on or off in all of them: of a unit handed over, or of one that runs on. The unit comes from a fresh start,
/// and `before` ticks with the call `called`, after `ended` of which there is one with an end to the phase `end` where that is not 0.
#[derive(Clone, Copy)]
pub struct Ticks {
    running: bool,
    end: u32,
    ended: u32,
    called: bool,
    before: u32,
    call: bool,
    count: u32,
}

pub enum Case {
    /// A text read and its lines worked out.
    Sheet(Vec<u8>),
    /// A text read and written again.
    Write(Vec<u8>),
    Ticks(Box<Start>, Ticks),
}

impl Case {
    /// The operations of a round.
    pub fn per_round(&self) -> u32 {
        match self {
            Case::Ticks(_, ticks) => ticks.count,
            _ => 1,
        }
    }

    /// So many rounds of so many operations; a number that must be the same on each side. The memory that is lent is made beforehand.
    fn rounds(&self, side: Side, rounds: u32, operations: u32) -> u64 {
        let mut sum = 0u64;
        match self {
            Case::Sheet(text) => {
                let mut lines = [0; LINES];
                for _ in 0..rounds * operations {
                    sum = sum.wrapping_add(worked_out(side, black_box(text), &mut lines));
                }
            }
            Case::Write(text) => {
                let mut out = [0; 1024];
                for _ in 0..rounds * operations {
                    sum = sum.wrapping_add(written(side, black_box(text), &mut out));
                }
            }
            Case::Ticks(start, ticks) => {
                let mut units = start.clone();
                for _ in 0..rounds {
                    units.clone_from(start);
                    sum = sum.wrapping_add(units.run(side, ticks, operations));
                }
            }
        }
        sum
    }

    pub fn run(&self, side: Side, rounds: u32) -> u64 {
        self.rounds(side, rounds, self.per_round())
    }

    /// For callgrind: two runs that differ by some operations, and how many those are.
    pub fn counted(&self, side: Side, long: bool) -> u32 {
        let operations = if let Case::Ticks(_, ticks) = self { ticks.count } else { 100 };
        black_box(self.rounds(side, 1, if long { 1 + operations } else { 1 }));
        operations
    }

    /// One operation, with what it works on beforehand off the stack.
    pub fn once<'a>(&'a self, side: Side) -> Box<dyn FnMut() -> u64 + 'a> {
        match self {
            Case::Sheet(text) => {
                let mut lines = Box::new([0; LINES]);
                Box::new(move || worked_out(side, text, &mut lines))
            }
            Case::Write(text) => {
                let mut out = vec![0; 1024];
                Box::new(move || written(side, text, &mut out))
            }
            Case::Ticks(start, ticks) => {
                let mut units = start.clone();
                Box::new(move || units.run(side, ticks, 1))
            }
        }
    }
}

fn code<T>(answer: Result<T, Refused>, value: impl FnOnce(T) -> u64) -> u64 {
    match answer {
        Ok(t) => value(t),
        Err((number, line)) => u64::from(number) + u64::from(line),
    }
}

/// The lines go to memory that the caller lends, on each side.
fn worked_out(side: Side, text: &[u8], lines: &mut [u64; LINES]) -> u64 {
    let answer = match side {
        Side::Product => product::worksheet(text, lines),
        Side::Checks => checked_lines(text, lines),
        Side::Keeps => kept_lines(text, lines),
    };
    code(answer, |()| lines[60])
}

#[inline(never)]
fn checked_lines(text: &[u8], lines: &mut [u64; LINES]) -> Result<(), Refused> {
    *lines = plain::worksheet_of_values(&plain::read(text)?)?;
    Ok(())
}

#[inline(never)]
fn kept_lines(text: &[u8], lines: &mut [u64; LINES]) -> Result<(), Refused> {
    *lines = plain::worksheet(&plain::read(text)?);
    Ok(())
}

/// The plain writer has one form: it checks.
fn written(side: Side, text: &[u8], out: &mut [u8]) -> u64 {
    let answer = match side {
        Side::Product => product::write(text, out),
        _ => plainly_written(text, out),
    };
    code(answer, |length| length as u64)
}

#[inline(never)]
fn plainly_written(text: &[u8], out: &mut [u8]) -> Result<usize, Refused> {
    plain::write(&plain::read(text)?, out)
}

/// The units that the ticks begin with.
#[derive(Clone, Copy)]
pub struct Start {
    product: product::Unit,
    plain: Unit,
    running: Running,
}

impl Start {
    fn of(text: &[u8], ticks: &Ticks) -> Start {
        let sheet = plain::read(text).expect("a sheet of the repository");
        let mut start = Start {
            product: product::Unit::fresh(sheets::numbers(&sheet)),
            plain: Unit::start(sheet).0,
            running: Running::start(sheet).expect("a sheet that was read is accepted"),
        };
        let end = (ticks.end > 0).then_some(ticks.end);
        for i in 0..ticks.before {
            let end = end.filter(|_| i == ticks.ended);
            let _ = start.product.ticks(end, ticks.called, 0);
            plain::tick(&mut start.plain, end, ticks.called);
            start.running.tick(end, ticks.called);
        }
        start
    }

    /// So many ticks. The proved functions make them in one call, so that the unit stays a unit from tick to tick.
    fn run(&mut self, side: Side, ticks: &Ticks, count: u32) -> u64 {
        let call = black_box(ticks.call);
        match side {
            Side::Product => {
                let unit = &mut self.product;
                let more = count - 1;
                let answer = if ticks.running { unit.running(None, call, more) } else { unit.ticks(None, call, more) };
                code(answer, |()| unit.times.iter().sum())
            }
            Side::Checks => {
                let unit = &mut self.plain;
                let refused: u64 = (0..count).map(|_| u64::from(plain::tick(unit, None, call))).sum();
                refused + times(unit)
            }
            Side::Keeps => {
                let unit = &mut self.running;
                let refused: u64 = (0..count).map(|_| u64::from(unit.tick(None, call))).sum();
                refused + times(unit.unit())
            }
        }
    }
}

fn times(unit: &Unit) -> u64 {
    stages::numbers(unit).1.iter().sum()
}

/// A kilobyte that is no sheet, the same each time.
fn garbage() -> Vec<u8> {
    let mut x = 12345u32;
    let mut next = || {
        x = x.wrapping_mul(1664525).wrapping_add(1013904223);
        (x >> 24) as u8
    };
    (0..1024).map(|_| next()).collect()
}

/// The text of a sheet, all of whose phases may run in dwell.
fn with_dwell(text: &[u8]) -> Vec<u8> {
    let mut sheet = plain::read(text).expect("a sheet of the repository");
    sheet.dwell_count = sheet.phase_count;
    sheet.dwell = sheet.phases.map(|p| p.number);
    let mut out = vec![0; 1024];
    let length = plain::write(&sheet, &mut out).expect("its phases are listed");
    out.truncate(length);
    out
}

pub fn all() -> Vec<(&'static str, Case)> {
    let paper = include_bytes!("../../../sheets/paper.sheet").to_vec();
    let eight = include_bytes!("../../../sheets/eight_phases.sheet").to_vec();
    let long = include_bytes!("../../../sheets/long_storage.sheet").to_vec();
    let unended = paper[..paper.len() - 1].to_vec();
    let dwelling = with_dwell(&paper);
    let green = Ticks { running: false, end: 0, ended: 0, called: false, before: 0, call: false, count: 400 };
    let phase = Ticks { end: 4, before: 61, ..green };
    let clearance = Ticks { called: true, before: 2, call: true, ..green };
    // dwell begins with tick 552, and the phase in the tick after it
    let in_dwell = Ticks { end: 4, ended: 552, before: 553, ..clearance };
    let last_phase = Ticks { end: 8, before: 55, count: 200, ..green };
    let ticks = |text: &[u8], t: Ticks| Case::Ticks(Box::new(Start::of(text, &t)), t);
    let running = |text: &[u8], t| ticks(text, Ticks { running: true, ..t });
    vec![
        ("sheet-paper", Case::Sheet(paper.clone())),
        ("sheet-eight", Case::Sheet(eight.clone())),
        ("sheet-long", Case::Sheet(long.clone())),
        ("write-paper", Case::Write(paper.clone())),
        ("write-eight", Case::Write(eight.clone())),
        ("refused-garbage", Case::Sheet(garbage())),
        ("refused-last-line", Case::Sheet(unended)),
        ("tick-track-green-paper", ticks(&paper, green)),
        ("tick-phase-paper", ticks(&paper, phase)),
        ("tick-clearance-paper", ticks(&paper, clearance)),
        ("tick-phase-eight", ticks(&eight, last_phase)),
        ("tick-track-green-long", ticks(&long, green)),
        ("running-track-green-paper", running(&paper, green)),
        ("running-phase-paper", running(&paper, phase)),
        ("running-clearance-paper", running(&paper, clearance)),
        ("running-phase-eight", running(&eight, last_phase)),
        ("running-dwell-paper", running(&dwelling, in_dwell)),
    ]
}
