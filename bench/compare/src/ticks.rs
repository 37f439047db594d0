//! Both sides on runs of ticks and loads, from a fresh start and from units handed over in any state: the same answer, stage, times and count
//! after each. The proved unit is the one handed over and the one that runs on; so is the plain one.

use crate::counts::{shared_out, Counts};
use crate::product::{self, Answer, Numbers};
use crate::random::Random;
use crate::sheets::{self, Times};
use crate::{damage, stages};
use plain::unit::load;
use plain::{Running, Unit};

/// Ticks of a run.
const LENGTH: u64 = 2000;

/// The units of a run. There is no plain one that runs on where the sheet was refused, or where the unit was handed over in any state; such a
/// unit is then as it was handed over until a tick or a load is taken (`stages`).
struct Run {
    product: product::Unit,
    plain: Unit,
    running: Option<Running>,
    as_handed_over: bool,
}

impl Run {
    /// On the zero sheet where the sheet is refused, as the paper has it.
    fn start(sheet: &Numbers) -> (Run, Answer) {
        let (plain, answer) = Unit::start(sheets::sheet(sheet));
        let product = product::Unit::fresh(sheets::numbers(&plain.sheet));
        let running = Running::start(sheets::sheet(sheet)).ok();
        (Run { product, plain, running, as_handed_over: false }, answer)
    }

    /// The replies and the units on both sides.
    fn same(&self, answer: Answer, expected: Answer) -> Result<(), String> {
        let shown =
            if self.as_handed_over { stages::as_handed_over(&self.plain) } else { stages::numbers(&self.plain) };
        if answer != expected || shown != (self.product.stage, self.product.times) {
            return Err(format!("{answer:?} {:?}, plainly {expected:?} {:?}", self.product, self.plain));
        }
        match &self.running {
            Some(running) if *running.unit() != self.plain => Err("the plain side does not agree with itself".into()),
            _ => Ok(()),
        }
    }

    fn tick(&mut self, end: Option<u32>, call: bool, more: u32) -> Result<Answer, String> {
        let before = self.product;
        let mut running = self.product;
        let answer = self.product.ticks(end, call, more);
        let answer_running = running.running(end, call, more);
        if (answer_running, running) != (answer, self.product) {
            return Err(format!("running {answer_running:?} {running:?}, handed over {answer:?} {:?}", self.product));
        }
        let number = plain::tick(&mut self.plain, end, call);
        for _ in 0..more {
            plain::tick(&mut self.plain, None, call);
        }
        if let Some(running) = &mut self.running {
            let kept = running.tick(end, call);
            for _ in 0..more {
                running.tick(None, call);
            }
            if kept != number {
                return Err(format!("the plain unit that runs on answers {kept}, not {number}"));
            }
        }
        let expected = if number == 0 { Ok(()) } else { Err((number, 0)) };
        self.as_handed_over &= number == 20;
        self.same(answer, expected).map_err(|e| format!("{e} after {end:?} {call} {more} more, before {before:?}"))?;
        Ok(answer)
    }

    fn load(&mut self, sheet: &Numbers) -> Result<Answer, String> {
        let offered = sheets::sheet(sheet);
        let mut kept = self.product;
        let answer = self.product.load(sheet, false);
        if kept.load(sheet, true) != answer || kept != self.product {
            return Err("a load by the unit that runs on".into());
        }
        let expected = load(&mut self.plain, offered);
        if let Some(running) = &mut self.running {
            if running.load(offered) != expected {
                return Err("a load by the plain unit that runs on".into());
            }
        }
        self.as_handed_over &= expected.is_err();
        self.same(answer, expected).map(|()| answer)
    }
}

/// A sheet to start with or to load, refused now and then.
fn offered(random: &mut Random, held: u32) -> Numbers {
    let times = if random.one_in(3) { Times::Any } else { Times::Short };
    let mut n = sheets::accepted(random, times);
    // the issues of a run rise slowly, so that there is always a newer one
    n[0] = (held + random.within(0, 3)).clamp(1, 65535);
    if random.one_in(4) {
        n[0] = random.within(1, held.max(1));
    }
    match random.below(8) {
        0 => damage::value(random, &mut n),
        1 => damage::rule(random, &mut n),
        2 => damage::past_the_counts(random, &mut n),
        _ => {}
    }
    n
}

fn command(random: &mut Random, unit: &Unit) -> Option<u32> {
    if !random.one_in(12) {
        return None;
    }
    let listed: Vec<u32> = unit.sheet.listed().iter().map(|p| p.number.into()).collect();
    let named = unit.sheet.named();
    Some(match random.below(8) {
        0 => random.below(10) as u32,
        1 => random.of_these(&[9, 255, 65536, 65538, u32::MAX - 2]),
        2 => 0,
        3 | 4 if !named.is_empty() => random.of_these(named).into(),
        _ if listed.is_empty() => 1,
        _ => random.of_these(&listed),
    })
}

/// How long the call then stays as it is: about line 3, or long enough for what follows.
fn stretch(random: &mut Random, on: bool, unit: &Unit) -> u64 {
    let l03 = u64::from(unit.sheet.l01) + u64::from(unit.sheet.l02);
    match random.below(4) {
        0 => 1 + random.below(3) as u64,
        1 if on => (l03 + random.below(3) as u64).saturating_sub(1).max(1),
        2 => 1 + random.below(900) as u64,
        _ => 1 + random.below(120) as u64,
    }
}

/// A unit in any state, handed over for a tick and for a load.
fn handed_over(random: &mut Random, sheet: &Numbers, counts: &mut Counts) -> Result<(), String> {
    let plain = stages::any(random, sheets::sheet(sheet));
    let (stage, times) = stages::as_handed_over(&plain);
    let unit = product::Unit { sheet: *sheet, stage, times };
    let (end, call) = (command(random, &plain), random.one_in(2));
    let fresh = || Run { product: unit, plain, running: None, as_handed_over: true };
    counts.answer("tick, any state:", fresh().tick(end, call, 0)?);
    counts.answer("load, any state:", fresh().load(&offered(random, sheet[0]))?);
    Ok(())
}

/// So many ticks from a fresh start, with a load now and then, and a unit handed over in any state beside them.
fn from_start(random: &mut Random, most: u64, counts: &mut Counts) -> Result<u64, String> {
    let first = offered(random, 0);
    let (mut run, answer) = Run::start(&first);
    counts.answer("begun with a sheet:", answer);
    // after a refused start every tick is refused 20
    let all = if answer.is_ok() { most } else { most.min(20) };
    let (mut on, mut left) = (false, 20);
    let mut ticks = 0;
    while ticks < all {
        if left == 0 {
            on = !on;
            left = stretch(random, on, &run.plain);
        }
        let end = command(random, &run.plain);
        // now and then some ticks more by the same call: they are not counted, since nothing is compared between them
        let more = if random.one_in(64) { random.below(left.min(50) as usize) as u32 } else { 0 };
        counts.answer("tick:", run.tick(end, on, more)?);
        counts.add(stages::name(&run.plain));
        ticks += 1;
        left -= 1 + u64::from(more);
        let rests = run.plain.stage == plain::Stage::TrackGreen && run.plain.count == 0;
        if random.one_in(if rests { 40 } else { 200 }) {
            let sheet = offered(random, run.product.sheet[0]);
            counts.answer("load:", run.load(&sheet)?);
        }
        if random.one_in(10) {
            let sheet = run.product.sheet;
            handed_over(random, &sheet, counts)?;
        }
    }
    Ok(all)
}

fn run(number: u64, seed: u64, counts: &mut Counts) -> Result<(), String> {
    let random = &mut Random::of(seed, number);
    let mut left = LENGTH;
    while left > 0 {
        left -= from_start(random, left, counts)?;
    }
    Ok(())
}

/// So many ticks drawn from the seed, in runs; whether both sides are the same after each.
pub fn all(count: u64, seed: u64) -> bool {
    let runs = count.div_ceil(LENGTH);
    let (counts, same) = shared_out(runs, |i, counts: &mut Counts| run(i, seed, counts));
    println!(
        "# {} ticks in {runs} runs from seed {seed}: answer, stage, times and count after each {}",
        runs * LENGTH,
        if same { "are the same" } else { "DIFFER" }
    );
    counts.print();
    same
}
