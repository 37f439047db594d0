//! Time and stack of the cases.

use crate::cases::{all, Case, Side, SIDES};
use std::hint::black_box;
use std::time::Instant;

fn median(mut numbers: Vec<f64>) -> f64 {
    numbers.sort_by(f64::total_cmp);
    numbers[numbers.len() / 2]
}

/// Rounds that take long enough to be timed.
fn rounds(case: &Case, side: Side) -> u32 {
    let mut rounds = 1;
    loop {
        let start = Instant::now();
        black_box(case.run(side, rounds));
        if start.elapsed().as_micros() > 300 {
            return rounds;
        }
        rounds *= 2;
    }
}

/// ns of an operation, and the ratios of neighbours in time, so that a change of the machine's speed falls out: medians of both.
pub fn time() {
    println!(
        "# {:26} {:>10} {:>10} {:>10} {:>8} {:>8}",
        "ns, medians", "product", "checks", "keeps", "/checks", "/keeps"
    );
    for (name, case) in all() {
        let rounds = SIDES.map(|(_, side)| rounds(&case, side));
        let mut ns = [const { Vec::new() }; 3];
        for _ in 0..201 {
            for (i, (_, side)) in SIDES.iter().enumerate() {
                let start = Instant::now();
                black_box(case.run(*side, rounds[i]));
                ns[i].push(start.elapsed().as_nanos() as f64 / f64::from(rounds[i]) / f64::from(case.per_round()));
            }
        }
        let ratio = |i: usize| median(ns[0].iter().zip(&ns[i]).map(|(product, plain)| product / plain).collect());
        let ratios = [ratio(1), ratio(2)];
        let [product, checks, keeps] = ns.map(median);
        println!("# {name:26} {product:10.1} {checks:10.1} {keeps:10.1} {:8.2} {:8.2}", ratios[0], ratios[1]);
    }
}

/// The stack that the call takes, in bytes: the stack below is painted, and looked at after it.
#[inline(never)]
fn stack_of(mut call: Box<dyn FnMut() -> u64 + '_>) -> usize {
    const NEAR: usize = 256;
    const DEPTH: usize = 100_000;
    const PAINT: u8 = 0xa5;
    let here = 0u8;
    let top = black_box(std::ptr::from_ref(&here)).cast_mut();
    // nothing lives there: it is below this frame, but for a few bytes near to it, and within the 8 MB that a main thread has
    unsafe {
        for i in NEAR..DEPTH {
            top.wrapping_sub(i).write_volatile(PAINT);
        }
        black_box(call());
        (NEAR..DEPTH).rev().find(|i| top.wrapping_sub(*i).read_volatile() != PAINT).unwrap_or(NEAR)
    }
}

/// Of one text, or of one tick: on the proved side with the turning of numbers into a unit and back.
pub fn stack() {
    println!("# {:26} {:>10} {:>10} {:>10}", "stack in bytes", "product", "checks", "keeps");
    for (name, case) in all() {
        let [product, checks, keeps] = SIDES.map(|(_, side)| stack_of(case.once(side)));
        let above = matches!(case, Case::Ticks(..)) && product >= 4096;
        let words = if above { "  a tick is to stay below 4096" } else { "" };
        println!("# {name:26} {product:10} {checks:10} {keeps:10}{words}");
    }
}
