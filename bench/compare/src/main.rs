//! The proved functions beside the plain ones, in one process. `bench/run` calls it:
//!
//!     compare texts COUNT SEED         both sides on so many texts; exit 1 where they differ
//!     compare ticks COUNT SEED         both sides on so many ticks; exit 1 where they differ
//!     compare cases                    the names of the cases and of the sides
//!     compare count CASE SIDE short|long   a run for callgrind; prints the operations that the long one has more
//!     compare time                     ns of each case
//!     compare stack                    bytes of stack of each case

mod cases;
mod counts;
mod damage;
mod measure;
mod product;
mod random;
mod sheets;
mod stages;
mod texts;
mod ticks;

use std::process::ExitCode;

fn count(name: &str, side: &str, length: &str) -> Option<()> {
    let all = cases::all();
    let (_, case) = all.iter().find(|(n, _)| *n == name)?;
    let (_, side) = cases::SIDES.iter().find(|(n, _)| *n == side)?;
    println!("{}", case.counted(*side, length == "long"));
    Some(())
}

/// The cases give the same numbers on each side before anything is measured.
fn same() -> bool {
    cases::all().iter().all(|(name, case)| {
        let sums = cases::SIDES.map(|(_, side)| case.run(side, 2));
        let same = sums == [sums[0]; 3];
        if !same {
            println!("# DIFFERS: case {name}: {sums:?}");
        }
        same
    })
}

fn run(words: &[&str]) -> Option<bool> {
    match words {
        ["texts", count, seed] => Some(texts::all(count.parse().ok()?, seed.parse().ok()?)),
        ["ticks", count, seed] => Some(ticks::all(count.parse().ok()?, seed.parse().ok()?)),
        ["cases"] => {
            cases::all().iter().for_each(|(name, _)| println!("{name}"));
            Some(same())
        }
        ["count", case, side, length] => count(case, side, length).map(|()| true),
        ["time"] => Some(measure::time()).map(|()| true),
        ["stack"] => Some(measure::stack()).map(|()| true),
        _ => None,
    }
}

fn main() -> ExitCode {
    let words: Vec<String> = std::env::args().skip(1).collect();
    match run(&words.iter().map(String::as_str).collect::<Vec<_>>()) {
        Some(true) => ExitCode::SUCCESS,
        Some(false) => ExitCode::from(1),
        None => {
            eprintln!(
                "compare texts COUNT SEED | ticks COUNT SEED | cases | count CASE SIDE short|long | time | stack"
            );
            ExitCode::from(2)
        }
    }
}
