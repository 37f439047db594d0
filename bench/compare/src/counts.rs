//! How often each reply came, so that a reader sees that the sample reached it.

use crate::product::Answer;
use std::collections::BTreeMap;

#[derive(Default)]
pub struct Counts(BTreeMap<String, u64>);

impl Counts {
    pub fn add(&mut self, what: &str) {
        match self.0.get_mut(what) {
            Some(n) => *n += 1,
            None => drop(self.0.insert(what.to_string(), 1)),
        }
    }

    pub fn answer(&mut self, event: &str, answer: Answer) {
        match answer {
            Ok(()) => self.add(&format!("{event} taken")),
            Err((number, _)) => self.add(&format!("{event} refused {number:2}")),
        }
    }

    pub fn join(&mut self, other: Counts) {
        for (what, n) in other.0 {
            *self.0.entry(what).or_default() += n;
        }
    }

    pub fn print(&self) {
        for (what, n) in &self.0 {
            println!("#   {what:36} {n:>10}");
        }
    }
}

/// Works through the numbers below `all` on every processor. What a number does hangs on it alone, so that the result is the same on any machine.
/// The first difference that each worker finds is printed, and there are none where this returns true.
pub fn shared_out(all: u64, one: impl Fn(u64, &mut Counts) -> Result<(), String> + Sync) -> (Counts, bool) {
    let workers = std::thread::available_parallelism().map_or(1, |n| n.get()) as u64;
    let one = &one;
    let run = move |worker: u64| {
        let mut counts = Counts::default();
        let wrong = (worker..all).step_by(workers as usize).find_map(|i| one(i, &mut counts).err().map(|e| (i, e)));
        (counts, wrong)
    };
    std::thread::scope(|scope| {
        let threads: Vec<_> = (0..workers).map(|worker| scope.spawn(move || run(worker))).collect();
        let mut counts = Counts::default();
        let mut same = true;
        for thread in threads {
            let (more, wrong) = thread.join().unwrap();
            counts.join(more);
            if let Some((i, words)) = wrong {
                println!("# DIFFERS at number {i}: {words}");
                same = false;
            }
        }
        (counts, same)
    })
}
