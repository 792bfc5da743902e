//! What was tried, by kind; and the watch over it, which says how far a run is and stops one in which a call does not end.
use std::sync::atomic::{AtomicBool, AtomicU64, Ordering::Relaxed};
use std::time::{Duration, Instant};
use std::{process, thread};

/// Things that are counted, each with the words in which it is told, in that order.
macro_rules! kinds {
    ($($kind:ident $told:literal,)*) => {
        #[derive(Clone, Copy)]
        #[repr(usize)]
        pub enum Kind {
            $($kind,)*
        }

        const KINDS: &[&str] = &[$($told,)*];
    };
}

kinds! {
    EveryFresh "histories from fresh tables, all there are of their length",
    EveryRebuilt "histories from rebuilt tables, all there are of their length",
    RandomFresh "random histories from fresh tables",
    RandomRebuilt "random histories from rebuilt tables",
    Plain "calls beside the original as it stands",
    Mended "calls beside its mended copy",
    Partings "partings",
    Full "inserts refused at a full table",
    Dead "removals of dead keys",
    RefusedRebuilds "rebuilds refused by both",
    Keys "keys printed and put into a word",
    RandomWords "damaged tables of random words",
    OneWord "damaged tables one word away from a sound one",
    DamagedCalls "calls on damaged tables",
    DamagedRefused "calls on damaged tables that were refused",
    Checked "tables given to the soundness check and to its definition",
    Sound "sound ones among them",
    Listed "answers of the fixed list",
    ByHand "answers written by hand that the original gives too",
}

#[derive(Default)]
pub struct Tally {
    counts: [AtomicU64; KINDS.len()],
    over: AtomicBool,
}

impl Tally {
    pub fn add(&self, kind: Kind, more: u64) {
        self.counts[kind as usize].fetch_add(more, Relaxed);
    }

    /// Steps made; the first two kinds are reckoned, not made.
    fn sum(&self) -> u64 {
        self.counts[2..].iter().map(|count| count.load(Relaxed)).sum()
    }

    /// Watches a part of the run while it goes on. A minute without a single step is a call that does not end.
    pub fn watched<T: Send>(&self, part: &str, run: impl FnOnce() -> T + Send) -> T {
        self.over.store(false, Relaxed);
        let (first, begun) = (self.sum(), Instant::now());
        thread::scope(|scope| {
            scope.spawn(|| self.watch(part, first, begun));
            let result = scope.spawn(run).join();
            self.over.store(true, Relaxed);
            result.unwrap_or_else(|_| process::exit(1))
        })
    }

    fn watch(&self, part: &str, first: u64, begun: Instant) {
        let (mut last, mut moved, mut told) = (first, begun, begun);
        while !self.over.load(Relaxed) {
            thread::sleep(Duration::from_millis(20));
            let sum = self.sum();
            if sum != last {
                (last, moved) = (sum, Instant::now());
            }
            if moved.elapsed() > Duration::from_secs(60) {
                println!("{part}: a call does not end");
                process::exit(1);
            }
            if told.elapsed() > Duration::from_secs(10) {
                told = Instant::now();
                println!("{part}: {} steps after {} s", last - first, begun.elapsed().as_secs());
            }
        }
        println!("{part}: {} steps in {:.1} s", self.sum() - first, begun.elapsed().as_secs_f64());
    }

    /// What was tried, a line for each kind.
    pub fn tell(&self) {
        for (kind, count) in KINDS.iter().zip(&self.counts) {
            println!("{:>13}  {kind}", count.load(Relaxed));
        }
    }
}
