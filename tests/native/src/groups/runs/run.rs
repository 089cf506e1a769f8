//! Promise 3 by trial: random lists of calls and crashes from a formatted volume, each prefix checked against the ledger, and at
//! each call every crash that it may meet.

use crate::crash::{left, Stage};
use crate::harness::said;
use crate::interface::{Calls, Family, NONE};
use crate::ledger::Ledger;
use crate::random::Random;
use crate::sweeping::assert_left;
use crate::volume::{Call, Sizes, Volume};
use std::panic::{catch_unwind, AssertUnwindSafe};

/// What a run met, summed over runs.
#[derive(Default, Debug, Clone, Copy)]
pub struct Tally {
    pub accepted: u64,
    pub refused: u64,
    pub crashes: u64,
    pub completed: u64,
    /// Cleanings done, the copies that they made, and picks of a block to clean.
    pub cleaned: u64,
    pub copies: u64,
    pub picked: u64,
    /// Writes and erasures whose slots were in doubt.
    pub doubted: u64,
    /// Sweeps done, and those that erased exposed records, obsolete ones and spare twins.
    pub swept: u64,
    pub erasing: [u64; 3],
    /// Writes refused by 16.
    pub buried: u64,
    /// Recoveries compared with the ledger, page by page.
    pub checks: u64,
}

impl Tally {
    pub fn add(&mut self, other: Tally) {
        self.accepted += other.accepted;
        self.refused += other.refused;
        self.crashes += other.crashes;
        self.completed += other.completed;
        self.cleaned += other.cleaned;
        self.copies += other.copies;
        self.picked += other.picked;
        self.doubted += other.doubted;
        self.swept += other.swept;
        self.erasing.iter_mut().zip(other.erasing).for_each(|(all, more)| *all += more);
        self.buried += other.buried;
        self.checks += other.checks;
    }
}

/// Whether a run cleans, and with which tables of blocks. One of five-word records sweeps in any case.
#[derive(Clone, Copy)]
pub enum Cleaning {
    Never,
    /// With another table at each call, now and then a broken one.
    AnyBlocks,
    /// The same, often, and swept as often.
    Often,
    /// With blocks of so many slots.
    BlocksOf(u32),
}

/// A run, and what has become of its volume and its ledger.
pub struct Run<'a> {
    calls: &'a dyn Calls,
    pub cleaning: Cleaning,
    pub random: Random,
    pub volume: Volume,
    ledger: Ledger,
    /// Between a crash and the first recovery that answers 0.
    lost: bool,
    /// A call in so many meets a crash.
    calm: u32,
    /// How often the run chooses launch, write, withdraw, erase, clean, sweep and recover.
    pub weights: [u32; 7],
    tally: Tally,
}

/// Runs a list of `events` calls and crashes, and checks one prefix in `every`.
pub fn run(calls: &dyn Calls, sizes: Sizes, cleaning: Cleaning, events: u32, every: u32, seed: u64) -> Tally {
    let volume = Volume::formatted(calls, sizes);
    let mut random = Random::new(seed);
    let calm = random.pick(&[6, 25, 100]);
    let (cleanings, sweeps) = match cleaning {
        Cleaning::Never => (0, u32::from(sizes.family == Family::Bpcc)),
        Cleaning::Often => (8, 8),
        Cleaning::AnyBlocks | Cleaning::BlocksOf(_) => (2, 1),
    };
    let weights = [8, 24, 6, 2, cleanings, sweeps, 1].map(|w| w * random.pick(&[1, 2, 4]));
    let ledger = Ledger::new(sizes);
    let mut run = Run { calls, cleaning, random, volume, ledger, lost: false, calm, weights, tally: Tally::default() };
    for i in 0..events {
        let check = i % every == 0 || i + 1 == events;
        let event = AssertUnwindSafe(|| {
            run.event(check);
            if check {
                let (volume, ledger) = (run.volume.clone(), run.ledger.clone());
                run.check(volume, &ledger, "after the list");
            }
        });
        if let Err(panic) = catch_unwind(event) {
            panic!("P = {}, S = {}, seed {seed}, event {i}: {}", sizes.pages, sizes.slots, said(&*panic));
        }
    }
    run.tally
}

impl Run<'_> {
    /// One event: a call, a crash in it, or a crash between two calls. After a crash only recovery is called.
    fn event(&mut self, check: bool) {
        if self.random.one_in(4 * self.calm) {
            self.ledger.crashed(None);
            self.lose_state();
            return;
        }
        let call = if self.lost { Call::Recover } else { self.choose() };
        if check {
            self.crash_everywhere(&call);
        }
        if self.random.one_in(self.calm) {
            let (flash, stored) = self.crash_outcome(&call);
            self.ledger.crashed(Some((&call, stored)));
            self.volume = flash;
            self.lose_state();
        } else {
            self.make(&call, check);
        }
    }

    /// The block to clean that a pick names, of some from a block on. It alters nothing, and what is shown of picks holds.
    pub fn pick(&mut self, starts: &[u32], from: u32) -> u32 {
        let n = 1 + self.random.below(starts.len() as u32 + 1);
        let [block, ..] = self.volume.picked(self.calls, starts, from, n);
        self.tally.picked += 1;
        block
    }

    /// Makes a call: one that is refused leaves the volume, one that would bury a record is done once that is erased.
    fn make(&mut self, call: &Call, check: bool) {
        let before = self.volume.clone();
        let reply = self.volume.call(self.calls, call);
        self.ledger.called(call, reply.answer);
        if reply.answer == 0 {
            self.tally.accepted += 1;
            self.tally.completed += u64::from(matches!(call, Call::Write { .. }) && reply.second == 1);
            match call {
                Call::Clean { .. } => {
                    self.tally.cleaned += 1;
                    self.tally.copies += self.calls.stages(call, &before, &self.volume).len() as u64 - 1;
                }
                Call::Sweep => self.check_sweep(&before),
                _ => {}
            }
            self.lost &= !matches!(call, Call::Recover);
            if check && self.volume.sizes.family == Family::Bpcc {
                self.check_doubts(&before, call);
            }
        } else {
            self.tally.refused += 1;
            assert!(!matches!(call, Call::Sweep), "a sweep answered {}", reply.answer);
            assert!(self.volume == before, "a refused call altered the volume: {call:?}");
            assert_eq!(reply.second, 0, "a refused call's second number: {call:?}");
            if reply.answer == 16 {
                self.tally.buried += 1;
                self.volume.clone().assert_cured(self.calls, call);
            }
        }
        assert!(!self.lost || !matches!(call, Call::Recover), "recover answered {}", reply.answer);
    }

    /// A call that was done, with the slots in doubt that it altered: all fillings recover. Of a write each page has the version before it
    /// and the one behind it as its ends, so that the last record of a set decides between the old versions and the new ones; what may be
    /// erased makes no difference to any page.
    fn check_doubts(&mut self, before: &Volume, call: &Call) {
        let (volume, list) = match call {
            Call::Write { slot, .. } => (&self.volume, vec![*slot]),
            Call::Erase(list) if list.len() <= 4 => (before, list.clone()),
            _ => return,
        };
        let ends = before.committed().into_iter().zip(self.volume.committed()).map(|(old, new)| [old, new]).collect();
        assert_eq!(volume.doubted(self.calls, &list), (1 << list.len(), ends), "slots {list:?} in doubt behind {call:?}");
        self.tally.doubted += 1;
    }

    /// A sweep that was done left the state, as many records as it may, and to recovery the same contents of all pages.
    fn check_sweep(&mut self, before: &Volume) {
        let after = self.volume.clone();
        assert_eq!(after.state, before.state, "the state behind a sweep");
        assert_left(&after);
        let erased = self.calls.stages(&Call::Sweep, before, &after);
        self.tally.swept += 1;
        self.tally.erasing.iter_mut().zip(erased).for_each(|(met, erased)| *met += u64::from(!erased.is_empty()));
        assert!(self.contents(before.clone(), "before a sweep") == self.contents(after, "behind a sweep"), "other contents behind a sweep");
    }

    /// Whatever words the crash leaves in the volatile state.
    fn lose_state(&mut self) {
        self.tally.crashes += 1;
        self.lost = true;
        let mut state = std::mem::take(&mut self.volume.state);
        self.scramble(&mut state);
        self.volume.state = state;
    }

    fn scramble(&mut self, state: &mut [u32]) {
        match self.random.below(4) {
            0 => state.fill(NONE),
            1 => state.fill(0),
            2 => state.iter_mut().for_each(|w| *w = self.random.number() as u32),
            _ => state.iter_mut().for_each(|w| *w = if self.random.one_in(2) { *w } else { self.random.below(4) }),
        }
    }

    /// What the call would make of the volume, and the stages in which it would; none where it is refused.
    fn outcome(&self, call: &Call) -> (Volume, Vec<Stage>) {
        let mut after = self.volume.clone();
        let accepted = after.call(self.calls, call).answer == 0;
        let stages = if accepted { self.calls.stages(call, &self.volume, &after) } else { Vec::new() };
        (after, stages)
    }

    /// The flash that a crash in the call leaves, chosen among all that it may leave, and whether a write's slot was stored.
    fn crash_outcome(&mut self, call: &Call) -> (Volume, bool) {
        let (after, stages) = self.outcome(call);
        let (flash, done) = left(&mut self.random, &self.volume, &after, &stages);
        (flash, matches!(call, Call::Write { .. }) && !done.is_empty())
    }

    /// Every crash in the call: each outcome recovers to what the ledger then keeps.
    fn crash_everywhere(&mut self, call: &Call) {
        let (after, stages) = self.outcome(call);
        let mut done = self.volume.clone();
        self.check_crash(call, done.clone(), false);
        for stage in stages {
            for part in self.parts(&stage).into_iter().filter(|part| !part.is_empty()) {
                let mut flash = done.clone();
                part.iter().for_each(|&k| flash.copy_slot(&after, k));
                self.check_crash(call, flash, matches!(call, Call::Write { .. }));
            }
            stage.iter().for_each(|&k| done.copy_slot(&after, k));
        }
    }

    /// A crash in the call that leaves this flash, a write's slot stored or not.
    fn check_crash(&mut self, call: &Call, flash: Volume, stored: bool) {
        let mut ledger = self.ledger.clone();
        ledger.crashed(Some((call, stored)));
        self.check(flash, &ledger, "after a crash in a call");
    }

    /// All parts of a short list, and of a long one the whole, the empty and some others.
    fn parts(&mut self, list: &[u32]) -> Vec<Vec<u32>> {
        let some = |mask: u64| list.iter().enumerate().filter(|(i, _)| mask >> (i % 64) & 1 == 1).map(|(_, &k)| k).collect();
        if list.len() <= 5 {
            (0..1u64 << list.len()).map(some).collect()
        } else {
            let mut masks = vec![0, u64::MAX];
            masks.extend((0..14).map(|_| self.random.number()));
            masks.into_iter().map(some).collect()
        }
    }

    /// Recover answers 0, and read of each page gives the ledger's contents.
    fn check(&mut self, volume: Volume, ledger: &Ledger, when: &str) {
        self.tally.checks += 1;
        let contents = self.contents(volume, when);
        for (page, bytes) in (0..).zip(contents.chunks(self.volume.sizes.width as usize)) {
            assert_eq!(bytes, ledger.kept(page), "contents of page {page} {when}");
        }
    }

    /// What recovery finds of all pages, whatever the state was.
    fn contents(&mut self, mut volume: Volume, when: &str) -> Vec<u8> {
        self.scramble(&mut volume.state);
        volume.recovered(self.calls, when)
    }
}
