//! The models' actions, each done by a call, with the calls' permissions compared with the listing's operators.

use super::model::{Model, Rule};
use super::walk::arrangements;
use crate::cleaning::{block, blocks_of};
use crate::interface::{Family, Reply, NONE};
use crate::rules::{cycle, entry};
use crate::sweeping::assert_left;
use crate::volume::{Call, Volume};

/// All nonempty subsets of a list, each after its own.
pub fn subsets(list: &[u32]) -> Vec<Vec<u32>> {
    (1u32..1 << list.len()).map(|mask| list.iter().enumerate().filter(|(i, _)| mask >> i & 1 == 1).map(|(_, &x)| x).collect()).collect()
}

impl Model<'_> {
    /// The states one action away.
    pub fn successors(&self, s: &Volume) -> Vec<Volume> {
        let mut next = Vec::new();
        self.launches(s, &mut next);
        self.writes(s, &mut next);
        self.aborts(s, &mut next);
        self.crash(s, &mut next);
        self.erasures(s, &mut next);
        next
    }

    /// `NextLaunchTransaction`: any nonempty set of available pages, in any cycle.
    fn launches(&self, s: &Volume, next: &mut Vec<Volume>) {
        let available: Vec<u32> = (0..self.pages).filter(|&p| !entry(&s.state, p).in_flight()).collect();
        for set in subsets(&available) {
            for list in arrangements(&set) {
                // A cycle is the same whichever page it starts from.
                if list[0] != *set.iter().min().unwrap() {
                    continue;
                }
                let mut t = s.clone();
                let reply = t.call(self.calls, &Call::Launch(list));
                assert_eq!(reply.answer, 0, "launch of available pages");
                next.push(t);
            }
        }
    }

    /// `NextInterStepTransaction` and `NextFinalStepTransaction`: any planned record that is writable; the call refuses the others.
    fn writes(&self, s: &Volume, next: &mut Vec<Volume>) {
        let blank = s.blank_slots()[0];
        for record in self.planned(s) {
            let ring = cycle(&s.state, record.p);
            let last = ring.iter().all(|&p| p == record.p || entry(&s.state, p).written == 1);
            let write = Call::Write { page: record.p, slot: blank, bytes: vec![7; s.sizes.width as usize] };
            let mut t = s.clone();
            let reply = t.call(self.calls, &write);
            if !self.writable(s, record) {
                assert_eq!(reply, Reply::refused(16), "write of a record that is not writable");
                assert!(t == *s, "a refused write alters nothing");
                if self.rule == Rule::Right {
                    t.assert_cured(self.calls, &write);
                }
                continue;
            }
            assert_eq!(reply, Reply::done(u32::from(last)), "write of a planned record");
            assert_eq!(t.slot(blank), Some(record), "the planned record is stored");
            if last {
                self.longest.set(self.longest.get().max(ring.len()));
            }
            next.push(t);
        }
    }

    /// `NextAbortTransaction`, once for each transaction.
    fn aborts(&self, s: &Volume, next: &mut Vec<Volume>) {
        for p in 0..self.pages {
            if entry(&s.state, p).in_flight() && cycle(&s.state, p).iter().all(|&q| q >= p) {
                let mut t = s.clone();
                let reply = t.call(self.calls, &Call::Withdraw(p));
                assert_eq!(reply.answer, 0, "withdraw of a page in flight");
                next.push(t);
            }
        }
    }

    /// `NextCrashReboot`: the volatile state is lost, and recovery fills it.
    fn crash(&self, s: &Volume, next: &mut Vec<Volume>) {
        let mut t = s.clone();
        t.state.fill(NONE);
        let reply = t.call(self.calls, &Call::Recover);
        assert_eq!(reply.answer, 0, "recover of a checked state");
        next.push(t);
    }

    /// `NextCollectGarbage`: any nonempty set of collectable records. The call erases by the rule, and what a fault permits is blanked here.
    fn erasures(&self, s: &Volume, next: &mut Vec<Volume>) {
        let collectable = self.collectable(s);
        let by_call = !matches!(self.rule, Rule::CheckNone | Rule::CheckHigh);
        for list in subsets(&collectable) {
            let mut t = s.clone();
            if by_call {
                let reply = t.call(self.calls, &Call::Erase(list));
                assert_eq!(reply.answer, 0, "erase of collectable records");
            } else {
                t.blank(&list);
            }
            next.push(t);
        }
        if by_call {
            self.check_permission(s, &collectable);
        }
    }

    /// Erase refuses exactly the slots that the listing does not collect, suggest names the lowest that it does, and of blocks of two slots
    /// pick names one that has as many of them as any.
    fn check_permission(&self, s: &Volume, collectable: &[u32]) {
        for k in (0..self.slots).filter(|k| !collectable.contains(k)) {
            let mut t = s.clone();
            let reply = t.call(self.calls, &Call::Erase(vec![k]));
            assert_eq!(reply.answer, 12, "erase of a record that is not collectable");
            assert!(t == *s, "a refused erase alters nothing");
        }
        if self.family == Family::Bpcc {
            let reply = s.clone().suggest(self.calls);
            let right = collectable.iter().min().map_or(Reply { answer: 13, second: NONE }, |&k| Reply::done(k));
            assert_eq!(reply, right, "suggest names the lowest collectable record");
            let starts = blocks_of(2, self.slots);
            let collected = |number: u32| {
                let slots = block(self.slots, &starts, number).expect("a block");
                collectable.iter().filter(|k| slots.contains(k)).count() as u32
            };
            let [named, frees, ..] = s.picked(self.calls, &starts, 0, NONE);
            let most = (0..starts.len() as u32).map(collected).max();
            assert_eq!((collected(named), Some(frees)), (frees, most), "pick counts the collectable records");
            self.check_sweep(s);
        }
    }

    /// A sweep leaves as many records as it may, none of them collectable, and breaks no invariant.
    fn check_sweep(&self, s: &Volume) {
        let mut t = s.clone();
        let reply = t.call(self.calls, &Call::Sweep);
        assert_eq!(reply, Reply::done(0), "a sweep");
        assert_left(&t);
        assert_eq!(self.collectable(&t), [], "what a sweep leaves");
        assert_eq!(self.check(&t), Ok(()), "a sweep");
    }
}
