//! A volume with its ledger, and all that calls and crashes make of it.

use super::walk::Walk;
use crate::cleaning::twins;
use crate::crash::Stage;
use crate::groups::models::actions::subsets;
use crate::groups::models::walk::arrangements;
use crate::inputs::blocks::each_cleaned;
use crate::interface::{Calls, NONE};
use crate::ledger::Ledger;
use crate::rules::{cycle, entry, lowest_slot, slot_bytes};
use crate::sweeping::assert_left;
use crate::volume::{Call, Sizes, Volume};
use std::collections::HashSet;

/// What is walked: the calls, the tables of blocks that cleanings are lent, the highest version that is launched, and how many fillings a
/// write of a page at a version may have.
pub struct Model<'a> {
    pub calls: &'a dyn Calls,
    pub tables: Vec<Vec<u32>>,
    pub versions: u32,
    pub fills: u8,
}

#[derive(Clone)]
pub struct State {
    pub volume: Volume,
    pub ledger: Ledger,
}

impl State {
    /// What tells a state from another: all bytes of a slot are one, and what is open in the ledger is in the volume too.
    pub fn key(&self) -> Vec<u8> {
        let Volume { sizes, words, contents, state } = &self.volume;
        let numbers = words.iter().chain(state).map(|&w| w as u8);
        let filled = contents.iter().step_by(sizes.width as usize).copied();
        numbers.chain(filled).chain((0..sizes.pages).map(|p| self.ledger.kept(p)[0])).collect()
    }

    /// The slots that are twins, each two once.
    pub fn pairs(&self) -> Vec<(u32, u32)> {
        let all = (0..self.volume.sizes.slots).flat_map(|l| (0..l).map(move |k| (k, l)));
        all.filter(|&(k, l)| twins(self.volume.view(), k, l)).collect()
    }
}

impl Model<'_> {
    /// Recovery answers 0, finds the committed versions, and each page reads as the ledger says; what is open is the same in both, and
    /// where one table is lent no block has twins within it.
    pub fn check(&self, s: &State) {
        if let [starts] = &self.tables[..] {
            let block = |k: u32| starts.partition_point(|&start| start <= k);
            assert!(s.pairs().iter().all(|&(k, l)| block(k) != block(l)), "twins within a block of {:?}", s.volume);
        }
        let Sizes { family, pages, width, .. } = s.volume.sizes;
        let found = self.crashed(s, s.volume.clone(), None);
        let mut out = vec![0; width as usize];
        for page in 0..pages {
            let e = entry(&s.volume.state, page);
            assert_eq!(entry(&found.volume.state, page).committed, e.committed, "page {page} of {:?}", s.volume);
            for v in [&s.volume, &found.volume] {
                assert_eq!(v.clone().read(self.calls, page, &mut out).answer, 0, "read of page {page} of {v:?}");
                assert_eq!(out, s.ledger.kept(page), "contents of page {page} of {v:?}");
            }
            let stored = |k: u32| &s.volume.contents[slot_bytes(width, k)];
            let written = (e.written == 1).then(|| stored(lowest_slot(family, &s.volume.words, page, e.used).unwrap()));
            assert_eq!(s.ledger.open(page), e.in_flight().then_some(written), "page {page} of {:?}", s.volume);
        }
    }

    /// The states that a call or a crash makes of one.
    pub fn successors(&self, s: &State, found: &mut Walk) -> Vec<State> {
        let mut next = vec![self.crashed(s, s.volume.clone(), None)];
        self.launches(s, &mut next);
        self.writes_and_withdrawals(s, &mut next);
        self.erasures(s, &mut next);
        self.picks(s, found);
        self.cleanings(s, &mut next, found);
        self.sweeps(s, &mut next, found);
        next
    }

    /// The state after a call that is done; a refused one alters nothing.
    pub fn done(&self, s: &State, call: &Call) -> Option<State> {
        let mut t = s.clone();
        let answer = t.volume.call(self.calls, call).answer;
        assert!(answer == 0 || t.volume == s.volume, "a refused call altered {:?}", s.volume);
        assert!(matches!((call, answer), (_, 0) | (Call::Erase(_), 12) | (Call::Clean { .. }, 15)), "{call:?} answers {answer}");
        t.ledger.called(call, answer);
        (answer == 0).then_some(t)
    }

    /// The state once a crash that left this flash is recovered from.
    fn crashed(&self, s: &State, flash: Volume, within: Option<(&Call, bool)>) -> State {
        let mut t = State { volume: flash, ledger: s.ledger.clone() };
        t.ledger.crashed(within);
        t.volume.state.fill(NONE);
        let answer = t.volume.call(self.calls, &Call::Recover).answer;
        assert_eq!(answer, 0, "recover of {:?}", t.volume);
        t
    }

    /// Any pages that are not in flight, in any cycle.
    fn launches(&self, s: &State, next: &mut Vec<State>) {
        let Volume { sizes, state, .. } = &s.volume;
        let free = |p: u32| !entry(state, p).in_flight() && entry(state, p).used < self.versions;
        for set in subsets(&(0..sizes.pages).filter(|&p| free(p)).collect::<Vec<u32>>()) {
            // A cycle is the same whichever page it starts from.
            for list in arrangements(&set).into_iter().filter(|list| list[0] == set[0]) {
                next.extend(self.done(s, &Call::Launch(list)));
            }
        }
    }

    /// Any page in flight that is not written, to any blank slot, crash or no crash; and each transaction withdrawn.
    fn writes_and_withdrawals(&self, s: &State, next: &mut Vec<State>) {
        let Volume { sizes, state, .. } = &s.volume;
        for page in (0..sizes.pages).filter(|&p| entry(state, p).in_flight()) {
            let e = entry(state, page);
            if cycle(state, page).iter().all(|&q| q >= page) {
                next.extend(self.done(s, &Call::Withdraw(page)));
            }
            for slot in s.volume.blank_slots().into_iter().filter(|_| e.written == 0) {
                for fill in 0..self.fills {
                    let bytes = vec![32 * page as u8 + 4 * e.used as u8 + fill; sizes.width as usize];
                    let write = Call::Write { page, slot, bytes };
                    let done = self.done(s, &write).expect("a write that is done");
                    next.push(self.crashed(s, done.volume.clone(), Some((&write, true))));
                    next.push(done);
                }
            }
        }
    }

    /// Any records that may be erased, crash or no crash. A part of them may be erased, too, so that a crash leaves what a shorter list
    /// would.
    fn erasures(&self, s: &State, next: &mut Vec<State>) {
        let held: Vec<u32> = s.volume.records().iter().map(|&(k, _)| k).collect();
        let mut erased: HashSet<Vec<u32>> = HashSet::from([Vec::new()]);
        for list in subsets(&held) {
            let erase = Call::Erase(list.clone());
            let Some(done) = self.done(s, &erase) else { continue };
            let without = |i: usize| [&list[..i], &list[i + 1..]].concat();
            assert!((0..list.len()).all(|i| erased.contains(&without(i))), "a part of {list:?} may not be erased of {:?}", s.volume);
            next.push(self.crashed(s, done.volume.clone(), Some((&erase, false))));
            next.push(done);
            erased.insert(list);
        }
    }

    /// A pick by each table: it alters nothing, and what is shown of it holds.
    fn picks(&self, s: &State, found: &mut Walk) {
        for starts in &self.tables {
            let blocks = starts.len() as u32;
            s.volume.picked(self.calls, starts, found.picked % blocks, 1 + found.picked / blocks % (blocks + 1));
            found.picked += 1;
        }
    }

    /// A cleaning leaves more blank slots exactly where a pick of its block alone finds something to free.
    fn check_gain(&self, s: &State, clean: &Call, done: &State) {
        let Call::Clean { starts, block } = clean else { return };
        let [before, after] = [s, done].map(|s| s.volume.blank_slots().len());
        let [_, frees, ..] = s.volume.picked(self.calls, starts, *block, 1);
        assert!(after >= before && (after > before) == (frees > 0), "{before} blank, {after} after {clean:?}, which frees {frees}");
    }

    /// Each block of each table cleaned, with every crash: between the copies, and with any part of the block blanked.
    fn cleanings(&self, s: &State, next: &mut Vec<State>, found: &mut Walk) {
        for clean in each_cleaned(&self.tables) {
            let Some(done) = self.done(s, &clean) else {
                found.too_few += 1;
                continue;
            };
            self.check_gain(s, &clean, &done);
            let stages = self.calls.stages(&clean, &s.volume, &done.volume);
            found.cleaned += 1;
            found.copying += usize::from(stages.len() > 1);
            self.stages(s, &clean, done, stages, next);
        }
    }

    /// A sweep, which leaves as many records as it may, with every crash: with any part of each erasing done.
    fn sweeps(&self, s: &State, next: &mut Vec<State>, found: &mut Walk) {
        let done = self.done(s, &Call::Sweep).expect("a sweep that is done");
        assert_left(&done.volume);
        let stages = self.calls.stages(&Call::Sweep, &s.volume, &done.volume);
        found.erasing.iter_mut().zip(&stages).for_each(|(met, stage)| *met += u64::from(!stage.is_empty()));
        self.stages(s, &Call::Sweep, done, stages, next);
    }

    /// A call that alters the flash in these stages, crash or no crash.
    fn stages(&self, s: &State, call: &Call, done: State, stages: Vec<Stage>, next: &mut Vec<State>) {
        let mut flash = s.volume.clone();
        for stage in stages {
            for part in subsets(&stage) {
                let mut flash = flash.clone();
                part.iter().for_each(|&k| flash.copy_slot(&done.volume, k));
                next.push(self.crashed(s, flash, Some((call, false))));
            }
            stage.iter().for_each(|&k| flash.copy_slot(&done.volume, k));
        }
        next.push(done);
    }
}
