//! Volumes as a console leaves them: sets stored one after the other, power cuts, blocks cleaned and slots erased where none is blank.

use crate::cleaning::blocks_of;
use crate::crash::left;
use crate::implementations::TESTED;
use crate::interface::{Family, Reply, NONE};
use crate::random::Random;
use crate::rules::entry;
use crate::volume::{Call, Sizes, Volume};

/// The sets stored before the volume is filled, and the blank slots that are kept until then.
const SETS: u32 = 400;
const SPARE: usize = 100;

/// One call in so many meets a power cut, and of the cleanings, which leave twins then, one in so many.
const CUT: u32 = 60;
const CUT_CLEANING: u32 = 3;

/// A full volume, after sets of up to 8 pages, with seed 2 most of them of few pages, and with seed 3 of up to 64.
pub fn console(sizes: Sizes, seed: u64) -> Volume {
    let mut console = Console { volume: Volume::formatted(TESTED, sizes), random: Random::new(seed), seed };
    for _ in 0..SETS {
        console.store();
        while console.volume.blank_slots().len() < SPARE {
            console.free();
        }
    }
    while !console.volume.blank_slots().is_empty() {
        console.store();
    }
    console.volume
}

struct Console {
    volume: Volume,
    random: Random,
    seed: u64,
}

impl Console {
    /// Stores a set, as far as there are blank slots and no cut is met.
    fn store(&mut self) {
        let list = self.pages();
        if !self.made(&Call::Launch(list.clone())) {
            return;
        }
        for page in list {
            let blank = self.volume.blank_slots();
            if blank.is_empty() {
                return;
            }
            let (slot, bytes) = (self.random.pick(&blank), self.random.bytes(self.volume.sizes.width));
            if !self.made(&Call::Write { page, slot, bytes }) {
                return;
            }
        }
    }

    /// Pages that are not in flight, each once.
    fn pages(&mut self) -> Vec<u32> {
        let most = if self.seed == 3 { 64 } else { 8 };
        let mut list = Vec::new();
        for _ in 0..1 + self.random.below(most) {
            let among = if self.seed == 2 { 1 + self.random.below(16) * self.random.below(16) } else { 256 };
            let page = self.random.below(among);
            if !list.contains(&page) && !entry(&self.volume.state, page).in_flight() {
                list.push(page);
            }
        }
        if list.is_empty() {
            vec![(0..self.volume.sizes.pages).find(|&p| !entry(&self.volume.state, p).in_flight()).unwrap()]
        } else {
            list
        }
    }

    /// Cleans the one picked of four blocks, or erases some slots.
    fn free(&mut self) {
        let v = &mut self.volume;
        let call = if v.sizes.family == Family::Bpcc && !self.random.one_in(4) {
            let starts = blocks_of(64, v.sizes.slots);
            let from = self.random.below(16);
            let (_, picked) = v.pick(TESTED, &starts, from, 4);
            Call::Clean { starts, block: picked[0] }
        } else {
            let may = (0..v.sizes.slots).filter(|&k| v.may_erase(k)).collect();
            Call::Erase(self.random.some_of(may, 300))
        };
        self.made(&call);
    }

    /// Makes a call, which is done, if no power cut is met; a write of four-word records that would bury one behind an erasure.
    fn made(&mut self, call: &Call) -> bool {
        let before = self.volume.clone();
        let Reply { answer, .. } = self.volume.call(TESTED, call);
        if answer == 16 {
            self.volume.assert_cured(TESTED, call);
            return true;
        }
        assert!(answer == 0 || (answer == 12 && matches!(call, Call::Erase(_))), "{call:?} answers {answer}");
        let cut = if matches!(call, Call::Clean { .. }) { CUT_CLEANING } else { CUT };
        if !self.random.one_in(cut) {
            return true;
        }
        let stages = TESTED.stages(call, &before, &self.volume);
        if answer == 0 && !stages.is_empty() {
            self.volume = left(&mut self.random, &before, &self.volume, &stages).0;
        }
        self.volume.state.fill(NONE);
        assert_eq!(self.volume.call(TESTED, &Call::Recover).answer, 0, "recover behind a cut in {call:?}");
        false
    }
}
