//! The calls that a run makes.

use super::run::{Cleaning, Run};
use crate::cleaning::{blocks_of, twins};
use crate::inputs::blocks;
use crate::interface::{other_width, Family, NONE};
use crate::random::Random;
use crate::rules::{entry, would_bury};
use crate::volume::{Call, Sizes};

impl Run<'_> {
    /// A call that the volume takes, if one is found in a few tries, or any.
    pub fn choose(&mut self) -> Call {
        for _ in 0..6 {
            let kind = self.kind();
            let fitting = !self.random.one_in(if kind == 3 { 3 } else { 8 });
            match if fitting { self.fitting(kind) } else { Some(self.any(kind)) } {
                Some(call) => return call,
                None => continue,
            }
        }
        let kind = self.kind();
        self.any(kind)
    }

    /// Launch, write, withdraw, erase, clean, sweep or recover, by the run's weights.
    fn kind(&mut self) -> usize {
        let mut at = self.random.below(self.weights.iter().sum());
        let mut kind = 0;
        while at >= self.weights[kind] {
            at -= self.weights[kind];
            kind += 1;
        }
        kind
    }

    fn fitting(&mut self, kind: usize) -> Option<Call> {
        let v = &self.volume;
        let Sizes { pages, width, .. } = v.sizes;
        let waits = |p: u32| entry(&v.state, p).in_flight() && entry(&v.state, p).written == 0;
        match kind {
            0 => {
                let free = (0..pages).filter(|&p| !entry(&v.state, p).in_flight()).collect();
                let few = self.random.one_in(2);
                some_of(&mut self.random, free, if few { 3 } else { u32::MAX }).map(Call::Launch)
            }
            1 => {
                let page = some_of(&mut self.random, (0..pages).filter(|&p| waits(p)).collect(), 1)?[0];
                let buries = v.sizes.family == Family::Scc && would_bury(&v.records(), &v.state, page);
                if buries && self.random.one_in(2) {
                    return Some(Call::Erase(v.left_exposed()));
                }
                let slot = some_of(&mut self.random, v.blank_slots(), 1)?[0];
                Some(Call::Write { page, slot, bytes: self.random.bytes(width) })
            }
            2 => some_of(&mut self.random, (0..pages).filter(|&p| waits(p)).collect(), 1).map(|list| Call::Withdraw(list[0])),
            3 => {
                let few = self.random.one_in(2);
                let may = self.old_or_exposed().into_iter().filter(|&k| self.volume.may_erase(k)).collect();
                some_of(&mut self.random, may, if few { 2 } else { u32::MAX }).map(Call::Erase)
            }
            4 => {
                let starts = self.blocks(blocks::sound);
                let from = self.random.below(starts.len() as u32);
                let block = if self.random.one_in(2) { from } else { self.pick(&starts, from) };
                Some(Call::Clean { starts, block })
            }
            5 => Some(Call::Sweep),
            _ => Some(Call::Recover),
        }
    }

    /// A call with any arguments; an erase that lists all twins of a record, or a needed straddler, if there is one, after exposed records.
    fn any(&mut self, kind: usize) -> Call {
        let length = self.random.below(4);
        match kind {
            0 => Call::Launch((0..length).map(|_| self.any_page()).collect()),
            1 => {
                let width = self.volume.sizes.width;
                let wrong = [0, 1, width - 1, width + 1, other_width(width)];
                let length = if self.random.one_in(8) { self.random.pick(&wrong) } else { width };
                Call::Write { page: self.any_page(), slot: self.any_slot(), bytes: self.random.bytes(length) }
            }
            2 => Call::Withdraw(self.any_page()),
            3 => {
                if let (true, Some(list)) = (self.random.one_in(2), self.twinned()) {
                    return Call::Erase(list);
                }
                let (may, kept): (Vec<u32>, Vec<u32>) = self.old_or_exposed().into_iter().partition(|&k| self.volume.may_erase(k));
                let mut list = if self.random.one_in(2) { some_of(&mut self.random, may, 3).unwrap_or_default() } else { Vec::new() };
                match some_of(&mut self.random, kept, 1) {
                    Some(needed) if !self.random.one_in(6) => list.extend(needed),
                    _ => list.push(self.any_slot()),
                }
                Call::Erase(list)
            }
            4 => {
                let starts = self.blocks(blocks::any);
                let block = self.any_below(starts.len() as u32);
                Call::Clean { starts, block }
            }
            5 => Call::Sweep,
            _ => Call::Recover,
        }
    }

    /// The run's table of blocks, or one that is drawn.
    fn blocks(&mut self, draw: fn(&mut Random, u32) -> Vec<u32>) -> Vec<u32> {
        let slots = self.volume.sizes.slots;
        match self.cleaning {
            Cleaning::BlocksOf(size) => blocks_of(size, slots),
            Cleaning::Never | Cleaning::AnyBlocks | Cleaning::Often => draw(&mut self.random, slots),
        }
    }

    /// Slots that hold an obsolete record, needed or not, or an exposed one that may go; on a large volume some of them.
    fn old_or_exposed(&mut self) -> Vec<u32> {
        let v = &self.volume;
        let goes = |k: u32| v.slot(k).is_some_and(|r| r.v < entry(&v.state, r.p).committed || v.may_erase(k));
        (0..v.sizes.slots).filter(|&k| (v.sizes.slots <= 64 || self.random.one_in(25)) && goes(k)).collect()
    }

    /// A record's slot and its twins, if some record has any.
    fn twinned(&mut self) -> Option<Vec<u32>> {
        let (v, slots) = (&self.volume, self.volume.sizes.slots);
        let from = self.random.below(slots);
        let class = |k: u32| (0..slots).filter(|&l| k == l || twins(v.view(), k, l)).collect::<Vec<u32>>();
        (from..slots).chain(0..from).map(class).find(|list| list.len() > 1)
    }

    fn any_page(&mut self) -> u32 {
        self.any_below(self.volume.sizes.pages)
    }

    fn any_slot(&mut self) -> u32 {
        self.any_below(self.volume.sizes.slots)
    }

    /// A number below n, or now and then one out of range.
    fn any_below(&mut self, n: u32) -> u32 {
        if self.random.one_in(12) {
            self.random.pick(&[n, n + 1, NONE, NONE - 1])
        } else {
            self.random.below(n)
        }
    }
}

/// Some of a list, at most `most`, in any order; none of an empty one.
fn some_of(random: &mut Random, list: Vec<u32>, most: u32) -> Option<Vec<u32>> {
    (!list.is_empty()).then(|| random.some_of(list, most))
}
