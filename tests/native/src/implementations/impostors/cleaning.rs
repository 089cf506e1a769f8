//! Faulty twins and faulty cleaning.

use super::{Fault, Impostor};
use crate::cleaning::{blank_outside, copied, may_erase_alone, steps, twins, Step, Test, View};
use crate::implementations::reference::take;
use crate::interface::{Arguments, Name, Reply};
use crate::rules::{is_exposed, slot_bytes};
use crate::volume::Volume;
use std::ops::Range;

/// Equal in page and version.
fn equal_versions(v: View, k: u32, l: u32) -> bool {
    let version = |k: u32| v.slot(k).map(|r| (r.p, r.v));
    k != l && version(k).is_some() && version(k) == version(l)
}

/// Equal in all words.
fn equal_words(v: View, k: u32, l: u32) -> bool {
    k != l && v.slot(k).is_some() && v.slot(k) == v.slot(l)
}

/// A volume without the exposed records of a block that may be erased.
fn without_exposed(before: &Volume, block: Range<u32>) -> Volume {
    let mut volume = before.clone();
    let goes = |k: u32| before.slot(k).is_some_and(|r| is_exposed(&before.state, r)) && before.may_erase(k);
    volume.blank(&block.filter(|&k| goes(k)).collect::<Vec<u32>>());
    volume
}

impl Impostor {
    /// The faulty test for twins of a call, if it has one.
    pub(super) fn twins(&self, name: Name) -> Option<Test> {
        let (of, twins): (Name, Test) = match self.0 {
            Fault::IgnoresTwins(of) => (of, |_, _, _| false),
            Fault::TakesEqualVersionsForTwins(of) => (of, equal_versions),
            Fault::ComparesNoBytesOfTwins(of) => (of, equal_words),
            _ => return None,
        };
        (of == name).then_some(twins)
    }

    /// Cleans, where there is a block to clean.
    pub(super) fn clean(&self, a: &mut Arguments) -> Reply {
        let block = match self.block_to_clean(a) {
            Ok(block) => block,
            Err(answer) => return Reply::refused(answer),
        };
        let before = Volume::copied(a);
        let (from, to) = (self.copied(&before, block.clone()), self.targets(before.view(), block.clone()));
        if self.counted(&before, block.clone(), from.len()) > to.len() {
            return Reply::refused(15);
        }
        take(a, &self.steps(before.view(), &from, &to, block.clone()));
        let kept = match self.0 {
            Fault::CleanKeepsTheContents => block.collect(),
            Fault::CleanForgetsTheContents => to[..from.len()].to_vec(),
            _ => Vec::new(),
        };
        for bytes in kept.into_iter().map(|k| slot_bytes(a.width, k)) {
            a.contents[bytes.clone()].copy_from_slice(&before.contents[bytes]);
        }
        self.put_back_behind_32(Name::Clean, &before, &[], a);
        Reply::done(0)
    }

    /// The slots that are copied, in the order in which they are.
    fn copied(&self, before: &Volume, block: Range<u32>) -> Vec<u32> {
        let v = before.view();
        let right = copied(v, twins, block.clone());
        let is_copied = |k: u32| right.iter().any(|&l| k == l || twins(v, k, l));
        let is_record = |k: u32| v.slot(k).is_some();
        match self.0 {
            Fault::CleanCopiesEveryTwin => block.filter(|&k| is_copied(k)).collect(),
            Fault::CleanCopiesTheHighestTwin => {
                block.clone().filter(|&k| is_copied(k) && !(k..block.end).any(|l| twins(v, k, l))).collect()
            }
            Fault::CleanCopiesErasableRecords => {
                block.clone().filter(|&k| is_record(k) && !(block.start..k).any(|l| twins(v, k, l))).collect()
            }
            Fault::CleanCopiesInFallingOrder => right.into_iter().rev().collect(),
            Fault::CleanJudgesOneByOne => right.into_iter().filter(|&k| !may_erase_alone(v, twins, k)).collect(),
            Fault::CleanJudgesAfterBlanking => copied(without_exposed(before, block.clone()).view(), twins, block),
            _ => right,
        }
    }

    /// The blank slots to which is copied, in the order in which they are taken.
    fn targets(&self, v: View, block: Range<u32>) -> Vec<u32> {
        match self.0 {
            Fault::CleanCopiesIntoTheBlock => blank_outside(v, 0..0),
            Fault::CleanCopiesToTheHighestSlots => blank_outside(v, block).into_iter().rev().collect(),
            _ => blank_outside(v, block),
        }
    }

    /// How many blank slots are asked for where so many records are copied.
    fn counted(&self, before: &Volume, block: Range<u32>, copied: usize) -> usize {
        match self.0 {
            Fault::CleanCountsEveryTwin => Impostor(Fault::CleanCopiesEveryTwin).copied(before, block).len(),
            Fault::CleanNeedsASlotToSpare => copied + 1,
            _ => copied,
        }
    }

    /// The steps in their order.
    fn steps(&self, v: View, from: &[u32], to: &[u32], block: Range<u32>) -> Vec<Step> {
        let mut steps = steps(v, from, to, block);
        match self.0 {
            Fault::CleanDoesNothing => steps.clear(),
            Fault::CleanBlanksBeforeItCopies => steps.iter_mut().for_each(|step| step.held = None),
            Fault::CleanLeavesBlankSlots => steps.retain(|step| step.held.is_some() || v.slot(step.slot).is_some()),
            _ => {}
        }
        steps
    }
}
