//! Document 02's wishes 1 and 8: twins, the permission of a list of slots, tables of blocks, and what the cleaning of a block does. Of
//! four-word records there are no twins.

use crate::interface::{Family, MOST_BLOCKS};
use crate::rules::{old_rule, records, slot, slot_bytes, Record};
use crate::volume::Layout;
use std::ops::Range;

/// A volume that is looked at: its flash and its state.
#[derive(Clone, Copy)]
pub struct View<'a> {
    pub layout: Layout,
    pub words: &'a [u32],
    pub contents: &'a [u8],
    pub state: &'a [u32],
}

impl View<'_> {
    pub fn slots(self) -> u32 {
        (self.words.len() / self.layout.family.slot_words()) as u32
    }

    /// Slot k's record, or nothing where the slot is blank.
    pub fn slot(self, k: u32) -> Option<Record> {
        slot(self.layout.family, self.words, k)
    }

    pub fn bytes(&self, k: u32) -> &[u8] {
        &self.contents[slot_bytes(self.layout.width, k)]
    }
}

/// A test whether two slots hold one record.
pub type Test = fn(View, u32, u32) -> bool;

/// "A record may now have twins, equal in all words and bytes": different slots, neither of them blank.
pub fn twins(v: View, k: u32, l: u32) -> bool {
    v.layout.family == Family::Bpcc && k != l && v.slot(k).is_some() && v.slot(k) == v.slot(l) && v.bytes(k) == v.bytes(l)
}

/// "For equal page and version recovery gives 3 only if the two are no twins."
pub fn clash(v: View, twins: Test) -> bool {
    let table = records(v.layout.family, v.words);
    table.iter().any(|&(k, r)| table.iter().any(|&(l, q)| k < l && r.p == q.p && r.v == q.v && !twins(v, k, l)))
}

/// "A slot whose twin is outside the erase list may always be erased, and if all twins are listed the old rule judges them."
pub fn may_erase(v: View, twins: Test, listed: impl Fn(u32) -> bool, k: u32) -> bool {
    let twin_stays = || (0..v.slots()).any(|l| !listed(l) && twins(v, k, l));
    v.slot(k).is_some() && (old_rule(v.layout.family, v.words, v.state, k) || twin_stays())
}

/// The slots of a list that may be erased.
pub fn erasable<'a>(v: View<'a>, twins: Test, list: &'a [u32]) -> impl Iterator<Item = u32> + 'a {
    let mut marks = vec![false; v.slots() as usize];
    list.iter().for_each(|&k| marks[k as usize] = true);
    list.iter().copied().filter(move |&k| may_erase(v, twins, |l| marks[l as usize], k))
}

/// "Suggest judges a list of one."
pub fn may_erase_alone(v: View, twins: Test, k: u32) -> bool {
    may_erase(v, twins, |l| l == k, k)
}

/// "A table that breaks these rules, its length included": not "1 to 16 starts: the first is 0, they rise strictly, all are below S".
pub fn blocks_wrong(slots: u32, starts: &[u32]) -> bool {
    let rises = starts.windows(2).all(|pair| pair[0] < pair[1]);
    !(1..=MOST_BLOCKS).contains(&starts.len()) || starts[0] != 0 || !rises || starts.iter().any(|&start| start >= slots)
}

/// The slots of a block; the last block ends at S. "Block numbers then run below its length": no other number has any.
pub fn block(slots: u32, starts: &[u32], number: u32) -> Option<Range<u32>> {
    let start = |number: usize| starts.get(number).copied();
    let number = number as usize;
    start(number).map(|first| first..start(number + 1).unwrap_or(slots))
}

/// A table of blocks of one size, as many as it may have; the last has what is left of the slots.
pub fn blocks_of(size: u32, slots: u32) -> Vec<u32> {
    (0..slots).step_by(size as usize).take(MOST_BLOCKS).collect()
}

/// A step of a cleaning or a sweep: what a slot then holds, a record with its bytes, or nothing.
pub struct Step {
    pub slot: u32,
    pub held: Option<(Record, Vec<u8>)>,
}

/// The slots of a block that are copied: "every record there that may not be erased, the whole block being listed, is copied once (of
/// twins within the block only the lowest)".
pub fn copied(v: View, twins: Test, block: Range<u32>) -> Vec<u32> {
    let stays = |k: u32| v.slot(k).is_some() && !may_erase(v, twins, |l| block.contains(&l), k);
    let lowest = |k: u32| !(block.start..k).any(|l| twins(v, k, l));
    block.clone().filter(|&k| stays(k) && lowest(k)).collect()
}

/// The blank slots outside a block, rising.
pub fn blank_outside(v: View, block: Range<u32>) -> Vec<u32> {
    (0..v.slots()).filter(|k| !block.contains(k) && v.slot(*k).is_none()).collect()
}

/// "The copies in their order, then the blankings": copies of the slots `from`, each to one of `to`.
pub fn steps(v: View, from: &[u32], to: &[u32], block: Range<u32>) -> Vec<Step> {
    let copies = from.iter().zip(to).map(|(&k, &slot)| Step { slot, held: v.slot(k).map(|r| (r, v.bytes(k).to_vec())) });
    copies.chain(blankings(block)).collect()
}

/// A step for each slot that is blanked.
pub fn blankings(slots: impl IntoIterator<Item = u32>) -> impl Iterator<Item = Step> {
    slots.into_iter().map(|slot| Step { slot, held: None })
}
