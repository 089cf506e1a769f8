//! Faulty tables of blocks.

use super::{is_refused, Fault, Impostor};
use crate::cleaning::{block, blocks_of, blocks_wrong};
use crate::implementations::reference::Reference;
use crate::interface::{Arguments, Calls, Name, Reply, MOST_BLOCKS};
use std::ops::Range;

impl Impostor {
    pub(super) fn check_blocks(&self, a: &mut Arguments) -> Reply {
        let right = Reference.call(Name::CheckBlocks, a);
        match (right.answer, self.blocks_wrong(Name::CheckBlocks, a)) {
            (1, true) if self.0 == Fault::LooksAtTheTableFirst(Name::CheckBlocks) => Reply::refused(17),
            (17, false) => Reply::done(0),
            _ => right,
        }
    }

    /// The slots of the block that is cleaned, or the answer by which a cleaning is refused before its slots are judged.
    pub(super) fn block_to_clean(&self, a: &Arguments) -> Result<Range<u32>, u32> {
        let order = match self.0 {
            Fault::LooksAtTheTableFirst(Name::Clean) => [17, 1, 2, 5, 6],
            Fault::CleanLooksAtSlotsBeforeTheTable => [1, 2, 17, 5, 6],
            Fault::CleanLooksAtTheStateBeforeTheTable => [1, 5, 17, 2, 6],
            Fault::CleanLooksAtTheBlockBeforeTheTable => [1, 6, 17, 2, 5],
            Fault::CleanLooksAtTheBlockBeforeSlots => [1, 17, 6, 2, 5],
            _ => [1, 17, 2, 5, 6],
        };
        let refused = |answer: &u32| match *answer {
            17 => self.blocks_wrong(Name::Clean, a),
            6 => self.block(a).is_none(),
            answer => is_refused(a, answer),
        };
        order.into_iter().find(refused).map_or(self.block(a).ok_or(6), Err)
    }

    /// Whether a call refuses a table: it looks at one that is mended where the fault lets it be.
    pub(super) fn blocks_wrong(&self, name: Name, a: &Arguments) -> bool {
        let mut starts = a.starts.to_vec();
        match self.0 {
            Fault::TakesNoStarts(of) if of == name && starts.is_empty() => starts.push(0),
            Fault::Takes17Starts(of) if of == name && starts.len() == MOST_BLOCKS + 1 => starts.truncate(MOST_BLOCKS),
            Fault::TakesAnyFirstStart(of) if of == name => starts.iter_mut().take(1).for_each(|first| *first = 0),
            Fault::TakesEqualStarts(of) if of == name => starts.dedup(),
            Fault::TakesAStartAtS(of) if of == name => starts.retain(|&start| start != a.slots),
            _ => {}
        }
        blocks_wrong(a.slots, &starts)
    }

    /// The slots of the block with the number that the call is given.
    fn block(&self, a: &Arguments) -> Option<Range<u32>> {
        let blocks = a.starts.len() as u32;
        match self.0 {
            // Where a start lies, in bytes, 32 bits may not hold.
            Fault::CleanWrapsTheBlock => block(a.slots, a.starts, 4u32.wrapping_mul(a.block) / 4),
            Fault::CleanTakesABlockPastTheTable if a.block == blocks => Some(a.slots..a.slots),
            Fault::CleanEndsTheLastBlockEarly => block(a.slots.saturating_sub(1), a.starts, a.block),
            Fault::CleanTakesBlocksOf64 => block(a.slots, &blocks_of(64, a.slots), a.block),
            _ => block(a.slots, a.starts, a.block),
        }
    }
}
