//! What a crash in a call may leave: the call alters the flash in stages, and the crash finishes those before one of them and does any
//! part of that one.

use crate::cleaning::block;
use crate::random::Random;
use crate::sweeping::erasing;
use crate::volume::{Call, Volume};

/// The slots that a stage alters, in any order.
pub type Stage = Vec<u32>;

/// The stages of a call that is done, by what it made of the volume: a write stores its slot, an erase blanks the listed ones in any
/// order. A cleaning stores its copies one after the other, rising, then blanks its block's slots in any order; as the chip erases the
/// block whole, the call must have left nothing in it. A sweep blanks the slots of its three erasings, in any order within each.
pub fn stages(call: &Call, before: &Volume, after: &Volume) -> Vec<Stage> {
    match *call {
        Call::Write { slot, .. } => vec![vec![slot]],
        Call::Erase(ref list) => vec![list.clone()],
        Call::Clean { ref starts, block: number } => {
            let block = block(before.sizes.slots, starts, number).expect("a cleaning that is done has a block");
            assert!(block.clone().all(|k| after.slot(k).is_none()), "a cleaned block holds a record: {:?}", after.words);
            let (blanked, copies): (Stage, Stage) = before.altered(after).into_iter().partition(|k| block.contains(k));
            copies.into_iter().map(|k| vec![k]).chain([blanked]).collect()
        }
        Call::Sweep => {
            let mut stages = vec![Stage::new(); 3];
            for k in before.altered(after) {
                let record = before.slot(k).filter(|_| after.slot(k).is_none()).expect("a sweep blanks records and does nothing else");
                stages[erasing(&before.state, record)].push(k);
            }
            stages
        }
        Call::Launch(_) | Call::Withdraw(_) | Call::Recover => Vec::new(),
    }
}

/// What a crash leaves of a call with these stages, chosen among all that it may leave: the flash, and the slots that were done.
pub fn left(random: &mut Random, before: &Volume, after: &Volume, stages: &[Stage]) -> (Volume, Stage) {
    let (mut flash, mut done) = (before.clone(), Stage::new());
    let met = random.below(stages.len() as u32) as usize;
    for (i, stage) in stages.iter().enumerate().take(met + 1) {
        for &k in stage.iter().filter(|_| i < met || random.one_in(2)) {
            flash.copy_slot(after, k);
            done.push(k);
        }
    }
    (flash, done)
}
