//! Every state that calls and crashes reach from a formatted volume, breadth first, each checked.

use super::model::{Model, State};
use crate::ledger::Ledger;
use crate::volume::{Call, Sizes, Volume};
use std::collections::HashSet;

/// What a walk met.
#[derive(Debug, Default)]
pub struct Walk {
    pub states: usize,
    /// The number of states on the longest of the shortest paths, the first counted.
    pub depth: usize,
    /// States in which a record has a twin.
    pub twinned: usize,
    /// Cleanings done, those of them that made copies, and cleanings refused by 15.
    pub cleaned: usize,
    pub copying: usize,
    pub too_few: usize,
    /// Picks, from each block on and of each number in turn.
    pub picked: u32,
    /// Sweeps that erased exposed records, obsolete ones and spare twins.
    pub erasing: [u64; 3],
}

/// Walks everything that may come after a format and then these calls, which are done.
pub fn walk(model: &Model, sizes: Sizes, calls: &[Call]) -> Walk {
    let mut first = State { volume: Volume::formatted(model.calls, sizes), ledger: Ledger::new(sizes) };
    for call in calls {
        first = model.done(&first, call).expect("a call that is done");
    }
    let mut met: HashSet<Vec<u8>> = HashSet::from([first.key()]);
    let (mut level, mut found) = (vec![first], Walk::default());
    while !level.is_empty() {
        found.depth += 1;
        found.states += level.len();
        let mut next_level = Vec::new();
        for s in &level {
            model.check(s);
            found.twinned += usize::from(!s.pairs().is_empty());
            let next = model.successors(s, &mut found);
            next_level.extend(next.into_iter().filter(|t| met.insert(t.key())));
        }
        level = next_level;
    }
    found
}
