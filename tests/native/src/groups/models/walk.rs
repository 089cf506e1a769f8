//! The paper's models walked whole (sections 3.3 and 4.3): every state that their actions reach, breadth first, each invariant checked.

use super::model::{Key, Model, Rule};
use crate::interface::Calls;
use crate::volume::{Layout, Volume};
use std::cell::Cell;
use std::collections::HashSet;
use std::ops::RangeInclusive;

/// What a walk found.
#[derive(Debug)]
pub struct Walk {
    /// Distinct states within the constraint, up to a renaming of the pages, up to the one that breaks an invariant.
    pub states: usize,
    /// The number of states on the longest of the shortest paths, the first counted.
    pub depth: usize,
    /// The depth of the first state that breaks an invariant, and the invariant.
    pub fault: Option<(usize, String)>,
    /// What `states` may be if those of one depth come in another order.
    pub any_order: RangeInclusive<usize>,
    /// The most pages of a transaction that completes.
    pub longest: usize,
}

/// Walks a model through the calls, whose rule is the walk's; what a fault of the paper's second table permits to erase is blanked here.
pub fn walk(calls: &dyn Calls, layout: Layout, pages: u32, max_version: u32, rule: Rule) -> Walk {
    let slots = pages * (max_version + 2);
    let all: Vec<u32> = (0..pages).collect();
    let (family, renamings) = (layout.family, arrangements(&all));
    let model = Model { calls, family, pages, slots, max_version, rule, renamings, longest: Cell::new(0) };
    let first = Volume::formatted(calls, layout.sizes(pages, slots));
    let mut met: HashSet<Key> = HashSet::from([model.key(&first)]);
    let mut level = vec![first];
    let (mut states, mut depth) = (1, 1);
    loop {
        let (below, mut next_level, mut fault) = (states, Vec::new(), None);
        for s in &level {
            for t in model.successors(s) {
                if !met.insert(model.key(&t)) {
                    continue;
                }
                let broken = model.check(&t).err();
                states += usize::from(broken.is_some() || model.within(&t));
                match broken {
                    Some(broken) => fault = fault.or(Some((states, broken))),
                    None if model.within(&t) => next_level.push(t),
                    None => {}
                }
            }
        }
        let longest = model.longest.get();
        if let Some((at, broken)) = fault {
            return Walk { states: at, depth: depth + 1, fault: Some((depth + 1, broken)), any_order: below + 1..=states, longest };
        }
        if next_level.is_empty() {
            return Walk { states, depth, fault: None, any_order: states..=states, longest };
        }
        level = next_level;
        depth += 1;
    }
}

/// All orders of a list.
pub fn arrangements(list: &[u32]) -> Vec<Vec<u32>> {
    if list.is_empty() {
        return vec![Vec::new()];
    }
    let mut all = Vec::new();
    for (i, &first) in list.iter().enumerate() {
        let mut rest = list.to_vec();
        rest.remove(i);
        for mut tail in arrangements(&rest) {
            tail.insert(0, first);
            all.push(tail);
        }
    }
    all
}
