//! Cleaning compared on volumes with tables of blocks, each block of each, and every kind of cleaning met often.

use super::kinds::Kinds;
use crate::cleaning::{blank_outside, block, copied, twins};
use crate::implementations::compared::Compared;
use crate::inputs;
use crate::random::Random;
use crate::rules::{is_exposed, old_rule};
use crate::volume::{Call, Layout, Volume};
use std::ops::Range;

/// Kinds of cleaning, by what the block and the slots outside hold.
const KINDS: [&str; 9] = [
    "nothing copied",
    "one record copied",
    "several copied",
    "as many copied as are blank outside",
    "nothing copied, none blank outside",
    "refused for one slot",
    "twins within the block copied once",
    "a record let go by a twin outside alone",
    "a straddler copied, an exposed record that needs it not",
];

/// Cleans each block of so many volumes, and gives how often each kind was met.
pub fn compare(compared: &Compared, layout: Layout, volumes: u32) -> String {
    let mut random = Random::new(u64::from(layout.width));
    let mut met = Kinds::new(KINDS);
    for _ in 0..volumes {
        let v = inputs::longer_volume(&mut random, layout);
        let starts = inputs::blocks::sound(&mut random, v.sizes.slots);
        for number in 0..=starts.len() as u32 {
            let answer = v.clone().call(compared, &Call::Clean { starts: starts.clone(), block: number }).answer;
            if let (0 | 15, Some(block)) = (answer, block(v.sizes.slots, &starts, number)) {
                met.count(kinds(&v, block));
            }
        }
    }
    met.told()
}

/// Whether a cleaning is of each kind.
fn kinds(volume: &Volume, block: Range<u32>) -> [bool; KINDS.len()] {
    let v = volume.view();
    let (from, blank) = (copied(v, twins, block.clone()), blank_outside(v, block.clone()).len());
    let inside = |k: u32| block.clone().any(|l| twins(v, k, l));
    let outside = |k: u32| (0..v.slots()).any(|l| !block.contains(&l) && twins(v, k, l));
    let goes = |k: u32| old_rule(v.layout.family, v.words, v.state, k);
    let leaves = |k: u32| v.slot(k).filter(|&r| is_exposed(v.state, r) && goes(k));
    let needs = |k: u32| v.slot(k).is_some_and(|r| block.clone().filter_map(leaves).any(|i| r.straddles(i)));
    [
        from.is_empty(),
        from.len() == 1 && blank >= 1,
        from.len() > 1 && blank >= from.len(),
        !from.is_empty() && blank == from.len(),
        from.is_empty() && blank == 0,
        from.len() == blank + 1,
        from.iter().any(|&k| inside(k)),
        block.clone().any(|k| outside(k) && !goes(k)),
        from.iter().any(|&k| needs(k) && !is_exposed(v.state, v.slot(k).unwrap())),
    ]
}
