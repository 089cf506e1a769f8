//! Tables of blocks, sound and broken.

use crate::cleaning::blocks_of;
use crate::interface::{MOST_BLOCKS, NONE};
use crate::random::Random;
use crate::volume::Call;

/// How a table breaks the rules.
#[derive(Clone, Copy, Debug)]
pub enum Broken {
    Empty,
    /// 17 starts.
    Long,
    /// Its first start is not 0.
    First,
    Equal,
    Falling,
    /// Its last start is S.
    AtS,
    PastS,
}

pub const BROKEN: [Broken; 7] = [Broken::Empty, Broken::Long, Broken::First, Broken::Equal, Broken::Falling, Broken::AtS, Broken::PastS];

/// A sound table for so many slots: blocks of one size, small ones before larger ones, or any.
pub fn sound(random: &mut Random, slots: u32) -> Vec<u32> {
    match random.below(3) {
        0 => blocks_of(random.pick(&[1, 2, 3, 5, 64]), slots),
        1 => small_first(random, slots),
        _ => {
            let others = random.below(slots.min(MOST_BLOCKS as u32));
            rising(random, slots, others)
        }
    }
}

/// Blocks each of which has as many slots as the one before it or twice as many, but for the last, which has what is left.
fn small_first(random: &mut Random, slots: u32) -> Vec<u32> {
    let (mut starts, mut start, mut size) = (Vec::new(), 0, 1 + random.below(2));
    while start < slots && starts.len() < MOST_BLOCKS {
        starts.push(start);
        start += size;
        size *= 1 + random.below(2);
    }
    starts
}

/// 0 and so many others below `end`, rising.
fn rising(random: &mut Random, end: u32, others: u32) -> Vec<u32> {
    let mut starts: Vec<u32> = (1..end).collect();
    random.shuffle(&mut starts);
    starts.truncate(others as usize);
    starts.push(0);
    starts.sort();
    starts
}

/// A table that is broken in one way, all other rules kept as far as so many slots allow.
pub fn broken(random: &mut Random, slots: u32, how: Broken) -> Vec<u32> {
    let mut starts = sound(random, slots);
    starts.truncate(MOST_BLOCKS - 1);
    match how {
        Broken::Empty => starts.clear(),
        Broken::Long => starts = rising(random, slots.max(MOST_BLOCKS as u32 + 1), MOST_BLOCKS as u32),
        Broken::First if starts.len() > 1 => drop(starts.remove(0)),
        Broken::First => starts[0] = 1,
        Broken::Equal => {
            let at = random.below(starts.len() as u32) as usize;
            starts.insert(at, starts[at]);
        }
        Broken::Falling => {
            let at = random.below(starts.len() as u32) as usize;
            starts.insert(at + 1, random.below(starts[at]));
        }
        Broken::AtS => starts.push(slots),
        Broken::PastS => starts.push(random.pick(&[slots + 1, slots + 2, 1 << 31, NONE - 1, NONE])),
    }
    starts
}

/// A table for so many slots, now and then a broken one.
pub fn any(random: &mut Random, slots: u32) -> Vec<u32> {
    if random.one_in(8) {
        let how = random.pick(&BROKEN);
        broken(random, slots, how)
    } else {
        sound(random, slots)
    }
}

/// Every sound table for a few slots.
pub fn every(slots: u32) -> Vec<Vec<u32>> {
    assert!(slots <= MOST_BLOCKS as u32, "no table is too long");
    let table = |mask: u32| (0..slots).filter(|&k| k == 0 || mask >> (k - 1) & 1 == 1).collect();
    (0..1 << (slots - 1)).map(table).collect()
}

/// The cleaning of each block of each of these tables.
pub fn each_cleaned(tables: &[Vec<u32>]) -> impl Iterator<Item = Call> + '_ {
    tables.iter().flat_map(|starts| (0..starts.len() as u32).map(move |block| Call::Clean { starts: starts.clone(), block }))
}
