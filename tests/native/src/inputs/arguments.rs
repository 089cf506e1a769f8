//! Arguments for the calls on a volume: most fit it.

use super::{blocks, boundary};
use crate::cleaning::twins;
use crate::interface::{MOST_BLOCKS, MOST_DOUBTFUL, NONE};
use crate::random::Random;
use crate::rules::{entry, table_sound};
use crate::volume::{Sizes, Volume};

/// A list of numbers below n as it is, or with a repeat, an entry out of range, or empty.
fn spoiled(random: &mut Random, mut list: Vec<u32>, n: u32) -> Vec<u32> {
    match random.below(24) {
        0 => list.clear(),
        1 if !list.is_empty() => list.push(list[0]),
        2 => list.push(random.pick(&[n, n + 1, NONE, NONE - 1, 0x8000_0000])),
        3 => list.insert(0, random.pick(&[n, NONE])),
        4 if n < 300 => list = (0..n).collect(),
        5 => list = (0..random.below(2 * n + 2)).map(|_| random.below(n)).collect(),
        _ => {}
    }
    list
}

pub fn pages_to_launch(random: &mut Random, v: &Volume) -> Vec<u32> {
    let pages = v.sizes.pages;
    let free: Vec<u32> = (0..pages).filter(|&p| !entry(&v.state, p).in_flight()).collect();
    let list = if random.one_in(4) || free.is_empty() { random.subset(pages) } else { random.some_of(free, pages) };
    spoiled(random, list, pages)
}

pub fn page_and_slot_to_write(random: &mut Random, v: &Volume) -> (u32, u32) {
    let Sizes { pages, slots, .. } = v.sizes;
    let waiting: Vec<u32> = (0..pages).filter(|&p| entry(&v.state, p).in_flight() && entry(&v.state, p).written == 0).collect();
    let blank = v.blank_slots();
    let page = if random.one_in(5) || waiting.is_empty() { random.below(pages) } else { random.pick(&waiting) };
    let slot = if random.one_in(5) || blank.is_empty() { random.below(slots) } else { random.pick(&blank) };
    match random.below(20) {
        0 => (boundary(random, v.sizes), slot),
        1 => (page, boundary(random, v.sizes)),
        _ => (page, slot),
    }
}

pub fn page_to_take(random: &mut Random, v: &Volume) -> u32 {
    if random.one_in(10) {
        boundary(random, v.sizes)
    } else {
        random.below(v.sizes.pages)
    }
}

/// Slots that may be erased, or any that hold an obsolete or exposed record, or twins, or any at all.
pub fn slots_to_erase(random: &mut Random, v: &Volume) -> Vec<u32> {
    let Sizes { family, pages, slots, .. } = v.sizes;
    let sound = table_sound(family, pages, &v.words);
    let tried: Vec<u32> = if slots > 200 { (0..20).map(|i| (i * 53 + random.below(53)) % slots).collect() } else { (0..slots).collect() };
    let how = random.below(8);
    if how == 6 {
        let list = twins_of(random, v);
        return spoiled(random, list, slots);
    }
    let goes = |k: u32| match v.slot(k) {
        Some(_) if how < 4 => v.may_erase(k),
        Some(r) => r.v != entry(&v.state, r.p).committed,
        None => false,
    };
    let chosen: Vec<u32> = tried.into_iter().filter(|&k| sound && how < 7 && goes(k)).collect();
    let list = random.some_of(if chosen.is_empty() { (0..slots).collect() } else { chosen }, slots);
    spoiled(random, list, slots)
}

/// A slot with its twins, or all of these but one.
fn twins_of(random: &mut Random, v: &Volume) -> Vec<u32> {
    let k = random.below(v.sizes.slots);
    let mut list: Vec<u32> = (0..v.sizes.slots).filter(|&l| k == l || twins(v.view(), k, l)).collect();
    random.shuffle(&mut list);
    if list.len() > 1 && random.one_in(2) {
        list.pop();
    }
    list
}

/// Slots that hold records: most often none to two, now and then as many as are taken or more, on a large volume one at most; now and then
/// with a blank one among them, or spoiled.
pub fn slots_to_doubt(random: &mut Random, v: &Volume) -> Vec<u32> {
    let slots = v.sizes.slots;
    let (mut held, mut blank): (Vec<u32>, Vec<u32>) = (0..slots).partition(|&k| v.slot(k).is_some());
    random.shuffle(&mut held);
    let number = match random.below(1000) {
        0..=19 => MOST_DOUBTFUL as u32 + 1 + random.below(3),
        _ if slots > 200 => random.below(2),
        20 => MOST_DOUBTFUL as u32,
        21..=50 => 3 + random.below(3),
        _ => random.below(3),
    };
    held.truncate(number as usize);
    if random.one_in(16) {
        held.extend(blank.pop());
        random.shuffle(&mut held);
    }
    spoiled(random, held, slots)
}

/// A table of blocks, now and then a broken one, and a block of it, or now and then a number that is none.
pub fn blocks_to_clean(random: &mut Random, v: &Volume) -> (Vec<u32>, u32) {
    let starts = blocks::any(random, v.sizes.slots);
    let blocks = starts.len() as u32;
    let block = match random.below(24) {
        0 => boundary(random, v.sizes),
        1 => random.pick(&[blocks, blocks + 1, 15, 16, 17, 1 << 30, (1 << 30) + 1, NONE]),
        _ => random.below(blocks),
    };
    (starts, block)
}

/// How many blocks of a table a pick is to look at: up to two more than there are, now and then none or far more.
pub fn blocks_to_look_at(random: &mut Random, starts: &[u32]) -> u32 {
    match random.below(12) {
        0 => 0,
        1 => random.pick(&[MOST_BLOCKS as u32, MOST_BLOCKS as u32 + 1, 1 << 16, 1 << 31, NONE - 1, NONE]),
        _ => 1 + random.below(starts.len() as u32 + 2),
    }
}
