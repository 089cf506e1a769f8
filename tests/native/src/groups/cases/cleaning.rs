//! Document 02's sentences on cleaning, with blocks of 64 slots.

use super::answer;
use crate::cleaning::blocks_of;
use crate::interface::{Calls, Reply, NONE};
use crate::rules::{entry, slot_bytes};
use crate::volume::{Call, Layout, Volume};
use std::ops::Range;

/// Stores a page alone.
pub(super) fn store(calls: &dyn Calls, v: &mut Volume, page: u32, slot: u32) {
    assert_eq!(answer(calls, v, Call::Launch(vec![page])), 0);
    assert_eq!(v.call(calls, &write(v, page, slot)), Reply::done(1));
}

/// A write of a page with bytes of the slot's number.
fn write(v: &Volume, page: u32, slot: u32) -> Call {
    Call::Write { page, slot, bytes: vec![slot as u8; v.sizes.width as usize] }
}

/// The cleaning of a block of a table.
pub(super) fn clean(starts: &[u32], block: u32) -> Call {
    Call::Clean { starts: starts.to_vec(), block }
}

/// Cleaning is done and makes these copies, each (from, to), blanks its block, these slots, and alters nothing else.
pub(super) fn assert_done(calls: &dyn Calls, v: &mut Volume, clean: &Call, slots: Range<u32>, copies: &[(u32, u32)], name: &str) {
    let mut expected = v.clone();
    copies.iter().for_each(|&(from, to)| expected.copy_within(from, to));
    for k in slots {
        expected.words[5 * k as usize..][..5].fill(NONE);
        expected.contents[slot_bytes(v.sizes.width, k)].fill(255);
    }
    assert_eq!(v.call(calls, clean), Reply::done(0), "{name}");
    assert!(*v == expected, "{name}: {:?}", v.records());
}

/// Cleaning is refused and alters nothing.
pub(super) fn assert_not_done(calls: &dyn Calls, v: &Volume, clean: &Call, expected: u32, name: &str) {
    let mut after = v.clone();
    assert_eq!(after.call(calls, clean), Reply::refused(expected), "{name}");
    assert!(after == *v, "{name}: altered");
}

/// The cleaning of a block of 64 slots is done, …
fn assert_cleans(calls: &dyn Calls, v: &mut Volume, block: u32, copies: &[(u32, u32)], name: &str) {
    let slots = v.sizes.slots;
    assert_done(calls, v, &clean(&blocks_of(64, slots), block), 64 * block..slots.min(64 * block + 64), copies, name);
}

/// … or refused.
fn assert_refused(calls: &dyn Calls, v: &Volume, block: u32, expected: u32, name: &str) {
    assert_not_done(calls, v, &clean(&blocks_of(64, v.sizes.slots), block), expected, name);
}

/// What may not be erased is copied with its contents, rising, to the lowest blank slots outside, and the set in flight goes on.
pub fn copies(calls: &dyn Calls, layout: Layout) {
    let mut v = Volume::formatted(calls, layout.sizes(3, 130));
    store(calls, &mut v, 1, 65);
    assert_eq!(answer(calls, &mut v, Call::Launch(vec![0, 2])), 0);
    assert_eq!(v.call(calls, &write(&v, 0, 5)), Reply::done(0));
    v.contents[slot_bytes(layout.width, 40)].fill(9);
    let before = v.clone();
    assert_cleans(calls, &mut v, 0, &[(0, 64), (2, 66), (5, 67)], "block 0");
    assert_cleans(calls, &mut v, 2, &[], "a blank block");
    assert_cleans(calls, &mut v, 1, &[(64, 0), (65, 1), (66, 2), (67, 3)], "block 1");
    assert_eq!(v.call(calls, &write(&v, 2, 129)), Reply::done(1), "the set is stored");
    assert_eq!([0, 1, 2].map(|p| entry(&v.state, p).committed), [1, 1, 1]);
    assert_cleans(calls, &mut v, 0, &[(1, 64), (3, 65)], "block 0 again");
    assert_cleans(calls, &mut before.clone(), 1, &[(65, 3)], "to a blank slot between others");
}

/// "Of twins within the block only the lowest", and none that has a twin outside.
pub fn twins(calls: &dyn Calls, layout: Layout) {
    let mut v = Volume::formatted(calls, layout.sizes(2, 70));
    for (page, slot) in [(0, 9), (1, 11)] {
        store(calls, &mut v, page, slot);
    }
    v.copy_within(11, 4);
    v.copy_within(11, 63);
    assert_cleans(calls, &mut v.clone(), 0, &[(4, 64), (9, 65)], "twins within the block");
    let mut other = v.clone();
    other.contents[slot_bytes(layout.width, 63)][0] ^= 1;
    assert_cleans(calls, &mut other, 0, &[(4, 64), (9, 65), (63, 66)], "one of them with another byte");
    v.copy_within(11, 67);
    assert_cleans(calls, &mut v.clone(), 0, &[(9, 64)], "a twin outside too");
    assert_cleans(calls, &mut v.clone(), 1, &[], "a committed record with twins outside");
    v.copy_within(9, 68);
    assert_cleans(calls, &mut v, 0, &[], "twins of all outside");
    assert_eq!(answer(calls, &mut v, Call::Recover), 0);
    let mut out = vec![0; layout.width as usize];
    assert_eq!(v.read(calls, 1, &mut out).answer, 0);
    assert_eq!(out, vec![11; layout.width as usize]);
}

/// "15, too few blank slots outside": exactly where fewer are blank than records are copied, twins counted once.
pub fn limit(calls: &dyn Calls, layout: Layout) {
    for pages in 1..=4 {
        for slots in 65..=70 {
            let v = Volume::formatted(calls, layout.sizes(pages, slots));
            if slots - 64 < pages {
                assert_refused(calls, &v, 0, 15, "too few blank slots");
            } else {
                let copies: Vec<(u32, u32)> = (0..pages).map(|k| (k, 64 + k)).collect();
                assert_cleans(calls, &mut v.clone(), 0, &copies, "enough blank slots");
            }
        }
    }
    assert_refused(calls, &Volume::formatted(calls, layout.sizes(1, 64)), 0, 15, "no slot outside");
    let mut v = Volume::formatted(calls, layout.sizes(1, 65));
    (1..=64).for_each(|slot| store(calls, &mut v, 0, slot));
    assert_refused(calls, &v, 1, 15, "a full volume");
    v.copy_within(64, 20);
    assert_cleans(calls, &mut v.clone(), 1, &[], "a full volume, a twin outside");
    assert_cleans(calls, &mut v, 0, &[], "a full volume, nothing to copy");
    let mut v = Volume::formatted(calls, layout.sizes(2, 66));
    v.copy_within(0, 7);
    v.copy_within(0, 8);
    assert_cleans(calls, &mut v, 0, &[(0, 64), (1, 65)], "four records, two without their twins");
}

/// "Block numbers then run below its length; others are 6."
pub fn blocks(calls: &dyn Calls, layout: Layout) {
    for slots in [1, 63, 64, 65, 128, 129, 960, 961, 1023, 1024] {
        let v = Volume::formatted(calls, layout.sizes(1, slots));
        for block in [0, 1, 2, 14, 15, 16, 17, 255, 1 << 25, 1 << 26, (1 << 26) + 1, 1 << 30, 1 << 31, NONE - 1, NONE] {
            match (block, slots) {
                (0, 1..=64) => assert_refused(calls, &v, block, 15, "the only block"),
                (0, _) => assert_cleans(calls, &mut v.clone(), block, &[(0, 64)], "block 0"),
                (1..=15, _) if 64 * block < slots => assert_cleans(calls, &mut v.clone(), block, &[], "a blank block"),
                _ => assert_refused(calls, &v, block, 6, "no such block"),
            }
        }
    }
    let mut v = Volume::formatted(calls, layout.sizes(1, 961));
    store(calls, &mut v, 0, 960);
    assert_cleans(calls, &mut v, 15, &[(960, 1)], "block 15 has one slot");
}

/// Case 6's needed straddler is copied even where the exposed record that needs it leaves in the same cleaning; when that is gone, the
/// straddler goes, too.
pub fn straddlers(calls: &dyn Calls, layout: Layout) {
    let held = [[0, 0, 0, 0, 0], [0, 1, 0, 1, 1], [1, 2, 0, 2, 1], [2, 1, 0, 1, 2], [1, 3, 2, 1, 3]];
    let mut v = Volume::with_records(layout.sizes(3, 70), &held);
    assert_eq!(answer(calls, &mut v, Call::Recover), 0);
    assert_eq!([0, 1, 2].map(|p| entry(&v.state, p).committed), [0, 3, 1]);
    assert_cleans(calls, &mut v, 0, &[(0, 64), (2, 65), (3, 66), (4, 67)], "with the straddler, without the exposed record");
    assert_cleans(calls, &mut v, 1, &[(64, 0), (66, 1), (67, 2)], "without the straddler");
    assert_eq!(answer(calls, &mut v, Call::Recover), 0);
    assert_eq!([0, 1, 2].map(|p| entry(&v.state, p).committed), [0, 3, 1]);
}

/// A crash after any copy leaves twins, which recovery takes and the next cleaning does not copy again.
pub fn crashes(calls: &dyn Calls, layout: Layout) {
    let mut v = Volume::formatted(calls, layout.sizes(3, 130));
    (0..3).for_each(|page| store(calls, &mut v, page, 10 + page));
    let mut cleaned = v.clone();
    assert_cleans(calls, &mut cleaned, 0, &[(10, 64), (11, 65), (12, 66)], "without a crash");
    for copies in 0..=3 {
        let mut v = v.clone();
        (64..64 + copies).for_each(|k| v.copy_slot(&cleaned, k));
        v.state.fill(NONE);
        assert_eq!(answer(calls, &mut v, Call::Recover), 0, "after {copies} copies");
        let again: Vec<(u32, u32)> = (copies..3).map(|i| (10 + i, 64 + i)).collect();
        assert_cleans(calls, &mut v, 0, &again, "the rest of the copies");
        assert!(v.words == cleaned.words && v.contents == cleaned.contents, "the same flash after {copies} copies");
    }
}
