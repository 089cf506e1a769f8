//! Document 02's sentences on twins: when recovery takes them, when they may be erased, and which of them suggest names.

use super::answer;
use crate::interface::{Calls, Reply, NONE};
use crate::rules::{entry, slot_bytes, slot_words};
use crate::volume::{Call, Layout, Volume};

/// A volume of two pages and eight slots with these records; those of one filling have equal bytes.
fn filled(layout: Layout, held: &[([u32; 5], u8)]) -> Volume {
    let records: Vec<[u32; 5]> = held.iter().map(|&(record, _)| record).collect();
    let mut v = Volume::with_records(layout.sizes(2, 8), &records);
    for (k, &(_, fill)) in (0..).zip(held) {
        v.contents[slot_bytes(layout.width, k)].fill(fill);
    }
    v
}

/// Case 3 with twins of page 0's record and of page 1's formatted one, in the slots 2, 4 and 6 and in 1 and 5, and recovered.
fn twinned(calls: &dyn Calls, layout: Layout) -> Volume {
    let (old, new, other) = ([1, 0, 0, 1, 0], [0, 1, 0, 1, 1], [1, 1, 0, 0, 1]);
    let mut v = filled(layout, &[([0, 0, 0, 0, 0], 0), (old, 0), (new, 7), (other, 8), (new, 7), (old, 0), (new, 7)]);
    assert_eq!(v.call(calls, &Call::Recover), Reply::done(2 + 2), "twins of a highest record count once");
    assert_eq!([0, 1].map(|p| entry(&v.state, p).committed), [1, 1]);
    v
}

/// "For equal page and version recovery gives 3 only if the two are no twins": a byte or a word makes the difference.
pub fn recoveries(calls: &dyn Calls, layout: Layout) {
    let v = twinned(calls, layout);
    for at in 0..layout.width as usize {
        let mut v = v.clone();
        v.contents[slot_bytes(layout.width, 6)][at] ^= 1;
        assert_eq!(v.call(calls, &Call::Recover), Reply::refused(3), "byte {at} differs");
    }
    let old = [[1, 0, 0, 1, 0], [1, 0, 0, 0, 0], [1, 0, 0, 0, 5]];
    let new = [[0, 1, 0, 0, 1], [0, 1, 0, 1, 0], [0, 1, 0, 1, 2]];
    for (slot, record, expected) in [(5, old[0], 0), (5, old[1], 3), (5, old[2], 3), (6, new[0], 3), (6, new[1], 3), (6, new[2], 3)] {
        let mut v = v.clone();
        v.words[slot_words(layout.family, slot)].copy_from_slice(&record);
        assert_eq!(answer(calls, &mut v, Call::Recover), expected, "slot {slot} holds {record:?}");
    }
    let mut back = filled(layout, &[([0, 2, 0, 0, 2], 7), ([0, 2, 1, 0, 2], 7), ([1, 0, 0, 1, 0], 7)]);
    assert_eq!(back.call(calls, &Call::Recover), Reply::refused(3), "another back pointer");
    let mut lone = filled(layout, &[([0, 0, 0, 0, 0], 7), ([0, 0, 0, 0, 0], 7)]);
    assert_eq!(lone.call(calls, &Call::Recover), Reply::refused(3), "twins, and a page without a record");
}

/// "A slot whose twin is outside the erase list may always be erased, and if all twins are listed the old rule judges them."
pub fn erasures(calls: &dyn Calls, layout: Layout) {
    let v = twinned(calls, layout);
    let erased = |v: &Volume, list: &[u32]| answer(calls, &mut v.clone(), Call::Erase(list.to_vec()));
    for list in [&[2][..], &[4], &[6], &[2, 4], &[6, 2], &[4, 6], &[0, 1, 2, 4, 5]] {
        assert_eq!(erased(&v, list), 0, "committed twins, {list:?}");
    }
    for list in [&[2, 4, 6][..], &[6, 4, 2], &[3], &[2, 3], &[0, 4, 2, 6], &[7]] {
        assert_eq!(erased(&v, list), 12, "all committed twins, a lone committed record or a blank slot, {list:?}");
    }
    assert_eq!((erased(&v, &[1]), erased(&v, &[5]), erased(&v, &[1, 5])), (0, 0, 0), "obsolete twins");
    let mut other = v.clone();
    other.contents[slot_bytes(layout.width, 6)][0] ^= 1;
    assert_eq!((erased(&other, &[6]), erased(&other, &[2]), erased(&other, &[2, 4])), (12, 0, 12), "another byte");
}

/// What is in flight at used, and a needed straddler, may go only where a twin stays.
pub fn kept_twins(calls: &dyn Calls, layout: Layout) {
    let erased = |v: &Volume, list: &[u32]| answer(calls, &mut v.clone(), Call::Erase(list.to_vec()));
    let mut v = Volume::formatted(calls, layout.sizes(2, 8));
    assert_eq!(answer(calls, &mut v, Call::Launch(vec![0, 1])), 0);
    assert_eq!(v.call(calls, &Call::Write { page: 0, slot: 3, bytes: vec![7; layout.width as usize] }), Reply::done(0));
    assert_eq!(erased(&v, &[3]), 12, "in flight at used");
    v.copy_within(3, 5);
    assert_eq!((erased(&v, &[3]), erased(&v, &[5]), erased(&v, &[3, 5])), (0, 0, 12), "in flight at used, and a twin");
    let (straddler, exposed) = ([1, 2, 0, 1, 2], [0, 1, 0, 1, 1]);
    let mut v = filled(layout, &[([0, 0, 0, 0, 0], 0), (exposed, 1), (straddler, 2), ([1, 3, 2, 1, 3], 3), (straddler, 2), (exposed, 1)]);
    assert_eq!(answer(calls, &mut v, Call::Recover), 0);
    assert_eq!((erased(&v, &[2]), erased(&v, &[4]), erased(&v, &[2, 4])), (0, 0, 12), "a needed straddler and its twin");
    assert_eq!((erased(&v, &[1, 5]), erased(&v, &[1, 2, 4, 5])), (0, 12), "the records that need it, alone and with it");
    assert_eq!(answer(calls, &mut v, Call::Erase(vec![1])), 0);
    assert_eq!(erased(&v, &[2, 4]), 12, "one of these is left");
    assert_eq!(answer(calls, &mut v, Call::Erase(vec![5])), 0);
    assert_eq!(erased(&v, &[2, 4]), 0, "none is left");
}

/// "Suggest judges a list of one": the lower twin even of a committed record.
pub fn suggestions(calls: &dyn Calls, layout: Layout) {
    let mut v = twinned(calls, layout);
    for named in [0, 1, 2, 4, 5] {
        assert_eq!(v.suggest(calls), Reply::done(named));
        assert_eq!(answer(calls, &mut v, Call::Erase(vec![named])), 0);
    }
    assert_eq!(v.suggest(calls), Reply { answer: 13, second: NONE }, "each record once");
    let mut v = Volume::formatted(calls, layout.sizes(1, 4));
    v.copy_within(0, 2);
    assert_eq!(v.suggest(calls), Reply::done(0), "the lower twin of a committed record");
    v.contents[slot_bytes(layout.width, 2)][31] = 1;
    assert_eq!(v.suggest(calls), Reply { answer: 13, second: NONE }, "no twin");
}
