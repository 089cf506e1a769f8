//! Document 02's sentences on the sweep: what goes in which of its three erasings, what stays, and what a cut in it leaves.

use super::cleaning::store;
use super::five_words::case_6;
use super::{answer, slot_of};
use crate::cleaning;
use crate::crash::stages;
use crate::groups::models::actions::subsets;
use crate::interface::{Calls, Reply, NONE};
use crate::rules::{entry, set_entry, slot_bytes, Entry};
use crate::sweeping::{self, assert_left};
use crate::volume::{Call, Layout, Volume};

/// A sweep is done and blanks these slots, in these erasings, and alters nothing else; then nothing may be erased.
fn assert_sweeps(calls: &dyn Calls, v: &mut Volume, erasings: [&[u32]; 3], name: &str) {
    let before = v.clone();
    let mut expected = v.clone();
    expected.blank(&erasings.concat());
    assert_eq!(v.call(calls, &Call::Sweep), Reply::done(0), "{name}");
    assert!(*v == expected, "{name}: {:?}", v.records());
    assert_eq!(sweeping::erasings(&before, cleaning::twins), erasings, "{name}");
    assert_eq!(v.suggest(calls), Reply { answer: 13, second: NONE }, "{name}");
}

/// … and the driver tells them by the old records and the state.
fn assert_driven(calls: &dyn Calls, v: &mut Volume, erasings: [&[u32]; 3], name: &str) {
    let before = v.clone();
    assert_sweeps(calls, v, erasings, name);
    assert_eq!(stages(&Call::Sweep, &before, v), erasings, "{name}");
}

/// A sweep that is refused alters nothing.
fn assert_refused(calls: &dyn Calls, v: &Volume, expected: u32, name: &str) {
    let mut after = v.clone();
    assert_eq!(after.call(calls, &Call::Sweep), Reply::refused(expected), "{name}");
    assert!(after == *v, "{name}: altered");
}

/// Writes a page in flight.
fn write(calls: &dyn Calls, v: &mut Volume, page: u32, slot: u32) -> u32 {
    let bytes = vec![slot as u8; v.sizes.width as usize];
    v.call(calls, &Call::Write { page, slot, bytes }).second
}

/// Case 6's straddler may not go beside the exposed record that needs it, and does behind it. With the straddler gone first, a cut would
/// give page 0 what a set that was never stored whole had of it.
pub fn straddler(calls: &dyn Calls, layout: Layout) {
    let mut v = case_6(calls, layout);
    let [exposed, straddler] = [[0, 1, 0, 1, 1], [1, 2, 0, 2, 1]].map(|record| slot_of(&v, record));
    assert_eq!((exposed, straddler), (3, 4));
    let (before, mut wrong) = (v.clone(), v.clone());
    assert_eq!(answer(calls, &mut v.clone(), Call::Erase(vec![1, 2, 3, 4])), 12, "all in one erase");
    assert_driven(calls, &mut v, [&[3], &[1, 2, 4], &[]], "case 6");
    assert_left(&v);
    wrong.blank(&[straddler]);
    assert_eq!(answer(calls, &mut wrong, Call::Recover), 0);
    assert_eq!([&before, &wrong].map(|v| entry(&v.state, 0).committed), [0, 1], "the straddler gone first");
    assert!(v.recovered(calls, "case 6 swept") == before.recovered(calls, "case 6"), "case 6 keeps its contents");
}

/// "Of other twins keeps the lowest": those of what goes go with it, and what differs in a byte is no twin.
pub fn twins(calls: &dyn Calls, layout: Layout) {
    let mut v = Volume::formatted(calls, layout.sizes(2, 12));
    store(calls, &mut v, 0, 7);
    assert_eq!(answer(calls, &mut v, Call::Launch(vec![0, 1])), 0);
    assert_eq!(write(calls, &mut v, 1, 5), 0);
    assert_eq!(answer(calls, &mut v, Call::Withdraw(0)), 0);
    for (from, to) in [(0, 2), (1, 3), (5, 4), (7, 6), (7, 11)] {
        v.copy_within(from, to);
    }
    assert_driven(calls, &mut v.clone(), [&[4, 5], &[0, 2], &[3, 7, 11]], "twins of all kinds");
    v.contents[slot_bytes(layout.width, 6)][layout.width as usize - 1] ^= 1;
    assert_driven(calls, &mut v, [&[4, 5], &[0, 2], &[3, 11]], "another byte");
}

/// "Other than one whose page is in flight with v = used": a page written keeps its record, once, and the set is then stored; one that is
/// not written yet has none to keep.
pub fn in_flight(calls: &dyn Calls, layout: Layout) {
    let mut v = Volume::formatted(calls, layout.sizes(2, 12));
    assert_eq!(answer(calls, &mut v, Call::Launch(vec![0, 1])), 0);
    assert_eq!(write(calls, &mut v, 0, 3), 0);
    assert_eq!(answer(calls, &mut v, Call::Withdraw(0)), 0);
    assert_eq!(answer(calls, &mut v, Call::Launch(vec![1, 0])), 0);
    assert_driven(calls, &mut v.clone(), [&[3], &[], &[]], "in flight, not written");
    assert_eq!(write(calls, &mut v, 0, 9), 0);
    v.copy_within(9, 2);
    assert_driven(calls, &mut v, [&[3], &[], &[9]], "in flight, page 0 written");
    assert_left(&v);
    assert_eq!(v.records().len(), 2 + 1);
    assert_eq!(write(calls, &mut v, 1, 3), 1, "the set is stored");
    assert_driven(calls, &mut v, [&[], &[0, 1], &[]], "stored");
    assert_left(&v);
}

/// Nothing goes where nothing may: 0, and not 13.
pub fn nothing(calls: &dyn Calls, layout: Layout) {
    for slots in [3, 4, 20, 1024] {
        let mut v = Volume::formatted(calls, layout.sizes(3, slots));
        assert_driven(calls, &mut v, [&[]; 3], "a formatted volume");
        assert_eq!(answer(calls, &mut v, Call::Launch(vec![0, 2])), 0);
        assert_driven(calls, &mut v, [&[]; 3], "two pages launched");
    }
}

/// By hand, and after no list of calls: (0, 1, 0, 1, 1) is exposed and its page in flight at used, so that it stays, and with it the
/// obsolete record that straddles its link; of twins of either the lowest. What outdoes the straddler lets it go.
pub fn kept_straddler(calls: &dyn Calls, layout: Layout) {
    let (kept, straddler) = ([0, 1, 0, 1, 1], [1, 2, 0, 1, 2]);
    let mut v = Volume::with_records(layout.sizes(2, 9), &[[0, 0, 0, 0, 0], straddler, kept, [1, 4, 3, 1, 4], [1, 0, 0, 1, 0]]);
    set_entry(&mut v.state, 0, Entry { committed: 0, used: 1, next: 0, written: 1 });
    set_entry(&mut v.state, 1, Entry { committed: 4, used: 4, next: NONE, written: 0 });
    assert_sweeps(calls, &mut v.clone(), [&[], &[4], &[]], "a straddler needed by a record in flight");
    v.copy_within(1, 6);
    v.copy_within(2, 5);
    assert_sweeps(calls, &mut v.clone(), [&[], &[4], &[5, 6]], "and twins of both");
    let outdoing = Volume::with_records(layout.sizes(2, 9), &[[1, 3, 0, 1, 3]; 9]);
    v.copy_slot(&outdoing, 7);
    assert_sweeps(calls, &mut v.clone(), [&[], &[1, 4, 6], &[5]], "outdone, and its twin with it");
    set_entry(&mut v.state, 0, Entry { committed: 0, used: 2, next: 0, written: 0 });
    assert_sweeps(calls, &mut v, [&[2, 5], &[1, 4, 6, 7], &[]], "in flight above its version");
}

/// "It refuses by 1, 2 and 5 as erase does", in this order, each cured before the next.
pub fn refusals(calls: &dyn Calls, layout: Layout) {
    let sound = case_6(calls, layout);
    let mut v = sound.clone();
    v.contents.pop();
    v.words[3] = 3;
    v.state[3] = 1;
    assert_refused(calls, &v, 1, "a byte too few");
    v.contents = sound.contents.clone();
    assert_refused(calls, &v, 2, "an unsound slot");
    v.words = sound.words.clone();
    assert_refused(calls, &v, 5, "written and not in flight");
    v.state.fill(NONE);
    assert_refused(calls, &v, 5, "a lost state");
    for pages in [0, 2, 4, 9] {
        let mut v = sound.clone();
        v.sizes.pages = pages;
        assert_refused(calls, &v, 1, "other pages");
    }
}

/// A cut with any part of an erasing done and those before it finished: recovery finds the same contents, and another sweep the same records.
pub fn cuts(calls: &dyn Calls, layout: Layout) {
    let mut v = case_6(calls, layout);
    v.copy_within(7, 6);
    v.copy_within(0, 1);
    let mut after = v.clone();
    let lists: [&[u32]; 3] = [&[3], &[2, 4], &[1, 7]];
    assert_driven(calls, &mut after, lists, "without a cut");
    let contents = v.clone().recovered(calls, "before the sweep");
    for erasing in lists {
        for part in subsets(erasing) {
            let mut cut = v.clone();
            cut.blank(&part);
            cut.state.fill(NONE);
            assert!(cut.clone().recovered(calls, "after a cut") == contents, "other contents with {part:?} blank");
            assert_eq!(answer(calls, &mut cut, Call::Recover), 0);
            assert_eq!(answer(calls, &mut cut, Call::Sweep), 0);
            assert_eq!(cut.words, after.words, "swept after a cut with {part:?} blank");
        }
        v.blank(erasing);
    }
}
