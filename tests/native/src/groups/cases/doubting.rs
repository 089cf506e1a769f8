//! Document 02's sentences on doubtful slots: what the fillings give, which of them recover, and what is refused.

use super::answer;
use super::five_words::case_6;
use crate::doubting::Ends;
use crate::interface::{Arguments, Calls, Name, Reply, NONE};
use crate::rules::{slot_bytes, Record, LAST_VERSION};
use crate::volume::{Call, Layout, Volume, LENT};

type Five = [u32; 5];

/// So many fillings recover, each page has these ends, in whatever order the slots are listed, and nothing else is altered.
fn assert_ends(calls: &dyn Calls, v: &Volume, list: &[u32], number: u32, ends: &[Ends], name: &str) {
    let falling: Vec<u32> = list.iter().rev().copied().collect();
    for list in [list, &falling] {
        assert_eq!(v.doubted(calls, list), (number, ends.to_vec()), "{name}, slots {list:?} in doubt");
    }
}

/// A refused call alters nothing.
fn assert_refused(calls: &dyn Calls, v: &Volume, list: &[u32], expected: u32, name: &str) {
    let mut after = v.clone();
    let words = vec![LENT; 2 * v.sizes.pages as usize];
    assert_eq!(after.doubtful(calls, list), (Reply::refused(expected), words), "{name}, slots {list:?} in doubt");
    assert!(after == *v, "{name}: altered");
}

/// A volume of these records in its lowest slots and of one blank slot, its state lost.
fn holding(layout: Layout, pages: u32, held: &[Five]) -> Volume {
    Volume::with_records(layout.sizes(pages, held.len() as u32 + 1), held)
}

/// Two pages, formatted in the slots 0 and 1, and then stored in one set in the slots 2 and 3.
fn set_of_two(calls: &dyn Calls, layout: Layout) -> Volume {
    let mut v = Volume::formatted(calls, layout.sizes(2, 6));
    assert_eq!(answer(calls, &mut v, Call::Launch(vec![0, 1])), 0);
    for page in 0..2 {
        assert_eq!(answer(calls, &mut v, Call::Write { page, slot: 2 + page, bytes: vec![7; layout.width as usize] }), 0);
    }
    v
}

/// "An empty list gives recovery's own versions", whatever the state is, and 20 where recovery refuses.
pub fn empty(calls: &dyn Calls, layout: Layout) {
    let v = set_of_two(calls, layout);
    assert_ends(calls, &v, &[], 1, &[[1, 1], [1, 1]], "a set of two");
    let mut lost = v.clone();
    lost.state.fill(NONE);
    assert_ends(calls, &lost, &[], 1, &[[1, 1], [1, 1]], "a set of two, the state lost");
    assert_ends(calls, &case_6(calls, layout), &[], 1, &[[0, 0], [3, 3], [1, 1]], "case 6");
    let refused: [(u32, &[Five], &str); 4] = [
        (2, &[[0, 0, 0, 0, 0]], "a page without a record"),
        (1, &[[0, 0, 0, 0, 0], [0, 0, 0, 0, 0]], "records that clash"),
        (3, &[[0, 1, 0, 1, 1], [1, 1, 0, 2, 1], [2, 1, 0, 1, 1]], "case 9"),
        (2, &[[0, 2, 1, 1, 5], [1, 0, 0, 1, 0]], "case 10"),
    ];
    for (pages, held, name) in refused {
        assert_refused(calls, &holding(layout, pages, held), &[], 20, name);
    }
}

/// "The lowest and highest committed version over all fillings": a set of two pages comes back whole or not at all.
pub fn set(calls: &dyn Calls, layout: Layout) {
    let v = set_of_two(calls, layout);
    for list in [&[2][..], &[3]] {
        assert_ends(calls, &v, list, 2, &[[0, 1], [0, 1]], "one record of the set");
    }
    assert_ends(calls, &v, &[2, 3], 4, &[[0, 1], [0, 1]], "both of the set");
    assert_ends(calls, &v, &[0, 1], 4, &[[1, 1], [1, 1]], "what the set replaced");
    assert_ends(calls, &v, &[0, 3], 3, &[[0, 1], [0, 1]], "one of the set, and what page 0 falls back to: without both it has nothing");
    assert_ends(calls, &v, &[0, 2], 3, &[[0, 1]; 2], "all that page 0 has");
}

/// "Over all fillings whose recovery succeeds": the others count for nothing.
pub fn failing(calls: &dyn Calls, layout: Layout) {
    let formatted = Volume::formatted(calls, layout.sizes(3, 5));
    for list in [&[0][..], &[1, 2], &[0, 1, 2]] {
        assert_ends(calls, &formatted, list, 1, &[[0, 0]; 3], "each page's only record, the volume alone recovers");
    }
    let nine = [[0, 0, 0, 0, 0], [1, 0, 0, 1, 0], [2, 0, 0, 2, 0], [0, 1, 0, 1, 1], [1, 1, 0, 2, 1], [2, 1, 0, 1, 1]];
    let nine = holding(layout, 3, &nine);
    assert_refused(calls, &nine, &[], 20, "links astray");
    assert_ends(calls, &nine, &[3], 1, &[[0, 0], [1, 1], [1, 1]], "links astray, and not without the first record");
    assert_ends(calls, &nine, &[4], 1, &[[0, 0]; 3], "nor without another");
    assert_ends(calls, &nine, &[3, 4, 5], 7, &[[0, 0], [0, 1], [0, 1]], "each of these in doubt");
    let ten = [[0, 2, 1, 1, 5], [1, 0, 0, 1, 0], [0, 1, 0, 0, 1], [0, 0, 0, 0, 0]];
    let ten = holding(layout, 2, &ten);
    assert_ends(calls, &ten, &[2], 1, &[[1, 1], [0, 0]], "a committed version that may be missing");
    assert_ends(calls, &ten, &[0, 2], 3, &[[0, 1], [0, 0]], "with the record that needs it");
    assert_ends(calls, &ten, &[0, 2, 3], 5, &[[0, 1], [0, 0]], "and the one before it");
}

/// Records that clash are none where one of them is blank; twins do not, and each of them is in doubt by itself.
pub fn twins(calls: &dyn Calls, layout: Layout) {
    let mut v = set_of_two(calls, layout);
    v.copy_within(3, 4);
    assert_ends(calls, &v, &[3], 2, &[[1, 1]; 2], "one of twins");
    assert_ends(calls, &v, &[3, 4], 4, &[[0, 1]; 2], "both");
    v.copy_within(3, 5);
    assert_ends(calls, &v, &[5, 3, 4], 8, &[[0, 1]; 2], "all three");
    v.contents[slot_bytes(layout.width, 5)][layout.width as usize - 1] ^= 1;
    assert_refused(calls, &v, &[3], 20, "another byte in a slot that is not listed, one of the twins left");
    assert_ends(calls, &v, &[3, 4], 1, &[[1, 1]; 2], "another byte, both twins in doubt");
    assert_ends(calls, &v, &[5], 1, &[[1, 1]; 2], "that slot in doubt");
    assert_ends(calls, &v, &[3, 4, 5], 5, &[[0, 1]; 2], "all of them");
}

/// A record that is missing may raise a version: case 6's straddler shows that page 0's link was never committed.
pub fn straddlers(calls: &dyn Calls, layout: Layout) {
    let v = case_6(calls, layout);
    assert_ends(calls, &v, &[4], 2, &[[0, 1], [3, 3], [1, 1]], "case 6's straddler");
    assert_ends(calls, &v, &[3], 2, &[[0, 0], [3, 3], [1, 1]], "the record that needs it");
    assert_ends(calls, &v, &[3, 4], 4, &[[0, 1], [3, 3], [1, 1]], "both");
    assert_ends(calls, &v, &[0, 4], 3, &[[0, 1], [3, 3], [1, 1]], "the straddler, and what page 0 has without it");
    let ring = [[0, 0, 0, 0, 0], [1, 0, 0, 1, 0], [0, 1, 0, 1, 1], [1, 1, 0, 0, 1], [1, 2, 0, 1, 2]];
    let v = holding(layout, 2, &ring);
    assert_ends(calls, &v, &[4], 2, &[[0, 1], [1, 2]], "each page at its highest, but in different fillings");
    assert_ends(calls, &v, &[2, 3, 4], 8, &[[0, 1], [0, 2]], "every record above 0");
}

/// Versions of one page up to the last there is: the ends are those of some filling, and so are versions between them.
pub fn versions(calls: &dyn Calls, layout: Layout) {
    let all = [0, 1, 2, (1 << 31) - 1, 1 << 31, LAST_VERSION - 1, LAST_VERSION];
    let before = |i: usize| if i == 0 { 0 } else { all[i - 1] };
    let held: Vec<Record> = all.iter().enumerate().map(|(i, &v)| Record { p: 0, v, c: before(i), np: 0, nv: v }).collect();
    let v = Volume::with_records(layout.sizes(1, 9), &held);
    for first in 0..all.len() {
        let list: Vec<u32> = (first as u32 + 1..all.len() as u32).collect();
        assert_ends(calls, &v, &list, 1 << list.len(), &[[all[first], LAST_VERSION]], "the later versions");
    }
    assert_ends(calls, &v, &[0, 1, 2, 3, 4, 5, 6], 127, &[[0, LAST_VERSION]], "every version, one at least there");
}

/// "19, more than 8 doubtful slots": eight are taken, all 256 fillings of them.
pub fn limit(calls: &dyn Calls, layout: Layout) {
    let mut v = Volume::formatted(calls, layout.sizes(1, 12));
    for slot in 1..11 {
        let bytes = vec![slot as u8; layout.width as usize];
        assert_eq!((answer(calls, &mut v, Call::Launch(vec![0])), answer(calls, &mut v, Call::Write { page: 0, slot, bytes })), (0, 0));
    }
    assert_ends(calls, &v, &[0, 1, 2, 3, 4, 5, 6, 7], 256, &[[10, 10]], "eight old versions");
    assert_ends(calls, &v, &[3, 4, 5, 6, 7, 8, 9, 10], 256, &[[2, 10]], "eight new ones");
    assert_refused(calls, &v, &[0, 1, 2, 3, 4, 5, 6, 7, 8], 19, "nine");
    assert_refused(calls, &v, &[0, 1, 2, 3, 4, 5, 6, 7, 8, 9, 10], 19, "every record");
    for (list, name) in [([0, 1, 2, 3, 4, 5, 6, 7, 11], "one of nine blank"), ([0, 1, 2, 3, 4, 5, 6, 7, 0], "one of nine twice")] {
        assert_refused(calls, &v, &list, 6, name);
    }
    assert_refused(calls, &v, &[11, 0, 1, 2, 3, 4, 5, 6, 7], 6, "one of nine blank, the first");
    assert_refused(calls, &v, &[12, 0, 1, 2, 3, 4, 5, 6, 7], 6, "one of nine past the slots");
    let long: Vec<u32> = (0..1025).map(|k| k % 11).collect();
    assert_refused(calls, &v, &long, 6, "1,025 slots");
}

/// "Refused: 1 and 2 as in recovery; 19 … after 6 …; 20 … after 19; a listed blank slot is 6": each cured before the next.
pub fn refusals(calls: &dyn Calls, layout: Layout) {
    let mut sound = Volume::formatted(calls, layout.sizes(2, 12));
    (2..10).for_each(|to| sound.copy_within(0, to));
    sound.contents[slot_bytes(layout.width, 9)][0] ^= 1;
    let (nine, ten) = ([0, 1, 2, 3, 4, 5, 6, 7, 8], [0, 1, 2, 3, 4, 5, 6, 7, 8, 10]);
    let mut v = sound.clone();
    v.words[3] = 2;
    for length in [0, 1, 2, 3, 5, 6, 8, 24, 100] {
        let (mut after, mut ends) = (v.clone(), vec![LENT; length]);
        let own = Arguments { list: &ten, ends: &mut ends, ..after.arguments() };
        assert_eq!(calls.call(Name::Doubtful, &mut { own }), Reply::refused(1), "{length} words");
        assert!(after == v && ends == vec![LENT; length], "{length} words: altered");
    }
    v.contents.pop();
    assert_refused(calls, &v, &ten, 1, "a byte too few");
    v.contents = sound.contents.clone();
    assert_refused(calls, &v, &ten, 2, "an unsound slot");
    assert_refused(calls, &v, &[], 2, "an unsound slot, none listed");
    assert_refused(calls, &v, &[0], 2, "an unsound slot, which is listed");
    v.words = sound.words.clone();
    for wrong in [10, 11, 12, 13, 1 << 30, 1 << 31, NONE - 1, NONE, 4] {
        assert_refused(calls, &v, &[0, 1, 2, 3, 4, 5, 6, 7, 8, wrong], 6, "ten slots, one blank, past the slots or twice");
        assert_refused(calls, &v, &[4, wrong], 6, "two slots");
    }
    assert_refused(calls, &v, &nine, 19, "nine slots, of which some fillings recover");
    let mut lone = v.clone();
    lone.copy_within(0, 1);
    assert_refused(calls, &lone, &nine, 19, "nine slots, and a page without a record");
    assert_refused(calls, &lone, &nine[1..], 20, "eight slots, and a page without a record");
    assert_refused(calls, &v, &[0, 2, 3, 4, 5, 6, 7], 20, "no filling recovers, a twin is left beside what clashes with it");
    assert_refused(calls, &v, &[], 20, "none listed, and the volume does not recover");
    assert_ends(calls, &v, &[9], 1, &[[0, 0]; 2], "what clashes");
    v.state.fill(NONE);
    assert_ends(calls, &v, &[0, 2, 3, 4, 5, 6, 7, 8], 1, &[[0, 0]; 2], "eight twins, of which none may be there, and the state lost");
}
