//! Document 02's sentences on picking a block: which blocks are looked at, what each frees, which is named, how much an unseen one could
//! beat it, and what is refused.

use super::answer;
use super::cleaning::store;
use super::five_words::case_6;
use crate::cleaning::blocks_of;
use crate::interface::{Arguments, Calls, Name, Reply, NONE, PICK_WORDS};
use crate::picking::Words;
use crate::rules::{entry, set_entry, slot_bytes, Entry};
use crate::volume::{Call, Layout, Volume, LENT};

/// Blocks of 2, 3, 1 and, of eleven slots, 5.
const BLOCKS: [u32; 4] = [0, 2, 5, 6];

/// A pick gives these words, alters nothing else, and what is shown of it holds.
fn assert_picks(calls: &dyn Calls, v: &Volume, starts: &[u32], (block, n): (u32, u32), words: Words, name: &str) {
    assert_eq!(v.picked(calls, starts, block, n), words, "{name}: {n} from block {block} on");
}

/// A pick is refused, and alters nothing.
fn assert_refused(calls: &dyn Calls, v: &Volume, starts: &[u32], (block, n): (u32, u32), expected: u32, name: &str) {
    let mut after = v.clone();
    assert_eq!(after.pick(calls, starts, block, n), (Reply::refused(expected), [LENT; PICK_WORDS]), "{name}: {n} from block {block} on");
    assert!(after == *v, "{name}: altered");
}

/// A volume of one page and eleven slots, its committed record in the last; obsolete ones are in each of the four blocks, so many.
fn obsolete(calls: &dyn Calls, layout: Layout, in_blocks: [u32; 4]) -> Volume {
    let mut v = Volume::formatted(calls, layout.sizes(1, 11));
    let slots = BLOCKS.iter().zip(in_blocks).flat_map(|(&start, number)| start..start + number);
    slots.filter(|&slot| slot > 0).for_each(|slot| store(calls, &mut v, 0, slot));
    store(calls, &mut v, 0, 10);
    if in_blocks[0] == 0 {
        assert_eq!(answer(calls, &mut v, Call::Erase(vec![0])), 0);
    }
    v
}

/// "Starting from a named block and going round, look at no more than n blocks and name the one that frees most"; "the blocks looked at
/// (the smaller of n and the table's length)".
pub fn going_round(calls: &dyn Calls, layout: Layout) {
    let v = obsolete(calls, layout, [1, 2, 0, 3]);
    let picks = |from: (u32, u32), words: Words| assert_picks(calls, &v, &BLOCKS, from, words, "one, two, none and three");
    for (block, n, words) in [
        (0, 1, [0, 1, 1, 4]),
        (0, 2, [1, 2, 2, 3]),
        (0, 3, [1, 2, 3, 3]),
        (0, 4, [3, 3, 4, 0]),
        (1, 1, [1, 2, 1, 3]),
        (1, 3, [3, 3, 3, 0]),
        (2, 1, [2, 0, 1, 5]),
        (2, 2, [3, 3, 2, 0]),
        (3, 1, [3, 3, 1, 0]),
        (3, 2, [3, 3, 2, 0]),
        (2, 4, [3, 3, 4, 0]),
        (3, 5, [3, 3, 4, 0]),
        (1, 16, [3, 3, 4, 0]),
        (1, 17, [3, 3, 4, 0]),
        (2, 1 << 31, [3, 3, 4, 0]),
        (2, NONE, [3, 3, 4, 0]),
    ] {
        picks((block, n), words);
    }
    let v = obsolete(calls, layout, [2, 0, 0, 1]);
    for (n, words) in [(1, [2, 0, 1, 5]), (2, [3, 1, 2, 2]), (3, [0, 2, 3, 1]), (4, [0, 2, 4, 0]), (NONE, [0, 2, 4, 0])] {
        assert_picks(calls, &v, &BLOCKS, (2, n), words, "behind the end of the table");
    }
}

/// "The earliest seen on ties", which need not be that of the lowest number.
pub fn ties(calls: &dyn Calls, layout: Layout) {
    let v = obsolete(calls, layout, [1, 1, 1, 1]);
    for block in 0..4 {
        for n in 1..=5 {
            let unseen = (0..4).filter(|b| (b + 4 - block) % 4 >= n).map(|b| [2, 3, 1, 5][b as usize] - 1).max().unwrap_or(0);
            assert_picks(calls, &v, &BLOCKS, (block, n), [block, 1, n.min(4), unseen], "one in each");
        }
    }
    let v = obsolete(calls, layout, [2, 2, 0, 2]);
    for (block, named) in [(0, 0), (1, 1), (2, 3), (3, 3)] {
        assert_picks(calls, &v, &BLOCKS, (block, 4), [named, 2, 4, 0], "two in three of them");
    }
    let blank = Volume::formatted(calls, layout.sizes(1, 11));
    for block in 0..4 {
        assert_picks(calls, &blank, &BLOCKS, (block, NONE), [block, 0, 4, 0], "nothing may be erased");
    }
}

/// "How much an unseen block could beat it: the largest unseen block's size less the number, or 0", whatever that block holds; it ends at
/// S where it is the last.
pub fn unseen(calls: &dyn Calls, layout: Layout) {
    for (in_blocks, words) in [
        ([0, 0, 0, 0], [0, 0, 1, 5]),
        ([1, 0, 0, 0], [0, 1, 1, 4]),
        ([2, 0, 0, 0], [0, 2, 1, 3]),
        ([2, 3, 1, 4], [0, 2, 1, 3]),
        ([1, 3, 1, 4], [0, 1, 1, 4]),
    ] {
        assert_picks(calls, &obsolete(calls, layout, in_blocks), &BLOCKS, (0, 1), words, "the last block is the largest");
    }
    let v = obsolete(calls, layout, [2, 3, 1, 4]);
    assert_picks(calls, &v, &BLOCKS, (3, 1), [3, 4, 1, 0], "the largest unseen block is smaller than what is freed");
    assert_picks(calls, &v, &[0, 4, 8], (0, 1), [0, 4, 1, 0], "as large as what is freed");
    assert_picks(calls, &v, &[0, 4, 9], (0, 1), [0, 4, 1, 1], "one more");
    assert_picks(calls, &v, &[0], (0, 1), [0, 10, 1, 0], "one block");
    for slots in [2, 3, 100, 1024] {
        let v = Volume::formatted(calls, layout.sizes(1, slots));
        assert_picks(calls, &v, &[0, 1], (0, 1), [0, 0, 1, slots - 1], "all slots but one unseen");
        assert_picks(calls, &v, &[0, 1], (1, 1), [1, 0, 1, 1], "one slot unseen");
        assert_picks(calls, &v, &[0, slots - 1], (0, 1), [0, 0, 1, 1], "the last slot unseen");
    }
    let v = Volume::formatted(calls, layout.sizes(256, 1024));
    assert_picks(calls, &v, &blocks_of(64, 1024), (15, 15), [15, 0, 15, 64], "one of sixteen unseen");
}

/// "Its records that may be erased, judged one by one": all twins in a block count, those of a committed record too, though cleaning keeps
/// one; so does one whose twin is elsewhere. A byte makes the difference.
pub fn one_by_one(calls: &dyn Calls, layout: Layout) {
    let mut v = Volume::formatted(calls, layout.sizes(2, 8));
    v.copy_within(0, 2);
    assert_eq!(v.suggest(calls), Reply::done(0));
    assert_picks(calls, &v, &[0, 4], (0, 1), [0, 2, 1, 2], "both twins of a committed record in one block");
    assert_picks(calls, &v, &[0, 2, 4], (0, 3), [0, 1, 3, 0], "one in each of two blocks");
    assert_picks(calls, &v, &[0, 2, 4], (1, 3), [1, 1, 3, 0], "the other first");
    assert_eq!(answer(calls, &mut v.clone(), Call::Erase(vec![0, 2])), 12, "both in one list");
    let mut cleaned = v.clone();
    assert_eq!(answer(calls, &mut cleaned, Call::Clean { starts: vec![0, 4], block: 0 }), 0);
    assert_eq!(cleaned.records().len(), 2, "a cleaning keeps one of them");
    v.contents[slot_bytes(layout.width, 2)][layout.width as usize - 1] ^= 1;
    assert_picks(calls, &v, &[0, 4], (0, 1), [0, 0, 1, 4], "another byte");
}

/// What may not be erased does not count: a needed straddler, a committed record, one in flight at used, a blank slot.
pub fn kept(calls: &dyn Calls, layout: Layout) {
    let mut v = case_6(calls, layout);
    let slots = v.sizes.slots;
    let frees = |v: &Volume, block: u32| v.picked(calls, &blocks_of(1, slots), block, 1)[1];
    let each = |v: &Volume| (0..slots).map(|k| frees(v, k)).collect::<Vec<u32>>();
    let alone = |v: &Volume| (0..slots).map(|k| u32::from(answer(calls, &mut v.clone(), Call::Erase(vec![k])) == 0)).collect::<Vec<u32>>();
    assert_eq!(each(&v), alone(&v), "case 6, slot by slot");
    assert_eq!([1, 2, 3, 4].map(|k| frees(&v, k)), [1, 1, 1, 0], "case 6's straddler is needed");
    assert_picks(calls, &v, &[0, 3, 5], (1, 1), [1, 1, 1, slots - 5 - 1], "the exposed record and the straddler");
    assert_eq!(answer(calls, &mut v, Call::Erase(vec![3])), 0);
    assert_eq!([1, 2, 3, 4].map(|k| frees(&v, k)), [1, 1, 0, 1], "without the record that needs it");
    let mut v = Volume::formatted(calls, layout.sizes(2, 6));
    assert_eq!(answer(calls, &mut v, Call::Launch(vec![0, 1])), 0);
    assert_eq!(v.call(calls, &Call::Write { page: 0, slot: 4, bytes: vec![4; layout.width as usize] }), Reply::done(0));
    assert_picks(calls, &v, &[0, 3], (1, 1), [1, 0, 1, 3], "in flight at used");
    v.copy_within(4, 5);
    assert_picks(calls, &v, &[0, 3], (1, 1), [1, 2, 1, 1], "and its twin");
    let e = entry(&v.state, 0);
    set_entry(&mut v.state, 0, Entry { used: e.used + 1, written: 0, ..e });
    v.contents[slot_bytes(layout.width, 5)][0] ^= 1;
    assert_picks(calls, &v, &[0, 3], (0, 2), [1, 2, 2, 0], "in flight below used");
}

/// "Refused: 18, n is 0, after 6; a start block at or past the table's length is 6; 1, 17, 2 and 5 as in cleaning": each cured before the
/// next, with n as it should be and 0.
pub fn refusals(calls: &dyn Calls, layout: Layout) {
    let sound = obsolete(calls, layout, [1, 2, 0, 3]);
    for n in [0, 1, NONE] {
        let mut v = sound.clone();
        v.contents.pop();
        v.words[3] = 1;
        v.state[0] = NONE;
        assert_refused(calls, &v, &[0, 0], (4, n), 1, "a byte too few");
        v.contents = sound.contents.clone();
        assert_refused(calls, &v, &[0, 0], (4, n), 17, "equal starts");
        assert_refused(calls, &v, &[], (0, n), 17, "no starts");
        assert_refused(calls, &v, &BLOCKS, (4, n), 2, "an unsound slot");
        v.words = sound.words.clone();
        assert_refused(calls, &v, &BLOCKS, (4, n), 5, "a lost state");
        v.state = sound.state.clone();
        for block in [4, 5, 16, 255, 256, 1 << 30, 1 << 31, NONE - 1, NONE] {
            assert_refused(calls, &v, &BLOCKS, (block, n), 6, "no such block");
        }
    }
    for block in 0..4 {
        assert_refused(calls, &sound, &BLOCKS, (block, 0), 18, "no block to look at");
    }
    for length in [0, 1, 3, 5, 6, 8, 100] {
        let (mut v, mut picked) = (sound.clone(), vec![LENT; length]);
        let own = Arguments { starts: &[0, 0], block: 4, picked: &mut picked, ..v.arguments() };
        assert_eq!(calls.call(Name::Pick, &mut { own }), Reply::refused(1), "{length} words");
        assert!(v == sound && picked == vec![LENT; length], "{length} words: altered");
    }
}

/// "A larger n never finds less"; and what the block named frees, erased again and again, leaves nothing to erase.
pub fn emptied(calls: &dyn Calls, layout: Layout) {
    let mut v = obsolete(calls, layout, [2, 3, 1, 4]);
    for block in 0..4 {
        let found: Vec<u32> = (1..=6).map(|n| v.picked(calls, &BLOCKS, block, n)[1]).collect();
        assert!(found.windows(2).all(|pair| pair[0] <= pair[1]), "from block {block} on: {found:?}");
    }
    let mut freed = Vec::new();
    loop {
        let [block, frees, ..] = v.picked(calls, &BLOCKS, 1, NONE);
        if frees == 0 {
            break;
        }
        let blank = v.blank_slots().len();
        let list = erasable(calls, &v, block);
        assert_eq!(answer(calls, &mut v, Call::Erase(list)), 0);
        assert_eq!(v.blank_slots().len() - blank, frees as usize);
        freed.push((block, frees));
    }
    assert_eq!(freed, [(3, 4), (1, 3), (0, 2), (2, 1)]);
    assert_eq!(v.suggest(calls), Reply { answer: 13, second: NONE });
}

/// The slots of a block that may be erased.
fn erasable(calls: &dyn Calls, v: &Volume, block: u32) -> Vec<u32> {
    let slots = [0..2, 2..5, 5..6, 6..11][block as usize].clone();
    slots.filter(|&k| answer(calls, &mut v.clone(), Call::Erase(vec![k])) == 0).collect()
}
