//! Document 02's sentences on tables of blocks: which there are, what comes before and behind their refusal, and what is cleaned by them.

use super::answer;
use super::cleaning::{assert_done, assert_not_done, clean, store};
use crate::cleaning::blocks_of;
use crate::interface::{Calls, Reply, NONE};
use crate::volume::{Call, Layout, Volume};

/// Small blocks at the front.
const SMALL_FIRST: [u32; 4] = [0, 2, 4, 8];

/// A volume of twelve slots: in 0 and 1 obsolete records, in 2, 3 and 7 the committed ones of the pages 2, 1 and 0.
fn stored(calls: &dyn Calls, layout: Layout) -> Volume {
    let mut v = Volume::formatted(calls, layout.sizes(3, 12));
    store(calls, &mut v, 1, 3);
    store(calls, &mut v, 0, 7);
    v
}

/// "1 to 16 starts: the first is 0, they rise strictly, all are below S": others are 17, by the call that checks and by the one that
/// cleans. "After 1."
pub fn tables(calls: &dyn Calls, layout: Layout) {
    let v = stored(calls, layout);
    for starts in [&[0][..], &[0, 1], &[0, 11], &SMALL_FIRST, &blocks_of(1, 12)] {
        assert_eq!(v.sizes.check_blocks(calls, starts), Reply::done(0), "{starts:?}");
        assert_not_done(calls, &v, &clean(starts, starts.len() as u32), 6, "as many blocks as starts");
    }
    let falling: [&[u32]; 5] = [&[0, 0], &[0, 4, 4, 8], &[0, 4, 2], &[0, 8, 4, 10], &[0, 1, 2, 3, 4, 5, 6, 7, 8, 9, 10, 10]];
    let high: [&[u32]; 6] = [&[0, 12], &[0, 13], &[0, 4, 12], &[0, 4, NONE], &[0, NONE, 4], &(0..13).collect::<Vec<u32>>()];
    let first: [&[u32]; 5] = [&[1], &[2, 4], &[11], &[12], &[NONE]];
    for starts in [&[][..]].into_iter().chain(falling).chain(high).chain(first) {
        assert_eq!(v.sizes.check_blocks(calls, starts), Reply::refused(17), "{starts:?}");
        assert_not_done(calls, &v, &clean(starts, 0), 17, "no table");
        for (pages, slots, width) in [(0, 12, layout.width), (13, 12, layout.width), (3, 1025, layout.width), (3, 12, 33)] {
            let wrong = Layout { width, ..layout }.sizes(pages, slots);
            assert_eq!(wrong.check_blocks(calls, starts), Reply::refused(1), "{wrong:?} {starts:?}");
        }
    }
    for (slots, length, answer) in [(16, 16, 0), (17, 16, 0), (17, 17, 17), (1024, 16, 0), (1024, 17, 17), (15, 16, 17)] {
        let starts: Vec<u32> = (0..length).collect();
        assert_eq!(layout.sizes(3, slots).check_blocks(calls, &starts).answer, answer, "{length} starts below {slots}");
    }
}

/// The refusals of cleaning in their order, each cured before the next.
pub fn order(calls: &dyn Calls, layout: Layout) {
    let sound = Volume::formatted(calls, layout.sizes(2, 2));
    let mut v = sound.clone();
    v.contents.pop();
    v.words[3] = 2;
    v.state[0] = NONE;
    assert_not_done(calls, &v, &clean(&[0, 0], 2), 1, "a byte too few");
    v.contents = sound.contents.clone();
    assert_not_done(calls, &v, &clean(&[0, 0], 2), 17, "equal starts");
    assert_not_done(calls, &v, &clean(&[0, 1], 2), 2, "an unsound slot");
    v.words = sound.words.clone();
    assert_not_done(calls, &v, &clean(&[0, 1], 2), 5, "a lost state");
    v.state = sound.state.clone();
    assert_not_done(calls, &v, &clean(&[0, 1], 2), 6, "no such block");
    assert_not_done(calls, &v, &clean(&[0, 1], 1), 15, "no blank slot outside");
}

/// Each block of a table with small blocks at the front, of the same volume and one after the other; the last ends at S.
pub fn small_first(calls: &dyn Calls, layout: Layout) {
    let mut v = stored(calls, layout);
    let cleans = |v: &mut Volume, block: u32, copies: &[(u32, u32)]| {
        let slots = [0..2, 2..4, 4..8, 8..12][block as usize].clone();
        assert_done(calls, v, &clean(&SMALL_FIRST, block), slots, copies, &format!("block {block}"));
    };
    cleans(&mut v.clone(), 0, &[]);
    cleans(&mut v.clone(), 1, &[(2, 4), (3, 5)]);
    cleans(&mut v.clone(), 2, &[(7, 8)]);
    cleans(&mut v.clone(), 3, &[]);
    cleans(&mut v, 0, &[]);
    cleans(&mut v, 1, &[(2, 0), (3, 1)]);
    cleans(&mut v, 2, &[(7, 2)]);
    store(calls, &mut v, 1, 11);
    store(calls, &mut v, 2, 8);
    cleans(&mut v, 3, &[(8, 3), (11, 4)]);
    cleans(&mut v, 0, &[]);
    cleans(&mut v, 1, &[(2, 0), (3, 1)]);
    assert_not_done(calls, &v, &clean(&SMALL_FIRST, 4), 6, "no such block");
    assert_eq!(v.records().iter().map(|&(k, r)| (k, r.p, r.v)).collect::<Vec<_>>(), [(0, 0, 1), (1, 2, 1), (4, 1, 2)]);
}

/// The same volume by other tables; and what a cut in a cleaning by one leaves, cleaned by another that has the twins in one block.
pub fn two_tables(calls: &dyn Calls, layout: Layout) {
    let v = stored(calls, layout);
    assert_done(calls, &mut v.clone(), &clean(&[0, 8], 0), 0..8, &[(2, 8), (3, 9), (7, 10)], "a block of eight");
    assert_done(calls, &mut v.clone(), &clean(&[0, 3, 4], 1), 3..4, &[(3, 4)], "a block of one");
    assert_not_done(calls, &v, &clean(&[0, 3, 4], 2), 15, "the slots before it hold records");
    assert_not_done(calls, &v, &clean(&[0], 0), 15, "a block of all slots");
    let (mut cut, mut cleaned) = (v.clone(), v);
    assert_done(calls, &mut cleaned, &clean(&SMALL_FIRST, 1), 2..4, &[(2, 4), (3, 5)], "without a cut");
    cut.copy_slot(&cleaned, 4);
    cut.state.fill(NONE);
    assert_eq!(answer(calls, &mut cut, Call::Recover), 0, "after one copy");
    assert_done(calls, &mut cut.clone(), &clean(&SMALL_FIRST, 1), 2..4, &[(3, 5)], "the other copy");
    assert_done(calls, &mut cut.clone(), &clean(&[0, 4], 0), 0..4, &[(3, 5)], "the twin behind a block of four");
    assert_done(calls, &mut cut.clone(), &clean(&[0, 5], 0), 0..5, &[(2, 5), (3, 6)], "twins within a block of five");
    assert_done(calls, &mut cut, &clean(&[0, 3, 6], 1), 3..6, &[(3, 6)], "the twin before a block of three");
}
