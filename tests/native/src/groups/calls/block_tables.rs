//! Tables of blocks by the calls that take them: broken in each way, of every length, all small ones, and all near the most starts.

use super::volumes::SEEN;
use crate::implementations::compared::Compared;
use crate::implementations::reference::Reference;
use crate::inputs::blocks::{broken, sound, BROKEN};
use crate::interface::{Reply, MOST_BLOCKS, NONE, PICK_WORDS};
use crate::random::Random;
use crate::volume::{Call, Layout, Sizes, Volume, LENT};

/// Makes something else of a volume, or of the number of the block to clean.
type Spoil = fn(&mut Volume, &mut u32);

/// What else may be wrong with a cleaning: the answer that says so where the table is sound, and how it comes about.
const OTHERS: [(u32, Spoil); 7] = [
    (1, |v, _| v.sizes.pages = 0),
    (1, |v, _| v.contents.push(255)),
    (2, |v, _| v.words[0] = v.sizes.pages),
    (5, |v, _| v.state[3] = 2),
    (6, |_, block| *block = MOST_BLOCKS as u32),
    (15, |v, _| *v = Volume::formatted(&Reference, Sizes { pages: v.sizes.slots, ..v.sizes })),
    (0, |_, _| {}),
];

/// Each way to break a table, alone and beside each other refusal: 1 comes before 17, and all others behind it.
pub fn compare_broken(compared: &Compared, layout: Layout) {
    let mut random = Random::new(u64::from(layout.width));
    for (how, (other, spoil)) in BROKEN.into_iter().flat_map(|how| OTHERS.map(|other| (how, other))) {
        for _ in 0..SEEN {
            let slots = 17 + random.below(30);
            let mut v = Volume::formatted(&Reference, layout.sizes(1 + random.below(4), slots));
            let (right, wrong) = (sound(&mut random, slots), broken(&mut random, slots, how));
            let mut block = random.below(right.len() as u32);
            spoil(&mut v, &mut block);
            let refused_by = |answer: u32, first: bool| Reply::refused(if first { 1 } else { answer });
            assert_eq!(clean(compared, &v, &wrong, block), refused_by(17, other == 1), "{wrong:?}, {how:?}, beside {other}");
            for n in [0, 1, NONE] {
                assert_eq!(pick(compared, &v, &wrong, block, n), refused_by(17, other == 1), "{wrong:?}, {how:?}, beside {other}");
            }
            assert_eq!(v.sizes.check_blocks(compared, &wrong), refused_by(17, v.sizes.pages == 0), "{wrong:?}, {how:?}");
            assert_eq!(v.sizes.check_blocks(compared, &right), refused_by(0, v.sizes.pages == 0), "{right:?}");
            let reply = clean(compared, &v, &right, block);
            assert!(other == 0 || reply == Reply::refused(other), "{right:?}, {other} expected, {reply:?}");
        }
    }
}

/// What a cleaning says; a refused one leaves the volume.
fn clean(compared: &Compared, volume: &Volume, starts: &[u32], block: u32) -> Reply {
    let mut v = volume.clone();
    let reply = v.call(compared, &Call::Clean { starts: starts.to_vec(), block });
    assert!(reply.answer == 0 || v == *volume, "a refused cleaning altered a buffer");
    reply
}

/// What a pick of n blocks says; one that is refused leaves its words, and each leaves the volume.
fn pick(compared: &Compared, volume: &Volume, starts: &[u32], block: u32, n: u32) -> Reply {
    let mut v = volume.clone();
    let (reply, words) = v.pick(compared, starts, block, n);
    assert!(v == *volume && (reply.answer == 0 || words == [LENT; PICK_WORDS]), "a pick that answers {} altered a buffer", reply.answer);
    reply
}

/// Rising tables of every length: 1 to 16 starts are taken.
pub fn compare_lengths(compared: &Compared, layout: Layout) {
    let v = Volume::formatted(&Reference, layout.sizes(1, 1024));
    for length in (0..=1024).chain([65_536, 65_537, 100_001]) {
        let starts: Vec<u32> = (0..length).collect();
        let answer = if (1..=16).contains(&length) { 0 } else { 17 };
        assert_eq!(v.sizes.check_blocks(compared, &starts).answer, answer, "{length} starts");
        assert_eq!(pick(compared, &v, &starts, 0, 1).answer, answer, "a pick by {length} starts");
        let answer = if length == 1 { 15 } else { answer };
        assert_eq!(clean(compared, &v, &starts, 0).answer, answer, "block 0 of {length} starts");
    }
}

/// Every list of up to four numbers up to S + 1, and by those that are tables every block number up to four. Gives the number of lists,
/// and of those that are tables.
pub fn every_small(compared: &Compared, sizes: Sizes) -> (u64, u64) {
    let v = Volume::formatted(&Reference, sizes);
    let (mut lists, mut tables) = (vec![Vec::new()], (0, 0));
    while let Some(list) = lists.pop() {
        tables.0 += 1;
        tables.1 += u64::from(sizes.check_blocks(compared, &list).answer == 0);
        for block in 0..=4 {
            clean(compared, &v, &list, block);
            pick(compared, &v, &list, block, 1 + block);
        }
        if list.len() < 4 {
            lists.extend((0..=sizes.slots + 1).map(|next| [&list[..], &[next]].concat()));
        }
    }
    tables
}

/// Every rising list of such a length with numbers up to S; of those that are tables, too, every list that differs in one number. Gives
/// the number of tables.
pub fn every_rising(compared: &Compared, sizes: Sizes, length: usize) -> u64 {
    let (mut lists, mut tables) = (vec![Vec::new()], 0);
    while let Some(list) = lists.pop() {
        if list.len() < length {
            // As many numbers are left as the list still needs.
            let (next, last) = (list.last().map_or(0, |&last: &u32| last + 1), sizes.slots + 1 - (length - list.len()) as u32);
            lists.extend((next..=last).map(|next| [&list[..], &[next]].concat()));
        } else if sizes.check_blocks(compared, &list).answer == 0 {
            tables += 1;
            if sizes.slots < 20 {
                compare_near(compared, sizes, &list);
            }
        }
    }
    tables
}

/// Every list that differs from a table in one number, which is any up to S + 1 or the highest.
pub fn compare_near(compared: &Compared, sizes: Sizes, starts: &[u32]) {
    for at in 0..starts.len() {
        let mut list = starts.to_vec();
        for start in (0..=sizes.slots + 1).chain([NONE]) {
            list[at] = start;
            sizes.check_blocks(compared, &list);
        }
    }
}
