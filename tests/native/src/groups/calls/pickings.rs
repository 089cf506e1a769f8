//! Picks compared: every kind of pick met often, all refusals beside each other, numbers of every size, and every pick of small tables.

use super::kinds::Kinds;
use super::volumes::SEEN;
use crate::cleaning::{block, erasable, twins};
use crate::implementations::compared::Compared;
use crate::implementations::reference::Reference;
use crate::inputs::blocks::{broken, sound, BROKEN};
use crate::inputs::{self, straddled::straddled};
use crate::interface::{Arguments, Calls, Name, Reply, MOST_BLOCKS, NONE, PICK_WORDS};
use crate::picking::{frees, seen, size, unseen, Words};
use crate::random::Random;
use crate::rules::{entry, is_exposed, Record};
use crate::volume::{Call, Layout, Volume, LENT};

/// Kinds of pick, by which blocks are looked at, and by what they and the others hold.
const KINDS: [&str; 20] = [
    "nothing may be erased in the blocks looked at",
    "the first block looked at frees most",
    "one behind it",
    "one behind the end of the table",
    "several free most",
    "several free most, a later one of a lower number",
    "an unseen block frees more",
    "an unseen block frees as many more as is told",
    "no unseen block is larger than what is freed",
    "every unseen block is smaller than what is freed",
    "the largest block of all is looked at, others are not",
    "the largest unseen block is the last of the table",
    "all blocks are looked at",
    "more blocks are asked for than there are",
    "obsolete records counted",
    "exposed records counted",
    "a twin of a record that must stay counted",
    "all twins of a record that must stay counted, the block as one list frees less",
    "a needed straddler not counted",
    "a record in flight at used not counted",
];

/// Picks blocks of so many volumes, and gives how often each kind was met.
pub fn compare(compared: &Compared, layout: Layout, volumes: u32) -> String {
    let mut random = Random::new(u64::from(layout.width));
    let mut met = Kinds::new(KINDS);
    for i in 0..volumes {
        let v = if i % 2 == 0 { inputs::volume(&mut random, layout) } else { straddled(&mut random, layout) };
        let starts = sound(&mut random, v.sizes.slots);
        for _ in 0..4 {
            let (block, n) = (random.below(starts.len() as u32), 1 + random.below(starts.len() as u32 + 1));
            if let (Reply { answer: 0, .. }, words) = v.clone().pick(compared, &starts, block, n) {
                met.count(kinds(&v, &starts, block, n, words));
            }
        }
    }
    met.told()
}

/// Whether a pick that gave these words is of each kind.
fn kinds(volume: &Volume, starts: &[u32], from: u32, n: u32, [named, most, _, beaten_by]: Words) -> [bool; KINDS.len()] {
    let v = volume.view();
    let (seen, unseen) = (seen(starts, from, n), unseen(starts, from, n));
    let frees = |number: &u32| frees(v, twins, starts, *number);
    let (largest, unseen_largest) = (seen.iter().map(|&b| size(v, starts, b)).max(), unseen.iter().map(|&b| size(v, starts, b)).max());
    let ties: Vec<u32> = seen.iter().copied().filter(|b| most > 0 && frees(b) == most).collect();
    let slots: Vec<u32> = block(v.slots(), starts, named).expect("a block").collect();
    let held = |is: &dyn Fn(u32, Record) -> bool| slots.iter().any(|&k| v.slot(k).is_some_and(|r| is(k, r)));
    let obsolete = |r: Record| r.v < entry(v.state, r.p).committed;
    let goes = |k: u32| volume.may_erase(k);
    let last = starts.len() as u32 - 1;
    [
        most == 0,
        most > 0 && named == from,
        named > from,
        named < from,
        ties.len() > 1,
        ties.iter().any(|&b| b < named),
        unseen.iter().any(|b| frees(b) > most),
        beaten_by > 0 && unseen.iter().any(|b| frees(b) == most + beaten_by),
        beaten_by == 0 && !unseen.is_empty(),
        unseen_largest.is_some_and(|size| size < most),
        unseen_largest.is_some() && largest > unseen_largest,
        unseen.contains(&last) && unseen.iter().all(|&b| b == last || size(v, starts, b) < size(v, starts, last)),
        unseen.is_empty(),
        n > starts.len() as u32,
        held(&|k, r| obsolete(r) && goes(k)),
        held(&|k, r| is_exposed(v.state, r) && goes(k)),
        held(&|k, r| r.v == entry(v.state, r.p).committed && goes(k)),
        (erasable(v, twins, &slots).count() as u32) < most,
        held(&|k, r| obsolete(r) && !goes(k)),
        held(&|k, r| is_exposed(v.state, r) && !goes(k)),
    ]
}

/// A pick that is asked for.
struct Asked {
    volume: Volume,
    starts: Vec<u32>,
    block: u32,
    n: u32,
    /// The words lent.
    words: usize,
}

impl Asked {
    /// What it says; it alters its words alone, and those only where it is done.
    fn reply(&self, compared: &Compared) -> Reply {
        let (mut v, mut picked) = (self.volume.clone(), vec![LENT; self.words]);
        let &Asked { ref starts, block, n, .. } = self;
        let reply = compared.call(Name::Pick, &mut Arguments { starts, block, n, picked: &mut picked, ..v.arguments() });
        assert!(
            v == self.volume && (reply.answer == 0 || picked.iter().all(|&w| w == LENT)),
            "a pick that answers {} altered a buffer",
            reply.answer
        );
        reply
    }
}

/// What may be wrong with a pick: the answer that says so, and ways in which it comes about.
type Wrong = (u32, &'static [fn(&mut Random, &mut Asked)]);

/// In the order in which they are tried.
const WRONG: [Wrong; 6] = [
    (
        1,
        &[
            |_, a| a.words = 0,
            |_, a| a.words = PICK_WORDS - 1,
            |_, a| a.words = PICK_WORDS + 1,
            |_, a| a.volume.sizes.pages = 0,
            |_, a| a.volume.sizes.slots = 0,
            |_, a| a.volume.sizes.width = 33,
            |_, a| a.volume.words.truncate(4),
            |_, a| a.volume.contents.push(255),
            |_, a| a.volume.state.push(0),
        ],
    ),
    (17, &[|random, a| a.starts = random_broken(random, a.volume.sizes.slots)]),
    (2, &[|_, a| a.volume.words[3] = a.volume.sizes.pages.max(1), |_, a| a.volume.words[0] = NONE - 1]),
    (5, &[|_, a| a.volume.state[3] = 2, |_, a| a.volume.state.fill(NONE)]),
    (6, &[|_, a| a.block = a.starts.len() as u32, |_, a| a.block = MOST_BLOCKS as u32, |_, a| a.block = NONE, |_, a| a.block = 1 << 30]),
    (18, &[|_, a| a.n = 0]),
];

/// A table that is broken in any way.
fn random_broken(random: &mut Random, slots: u32) -> Vec<u32> {
    let how = random.pick(&BROKEN);
    broken(random, slots.max(1), how)
}

/// Each choice of things that are wrong, all at once: the first in the order of the refusals is the answer.
pub fn compare_refusals(compared: &Compared, layout: Layout) {
    let mut random = Random::new(u64::from(layout.width));
    for (mask, _) in (0..1u32 << WRONG.len()).flat_map(|mask| (0..SEEN).map(move |i| (mask, i))) {
        let slots = 17 + random.below(30);
        let volume = Volume::formatted(&Reference, layout.sizes(1 + random.below(4), slots));
        let starts = sound(&mut random, slots);
        let (block, n) = (random.below(starts.len() as u32), 1 + random.below(20));
        let mut asked = Asked { volume, starts, block, n, words: PICK_WORDS };
        let wrong: Vec<&Wrong> = WRONG.iter().enumerate().filter(|(i, _)| mask >> i & 1 == 1).map(|(_, wrong)| wrong).collect();
        for (_, ways) in wrong.iter().rev() {
            random.pick(ways)(&mut random, &mut asked);
        }
        let first = wrong.first().map_or(0, |(answer, _)| *answer);
        assert_eq!(asked.reply(compared), Reply { answer: first, second: 0 }, "{:?}, block {block}, {n}, wrong {mask:b}", asked.starts);
    }
}

/// Blocks and numbers of blocks of every size: those past the table are refused, and all numbers from its length on give the same.
pub fn compare_numbers(compared: &Compared, layout: Layout) {
    let far = [17, 255, 256, 65_535, 65_536, 1 << 30, (1 << 30) + 1, 1 << 31, NONE - 1, NONE];
    let mut random = Random::new(u64::from(layout.width));
    for blocks in 1..=MOST_BLOCKS as u32 {
        let v = stored(&mut random, layout, 50);
        let starts: Vec<u32> = (0..blocks).map(|b| b * b / 7 + b).collect();
        for block in 0..blocks {
            let all = v.picked(compared, &starts, block, blocks);
            for n in (blocks + 1..=MOST_BLOCKS as u32).chain(far) {
                assert_eq!(v.picked(compared, &starts, block, n), all, "{n} of {blocks} blocks");
            }
        }
        for block in (blocks..=MOST_BLOCKS as u32).chain(far) {
            for n in [0, 1, blocks, NONE] {
                assert_eq!(v.clone().pick(compared, &starts, block, n), (Reply::refused(6), [LENT; PICK_WORDS]), "block {block}, {n}");
            }
        }
    }
}

/// A volume of three pages, with versions of each in slots anywhere and blank ones between them; slot 0 holds a record.
pub fn stored(random: &mut Random, layout: Layout, slots: u32) -> Volume {
    let mut v = Volume::formatted(&Reference, layout.sizes(3, slots));
    for page in (0..3).cycle().take(20) {
        let slot = random.pick(&v.blank_slots());
        for call in [Call::Launch(vec![page]), Call::Write { page, slot, bytes: vec![slot as u8; layout.width as usize] }] {
            assert_eq!(v.call(&Reference, &call).answer, 0);
        }
    }
    v
}

/// Words lent in every number up to 64: four are taken.
pub fn compare_lengths(compared: &Compared, layout: Layout) {
    let volume = stored(&mut Random::new(1), layout, 24);
    for words in 0..64 {
        let asked = Asked { volume: volume.clone(), starts: vec![0, 8, 16], block: 2, n: 2, words };
        assert_eq!(asked.reply(compared), Reply::refused(u32::from(words != PICK_WORDS)), "{words} words");
    }
}

/// Every pick of a volume by these tables: from each block on, of each number up to two more than there are. Gives their number.
pub fn every(compared: &Compared, v: &Volume, tables: &[Vec<u32>]) -> u64 {
    let mut number = 0;
    for starts in tables {
        let blocks = starts.len() as u32;
        for (block, n) in (0..blocks).flat_map(|block| (0..=blocks + 2).map(move |n| (block, n))) {
            let (reply, _) = v.clone().pick(compared, starts, block, n);
            assert_eq!(reply, Reply::refused(if n == 0 { 18 } else { 0 }), "{n} from block {block} on of {starts:?}");
            number += 1;
        }
    }
    number
}

/// Each block frees as many slots as erase lets go, each in a list of its own.
pub fn assert_judged(compared: &Compared, v: &Volume, starts: &[u32]) {
    for number in 0..starts.len() as u32 {
        let slots = block(v.sizes.slots, starts, number).expect("a block");
        let goes = |k: &u32| v.clone().call(compared, &Call::Erase(vec![*k])).answer == 0;
        let (reply, words) = v.clone().pick(compared, starts, number, 1);
        assert_eq!((reply, words[1]), (Reply::done(0), slots.filter(goes).count() as u32), "block {number} of {starts:?}");
    }
}
