//! Doubtful slots compared: every kind of volume and list met often, all refusals beside each other, lists and words of every length.

use super::kinds::Kinds;
use super::pickings::stored;
use super::volumes::SEEN;
use crate::cleaning::{clash, twins};
use crate::doubting::{ends, fillings, recovering};
use crate::implementations::compared::Compared;
use crate::implementations::reference::Reference;
use crate::inputs::{self, straddled::straddled};
use crate::interface::{Arguments, Calls, Name, Reply, END_WORDS, MOST_DOUBTFUL, NONE};
use crate::random::Random;
use crate::rules::{highest_records, slot_bytes, slot_words, Record, LAST_VERSION};
use crate::volume::{Call, Layout, Sizes, Volume, LENT};

/// Kinds of volume and list, by which fillings recover and by what they give.
const KINDS: [&str; 24] = [
    "an empty list, the volume recovers",
    "an empty list, it does not",
    "some slots listed, no filling recovers",
    "every filling of several recovers",
    "one filling of several recovers",
    "the volume itself recovers, some filling does not",
    "the volume itself does not recover, some filling does",
    "all listed slots blank, it does not recover, else it does",
    "a filling does not recover, where records clash",
    "a filling does not recover, where a page has no record",
    "a filling does not recover, where links are astray",
    "a filling does not recover, where a committed record is missing",
    "both ends of each page equal, several fillings",
    "a page's ends differ",
    "a version between a page's ends",
    "a page's ends on either side of 2^31",
    "the volume itself is at neither end of a page",
    "a page is higher where a slot is blank",
    "a straddler is blank, and a page it held back is higher",
    "no filling has every page at its highest",
    "one of twins listed, another not",
    "twins listed",
    "a ring of several pages lacks a record, and all fall back",
    "eight slots listed",
];

/// Lists slots of so many volumes, and gives how often each kind was met.
pub fn compare(compared: &Compared, layout: Layout, volumes: u32) -> String {
    let mut random = Random::new(u64::from(layout.width));
    let mut met = Kinds::new(KINDS);
    for i in 0..volumes {
        let v = match i % 5 {
            0 => straddled(&mut random, layout),
            1 => rings(&mut random, layout),
            2 => held_back(&mut random, layout),
            _ => inputs::volume(&mut random, layout),
        };
        let mut list: Vec<u32> = v.records().into_iter().map(|(k, _)| k).filter(|_| v.sizes.slots < 200).collect();
        random.shuffle(&mut list);
        let number = if random.one_in(30) { MOST_DOUBTFUL } else { random.below(5) as usize };
        list.truncate(number);
        if let (Reply { answer: 0 | 20, .. }, _) = v.clone().doubtful(compared, &list) {
            met.count(kinds(&v, &list));
        }
    }
    met.told()
}

/// A volume of two to four pages with one or two rings of some of them, in slots anywhere; now and then with twins and what differs from
/// these.
fn rings(random: &mut Random, layout: Layout) -> Volume {
    let pages = 2 + random.below(3);
    let mut v = Volume::formatted(&Reference, layout.sizes(pages, 4 * pages));
    for _ in 0..1 + random.below(2) {
        let list = random.subset(pages);
        assert_eq!(v.call(&Reference, &Call::Launch(list.clone())).answer, 0);
        for page in list {
            let (slot, bytes) = (random.pick(&v.blank_slots()), random.bytes(layout.width));
            assert_eq!(v.call(&Reference, &Call::Write { page, slot, bytes }).answer, 0);
        }
    }
    if random.one_in(3) {
        inputs::add_twins(random, &mut v);
    }
    v
}

/// A volume of two or three pages. Page 0 has three versions, low ones, around 2^31 or the last; its highest record is in a ring with page
/// 1, whose next version straddles the link to it, as if launched before: the ring is not committed, and is where that record is blank.
fn held_back(random: &mut Random, layout: Layout) -> Volume {
    let pages = 2 + random.below(2);
    let first = random.pick(&[0, 1, (1 << 31) - 1, LAST_VERSION - 2]);
    let alone = |p: u32, v: u32, c: u32| Record { p, v, c, np: p, nv: v };
    let ring = [Record { p: 0, v: first + 2, c: first + 1, np: 1, nv: 1 }, Record { p: 1, v: 1, c: 0, np: 0, nv: first + 2 }];
    let mut held = vec![alone(0, first, 0), alone(0, first + 1, first), ring[0], alone(1, 0, 0), ring[1], alone(1, 2, 0)];
    held.extend((2..pages).map(|p| alone(p, 0, 0)));
    held.resize(held.len() + random.below(3) as usize, Record::BLANK);
    random.shuffle(&mut held);
    Volume::with_records(layout.sizes(pages, held.len() as u32), &held)
}

/// Whether a volume and a list, which are taken or refused by 20, are of each kind.
fn kinds(v: &Volume, list: &[u32]) -> [bool; KINDS.len()] {
    let all: Vec<(Volume, u32)> = fillings(v, list).map(recovered).collect();
    let found: Vec<Vec<u32>> = all.iter().filter(|(_, answer)| *answer == 0).map(|(v, _)| v.committed()).collect();
    let ends = if found.is_empty() { Vec::new() } else { ends(&found) };
    let (itself, several, first, last) = (all[0].0.committed(), all.len() > 1, all[0].1 == 0, all[all.len() - 1].1 == 0);
    let fails = |is: &dyn Fn(&Volume, u32) -> bool| all.iter().any(|(filling, answer)| is(filling, *answer));
    let no_record = |filling: &Volume| highest_records(filling.sizes.pages, &filling.records()).is_none();
    let rises = |versions: &[u32]| first && versions.iter().zip(&itself).any(|(version, own)| version > own);
    let falls = |versions: &[u32]| first && versions.iter().zip(&itself).filter(|(version, own)| version < own).count() > 1;
    let straddles = |k: u32| v.slot(k).is_some_and(|s| v.records().iter().any(|&(_, r)| s.straddles(r)));
    let has_twin = |k: u32, listed: bool| (0..v.sizes.slots).any(|l| list.contains(&l) == listed && twins(v.view(), k, l));
    let straddler = list.iter().any(|&k| straddles(k) && recovering(v, &[k], recovers).iter().any(|versions| rises(versions)));
    let lacking = list.iter().any(|&k| recovering(v, &[k], recovers).iter().any(|versions| falls(versions)));
    [
        !several && first,
        !several && !first,
        several && found.is_empty(),
        several && found.len() == all.len(),
        several && found.len() == 1,
        first && found.len() < all.len(),
        !first && !found.is_empty(),
        several && !last && found.len() == all.len() - 1,
        fails(&|filling, answer| answer == 3 && clash(filling.view(), twins)),
        fails(&|filling, answer| answer == 3 && no_record(filling)),
        fails(&|_, answer| answer == 4),
        fails(&|_, answer| answer == 14),
        several && !ends.is_empty() && ends.iter().all(|[low, high]| low == high),
        ends.iter().any(|[low, high]| low < high),
        found.iter().any(|versions| versions.iter().zip(&ends).any(|(v, [low, high])| low < v && v < high)),
        ends.iter().any(|[low, high]| *low < 1 << 31 && 1 << 31 < *high),
        first && itself.iter().zip(&ends).any(|(v, [low, high])| low < v && v < high),
        found.iter().any(|versions| rises(versions)),
        straddler,
        !ends.is_empty() && found.iter().all(|versions| versions.iter().zip(&ends).any(|(version, [_, high])| version < high)),
        list.iter().any(|&k| has_twin(k, false)),
        list.iter().any(|&k| has_twin(k, true)),
        lacking,
        list.len() == MOST_DOUBTFUL,
    ]
}

/// A filling with its state recovered, and what recovery says.
fn recovered(mut filling: Volume) -> (Volume, u32) {
    let answer = filling.call(&Reference, &Call::Recover).answer;
    (filling, answer)
}

fn recovers(filling: &mut Volume) -> bool {
    filling.call(&Reference, &Call::Recover).answer == 0
}

/// What doubtful is asked.
struct Asked {
    volume: Volume,
    list: Vec<u32>,
    /// The words lent.
    words: usize,
}

impl Asked {
    /// What it says; it alters its words alone, and those only where it is done.
    fn reply(&self, compared: &Compared) -> Reply {
        let (mut v, mut ends) = (self.volume.clone(), vec![LENT; self.words]);
        let reply = compared.call(Name::Doubtful, &mut Arguments { list: &self.list, ends: &mut ends, ..v.arguments() });
        let kept = v == self.volume && (reply.answer == 0 || ends.iter().all(|&w| w == LENT));
        assert!(kept && (reply.answer == 0 || reply.second == 0), "doubtful answers {reply:?} and alters a buffer, or counts");
        reply
    }
}

/// What may be wrong with what is asked: the answer that says so, and ways in which it comes about.
type Wrong = (u32, &'static [fn(&mut Random, &mut Asked)]);

/// In the order in which they are tried.
const WRONG: [Wrong; 5] = [
    (
        1,
        &[
            |_, a| a.words = 0,
            |_, a| a.words /= 2,
            |_, a| a.words -= 1,
            |_, a| a.words += 1,
            |_, a| a.words *= 2,
            |_, a| a.volume.sizes.pages = 0,
            |_, a| a.volume.sizes.pages += 1,
            |_, a| a.volume.sizes.slots = 0,
            |_, a| a.volume.sizes.width = 33,
            |_, a| a.volume.words.truncate(4),
            |_, a| a.volume.contents.push(255),
        ],
    ),
    (2, &[|_, a| a.volume.words[3] = a.volume.sizes.pages, |_, a| a.volume.words[0] = NONE - 1]),
    (
        6,
        &[
            |_, a| a.list.push(a.volume.sizes.slots),
            |_, a| a.list.insert(0, NONE),
            |_, a| a.list.extend([0, 0]),
            |random, a| a.list.extend([random.pick(&a.volume.blank_slots())]),
            |random, a| a.list.insert(0, random.pick(&a.volume.blank_slots())),
        ],
    ),
    (19, &[|random, a| list_more(random, a, MOST_DOUBTFUL + 1), |random, a| list_more(random, a, MOST_DOUBTFUL + 3)]),
    (20, &[|_, a| without_page(a), |random, a| clashing(random, a), |_, a| without_committed(a)]),
];

/// Lists so many records.
fn list_more(random: &mut Random, a: &mut Asked, number: usize) {
    let mut more: Vec<u32> = a.volume.records().into_iter().map(|(k, _)| k).filter(|k| !a.list.contains(k)).collect();
    random.shuffle(&mut more);
    a.list.extend(more);
    a.list.truncate(number);
}

/// The last page loses its records, and those that were listed are not any more.
fn without_page(a: &mut Asked) {
    let last = a.volume.sizes.pages - 1;
    let own: Vec<u32> = a.volume.records().into_iter().filter(|(_, r)| r.p == last).map(|(k, _)| k).collect();
    a.volume.blank(&own);
    a.list.retain(|k| !own.contains(k));
}

/// Two records that are not listed differ in a byte alone.
fn clashing(random: &mut Random, a: &mut Asked) {
    let (blank, held) = (a.volume.blank_slots(), a.volume.records());
    let (from, to) = (random.pick(&held).0, random.pick(&blank));
    a.volume.copy_within(from, to);
    a.volume.contents[slot_bytes(a.volume.sizes.width, to)][31] ^= 8;
    a.list.retain(|&k| k != from);
}

/// The last page's one record is not listed, links to a version that there is not, and its committed version is not there.
fn without_committed(a: &mut Asked) {
    without_page(a);
    let (family, last) = (a.volume.sizes.family, a.volume.sizes.pages - 1);
    let record = Record { p: last, v: 9, c: 5, np: 0, nv: 99 };
    let slot = a.volume.blank_slots()[0];
    a.volume.words[slot_words(family, slot)].copy_from_slice(&record.words(family));
}

/// Each choice of things that are wrong, all at once: the first in the order of the refusals is the answer.
pub fn compare_refusals(compared: &Compared, layout: Layout) {
    let mut random = Random::new(u64::from(layout.width));
    for (mask, _) in (0..1u32 << WRONG.len()).flat_map(|mask| (0..SEEN).map(move |i| (mask, i))) {
        let volume = stored(&mut random, layout, 50);
        let words = END_WORDS * volume.sizes.pages as usize;
        let mut asked = Asked { volume, list: Vec::new(), words };
        let number = random.below(4) as usize;
        list_more(&mut random, &mut asked, number);
        let wrong: Vec<&Wrong> = WRONG.iter().enumerate().filter(|(i, _)| mask >> i & 1 == 1).map(|(_, wrong)| wrong).collect();
        for (_, ways) in wrong.iter().rev() {
            random.pick(ways)(&mut random, &mut asked);
        }
        let first = wrong.first().map_or(0, |(answer, _)| *answer);
        assert_eq!(asked.reply(compared).answer, first, "slots {:?}, wrong {mask:b}", asked.list);
    }
}

/// Lists of every length, up to one more than there are slots: eight are taken, longer ones are 19, and 6 where a slot is not there, is
/// blank or comes twice.
pub fn compare_list_lengths(compared: &Compared, layout: Layout) {
    let v = versions(layout.sizes(1, 10), 9);
    for length in 0..=MOST_DOUBTFUL as u32 {
        let list: Vec<u32> = (0..length).rev().collect();
        assert_eq!(v.doubted(compared, &list), (1 << length, vec![[8, 8]]), "{length} old versions listed");
    }
    let full = versions(layout.sizes(1, 1024), 1023);
    for length in MOST_DOUBTFUL as u32 + 1..=1025 {
        let list: Vec<u32> = (0..length).collect();
        let answer = if length <= 1023 { 19 } else { 6 };
        assert_eq!(full.clone().doubtful(compared, &list), (Reply::refused(answer), vec![LENT; 2]), "{length} slots");
        for last in [0, 1023, 1024, NONE] {
            let list = [&list[..length as usize - 1], &[last]].concat();
            assert_eq!(full.clone().doubtful(compared, &list), (Reply::refused(6), vec![LENT; 2]), "{length} slots, the last {last}");
        }
    }
}

/// A volume of one page with so many versions of it, each the committed one of the next, in the lowest slots; the others are blank.
fn versions(sizes: Sizes, number: u32) -> Volume {
    let records: Vec<Record> = (0..number).map(|v| Record { p: 0, v, c: v.saturating_sub(1), np: 0, nv: v }).collect();
    Volume::with_records(sizes, &records)
}

/// Words lent in every number up to 64, and around those of the most pages: two for each page are taken.
pub fn compare_lengths(compared: &Compared, layout: Layout) {
    let volume = stored(&mut Random::new(1), layout, 24);
    for words in 0..64 {
        let asked = Asked { volume: volume.clone(), list: vec![0], words };
        assert_eq!(asked.reply(compared).answer, u32::from(words != 6), "{words} words");
    }
    let volume = Volume::formatted(&Reference, layout.sizes(256, 300));
    for words in [0, 1, 255, 256, 257, 510, 511, 512, 513, 514, 600, 768, 1024, 2048] {
        let asked = Asked { volume: volume.clone(), list: Vec::new(), words };
        assert_eq!(asked.reply(compared), if words == 512 { Reply::done(1) } else { Reply::refused(1) }, "{words} words");
    }
}
