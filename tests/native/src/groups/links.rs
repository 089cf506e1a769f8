//! The number of links that recovery follows, by the implementation under test and by the second one: on tables where the number is
//! known, and its bounds on any.

use crate::harness::Group;
use crate::implementations::compared::Compared;
use crate::implementations::TESTED;
use crate::inputs;
use crate::interface::{Calls, Family, Reply, NONE};
use crate::random::Random;
use crate::rules::{set_entry, Entry, Record};
use crate::volume::{ring, Call, Layout, Volume};
use std::collections::BTreeSet;

pub fn tests(group: &mut Group, layout: Layout) {
    let compared = Compared::new(TESTED);
    group.test("the one-ring table of every P, at S = P, P + 1, 2P and 1,024: P×P links", || {
        format!("{} tables", one_rings(&compared, layout))
    });
    group.plain("every P formatted: P links; stored in one ring by calls: P×P", || stored_rings(&compared, layout));
    group.plain("several rings: the sum of the squares of their lengths", || rings(&compared, layout));
    group.plain("chains of every length n, the last link to a version missing, straddled or replaced: n + … + 1 links", || {
        chains(&compared, layout)
    });
    group.plain("refused recoveries of every P: 0 links", || refusals(&compared, layout));
    group.test("100,000 volumes: 0 links where recovery is refused, else P to P×P", || bounds(&compared, layout, 100_000));
}

/// Recovery of a volume is done, follows so many links, finds each page's committed and used version, and alters the state alone.
fn assert_recovers(calls: &dyn Calls, volume: &Volume, links: u32, versions: &[(u32, u32)]) {
    let (mut got, mut expected) = (volume.clone(), volume.clone());
    for (p, &(committed, used)) in (0..).zip(versions) {
        set_entry(&mut expected.state, p, Entry { committed, used, next: NONE, written: 0 });
    }
    assert_eq!(got.call(calls, &Call::Recover), Reply::done(links), "{:?}", volume.sizes);
    assert!(got == expected, "{:?} recovers to {:?}", volume.sizes, got.state);
}

/// The one-ring table reaches P×P, whatever the contents are, and with a twin of each record, too. Gives the number of tables.
fn one_rings(calls: &dyn Calls, layout: Layout) -> usize {
    let mut random = Random::new(u64::from(layout.width));
    let mut tables = 0;
    for pages in 1..=256 {
        let all_slots = BTreeSet::from([pages, pages + 1, 2 * pages, 1024]);
        tables += all_slots.len();
        for slots in all_slots {
            let mut v = Volume::one_ring(layout.sizes(pages, slots));
            let stored = vec![(1, 1); pages as usize];
            assert_recovers(calls, &v, pages * pages, &stored);
            v.contents = random.bytes(layout.width * slots);
            assert_recovers(calls, &v, pages * pages, &stored);
            if layout.family == Family::Bpcc && slots >= 2 * pages {
                (0..pages).for_each(|p| v.copy_within(p, pages + p));
                assert_recovers(calls, &v, pages * pages, &stored);
            }
        }
    }
    tables
}

/// A formatted volume has a ring for each page; one transaction over all pages makes one ring, with the formatted records or without.
fn stored_rings(calls: &dyn Calls, layout: Layout) {
    let mut random = Random::new(u64::from(layout.width));
    for pages in 1..=256 {
        let mut v = Volume::formatted(calls, layout.sizes(pages, 2 * pages));
        assert_recovers(calls, &v, pages, &vec![(0, 0); pages as usize]);
        let list = random.order(pages);
        assert_eq!(v.call(calls, &Call::Launch(list.clone())), Reply::done(0));
        for (slot, &page) in (pages..).zip(&list) {
            let done = u32::from(slot + 1 == 2 * pages);
            assert_eq!(v.call(calls, &Call::Write { page, slot, bytes: random.bytes(layout.width) }), Reply::done(done));
        }
        let stored = vec![(1, 1); pages as usize];
        assert_recovers(calls, &v, pages * pages, &stored);
        assert_eq!(v.call(calls, &Call::Erase((0..pages).collect())), Reply::done(0));
        assert_recovers(calls, &v, pages * pages, &stored);
    }
}

/// The formatted records.
fn formatted(pages: u32) -> Vec<Record> {
    (0..pages).map(|p| Record { p, v: 0, c: 0, np: p, nv: 0 }).collect()
}

/// A volume with the records in any order and a blank slot among them.
fn scattered(random: &mut Random, layout: Layout, pages: u32, mut held: Vec<Record>) -> Volume {
    held.push(Record::BLANK);
    random.shuffle(&mut held);
    Volume::with_records(layout.sizes(pages, held.len() as u32), &held)
}

/// Each page of a ring of k pages has k links.
pub fn rings(calls: &dyn Calls, layout: Layout) {
    let random = &mut Random::new(u64::from(layout.width));
    let by_hand: [(&[u32], u32); 6] = [
        (&[1, 1, 1], 1 + 1 + 1),
        (&[2, 1, 2], 4 + 1 + 4),
        (&[3, 4, 5], 9 + 16 + 25),
        (&[100, 56, 1, 99], 10_000 + 3_136 + 1 + 9_801),
        (&[128, 128], 16_384 + 16_384),
        (&[255, 1], 65_025 + 1),
    ];
    for (lengths, links) in by_hand {
        assert_rings(calls, random, layout, lengths, links);
    }
    for _ in 0..200 {
        let most = 1 + random.below(40);
        let lengths: Vec<u32> = (0..1 + random.below(6)).map(|_| 1 + random.below(most)).collect();
        assert_rings(calls, random, layout, &lengths, lengths.iter().map(|k| k * k).sum());
    }
}

/// Pages in any order cut into rings of these lengths, their formatted records beside, have so many links.
fn assert_rings(calls: &dyn Calls, random: &mut Random, layout: Layout, lengths: &[u32], links: u32) {
    let pages: u32 = lengths.iter().sum();
    let mut held = formatted(pages);
    let mut rest = &random.order(pages)[..];
    for &k in lengths {
        let (cut, others) = rest.split_at(k as usize);
        held.extend(ring(cut));
        rest = others;
    }
    assert_recovers(calls, &scattered(random, layout, pages, held), links, &vec![(1, 1); pages as usize]);
}

/// A chain of n pages whose last link decides has n + … + 2 + 1 links, and the page behind it 1 of its own. The last link is to a
/// version that is not there, to one that a record straddles (without back pointers none does), and to one that was replaced, its
/// record there or gone.
pub fn chains(calls: &dyn Calls, layout: Layout) {
    let random = &mut Random::new(u64::from(layout.width));
    for n in 1..256 {
        let pages = n + 1;
        let list = random.order(pages);
        let (whole, last) = (ring(&list), list[n as usize]);
        let (chain, end) = whole.split_at(n as usize);
        let mut assert_ends = |more: &[Record], chained: (u32, u32), ended: (u32, u32)| {
            let v = scattered(random, layout, pages, [&formatted(pages)[..], chain, more].concat());
            let versions: Vec<(u32, u32)> = (0..pages).map(|p| if p == last { ended } else { chained }).collect();
            assert_recovers(calls, &v, n * (n + 1) / 2 + 1, &versions);
        };
        assert_ends(&[], (0, 1), (0, 1));
        assert_ends(&[Record::from([last, 2, 0, last, 2])], if layout.family == Family::Bpcc { (0, 1) } else { (1, 1) }, (2, 2));
        assert_ends(&[end[0], Record::from([last, 2, 1, last, 2])], (1, 1), (2, 2));
        assert_ends(&[Record::from([last, 2, 1, last, 2])], (1, 1), (2, 2));
    }
}

/// A refused recovery has no links, however many it followed before, and leaves the volume.
pub fn refusals(calls: &dyn Calls, layout: Layout) {
    for pages in 2..=256 {
        let list: Vec<u32> = (0..pages).collect();
        let whole = ring(&list);
        let refused: [(u32, Vec<Record>); 5] = [
            (2, [&whole[..], &[Record::from([pages, 1, 0, 0, 1])]].concat()),
            (3, [&whole[..], &[whole[0]]].concat()),
            (3, whole[1..].to_vec()),
            (4, [&ring(&list[1..])[..], &[Record::from([0, 1, 0, 1, 1])]].concat()),
            (14, [&whole[1..], &formatted(1)].concat()),
        ];
        for (answer, held) in refused {
            let before = Volume::with_records(layout.sizes(pages, pages + 1), &held);
            let mut v = before.clone();
            assert_eq!(v.call(calls, &Call::Recover), Reply::refused(answer), "P = {pages}");
            assert!(v == before, "a refused recovery altered the volume, P = {pages}");
        }
    }
}

/// Volumes of every kind: a done recovery has a link for each page at least and P×P at most, a refused one none. Volumes at either
/// bound and between are met.
fn bounds(calls: &dyn Calls, layout: Layout, volumes: u32) -> String {
    let mut random = Random::new(u64::from(layout.width));
    let (mut refused, mut least, mut between, mut most) = (0, 0, 0, 0);
    for _ in 0..volumes {
        let mut v = inputs::volume(&mut random, layout);
        let pages = v.sizes.pages;
        let Reply { answer, second: links } = v.call(calls, &Call::Recover);
        assert_eq!(answer == 0, links != 0, "answer {answer} with {links} links");
        assert!(links <= pages * pages && (answer != 0 || pages <= links), "{links} links with {pages} pages");
        match links {
            0 => refused += 1,
            _ if pages == 1 => {}
            _ if links == pages => least += 1,
            _ if links == pages * pages => most += 1,
            _ => between += 1,
        }
    }
    assert!([refused, least, between, most].iter().all(|&n| n >= 100), "a kind is met too seldom");
    format!("{refused} refused; of two pages or more {least} with P links, {most} with P×P, {between} between")
}
