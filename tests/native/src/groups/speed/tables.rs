//! The largest tables, 256 pages and 1,024 slots, of the kinds that keep recovery busy.

use super::console::console;
use super::{LONGEST, MADE, OTHER, WISHED};
use crate::implementations::TESTED;
use crate::interface::{Family, Reply};
use crate::random::Random;
use crate::rules::Record;
use crate::volume::{Layout, Sizes, Volume};

const PAGES: u32 = 256;
const SLOTS: u32 = 1024;

/// The links of one ring of all pages, of a chain of all, and where each page's first link decides.
const RING: u32 = PAGES * PAGES;
const CHAIN: u32 = PAGES * (PAGES + 1) / 2;
const FIRST: u32 = PAGES;

/// A table: what it is, how much of the simple recovery's time the library's may take, whether it has twins, and the reply where it is
/// known.
pub struct Table {
    pub name: String,
    pub limit: f64,
    pub twins: bool,
    pub reply: Option<Reply>,
    pub volume: Volume,
}

/// Every table of a layout.
pub fn all(layout: Layout) -> Vec<Table> {
    let sizes = layout.sizes(PAGES, SLOTS);
    let mut tables = Vec::new();
    let mut expect = |limit, name: &str, reply, volume| {
        tables.push(Table { name: String::from(name), limit, twins: false, reply: Some(reply), volume });
    };
    let mut add = |limit, name: &str, links, volume| expect(limit, name, Reply::done(links), volume);
    add(LONGEST, "request 6's one ring", RING, Volume::one_ring(sizes));
    add(LONGEST, "the ring in a full table", RING, full_ring(sizes));
    add(LONGEST, "the ring in a full table, its slots in any order", RING, in_any_order(full_ring(sizes)));
    match layout.family {
        Family::Bpcc => {
            add(LONGEST, "a chain of all pages, straddled by the last slot alone", CHAIN, straddled_by(sizes, &[SLOTS - 1]));
            add(LONGEST, "a chain of all pages, straddled by none", CHAIN, straddled_by(sizes, &[]));
        }
        Family::Scc => {
            add(LONGEST, "a chain of all pages, committed by case 1", CHAIN, chain(sizes, 8));
            add(LONGEST, "a chain of all pages, uncommitted", CHAIN, chain(sizes, 11));
        }
    }
    add(OTHER, "a formatted volume", FIRST, Volume::formatted(TESTED, sizes));
    add(OTHER, "769 records of one page", FIRST, one_page(sizes));
    add(OTHER, "769 records of one page, its slots in any order", FIRST, in_any_order(one_page(sizes)));
    add(OTHER, "every page's highest record uncommitted", FIRST, uncommitted(sizes));
    add(OTHER, "every page linked to one with 769 records, straddled by none", FIRST, hub(sizes, 1));
    add(OTHER, "the same, its slots in any order", FIRST, in_any_order(hub(sizes, 1)));
    // Made so that all records are in one chain of those by page and version.
    add(MADE, "versions of one page that meet in one chain", FIRST, hub(sizes, 1024));
    add(MADE, "versions of all pages that meet in one chain", FIRST, met(sizes));
    if layout.family == Family::Bpcc {
        // Every search for a straddler looks at 769 records, or at all slots.
        add(WISHED, "every page linked to one with 769 records that may straddle, straddled by none", FIRST, hub(sizes, 2));
        let twins = |name: &str, links, volume| Table {
            name: String::from(name),
            limit: OTHER,
            twins: true,
            reply: Some(Reply::done(links)),
            volume,
        };
        tables.push(twins("a ring of all pages, each record in four slots", RING, copied(Volume::one_ring(sizes), 256)));
        tables.push(twins("two rings of all pages, each record in two slots", RING, copied(two_rings(sizes), 512)));
        tables.push(twins("one record in 769 slots", FIRST, copied(Volume::formatted(TESTED, sizes), 1)));
    }
    for seed in 1..=3 {
        let name = format!("what a console leaves, seed {seed}");
        tables.push(Table { name, limit: OTHER, twins: false, reply: None, volume: console(sizes, seed) });
    }
    refused(sizes, &mut tables);
    tables
}

/// Tables that recovery refuses, by what the first slots say and by what the last do.
fn refused(sizes: Sizes, tables: &mut Vec<Table>) {
    let mut add = |name: &str, answer, volume| {
        tables.push(Table { name: String::from(name), limit: WISHED, twins: false, reply: Some(Reply::refused(answer)), volume });
    };
    let with_slot = |k: u32, r: Record| {
        let mut held: Vec<Record> = full_ring(sizes).records().into_iter().map(|(_, r)| r).collect();
        held[k as usize] = r;
        Volume::with_records(sizes, &held)
    };
    add("the last record of no page", 2, with_slot(SLOTS - 1, alone(PAGES, 1)));
    add("the last record clashes with the first", 3, with_slot(SLOTS - 1, alone(0, 0)));
    add("the second record clashes with the first", 3, with_slot(1, alone(0, 0)));
    add(
        "links of all pages into a ring of two",
        4,
        with(sizes, (0..PAGES).map(|p| Record { p, v: 1, c: 0, np: (p + 1).min(PAGES - 1) - u32::from(p == PAGES - 1), nv: 1 })),
    );
    add(
        "the last page uncommitted, its version before it gone",
        14,
        with(sizes, (0..PAGES).map(|p| if p < PAGES - 1 { alone(p, 9) } else { Record { p, v: 9, c: 8, np: 0, nv: 10 } })),
    );
}

/// The records of a ring of all pages at a version.
fn ring(v: u32) -> impl Iterator<Item = Record> {
    (0..PAGES).map(move |p| Record { p, v, c: v - 1, np: (p + 1) % PAGES, nv: v })
}

/// The formatted records.
fn formatted() -> impl Iterator<Item = Record> {
    (0..PAGES).map(|p| alone(p, 0))
}

/// A record of a set of one page, the version before it its back pointer.
fn alone(p: u32, v: u32) -> Record {
    Record { p, v, c: v.saturating_sub(1), np: p, nv: v }
}

fn with(sizes: Sizes, held: impl Iterator<Item = Record>) -> Volume {
    Volume::with_records(sizes, &held.collect::<Vec<Record>>())
}

/// Three rings behind the formatted records.
fn full_ring(sizes: Sizes) -> Volume {
    with(sizes, formatted().chain((1..=3).flat_map(ring)))
}

fn two_rings(sizes: Sizes) -> Volume {
    with(sizes, (1..=2).flat_map(ring))
}

/// Four rings, the last of which ends in a link to another version of page 0.
fn chain(sizes: Sizes, nv: u32) -> Volume {
    with(sizes, (7..=10).flat_map(ring).map(|r| if (r.p, r.v) == (PAGES - 1, 10) { Record { nv, ..r } } else { r }))
}

/// Four rings, the last of which ends in a link to version 8 of page 0, and page 0's version 9 in the last slot: where it straddles the
/// link, these are all slots that do.
fn straddled_by(sizes: Sizes, slots: &[u32]) -> Volume {
    let v = chain(sizes, 8);
    let mut held: Vec<Record> = v.records().into_iter().map(|(_, r)| r).collect();
    let link = held[held.len() - 1];
    let (at, last) = (held.iter().position(|r| (r.p, r.v) == (0, 9)).unwrap(), held.len() - 1);
    held[at].c -= slots.len() as u32;
    held.swap(at, last);
    let v = Volume::with_records(sizes, &held);
    let found: Vec<u32> = v.records().into_iter().filter(|(_, k)| k.straddles(link)).map(|(k, _)| k).collect();
    assert_eq!(found, slots, "slots that straddle the link");
    v
}

/// 768 versions of page 0 behind the formatted records.
fn one_page(sizes: Sizes) -> Volume {
    with(sizes, formatted().chain((1..=SLOTS - PAGES).map(|v| alone(0, v))))
}

/// Four versions of each page, the highest linked to a version that is not there, and behind all others those that are committed.
fn uncommitted(sizes: Sizes) -> Volume {
    let highest = ring(10).map(|r| Record { nv: 11, ..r });
    with(sizes, highest.chain([7, 8, 9].into_iter().flat_map(ring)))
}

/// 769 versions of page 0, so far apart, each the next one's back pointer, and of each other page a record that links to one of them, of
/// which none is the highest.
fn hub(sizes: Sizes, apart: u32) -> Volume {
    let linked = (1..PAGES).map(|p| Record { p, v: 1, c: 0, np: 0, nv: apart * 3 * p });
    let versions = (1..=SLOTS - PAGES + 1).map(|i| Record { c: apart * (i - 1), ..alone(0, apart * i) });
    with(sizes, linked.chain(versions))
}

/// Four versions of each page: by page and version all are in one of the library's chains.
fn met(sizes: Sizes) -> Volume {
    let version = |p: u32, j: u32| SLOTS - 4 * (181 * p % PAGES) + SLOTS * j;
    with(sizes, (0..SLOTS).map(|k| alone(k % PAGES, version(k % PAGES, k / PAGES))))
}

/// The volume with twins of its first slots, so many, in all slots that are blank.
fn copied(mut v: Volume, first: u32) -> Volume {
    for (i, k) in (0..).zip(v.blank_slots()) {
        v.copy_within(i % first, k);
    }
    v
}

/// The volume with its slots in another order.
fn in_any_order(v: Volume) -> Volume {
    let mut held: Vec<Record> = v.records().into_iter().map(|(_, r)| r).collect();
    Random::new(1).shuffle(&mut held);
    Volume::with_records(v.sizes, &held)
}
