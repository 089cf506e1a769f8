//! Document 01's definitions on plain slices, and those of document 02's four-word records where they differ: records, the state, what
//! a write would bury, what may be erased, how recovery follows links. The width is any.

use crate::interface::{Family, NONE, PAGE_WORDS};
use crate::volume::Layout;
use std::ops::Range;

/// The highest version there is.
pub const LAST_VERSION: u32 = 4_294_967_294;

/// A record: page, version, back pointer, next page and its version. One of four words has no back pointer; c is 0 there.
#[derive(Clone, Copy, Debug, PartialEq, Eq, PartialOrd, Ord, Hash)]
pub struct Record {
    pub p: u32,
    pub v: u32,
    pub c: u32,
    pub np: u32,
    pub nv: u32,
}

impl From<[u32; 5]> for Record {
    fn from([p, v, c, np, nv]: [u32; 5]) -> Record {
        Record { p, v, c, np, nv }
    }
}

impl From<[u32; 4]> for Record {
    fn from([p, v, np, nv]: [u32; 4]) -> Record {
        Record { p, v, c: 0, np, nv }
    }
}

impl Record {
    /// The words of a blank slot.
    pub const BLANK: Record = Record { p: NONE, v: NONE, c: NONE, np: NONE, nv: NONE };

    pub fn words(self, family: Family) -> Vec<u32> {
        match family {
            Family::Bpcc => vec![self.p, self.v, self.c, self.np, self.nv],
            Family::Scc => vec![self.p, self.v, self.np, self.nv],
        }
    }

    /// "It is sound if p and np are below P, v, c and nv are at most 4,294,967,294, c is below v (or both are 0), and nv equals v where np equals p."
    /// What is said of c holds where it is 0.
    pub fn is_sound(self, pages: u32) -> bool {
        self.p < pages
            && self.np < pages
            && [self.v, self.c, self.nv].iter().all(|&n| n <= LAST_VERSION)
            && (self.c < self.v || (self.c == 0 && self.v == 0))
            && (self.np != self.p || self.nv == self.v)
    }

    /// "K straddles I's link if K.p = I.np and K.c < I.nv < K.v."
    pub fn straddles(self, i: Record) -> bool {
        self.p == i.np && self.c < i.nv && i.nv < self.v
    }
}

/// "Slot k has words 5k to 5k+4 …, or 4k to 4k+3,
pub fn slot_words(family: Family, k: u32) -> Range<usize> {
    let (words, k) = (family.slot_words(), k as usize);
    words * k..words * (k + 1)
}

/// … and bytes 32k to 32k+31", or as many as the width says.
pub fn slot_bytes(width: u32, k: u32) -> Range<usize> {
    let (width, k) = (width as usize, k as usize);
    width * k..width * (k + 1)
}

/// Slot k's record, or nothing where the slot is blank.
pub fn slot(family: Family, words: &[u32], k: u32) -> Option<Record> {
    match words[slot_words(family, k)] {
        [NONE, NONE, NONE, NONE, NONE] | [NONE, NONE, NONE, NONE] => None,
        [p, v, c, np, nv] => Some(Record { p, v, c, np, nv }),
        [p, v, np, nv] => Some(Record { p, v, c: 0, np, nv }),
        _ => unreachable!(),
    }
}

/// Stores a record and its bytes in slot k, or blanks the slot.
pub fn set_slot(layout: Layout, words: &mut [u32], contents: &mut [u8], k: u32, held: Option<(Record, &[u8])>) {
    let Layout { family, width } = layout;
    let (own, bytes) = (&mut words[slot_words(family, k)], &mut contents[slot_bytes(width, k)]);
    match held {
        Some((record, stored)) => {
            own.copy_from_slice(&record.words(family));
            bytes.copy_from_slice(stored);
        }
        None => {
            own.fill(NONE);
            bytes.fill(255);
        }
    }
}

/// The records of the table with their slots, rising.
pub fn held(family: Family, words: &[u32]) -> impl Iterator<Item = (u32, Record)> + '_ {
    let slots = words.len() / family.slot_words();
    (0..slots as u32).filter_map(move |k| slot(family, words, k).map(|r| (k, r)))
}

/// The same, as a list.
pub fn records(family: Family, words: &[u32]) -> Vec<(u32, Record)> {
    let mut list = Vec::with_capacity(words.len() / family.slot_words());
    list.extend(held(family, words));
    list
}

/// One page's four words of the state.
#[derive(Clone, Copy, Debug, PartialEq, Eq)]
pub struct Entry {
    pub committed: u32,
    pub used: u32,
    pub next: u32,
    pub written: u32,
}

impl Entry {
    pub fn in_flight(self) -> bool {
        self.next != NONE
    }
}

pub fn entry(state: &[u32], page: u32) -> Entry {
    let at = PAGE_WORDS * page as usize;
    Entry { committed: state[at], used: state[at + 1], next: state[at + 2], written: state[at + 3] }
}

pub fn set_entry(state: &mut [u32], page: u32, e: Entry) {
    let at = PAGE_WORDS * page as usize;
    state[at..at + PAGE_WORDS].copy_from_slice(&[e.committed, e.used, e.next, e.written]);
}

/// "P pages, 1 to 256. S slots, P to 1,024."
pub fn sizes_fit(pages: u32, slots: u32) -> bool {
    (1..=256).contains(&pages) && (pages..=1024).contains(&slots)
}

pub fn words_fit(family: Family, slots: u32, words: &[u32]) -> bool {
    words.len() == family.slot_words() * slots as usize
}

pub fn contents_fit(slots: u32, width: u32, contents: &[u8]) -> bool {
    contents.len() == width as usize * slots as usize
}

pub fn state_fits(pages: u32, state: &[u32]) -> bool {
    state.len() == PAGE_WORDS * pages as usize
}

/// Every slot is blank or sound.
pub fn table_sound(family: Family, pages: u32, words: &[u32]) -> bool {
    held(family, words).all(|(_, r)| r.is_sound(pages))
}

/// The state's soundness, clause by clause.
pub fn state_sound(pages: u32, state: &[u32]) -> bool {
    let all = |test: &dyn Fn(Entry) -> bool| (0..pages).all(|p| test(entry(state, p)));
    let flying: Vec<Entry> = (0..pages).map(|p| entry(state, p)).filter(|e| e.in_flight()).collect();
    all(&|e| e.committed <= e.used && e.used <= LAST_VERSION)
        && flying.iter().all(|e| e.committed < e.used)
        && flying.iter().all(|e| e.next < pages && entry(state, e.next).in_flight())
        && (0..pages).all(|p| flying.iter().filter(|e| e.next == p).count() <= 1)
        && all(&|e| e.written == 0 || (e.written == 1 && e.in_flight()))
}

/// "Empty list, repeated entry, or a page or slot out of range."
pub fn list_wrong(list: &[u32], bound: u32) -> bool {
    list.is_empty() || list.iter().any(|&x| x >= bound) || (0..list.len()).any(|i| list[..i].contains(&list[i]))
}

/// The pages of the transaction (document 01: ring) that holds a page in flight, from that page on.
pub fn cycle(state: &[u32], page: u32) -> Vec<u32> {
    let mut pages = vec![page];
    let mut at = entry(state, page).next;
    while at != page {
        pages.push(at);
        at = entry(state, at).next;
    }
    pages
}

/// The record that a page in flight is to store: v = used of the page, c = its committed if there is a c, np = its next, nv = used of np.
pub fn planned(family: Family, state: &[u32], page: u32) -> Record {
    let e = entry(state, page);
    let c = if family == Family::Bpcc { e.committed } else { 0 };
    Record { p: page, v: e.used, c, np: e.next, nv: entry(state, e.next).used }
}

/// "A record is obsolete if v is below its page's committed version, …
pub fn is_obsolete(state: &[u32], r: Record) -> bool {
    r.v < entry(state, r.p).committed
}

/// … exposed if above."
pub fn is_exposed(state: &[u32], r: Record) -> bool {
    r.v > entry(state, r.p).committed
}

/// Whether the write of a page's planned record would bury one: "an exposed record with J.p = p and J.v < v, or J.np = p and J.nv < v."
pub fn would_bury(table: &[(u32, Record)], state: &[u32], p: u32) -> bool {
    let v = entry(state, p).used;
    table.iter().any(|&(_, j)| is_exposed(state, j) && ((j.p == p && j.v < v) || (j.np == p && j.nv < v)))
}

/// "An obsolete K is needed if no record has the same page and c with a higher v, and some exposed record's link is straddled by K."
pub fn is_needed(table: &[(u32, Record)], state: &[u32], k: Record) -> bool {
    let better = table.iter().any(|&(_, l)| l.p == k.p && l.c == k.c && l.v > k.v);
    !better && table.iter().any(|&(_, i)| is_exposed(state, i) && k.straddles(i))
}

/// "A slot may be erased if it holds an obsolete record that is no needed straddler, or an exposed record other than one whose page is in flight with v = used."
/// Of four-word records "any obsolete record may be erased". Document 02's "old rule", which twins do not alter.
pub fn old_rule(family: Family, words: &[u32], state: &[u32], k: u32) -> bool {
    let Some(record) = slot(family, words, k) else { return false };
    if is_obsolete(state, record) {
        family == Family::Scc || !is_needed(&records(family, words), state, record)
    } else {
        let e = entry(state, record.p);
        is_exposed(state, record) && !(e.in_flight() && record.v == e.used)
    }
}

/// The lowest slot that holds a page at a version.
pub fn lowest_slot(family: Family, words: &[u32], page: u32, version: u32) -> Option<u32> {
    held(family, words).find(|(_, r)| r.p == page && r.v == version).map(|(k, _)| k)
}

/// Each page's highest record, or nothing where a page has no record.
pub fn highest_records(pages: u32, table: &[(u32, Record)]) -> Option<Vec<Record>> {
    (0..pages).map(|p| table.iter().map(|&(_, r)| r).filter(|r| r.p == p).max_by_key(|r| r.v)).collect()
}

/// How following the links from a page's highest record ends.
pub enum End {
    Committed,
    Uncommitted,
    Astray,
}

/// The links followed from one start: the pages whose record's link is compared, in order, and how that ends.
pub struct Walk {
    pub compared: Vec<u32>,
    pub end: End,
}

/// The three cases of recovery from one start; `highest` has each page's highest record. Of four-word records "case 1 of recovery means
/// committed".
pub fn follow(family: Family, table: &[(u32, Record)], highest: &[Record], start: u32) -> Walk {
    let mut compared = Vec::new();
    let mut at = start;
    let end = loop {
        compared.push(at);
        let j = highest[at as usize];
        let hv = highest[j.np as usize].v;
        if j.nv < hv {
            let straddled = family == Family::Bpcc && table.iter().any(|&(_, k)| k.straddles(j));
            break if straddled { End::Uncommitted } else { End::Committed };
        }
        if j.nv > hv {
            break End::Uncommitted;
        }
        if j.np == start {
            break End::Committed;
        }
        if compared.contains(&j.np) {
            break End::Astray;
        }
        at = j.np;
    };
    Walk { compared, end }
}

/// The committed version of a page whose highest record is not committed: "the c of p's highest record", or of four-word records "the
/// second highest version", if there is one.
pub fn committed_before(family: Family, table: &[(u32, Record)], highest: Record) -> Option<u32> {
    match family {
        Family::Bpcc => Some(highest.c),
        Family::Scc => table.iter().map(|&(_, r)| r).filter(|r| r.p == highest.p && r.v < highest.v).map(|r| r.v).max(),
    }
}

/// "Used = the highest of all v with that p and all nv with that np", of a page with a record.
pub fn used_version(table: &[(u32, Record)], p: u32) -> u32 {
    let mentioned = table.iter().flat_map(|(_, r)| [(r.p, r.v), (r.np, r.nv)]);
    mentioned.filter(|&(q, _)| q == p).map(|(_, version)| version).max().unwrap()
}
