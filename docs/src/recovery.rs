//! Recovery, simply: the version with which document 02's wish 14 compares the library, in safe Rust with nothing but std. It gives the
//! library's results for every input, for records of five words and of four: the answer, the links followed, and the sheet, filled or
//! untouched. One pass over the slot table finds the records and each page's highest; records of equal page and version are looked for
//! by a double loop, a straddler or a back pointer's version by a search that ends at the first, and each page's links are followed from
//! that page.
//!
//! It is a package of its own, built for release without the checks that the tests have. `tests/run` compares results and times;
//! `target/native/release/native speed`, which that builds, does it alone.

/// Whether this is built without debugging's assertions.
pub const RELEASE: bool = !cfg!(debug_assertions);

/// A word of a blank slot; in a sheet, "not in flight".
const NONE: u32 = 4_294_967_295;

/// The most pages and slots of a volume.
const MOST_PAGES: usize = 256;
const MOST_SLOTS: usize = 1024;

/// The words of a page in the sheet.
const PAGE_WORDS: usize = 4;

/// The words of a record: five, one of them a back pointer, or four.
#[derive(Clone, Copy, PartialEq, Eq)]
pub enum Family {
    FiveWords,
    FourWords,
}

/// A volume: P, S, the bytes of a slot, and what the flash holds. Of four-word records the contents are not looked at.
#[derive(Clone, Copy)]
pub struct Volume<'a> {
    pub family: Family,
    pub pages: u32,
    pub slots: u32,
    pub width: u32,
    pub words: &'a [u32],
    pub contents: &'a [u8],
}

/// Fills the sheet and gives the number of links followed, summed over the pages; or gives the refusal's number and leaves the sheet.
/// Conditions are tried from the top, each for all pages or slots.
pub fn recover(volume: Volume, sheet: &mut [u32]) -> Result<u32, u32> {
    if !volume.fits(sheet) {
        return Err(1);
    }
    let Table { records, highest, used } = Table::read(volume)?;
    if clash(volume, &records) {
        return Err(3);
    }
    let pages = volume.pages as usize;
    let highest: Vec<Record> = highest[..pages].iter().copied().collect::<Option<_>>().ok_or(3u32)?;
    let mut links = 0;
    let mut complete = [false; MOST_PAGES];
    for start in 0..pages {
        let walk = follow(volume.family, &records, &highest, start).ok_or(4u32)?;
        complete[start] = walk.committed;
        links += walk.links;
    }
    let mut committed = [0; MOST_PAGES];
    for page in 0..pages {
        let own = highest[page];
        committed[page] = if complete[page] { own.v } else { version_before(volume.family, &records, own).ok_or(14u32)? };
    }
    for (page, entry) in sheet.chunks_exact_mut(PAGE_WORDS).enumerate() {
        entry.copy_from_slice(&[committed[page], used[page], NONE, 0]);
    }
    Ok(links)
}

impl Volume<'_> {
    /// P is 1 to 256, S is P to 1,024, the width is 32 or 64, and every slice is as long as these say.
    fn fits(self, sheet: &[u32]) -> bool {
        let [pages, slots, width] = [self.pages, self.slots, self.width].map(|n| n as usize);
        (1..=MOST_PAGES).contains(&pages)
            && (pages..=MOST_SLOTS).contains(&slots)
            && (width == 32 || width == 64)
            && self.words.len() == self.slot_words() * slots
            && (self.family == Family::FourWords || self.contents.len() == width * slots)
            && sheet.len() == PAGE_WORDS * pages
    }

    fn slot_words(self) -> usize {
        match self.family {
            Family::FiveWords => 5,
            Family::FourWords => 4,
        }
    }

    /// The bytes of slot k.
    fn bytes(&self, k: usize) -> &[u8] {
        let width = self.width as usize;
        &self.contents[width * k..width * (k + 1)]
    }
}

/// A record: the page p, its version v, its back pointer c, the next page np and its version nv. One of four words has c = 0.
#[derive(Clone, Copy, PartialEq, Eq)]
struct Record {
    p: u32,
    v: u32,
    c: u32,
    np: u32,
    nv: u32,
}

impl Record {
    /// The record in a slot's words, or none where they are blank.
    fn decode(slot: &[u32]) -> Option<Record> {
        match *slot {
            [NONE, NONE, NONE, NONE, NONE] | [NONE, NONE, NONE, NONE] => None,
            [p, v, c, np, nv] => Some(Record { p, v, c, np, nv }),
            [p, v, np, nv] => Some(Record { p, v, c: 0, np, nv }),
            _ => unreachable!("a slot has five words or four"),
        }
    }

    /// p and np are below P, v, c and nv are at most 4,294,967,294, c is below v (or both are 0), and nv equals v where np equals p.
    fn is_sound(self, pages: u32) -> bool {
        let Record { p, v, c, np, nv } = self;
        p < pages && np < pages && v < NONE && c < NONE && nv < NONE && (c < v || (c == 0 && v == 0)) && (np != p || nv == v)
    }

    /// K straddles I's link if K.p = I.np and K.c < I.nv < K.v.
    fn straddles(self, i: Record) -> bool {
        self.p == i.np && self.c < i.nv && i.nv < self.v
    }
}

/// What one pass over the slots finds: the records with their slots, each page's highest record, and the highest version that any record
/// gives the page or links to.
struct Table {
    records: Vec<(usize, Record)>,
    highest: [Option<Record>; MOST_PAGES],
    used: [u32; MOST_PAGES],
}

impl Table {
    /// Reads the slots, or gives 2 where one is neither blank nor sound.
    fn read(volume: Volume) -> Result<Table, u32> {
        let records = Vec::with_capacity(MOST_SLOTS);
        let mut table = Table { records, highest: [None; MOST_PAGES], used: [0; MOST_PAGES] };
        for (k, slot) in volume.words.chunks_exact(volume.slot_words()).enumerate() {
            let Some(record) = Record::decode(slot) else { continue };
            if !record.is_sound(volume.pages) {
                return Err(2);
            }
            table.records.push((k, record));
            let highest = &mut table.highest[record.p as usize];
            if highest.is_none_or(|other| other.v < record.v) {
                *highest = Some(record);
            }
            for (page, version) in [(record.p, record.v), (record.np, record.nv)] {
                let used = &mut table.used[page as usize];
                *used = version.max(*used);
            }
        }
        Ok(table)
    }
}

/// Whether two records have equal page and version and are no twins.
fn clash(volume: Volume, records: &[(usize, Record)]) -> bool {
    for (i, one) in records.iter().enumerate() {
        for other in &records[i + 1..] {
            if one.1.p == other.1.p && one.1.v == other.1.v && !twins(volume, one, other) {
                return true;
            }
        }
    }
    false
}

/// Twins are equal in all words and bytes. Of four-word records there are none.
fn twins(volume: Volume, (k, one): &(usize, Record), (l, other): &(usize, Record)) -> bool {
    volume.family == Family::FiveWords && one == other && volume.bytes(*k) == volume.bytes(*l)
}

/// What following the links from a page finds: whether its highest record is committed, and how many links were compared.
struct Walk {
    committed: bool,
    links: u32,
}

/// Follows the links from the start's highest record, at every record J by the three cases; none where P links, each to a highest record,
/// do not lead back to the start: they run into a ring that lacks it.
fn follow(family: Family, records: &[(usize, Record)], highest: &[Record], start: usize) -> Option<Walk> {
    let mut j = highest[start];
    for links in 1..=highest.len() as u32 {
        let next = highest[j.np as usize];
        if j.nv < next.v {
            // 1. A record that straddles the link says uncommitted; of four-word records none does.
            let straddled = family == Family::FiveWords && records.iter().any(|&(_, k)| k.straddles(j));
            return Some(Walk { committed: !straddled, links });
        }
        if j.nv > next.v {
            // 2. The version is not there.
            return Some(Walk { committed: false, links });
        }
        if j.np as usize == start {
            // 3. Back at the start.
            return Some(Walk { committed: true, links });
        }
        j = next;
    }
    None
}

/// The committed version of a page whose highest record is uncommitted: that record's c, if a record has it, or of four-word records the
/// second highest version.
fn version_before(family: Family, records: &[(usize, Record)], highest: Record) -> Option<u32> {
    let mut versions = records.iter().filter(|(_, r)| r.p == highest.p).map(|(_, r)| r.v);
    match family {
        Family::FiveWords => versions.find(|&v| v == highest.c),
        Family::FourWords => versions.filter(|&v| v < highest.v).max(),
    }
}
