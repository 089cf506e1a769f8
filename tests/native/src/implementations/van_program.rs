//! Document 02's page for the service van, over the calls and document 01's definitions: wish 13, a decision a function.

use crate::interface::{Calls, Family, NONE, PAGE_WORDS, WIDTHS};
use crate::rules::{entry, is_exposed, is_needed, is_obsolete, sizes_fit, Record};
use crate::volume::{Call, Sizes, Volume};
use std::io::Read;

/// The bytes of a volume's P, S and width.
pub const HEADER_BYTES: usize = 12;

/// The columns of a volume's number, and of each figure.
pub const NUMBER_COLUMNS: usize = 8;
pub const FIGURE_COLUMNS: usize = 16;

/// Pages set, obsolete, exposed and needed-straddler records.
pub type Figures = [u32; 4];

/// What is found of a volume.
pub enum Found {
    /// It recovers, and this is how recovery leaves it.
    Recovered(Volume),
    /// It does not, by this number.
    Refused(Volume, u32),
    /// Its sizes are wrong, or it is cut short.
    Broken,
}

/// The bytes of a volume: P, S, the width, the table's words, "all 32 bits lowest byte first, then the contents".
pub fn stored(v: &Volume) -> Vec<u8> {
    let sizes = [v.sizes.pages, v.sizes.slots, v.sizes.width];
    let words = sizes.iter().chain(&v.words).flat_map(|word| word.to_le_bytes());
    words.chain(v.contents.iter().copied()).collect()
}

/// The page that is printed on an input.
pub fn run(calls: &dyn Calls, input: &[u8]) -> Vec<u8> {
    run_as(&Right, calls, input)
}

/// The same, by the decisions of a right program or of a wrong one.
pub fn run_as(van: &dyn Surveying, calls: &dyn Calls, input: &[u8]) -> Vec<u8> {
    run_through(van, calls, input).expect("memory gives every byte")
}

/// The same, of an input that is read no further than the last volume goes.
pub fn run_through(van: &dyn Surveying, calls: &dyn Calls, mut input: impl Read) -> std::io::Result<Vec<u8>> {
    let mut up_to = |length: u64| {
        let mut bytes = Vec::new();
        input.by_ref().take(length).read_to_end(&mut bytes).map(|_| bytes)
    };
    let mut all = Vec::new();
    while all.len() < van.most_volumes() {
        let header = up_to(HEADER_BYTES as u64)?;
        if !van.is_volume(&header) {
            break;
        }
        let volume = match van.sizes(&header).filter(|&sizes| van.sizes_right(sizes)) {
            Some(sizes) => van.volume(sizes, up_to(word_bytes(sizes) + content_bytes(sizes))?),
            None => None,
        };
        let found = volume.map_or(Found::Broken, |volume| van.recovered(calls, volume));
        let ends = van.ends_reading(&found);
        all.push(found);
        if ends {
            break;
        }
    }
    Ok(van.page(&all).into_bytes())
}

/// How many bytes the words of a volume have,
pub fn word_bytes(sizes: Sizes) -> u64 {
    4 * sizes.family.slot_words() as u64 * u64::from(sizes.slots)
}

/// … and its contents.
pub fn content_bytes(sizes: Sizes) -> u64 {
    u64::from(sizes.width) * u64::from(sizes.slots)
}

/// "All 32 bits lowest byte first."
fn words(bytes: &[u8]) -> Vec<u32> {
    bytes.chunks_exact(4).map(|word| u32::from_le_bytes(word.try_into().unwrap())).collect()
}

/// What the program decides.
pub trait Surveying {
    /// "For up to 32 volumes"; "a 33rd is not read".
    fn most_volumes(&self) -> usize {
        32
    }

    /// "The input may end before any volume": what is left of it, up to the length of a header, begins one unless it is nothing.
    fn is_volume(&self, header: &[u8]) -> bool {
        !header.is_empty()
    }

    /// "P, S, the width", or nothing where they are cut short.
    fn sizes(&self, header: &[u8]) -> Option<Sizes> {
        let [pages, slots, width] = words(header)[..] else { return None };
        Some(Sizes { family: Family::Bpcc, pages, slots, width })
    }

    /// Not "wrong sizes (64 wide with over 512 slots included)".
    fn sizes_right(&self, sizes: Sizes) -> bool {
        let Sizes { pages, slots, width, .. } = sizes;
        sizes_fit(pages, slots) && WIDTHS.contains(&width) && (width != 64 || slots <= 512)
    }

    /// "The table's words …, then the contents", the state unknown; or nothing where they are cut short.
    fn volume(&self, sizes: Sizes, bytes: Vec<u8>) -> Option<Volume> {
        if bytes.len() as u64 != word_bytes(sizes) + content_bytes(sizes) {
            return None;
        }
        let (table, contents) = bytes.split_at(word_bytes(sizes) as usize);
        let state = vec![NONE; PAGE_WORDS * sizes.pages as usize];
        Some(Volume { sizes, words: words(table), contents: contents.to_vec(), state })
    }

    /// What recovery makes of a volume.
    fn recovered(&self, calls: &dyn Calls, mut volume: Volume) -> Found {
        match volume.call(calls, &Call::Recover).answer {
            0 => Found::Recovered(volume),
            answer => Found::Refused(volume, answer),
        }
    }

    /// "A volume with wrong sizes … or cut short … ends the reading."
    fn ends_reading(&self, found: &Found) -> bool {
        matches!(found, Found::Broken)
    }

    /// A page is set where its committed version is not 0.
    fn is_set(&self, volume: &Volume, page: u32) -> bool {
        entry(&volume.state, page).committed != 0
    }

    /// The records that are counted: twins each.
    fn records(&self, volume: &Volume) -> Vec<(u32, Record)> {
        volume.records()
    }

    fn is_obsolete(&self, volume: &Volume, r: Record) -> bool {
        is_obsolete(&volume.state, r)
    }

    fn is_exposed(&self, volume: &Volume, r: Record) -> bool {
        is_exposed(&volume.state, r)
    }

    /// Document 01's "an obsolete K is needed if …", with the table's records.
    fn is_needed(&self, volume: &Volume, table: &[(u32, Record)], k: Record) -> bool {
        is_obsolete(&volume.state, k) && is_needed(table, &volume.state, k)
    }

    /// "Pages set, obsolete, exposed and needed-straddler records."
    fn figures(&self, volume: &Volume) -> Figures {
        figures(self, volume)
    }

    /// What stands in a volume's line, the rest blank: its figures, or "1 in the pages column", or "its refusal there".
    fn told(&self, found: &Found) -> Vec<u32> {
        match found {
            Found::Recovered(volume) => self.figures(volume).to_vec(),
            Found::Refused(_, answer) => vec![*answer],
            Found::Broken => vec![1],
        }
    }

    /// What a volume adds to the totals: "neither kind adds anything".
    fn adds(&self, found: &Found) -> Figures {
        match found {
            Found::Recovered(volume) => self.figures(volume),
            _ => Figures::default(),
        }
    }

    /// "The mean counts only the others."
    fn is_counted(&self, found: &Found) -> bool {
        matches!(found, Found::Recovered(_))
    }

    /// "As a whole number and a remainder over the volumes"; "with none it is 0 and 0".
    fn mean(&self, set: u32, volumes: u32) -> Vec<u32> {
        match volumes {
            0 => vec![0, 0],
            _ => vec![set / volumes, set % volumes],
        }
    }

    /// "Its number from 1", of the volume with so many before it.
    fn number(&self, before: usize) -> u32 {
        before as u32 + 1
    }

    /// A number, or nothing, in so many columns, "right-aligned".
    fn cell(&self, number: Option<u32>, columns: usize) -> String {
        format!("{:>columns$}", number.map(|n| n.to_string()).unwrap_or_default())
    }

    /// A line: "8 columns, then … 16 each"; "all other columns are blank".
    fn line(&self, number: Option<u32>, figures: &[u32]) -> String {
        line(self, number, figures) + "\n"
    }

    /// "Per volume" a line, "then a line of the four totals in the same columns, then a line with the mean".
    fn lines(&self, all: &[Found]) -> Vec<String> {
        lines(self, all)
    }

    fn page(&self, all: &[Found]) -> String {
        self.lines(all).concat()
    }
}

/// The right program.
pub struct Right;

impl Surveying for Right {}

/// The figures by a program's decisions.
pub fn figures(van: &(impl Surveying + ?Sized), volume: &Volume) -> Figures {
    let (table, counted) = (volume.records(), van.records(volume));
    let count = |is: &dyn Fn(Record) -> bool| counted.iter().filter(|&&(_, r)| is(r)).count() as u32;
    [
        (0..volume.sizes.pages).filter(|&page| van.is_set(volume, page)).count() as u32,
        count(&|r| van.is_obsolete(volume, r)),
        count(&|r| van.is_exposed(volume, r)),
        count(&|r| van.is_needed(volume, &table, r)),
    ]
}

/// The columns of a line by a program's decisions.
pub fn line(van: &(impl Surveying + ?Sized), number: Option<u32>, figures: &[u32]) -> String {
    let cells = (0..4).map(|i| van.cell(figures.get(i).copied(), FIGURE_COLUMNS));
    [van.cell(number, NUMBER_COLUMNS)].into_iter().chain(cells).collect()
}

/// The lines by a program's decisions.
pub fn lines(van: &(impl Surveying + ?Sized), all: &[Found]) -> Vec<String> {
    let added: Vec<Figures> = all.iter().map(|found| van.adds(found)).collect();
    let totals: Vec<u32> = (0..4).map(|i| added.iter().map(|figures| figures[i]).sum()).collect();
    let counted = all.iter().filter(|found| van.is_counted(found)).count() as u32;
    let volumes = all.iter().enumerate().map(|(i, found)| van.line(Some(van.number(i)), &van.told(found)));
    volumes.chain([van.line(None, &totals), van.line(None, &van.mean(totals[0], counted))]).collect()
}
