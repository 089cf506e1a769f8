//! Volumes written by hand, with what is told of each.

use super::page::Told;
use crate::implementations::van_program::{stored, Figures};
use crate::interface::Family;
use crate::rules::{slot_bytes, LAST_VERSION};
use crate::volume::{ring, Sizes, Volume};

type Five = [u32; 5];

/// A volume as it is read, and what is told of it.
#[derive(Clone)]
pub struct Listed {
    pub name: String,
    pub bytes: Vec<u8>,
    pub told: Told,
}

pub fn listed(name: &str, volume: &Volume, told: Told) -> Listed {
    Listed { name: String::from(name), bytes: stored(volume), told }
}

pub fn sizes(pages: u32, slots: u32, width: u32) -> Sizes {
    Sizes { family: Family::Bpcc, pages, slots, width }
}

/// F: the formatted records of P pages, and further records.
fn formatted_and(pages: u32, more: &[Five]) -> Vec<Five> {
    (0..pages).map(|i| [i, 0, 0, i, 0]).chain(more.iter().copied()).collect()
}

/// The formatted records and others, in the lowest slots, and two blank slots.
fn volume(width: u32, pages: u32, more: &[Five]) -> Volume {
    let held = formatted_and(pages, more);
    Volume::with_records(sizes(pages, held.len() as u32 + 2, width), &held)
}

/// Case 6's records: (0,1,0,1,1) is exposed, and (1,2,0,2,1) needed.
const CASE_6: &[Five] = &[[0, 1, 0, 1, 1], [1, 2, 0, 2, 1], [2, 1, 0, 1, 2], [1, 3, 2, 1, 3]];

/// Names, pages, records besides the formatted ones, and figures.
const COUNTED: [(&str, u32, &[Five], Figures); 20] = [
    ("formatted", 2, &[], [0, 0, 0, 0]),
    ("case 2", 2, &[[0, 1, 0, 1, 1]], [0, 0, 1, 0]),
    ("case 3", 2, &[[0, 1, 0, 1, 1], [1, 1, 0, 0, 1]], [2, 2, 0, 0]),
    ("case 4, a committed straddler", 3, &[[0, 1, 0, 1, 1], [1, 2, 0, 2, 1], [2, 1, 0, 1, 2]], [2, 2, 1, 0]),
    ("case 5", 3, &[[0, 1, 0, 1, 1], [1, 2, 1, 2, 1], [2, 1, 0, 1, 2]], [3, 3, 0, 0]),
    ("case 6", 3, CASE_6, [2, 3, 1, 1]),
    ("case 11", 2, &[[0, 1, 0, 1, 1], [1, 1, 0, 0, 2]], [0, 0, 2, 0]),
    ("a committed record between", 2, &[[0, 1, 0, 0, 1], [0, 2, 1, 0, 2], [0, 3, 2, 1, 7]], [1, 2, 1, 0]),
    ("a straddler outdone by a later one", 2, &[[0, 1, 0, 1, 1], [1, 2, 0, 1, 2], [1, 3, 0, 1, 3], [1, 4, 3, 1, 4]], [1, 3, 1, 1]),
    (
        "a straddler beside one of another page",
        3,
        &[[0, 1, 0, 1, 1], [1, 2, 0, 1, 2], [1, 3, 2, 1, 3], [2, 5, 0, 2, 5], [2, 6, 5, 2, 6]],
        [2, 4, 1, 1],
    ),
    ("a straddler of an obsolete record's link", 2, &[[0, 1, 0, 1, 1], [0, 2, 0, 0, 2], [1, 2, 0, 1, 2], [1, 3, 2, 1, 3]], [2, 4, 0, 0]),
    ("one straddler for two", 3, &[[0, 1, 0, 1, 1], [2, 1, 0, 1, 1], [1, 2, 0, 1, 2], [1, 3, 2, 1, 3]], [1, 2, 2, 1]),
    ("two straddlers for one", 2, &[[0, 1, 0, 1, 2], [1, 3, 1, 1, 3], [1, 4, 0, 1, 4], [1, 5, 4, 1, 5]], [1, 3, 1, 2]),
    (
        "versions that end and begin at a link",
        2,
        &[[0, 1, 0, 1, 2], [1, 2, 1, 1, 2], [1, 3, 2, 1, 3], [1, 5, 0, 1, 5], [1, 6, 5, 1, 6]],
        [1, 4, 1, 1],
    ),
    (
        "a straddler for a record that is not the highest",
        2,
        &[[0, 1, 0, 1, 1], [0, 2, 0, 1, 9], [1, 2, 0, 1, 2], [1, 3, 2, 1, 3]],
        [1, 2, 2, 1],
    ),
    ("a link past every version", 2, &[[0, 1, 0, 1, 5], [1, 1, 0, 1, 1], [1, 2, 1, 1, 2], [1, 3, 2, 1, 3]], [1, 3, 1, 0]),
    ("the last version committed", 1, &[[0, LAST_VERSION, 0, 0, LAST_VERSION]], [1, 1, 0, 0]),
    ("the last version exposed", 2, &[[0, LAST_VERSION, 0, 1, 1]], [0, 0, 1, 0]),
    ("versions of more than 31 bits", 1, &[[0, 1 << 31, 0, 0, 1 << 31], [0, 3 << 30, 1 << 31, 0, 3 << 30]], [1, 2, 0, 0]),
    ("a set of five pages", 5, &[[4, 1, 0, 0, 1], [0, 1, 0, 2, 1], [2, 1, 0, 3, 1], [3, 1, 0, 1, 1], [1, 1, 0, 4, 1]], [5, 5, 0, 0]),
];

/// Names, pages, all records, and recovery's refusal.
const REFUSED: [(&str, u32, &[Five], u32); 8] = [
    ("a page out of range", 2, &[[0, 0, 0, 0, 0], [1, 0, 0, 1, 0], [2, 0, 0, 2, 0]], 2),
    ("a back pointer that is no earlier", 2, &[[0, 0, 0, 0, 0], [1, 0, 0, 1, 0], [0, 1, 1, 0, 1]], 2),
    ("a slot neither blank nor sound, beside a clash", 1, &[[0, 0, 0, 0, 0], [0, 0, 0, 0, 0], [0, u32::MAX, 0, 0, 0]], 2),
    ("equal words, other bytes", 1, &[[0, 1, 0, 0, 1], [0, 1, 0, 0, 1]], 3),
    ("equal page and version", 2, &[[0, 1, 0, 0, 1], [0, 1, 0, 1, 1], [1, 1, 0, 1, 1]], 3),
    ("a page with no record", 3, &[[0, 0, 0, 0, 0], [2, 4, 0, 0, 4]], 3),
    ("case 9", 3, &[[0, 1, 0, 1, 1], [1, 1, 0, 2, 1], [2, 1, 0, 1, 1]], 4),
    ("case 10", 2, &[[0, 2, 1, 1, 5], [1, 0, 0, 1, 0]], 14),
];

/// Volumes that recover.
pub fn counted(width: u32) -> Vec<Listed> {
    let figures =
        |(name, pages, more, figures): (&str, u32, &[Five], Figures)| listed(name, &volume(width, pages, more), Told::Figures(figures));
    let mut all: Vec<Listed> = COUNTED.into_iter().map(figures).collect();
    all.extend([
        listed("case 6 with twins", &case_6_with_twins(width), Told::Figures([2, 5, 3, 2])),
        listed("a silence, and bytes of a page that is not set", &silence(width), Told::Figures([1, 1, 0, 0])),
        listed("bytes in blank slots", &stray(width), Told::Figures([1, 1, 0, 0])),
        listed("no blank slot", &Volume::with_records(sizes(2, 2, width), &ring(&[1, 0])), Told::Figures([2, 0, 0, 0])),
        listed("one page and one slot", &Volume::with_records(sizes(1, 1, width), &formatted_and(1, &[])), Told::Figures([0, 0, 0, 0])),
    ]);
    all
}

/// Volumes that recovery refuses by each of its numbers.
pub fn refused(width: u32) -> Vec<Listed> {
    let refusal = |(name, pages, held, answer): (&str, u32, &[Five], u32)| {
        listed(name, &Volume::with_records(sizes(pages, held.len() as u32 + 1, width), held), Told::Alone(answer))
    };
    let mut all: Vec<Listed> = REFUSED.into_iter().map(refusal).collect();
    let mut blank = volume(width, 1, &[]);
    *blank.words.last_mut().unwrap() = 0;
    all.push(listed("a word of a blank slot", &blank, Told::Alone(2)));
    let mut last_byte = case_6_with_twins(width);
    *last_byte.contents.last_mut().unwrap() ^= 0x80;
    all.push(listed("a twin but for its last bit", &last_byte, Told::Alone(3)));
    all.push(listed("no record at all", &Volume::with_records(sizes(1, 1, width), &[[u32::MAX; 5]]), Told::Alone(3)));
    all
}

/// A volume by its name.
pub fn by_name(width: u32, name: &str) -> Listed {
    let mut all = counted(width).into_iter().chain(refused(width));
    all.find(|volume| volume.name == name).unwrap_or_else(|| panic!("no volume {name}"))
}

/// Case 6 with a twin of the needed straddler, of another obsolete record and of a committed one, and two of the exposed one, in the last
/// slots.
fn case_6_with_twins(width: u32) -> Volume {
    let held = formatted_and(3, CASE_6);
    let mut v = Volume::with_records(sizes(3, 12, width), &held);
    for (from, to) in [(4, 7), (1, 8), (5, 9), (3, 10), (3, 11)] {
        v.copy_within(from, to);
    }
    v
}

/// A page set with nothing drawn, and one that is not set, the bytes of which are not 0.
fn silence(width: u32) -> Volume {
    let mut v = volume(width, 2, &[[0, 1, 0, 0, 1]]);
    v.contents[slot_bytes(width, 2)].fill(0);
    v.contents[slot_bytes(width, 1)].fill(255);
    v
}

/// A volume of which every blank slot has bytes other than 255.
fn stray(width: u32) -> Volume {
    let mut v = volume(width, 2, &[[0, 1, 0, 0, 1]]);
    v.blank_slots().into_iter().for_each(|k| v.contents[slot_bytes(width, k)].fill(k as u8));
    v
}

/// As many records as a volume may have at width 32, none of its slots blank: of every two pages one has an exposed record whose link an
/// obsolete one of the other straddles, which has three twins.
pub fn full() -> Listed {
    let [p, q] = [0, 1].map(|odd| move |pair: u32| 2 * pair + odd);
    let straddled = |i: u32| [[p(i), 1, 0, q(i), 1], [q(i), 2, 0, q(i), 2], [q(i), 3, 2, q(i), 3]];
    let held = formatted_and(256, &(0..128).flat_map(straddled).collect::<Vec<Five>>());
    let mut v = Volume::with_records(sizes(256, 1024, 32), &held);
    (0..3 * 128).for_each(|i| v.copy_within(256 + 3 * (i % 128) + 1, held.len() as u32 + i));
    assert_eq!(v.blank_slots(), []);
    listed("1,024 records", &v, Told::Figures([128, 640, 128, 512]))
}
