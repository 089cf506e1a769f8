//! Inputs at the limits: sizes, volumes that are cut short, and numbers of volumes.

use super::by_hand::{given, given_and, Given};
use super::page::{Told, BROKEN};
use super::volumes::{by_name, counted, listed, refused, sizes, Listed};
use crate::implementations::reference::Reference;
use crate::implementations::van_program::HEADER_BYTES;
use crate::interface::{other_width, NONE};
use crate::volume::{Sizes, Volume};

/// The bytes of P, S and the width.
pub fn header(sizes: Sizes) -> Vec<u8> {
    [sizes.pages, sizes.slots, sizes.width].iter().flat_map(|word| word.to_le_bytes()).collect()
}

/// P, S and widths that no volume has here, some of them right but for a higher bit, or where a length has 32 bits alone.
const WRONG: [[u32; 3]; 35] = [
    [0, 4, 32],
    [0, 0, 32],
    [0, 0, 0],
    [257, 257, 32],
    [257, 1024, 32],
    [257, 300, 64],
    [5, 4, 32],
    [5, 4, 64],
    [1, 0, 32],
    [256, 255, 32],
    [1, 1025, 32],
    [256, 1025, 32],
    [2, 4, 0],
    [2, 4, 16],
    [2, 4, 31],
    [2, 4, 33],
    [2, 4, 63],
    [2, 4, 65],
    [2, 4, 96],
    [2, 4, 128],
    [2, 4, NONE],
    [1, 513, 64],
    [256, 513, 64],
    [256, 1024, 64],
    [1, 1025, 64],
    [2, 65_540, 32],
    [65_538, 4, 32],
    [65_538, 65_540, 32],
    [2, 4, 65_568],
    [1, 214_748_365, 32],
    [1, 134_217_728, 32],
    [1, 1 << 31, 32],
    [1 << 31, 4, 32],
    [NONE, NONE, NONE],
    [1, NONE, 64],
];

/// Volumes with wrong sizes by themselves, before others and between them, whole or as far as they have an end.
pub fn wrong_sizes(width: u32) -> Vec<Given> {
    let mut all = Vec::new();
    let good = [by_name(width, "case 6")];
    for [pages, slots, width] in WRONG {
        let (name, sizes) = (format!("P = {pages}, S = {slots}, width {width}"), sizes(pages, slots, width));
        let whole = whole(sizes);
        let before_others = |bytes: &[u8]| [bytes, &good[0].bytes, &good[0].bytes].concat();
        all.push(given_and(&name, &[], &header(sizes), &[BROKEN]));
        all.push(given_and(&format!("{name}, whole"), &[], &whole, &[BROKEN]));
        all.push(given_and(&format!("{name}, whole, before others"), &[], &before_others(&whole), &[BROKEN]));
        all.push(given_and(&format!("{name}, before others"), &[], &before_others(&header(sizes)), &[BROKEN]));
        all.push(given_and(&format!("{name}, whole, between others"), &good, &before_others(&whole), &[BROKEN]));
    }
    all
}

/// A volume of any sizes with a formatted record of each page, as far as it has slots, and little longer than one may be.
fn whole(sizes: Sizes) -> Vec<u8> {
    let (slots, width) = (sizes.slots.min(1025), sizes.width.min(128));
    let mut bytes = header(sizes);
    for k in 0..slots {
        let words = if k < sizes.pages { [k, 0, 0, k, 0] } else { [NONE; 5] };
        bytes.extend(words.iter().flat_map(|word| word.to_le_bytes()));
    }
    bytes.resize(bytes.len() + (width * slots) as usize, 0);
    bytes
}

/// Sizes that are right at each limit: a formatted volume between two with one ring of all pages.
pub fn limits() -> Vec<Given> {
    let mut all = Vec::new();
    let limits = [(1, 1, 32), (1, 1, 64), (256, 256, 32), (256, 256, 64), (1, 1024, 32), (1, 512, 64), (256, 1024, 32), (256, 512, 64)];
    for (pages, slots, width) in limits {
        let (name, sizes) = (format!("P = {pages}, S = {slots}, width {width}, which are right"), sizes(pages, slots, width));
        let formatted = listed(&name, &Volume::formatted(&Reference, sizes), Told::Figures([0; 4]));
        let one_ring = listed(&name, &Volume::one_ring(sizes), Told::Figures([pages, 0, 0, 0]));
        all.push(given(&name, &[one_ring.clone(), formatted, one_ring]));
    }
    all
}

/// Volumes that are cut short in their header, their words and their contents, by themselves and behind others.
pub fn cut_short(width: u32) -> Vec<Given> {
    let bytes = by_name(width, "case 6 with twins").bytes;
    let others = [by_name(other_width(width), "one straddler for two"), by_name(width, "case 10"), by_name(width, "case 3")];
    let words_end = HEADER_BYTES + 12 * 20;
    let inside = [1, 2, 3, 4, 5, 8, 11, 12, 13, 15, 16, 100, words_end - 4, words_end - 1, words_end, words_end + 1, words_end + 100];
    let mut all = Vec::new();
    for length in inside.into_iter().chain([bytes.len() - width as usize, bytes.len() - 1]) {
        all.push(given_and(&format!("the first {length} bytes"), &[], &bytes[..length], &[BROKEN]));
        all.push(given_and(&format!("the first {length} bytes behind others"), &others, &bytes[..length], &[BROKEN]));
    }
    for byte in [0, 1, b'\n', 255] {
        for length in [1, 11, 12, 100_000] {
            let bytes = vec![byte; length];
            all.push(given_and(&format!("{length} bytes of {byte}"), &[], &bytes, &[BROKEN]));
            all.push(given_and(&format!("{length} bytes of {byte} behind others"), &others, &bytes, &[BROKEN]));
        }
    }
    all
}

/// So many volumes of both widths, of which every fourth does not recover.
fn mixed(width: u32, number: usize) -> Vec<Listed> {
    let (these, those, refused) = (counted(width), counted(other_width(width)), refused(width));
    let volume = |i: usize| match i % 4 {
        0 => these[i / 4 % these.len()].clone(),
        1 => refused[i / 4 % refused.len()].clone(),
        2 => those[(these.len() - 1 - i / 4) % those.len()].clone(),
        _ => these[(5 + i / 2) % these.len()].clone(),
    };
    (0..number).map(volume).collect()
}

/// Numbers of volumes up to the most that are read and beyond it, and what is behind the last one.
pub fn numbers(width: u32) -> Vec<Given> {
    let (case_6, case_9, garbage) = (by_name(width, "case 6"), by_name(width, "case 9"), [0xA5; 5000]);
    let (short, wrong) = (&case_6.bytes[..200], [&[0; HEADER_BYTES][..], &case_6.bytes].concat());
    let mut all = vec![
        given("31 volumes", &mixed(width, 31)),
        given("32 volumes", &mixed(width, 32)),
        given("32 volumes, the last of which does not recover", &[vec![case_6.clone(); 31], vec![case_9]].concat()),
        given("32 volumes, none of which recovers", &refused(width).into_iter().cycle().take(32).collect::<Vec<Listed>>()),
        given_and("32 volumes, the last cut short", &mixed(width, 31), short, &[BROKEN]),
        given_and("32 volumes, the last with wrong sizes", &mixed(width, 31), &wrong, &[BROKEN]),
        given_and("wrong sizes and garbage behind 5 volumes", &mixed(width, 5), &[&wrong[..], &garbage].concat(), &[BROKEN]),
        given_and("garbage behind 5 volumes", &mixed(width, 5), &garbage, &[BROKEN]),
    ];
    let behind: [(&str, &[u8]); 5] = [
        ("a 33rd", &case_6.bytes),
        ("eight more", &case_6.bytes.repeat(8)),
        ("one byte more", &[0]),
        ("a 33rd cut short", short),
        ("garbage", &garbage),
    ];
    for (name, bytes) in behind {
        all.push(given_and(&format!("32 volumes and {name}"), &mixed(width, 32), bytes, &[]));
    }
    all
}
