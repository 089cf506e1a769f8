//! Volumes, states and arguments for the calls: reachable, sound, with twins, damaged and sheer garbage.

pub mod arguments;
pub mod blocks;
pub mod straddled;

use crate::implementations::reference::Reference;
use crate::interface::{Family, NONE, WIDTHS};
use crate::random::Random;
use crate::rules::{set_entry, slot_bytes, slot_words, state_sound, Entry, Record, LAST_VERSION};
use crate::volume::{Call, Layout, Sizes, Volume};
pub use arguments::{
    blocks_to_clean, blocks_to_look_at, page_and_slot_to_write, page_to_take, pages_to_launch, slots_to_doubt, slots_to_erase,
};

/// Widths that no volume has.
pub const WRONG_WIDTHS: [u32; 7] = [0, 31, 33, 63, 65, 96, NONE];

/// The numbers at which something changes, for P pages and S slots.
pub fn boundary(random: &mut Random, sizes: Sizes) -> u32 {
    let Sizes { pages, slots, .. } = sizes;
    random.pick(&[
        0,
        1,
        2,
        pages.wrapping_sub(1),
        pages,
        pages + 1,
        slots.wrapping_sub(1),
        slots,
        slots + 1,
        255,
        256,
        257,
        1023,
        1024,
        1025,
        0x7FFF_FFFF,
        0x8000_0000,
        858_993_460,
        134_217_728,
        NONE - 2,
        NONE - 1,
        NONE,
    ])
}

/// A volume of a layout, and its state, for one round of calls: most often small, now and then the largest, and where volumes are
/// cleaned one in forty of more than 64 slots.
pub fn volume(random: &mut Random, layout: Layout) -> Volume {
    match random.below(2000) {
        0 => {
            let sizes = layout.sizes(random.pick(&[255, 256]), 1024 - random.below(2));
            volume_of(random, sizes)
        }
        1..=50 if layout.family == Family::Bpcc => longer_volume(random, layout),
        _ => {
            let pages = pages(random);
            let sizes = layout.sizes(pages, pages + random.below(9));
            volume_of(random, sizes)
        }
    }
}

/// One of more slots than 64, or than 127.
pub fn longer_volume(random: &mut Random, layout: Layout) -> Volume {
    let slots = if random.one_in(3) { 128 + random.below(4) } else { 65 + random.below(9) };
    let sizes = layout.sizes(pages(random), slots);
    volume_of(random, sizes)
}

fn pages(random: &mut Random) -> u32 {
    let most = if random.one_in(8) { 8 } else { 4 };
    1 + random.below(most)
}

fn volume_of(random: &mut Random, sizes: Sizes) -> Volume {
    let mut v = match random.below(10) {
        0..=3 => reached(random, sizes),
        4..=5 => sound_table(random, sizes),
        6..=8 => linked_table(random, sizes),
        _ => garbage(random, sizes),
    };
    if random.one_in(3) {
        add_twins(random, &mut v);
    }
    choose_state(random, &mut v);
    if random.one_in(8) {
        damage(random, sizes, &mut v.words);
    }
    if random.one_in(8) {
        damage(random, sizes, &mut v.state);
    }
    v
}

/// What some calls leave of a formatted volume.
fn reached(random: &mut Random, sizes: Sizes) -> Volume {
    let mut v = Volume::formatted(&Reference, sizes);
    for _ in 0..random.below(40) {
        let call = call(random, &v);
        v.call(&Reference, &call);
    }
    v
}

/// A call on a volume, most often one that is done.
pub fn call(random: &mut Random, v: &Volume) -> Call {
    let Sizes { family, pages, width, .. } = v.sizes;
    match random.below(8) {
        0..=1 => Call::Launch(pages_to_launch(random, v)),
        2..=5 => {
            let (page, slot) = page_and_slot_to_write(random, v);
            Call::Write { page, slot, bytes: random.bytes(width) }
        }
        6 if family == Family::Bpcc && random.one_in(2) => {
            let (starts, block) = blocks_to_clean(random, v);
            Call::Clean { starts, block }
        }
        6 if random.one_in(4) => Call::Withdraw(random.below(pages)),
        6 if random.one_in(4) => Call::Recover,
        _ => Call::Erase(slots_to_erase(random, v)),
    }
}

/// A version, most often small, sometimes at the end of the range.
fn version(random: &mut Random) -> u32 {
    match random.below(12) {
        0 => random.pick(&[LAST_VERSION, LAST_VERSION - 1, LAST_VERSION - 2]),
        _ => random.below(5),
    }
}

/// A sound record of a page.
fn sound_record(random: &mut Random, pages: u32, p: u32) -> Record {
    let v = version(random);
    let c = if v == 0 { 0 } else { version(random) % v };
    let np = random.below(pages);
    let nv = if np == p { v } else { version(random) };
    Record { p, v, c, np, nv }
}

/// Sound records and blank slots in any order, pages and versions repeated or missing; one slot in three is blank, or few, or none.
fn sound_table(random: &mut Random, sizes: Sizes) -> Volume {
    let mut v = Volume::with_records(sizes, &[Record::BLANK]);
    v.contents = random.bytes(v.contents.len() as u32);
    let blank_in = random.pick(&[3, 3, 3, 40, 1000]);
    for k in 0..sizes.slots {
        if !random.one_in(blank_in) {
            let p = random.below(sizes.pages);
            let record = sound_record(random, sizes.pages, p);
            v.words[slot_words(sizes.family, k)].copy_from_slice(&record.words(sizes.family));
        }
    }
    v
}

/// At least one record for each page, no two with equal page and version, most links of highest records to highest versions.
fn linked_table(random: &mut Random, sizes: Sizes) -> Volume {
    let Sizes { pages, slots, .. } = sizes;
    let highest: Vec<u32> = (0..pages).map(|_| 1 + version(random).min(LAST_VERSION - 1)).collect();
    let mut held: Vec<Record> = Vec::new();
    for p in 0..pages {
        let v = highest[p as usize];
        let np = random.below(pages);
        let off = if random.one_in(6) { random.pick(&[1, NONE, NONE - 1]) } else { 0 };
        let nv = if np == p { v } else { highest[np as usize].wrapping_add(off).min(LAST_VERSION) };
        let c = if random.one_in(3) { 0 } else { version(random) % v };
        held.push(Record { p, v, c, np, nv });
    }
    while held.len() < slots as usize && !random.one_in(5) {
        let below: Vec<u32> = held.iter().map(|r| r.c).chain([0]).collect();
        let (p, v) = (random.below(pages), if random.one_in(2) { random.pick(&below) } else { random.below(5) });
        if v < highest[p as usize] && !held.iter().any(|r| r.p == p && r.v == v) {
            let np = random.below(pages);
            let nv = if np == p { v } else { version(random) };
            held.push(Record { p, v, c: if v == 0 { 0 } else { random.below(v) }, np, nv });
        }
    }
    held.resize(slots as usize, Record::BLANK);
    random.shuffle(&mut held);
    Volume::with_records(sizes, &held)
}

fn garbage(random: &mut Random, sizes: Sizes) -> Volume {
    let mut v = Volume::zeroed(sizes);
    let wild = random.one_in(2);
    let word = |random: &mut Random| if wild { random.number() as u32 } else { boundary(random, sizes) };
    v.words.iter_mut().for_each(|w| *w = word(random));
    v.state.iter_mut().for_each(|w| *w = word(random));
    v.contents = random.bytes(v.contents.len() as u32);
    v
}

/// Copies some records to blank slots, if there are any, most as they are and some with another byte or another word.
pub fn add_twins(random: &mut Random, v: &mut Volume) {
    let Sizes { family, width, .. } = v.sizes;
    for _ in 0..1 + random.below(4) {
        let (held, blank) = (v.records(), v.blank_slots());
        if held.is_empty() || blank.is_empty() {
            return;
        }
        let to = random.pick(&blank);
        v.copy_within(random.pick(&held).0, to);
        match random.below(6) {
            0 => v.contents[slot_bytes(width, to)][random.below(width) as usize] ^= 1 << random.below(8),
            1 => {
                let words = &mut v.words[slot_words(family, to)];
                let at = random.below(words.len() as u32) as usize;
                words[at] = words[at].wrapping_add(random.pick(&[1, NONE]));
            }
            _ => {}
        }
    }
}

/// Keeps the volume's state, recovers it, makes a sound one, or loses it.
fn choose_state(random: &mut Random, v: &mut Volume) {
    match random.below(12) {
        0..=3 if state_sound(v.sizes.pages, &v.state) => {}
        4 => drop(v.call(&Reference, &Call::Recover)),
        5 => v.state.fill(NONE),
        _ => sound_state(random, v),
    }
}

/// Any sound state, its committed versions often those of records.
fn sound_state(random: &mut Random, v: &mut Volume) {
    let (table, pages) = (v.records(), v.sizes.pages);
    let mut flying = random.subset(pages);
    if random.one_in(2) {
        flying.truncate(pages as usize / 2);
    }
    let mut next = flying.clone();
    random.shuffle(&mut next);
    let all_written = random.one_in(6);
    for p in 0..pages {
        let own: Vec<u32> = table.iter().filter(|(_, r)| r.p == p).map(|(_, r)| r.v).collect();
        let held = !own.is_empty() && !random.one_in(5);
        let committed = if held { random.pick(&own).min(LAST_VERSION) } else { version(random) };
        let used =
            if random.one_in(12) { random.pick(&[LAST_VERSION, LAST_VERSION - 1]) } else { committed.saturating_add(random.below(4)) };
        let used = used.clamp(committed, LAST_VERSION);
        let e = match flying.iter().position(|&q| q == p) {
            Some(at) if committed < LAST_VERSION => {
                let written = u32::from(all_written || random.one_in(2));
                Entry { committed, used: used.max(committed + 1), next: next[at], written }
            }
            Some(at) => Entry { committed: 0, used: 1, next: next[at], written: 0 },
            None => Entry { committed, used, next: NONE, written: 0 },
        };
        set_entry(&mut v.state, p, e);
    }
}

/// Alters one to three words.
fn damage(random: &mut Random, sizes: Sizes, words: &mut [u32]) {
    for _ in 0..1 + random.below(3) {
        let at = random.below(words.len() as u32) as usize;
        words[at] = match random.below(4) {
            0 => boundary(random, sizes),
            1 => words[at].wrapping_add(1),
            2 => words[at].wrapping_sub(1),
            _ => words[random.below(words.len() as u32) as usize],
        };
    }
}

/// A wrong size or length for some call.
pub fn resize(random: &mut Random, v: &mut Volume) {
    fn cut<T: Copy + Default>(random: &mut Random, list: &mut Vec<T>) {
        let n = list.len();
        let wrong = random.pick(&[0, 1, n.saturating_sub(1), n + 1, n / 2, 2 * n, n.saturating_sub(4), n + 4, n + 5, n + 32]);
        list.resize(wrong, T::default());
    }
    match random.below(7) {
        0 => v.sizes.pages = boundary(random, v.sizes),
        1 => v.sizes.slots = boundary(random, v.sizes),
        2 => cut(random, &mut v.words),
        3 => cut(random, &mut v.contents),
        4 => cut(random, &mut v.state),
        _ => {
            let width = if random.one_in(2) { random.pick(&WIDTHS) } else { random.pick(&WRONG_WIDTHS) };
            v.sizes.width = width;
            if is_short(width) && !random.one_in(3) {
                v.contents.resize(width as usize * v.sizes.slots as usize, 0);
            }
        }
    }
}

/// Whether buffers of a width's length are to be had, be it right or wrong.
pub fn is_short(width: u32) -> bool {
    width < 1000
}
