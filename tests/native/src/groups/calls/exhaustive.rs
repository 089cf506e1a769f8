//! The calls compared on all tables and all states of small kinds.

use super::pickings;
use super::sweepings::swept;
use crate::implementations::compared::Compared;
use crate::implementations::reference::Reference;
use crate::inputs::blocks::each_cleaned;
use crate::interface::{Family, NONE, PAGE_WORDS};
use crate::rules::{slot_words, state_sound, Record};
use crate::volume::{Call, Layout, Sizes, Volume};

/// All sound records of P pages with versions up to the highest.
fn sound_records(family: Family, pages: u32, highest: u32) -> Vec<Record> {
    let versions = 0..=highest;
    let back_pointers = 0..=if family == Family::Bpcc { highest } else { 0 };
    let mut all = Vec::new();
    for (p, np) in (0..pages).flat_map(|p| (0..pages).map(move |np| (p, np))) {
        for v in versions.clone() {
            for (c, nv) in back_pointers.clone().flat_map(|c| (0..=highest).map(move |nv| (c, nv))) {
                let record = Record { p, v, c, np, nv };
                if record.is_sound(pages) {
                    all.push(record);
                }
            }
        }
    }
    all
}

/// Recovery of every table; where it answers 0, the erasure of each slot, and suggest and a sweep or, where a write may be refused by the
/// table, writes. Gives the number of tables.
pub fn tables(compared: &Compared, sizes: Sizes, highest: u32) -> u64 {
    each_table(sizes, highest, |v| one_table(compared, v))
}

/// Doubtful slots of every table, by lists of up to three slots, rising or in every order with repeats. Gives the number of tables, and of
/// lists for each.
pub fn doubtful_tables(compared: &Compared, sizes: Sizes, highest: u32, rising: bool) -> (u64, usize) {
    let mut lists: Vec<Vec<u32>> = vec![Vec::new()];
    for at in 0.. {
        match lists.get(at).cloned() {
            Some(list) if list.len() < 3 => {
                let from = list.last().filter(|_| rising).map_or(0, |&last| last + 1);
                lists.extend((from..sizes.slots).map(|next| [&list[..], &[next]].concat()));
            }
            Some(_) => {}
            None => break,
        }
    }
    (each_table(sizes, highest, |mut v| lists.iter().for_each(|list| drop(v.doubtful(compared, list)))), lists.len())
}

/// Every table of sound records and blank slots, equal up to the slots' order, each slot with bytes of its own and, where records are
/// equal, with equal bytes too. Gives their number.
pub fn each_table(sizes: Sizes, highest: u32, mut each: impl FnMut(Volume)) -> u64 {
    let mut held = sound_records(sizes.family, sizes.pages, highest);
    held.push(Record::BLANK);
    let mut chosen = vec![0; sizes.slots as usize];
    let mut count = 0;
    loop {
        let records: Vec<Record> = chosen.iter().map(|&i: &usize| held[i]).collect();
        let v = Volume::with_records(sizes, &records);
        if chosen.windows(2).any(|pair| pair[0] == pair[1] && pair[0] + 1 < held.len()) {
            each(equal_bytes(v.clone()));
        }
        each(v);
        count += 1;
        // The next choice with rising indices.
        let Some(at) = chosen.iter().rposition(|&i| i + 1 < held.len()) else { return count };
        let next = chosen[at] + 1;
        chosen[at..].fill(next);
    }
}

/// The volume with the same bytes in all slots.
fn equal_bytes(mut v: Volume) -> Volume {
    v.contents.fill(7);
    v
}

/// Recovery of every table of sound records and blank slots in four slots, all with equal bytes; where it answers 0, suggest, a sweep, the
/// erasure of each and of each two, and by each of these tables of blocks the cleaning of each block and every pick. Gives the number of
/// tables, and of picks.
pub fn cleaned_tables(compared: &Compared, sizes: Sizes, places: [u32; 4], highest: u32, blocks: &[Vec<u32>]) -> (u64, u64) {
    let mut held = sound_records(sizes.family, sizes.pages, highest);
    held.push(Record::BLANK);
    let blank = equal_bytes(Volume::with_records(sizes, &[Record::BLANK]));
    let number = held.len().pow(places.len() as u32);
    let mut picks = 0;
    for i in 0..number {
        let (mut v, mut rest) = (blank.clone(), i);
        for k in places {
            v.words[slot_words(sizes.family, k)].copy_from_slice(&held[rest % held.len()].words(sizes.family));
            rest /= held.len();
        }
        if v.call(compared, &Call::Recover).answer == 0 {
            v.suggest(compared);
            swept(compared, &v);
            for (k, l) in places.into_iter().flat_map(|k| places.map(|l| (k, l))) {
                v.clone().call(compared, &Call::Erase(if k == l { vec![k] } else { vec![k, l] }));
            }
            for clean in each_cleaned(blocks) {
                v.clone().call(compared, &clean);
            }
            picks += pickings::every(compared, &v, blocks);
        }
    }
    (number as u64, picks)
}

fn one_table(compared: &Compared, mut v: Volume) {
    if v.call(compared, &Call::Recover).answer != 0 {
        return;
    }
    for k in 0..v.sizes.slots {
        v.clone().call(compared, &Call::Erase(vec![k]));
    }
    match v.sizes.family {
        Family::Bpcc => {
            v.suggest(compared);
            swept(compared, &v);
        }
        Family::Scc => writes(compared, &v),
    }
}

/// Each page launched alone and written to the last slot, and one launched with all others and written first.
fn writes(compared: &Compared, v: &Volume) {
    let Sizes { pages, slots, width, .. } = v.sizes;
    for page in 0..pages {
        for list in [vec![page], (page..pages).chain(0..page).collect()] {
            let mut v = v.clone();
            assert_eq!(v.call(compared, &Call::Launch(list)).answer, 0);
            v.call(compared, &Call::Write { page, slot: slots - 1, bytes: vec![3; width as usize] });
        }
    }
}

/// Every state of two pages whose words are of these values.
fn states_of(values: &[u32]) -> impl Iterator<Item = Vec<u32>> + '_ {
    let words = 2 * PAGE_WORDS as u32;
    let word = |i: usize, at: u32| values[i / values.len().pow(at) % values.len()];
    (0..values.len().pow(words)).map(move |i| (0..words).map(|at| word(i, at)).collect())
}

/// Launch, write, withdraw and read on every state of two pages whose words are of a few values. Gives the number of states.
pub fn states(compared: &Compared, layout: Layout) -> u64 {
    let formatted = Volume::formatted(&Reference, layout.sizes(2, 4));
    let bytes = vec![5; layout.width as usize];
    let mut number = 0;
    for state in states_of(&[0, 1, 2, NONE - 1, NONE]) {
        let mut v = Volume { state, ..formatted.clone() };
        for list in [&[0][..], &[1], &[0, 1], &[1, 0]] {
            v.clone().call(compared, &Call::Launch(list.to_vec()));
        }
        for page in 0..2 {
            v.clone().call(compared, &Call::Withdraw(page));
            v.clone().call(compared, &Call::Write { page, slot: 2 + page, bytes: bytes.clone() });
            v.read(compared, page, &mut bytes.clone());
        }
        number += 1;
    }
    number
}

/// Sweeps of every two sound records of two pages with versions up to 2, or one and a blank slot, with a twin of the first and without, on
/// every sound state whose words are of a few values, and picks of each slot as a block and of all as one. Gives the number of sweeps.
pub fn swept_states(compared: &Compared, layout: Layout) -> usize {
    let sizes = layout.sizes(2, 3);
    let mut held = sound_records(sizes.family, sizes.pages, 2);
    held.push(Record::BLANK);
    let states: Vec<Vec<u32>> = states_of(&[0, 1, 2, NONE]).filter(|state| state_sound(sizes.pages, state)).collect();
    let mut number = 0;
    for (i, &first) in held.iter().enumerate() {
        for (&second, third) in held[i..].iter().flat_map(|second| [(second, first), (second, Record::BLANK)]) {
            let mut v = equal_bytes(Volume::with_records(sizes, &[first, second, third]));
            for state in &states {
                v.state.clone_from(state);
                swept(compared, &v).expect("a sweep of a sound volume");
                [&[0, 1, 2][..], &[0]].iter().for_each(|starts| pickings::assert_judged(compared, &v, starts));
            }
            number += states.len();
        }
    }
    number
}
