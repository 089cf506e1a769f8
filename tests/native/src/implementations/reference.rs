//! The second implementation of the calls, written from documents 01 and 02 for clarity and not for speed.

use crate::cleaning::{blank_outside, blankings, block, blocks_wrong, clash, copied, erasable, may_erase_alone, steps, twins, Step, Test};
use crate::doubting::{ends, lent, recovering};
use crate::interface::{Arguments, Calls, Family, Name, Reply, END_WORDS, MOST_DOUBTFUL, NONE, PICK_WORDS, WIDTHS};
use crate::picking::picked;
use crate::rules::{
    committed_before, contents_fit, cycle, entry, follow, highest_records, list_wrong, lowest_slot, planned, records, set_entry, set_slot,
    sizes_fit, slot, slot_bytes, state_fits, state_sound, table_sound, used_version, words_fit, would_bury, End, Entry, Record, Walk,
    LAST_VERSION,
};
use crate::sweeping::erasings;
use crate::volume::Volume;

/// The second implementation.
pub struct Reference;

/// "Other widths … are 1", of every call that takes one.
impl Calls for Reference {
    fn call(&self, name: Name, arguments: &mut Arguments) -> Reply {
        if name != Name::Count && !WIDTHS.contains(&arguments.width) {
            refusal(name, 1)
        } else {
            with(twins, name, arguments)
        }
    }
}

/// A call with such a test for twins, at any width.
pub fn with(twins: Test, name: Name, a: &mut Arguments) -> Reply {
    let outcome = match name {
        Name::Format => format(a),
        Name::Launch => launch(a),
        Name::Write => write(a),
        Name::Withdraw => withdraw(a),
        Name::Erase => erase(a, twins),
        Name::Suggest => suggest(a, twins),
        Name::CheckBlocks => check_blocks(a),
        Name::Clean => clean(a, twins),
        Name::Pick => pick(a, twins),
        Name::Sweep => sweep(a, twins),
        Name::Recover => recover(a, twins),
        Name::Doubtful => doubtful(a, twins),
        Name::Count => count(a),
        Name::Read => read(a),
    };
    outcome.map_or_else(|answer| refusal(name, answer), Reply::done)
}

/// What a refused call says.
pub fn refusal(name: Name, answer: u32) -> Reply {
    match name {
        Name::Suggest => Reply { answer, second: NONE },
        _ => Reply::refused(answer),
    }
}

/// The second number of a call that is done, or the answer of one that is refused.
type Outcome = Result<u32, u32>;

/// Refuses by a number where its condition holds.
fn refuse(answer: u32, condition: bool) -> Result<(), u32> {
    if condition {
        Err(answer)
    } else {
        Ok(())
    }
}

/// "P, S or a buffer's length is wrong", of a call that takes the state.
fn state_misfits(a: &Arguments) -> bool {
    !sizes_fit(a.pages, a.slots) || !state_fits(a.pages, a.state)
}

/// The same, of one that takes the slot table too,
fn table_misfits(a: &Arguments) -> bool {
    state_misfits(a) || !words_fit(a.family, a.slots, a.words)
}

/// … of one that takes the contents too,
pub fn volume_misfits(a: &Arguments) -> bool {
    table_misfits(a) || !contents_fit(a.slots, a.width, a.contents)
}

/// … and of one that takes the flash alone.
pub fn flash_misfits(a: &Arguments) -> bool {
    !sizes_fit(a.pages, a.slots) || !words_fit(a.family, a.slots, a.words) || !contents_fit(a.slots, a.width, a.contents)
}

/// "A slot neither blank nor sound."
pub fn slot_unsound(a: &Arguments) -> bool {
    !table_sound(a.family, a.pages, a.words)
}

fn format(a: &mut Arguments) -> Outcome {
    refuse(1, volume_misfits(a))?;
    let zeros = vec![0; a.width as usize];
    for i in 0..a.slots {
        let formatted = Record { p: i, v: 0, c: 0, np: i, nv: 0 };
        set_slot(a.layout(), a.words, a.contents, i, (i < a.pages).then_some((formatted, &zeros)));
    }
    for p in 0..a.pages {
        set_entry(a.state, p, Entry { committed: 0, used: 0, next: NONE, written: 0 });
    }
    Ok(0)
}

fn launch(a: &mut Arguments) -> Outcome {
    refuse(1, state_misfits(a))?;
    refuse(5, !state_sound(a.pages, a.state))?;
    refuse(6, list_wrong(a.list, a.pages))?;
    refuse(7, a.list.iter().any(|&p| entry(a.state, p).in_flight()))?;
    refuse(8, a.list.iter().any(|&p| entry(a.state, p).used == LAST_VERSION))?;
    for (i, &p) in a.list.iter().enumerate() {
        let e = entry(a.state, p);
        let next = a.list[(i + 1) % a.list.len()];
        set_entry(a.state, p, Entry { used: e.used + 1, next, written: 0, ..e });
    }
    Ok(0)
}

fn write(a: &mut Arguments) -> Outcome {
    refuse(1, volume_misfits(a) || a.bytes.len() != a.width as usize)?;
    refuse(2, slot_unsound(a))?;
    refuse(5, !state_sound(a.pages, a.state))?;
    refuse(6, a.page >= a.pages || a.slot >= a.slots)?;
    let e = entry(a.state, a.page);
    refuse(9, !e.in_flight())?;
    refuse(10, e.written == 1)?;
    refuse(11, slot(a.family, a.words, a.slot).is_some())?;
    refuse(16, a.family == Family::Scc && would_bury(&records(a.family, a.words), a.state, a.page))?;
    Ok(store(a))
}

/// A write that is not refused: stores the planned record and its bytes, and gives done.
pub fn store(a: &mut Arguments) -> u32 {
    set_slot(a.layout(), a.words, a.contents, a.slot, Some((planned(a.family, a.state, a.page), a.bytes)));
    set_entry(a.state, a.page, Entry { written: 1, ..entry(a.state, a.page) });
    let ring = cycle(a.state, a.page);
    if ring.iter().any(|&p| entry(a.state, p).written == 0) {
        return 0;
    }
    for p in ring {
        let e = entry(a.state, p);
        set_entry(a.state, p, Entry { committed: e.used, next: NONE, written: 0, ..e });
    }
    1
}

fn withdraw(a: &mut Arguments) -> Outcome {
    refuse(1, state_misfits(a))?;
    refuse(5, !state_sound(a.pages, a.state))?;
    refuse(6, a.page >= a.pages)?;
    refuse(9, !entry(a.state, a.page).in_flight())?;
    for p in cycle(a.state, a.page) {
        let e = entry(a.state, p);
        set_entry(a.state, p, Entry { next: NONE, written: 0, ..e });
    }
    Ok(0)
}

fn erase(a: &mut Arguments, twins: Test) -> Outcome {
    refuse(1, volume_misfits(a))?;
    refuse(2, slot_unsound(a))?;
    refuse(5, !state_sound(a.pages, a.state))?;
    refuse(6, list_wrong(a.list, a.slots))?;
    refuse(12, !erasable(a.view(), twins, a.list).eq(a.list.iter().copied()))?;
    for &k in a.list {
        set_slot(a.layout(), a.words, a.contents, k, None);
    }
    Ok(0)
}

/// Names the lowest slot that may be erased.
fn suggest(a: &mut Arguments, twins: Test) -> Outcome {
    refuse(1, volume_misfits(a))?;
    refuse(2, slot_unsound(a))?;
    refuse(5, !state_sound(a.pages, a.state))?;
    (0..a.slots).find(|&k| may_erase_alone(a.view(), twins, k)).ok_or(13)
}

/// "Takes P, S and the table and refuses by 1 and 17."
fn check_blocks(a: &mut Arguments) -> Outcome {
    refuse(1, !sizes_fit(a.pages, a.slots))?;
    refuse(17, blocks_wrong(a.slots, a.starts))?;
    Ok(0)
}

/// Copies what may not be erased of a block, and blanks it. 17 comes "after 1".
fn clean(a: &mut Arguments, twins: Test) -> Outcome {
    refuse(1, volume_misfits(a))?;
    refuse(17, blocks_wrong(a.slots, a.starts))?;
    refuse(2, slot_unsound(a))?;
    refuse(5, !state_sound(a.pages, a.state))?;
    let block = block(a.slots, a.starts, a.block).ok_or(6u32)?;
    let (from, to) = (copied(a.view(), twins, block.clone()), blank_outside(a.view(), block.clone()));
    refuse(15, from.len() > to.len())?;
    let steps = steps(a.view(), &from, &to, block);
    take(a, &steps);
    Ok(0)
}

/// "Refused: 18, n is 0, after 6; a start block at or past the table's length is 6; 1, 17, 2 and 5 as in cleaning."
fn pick(a: &mut Arguments, twins: Test) -> Outcome {
    refuse(1, volume_misfits(a) || a.picked.len() != PICK_WORDS)?;
    refuse(17, blocks_wrong(a.slots, a.starts))?;
    refuse(2, slot_unsound(a))?;
    refuse(5, !state_sound(a.pages, a.state))?;
    refuse(6, a.block >= a.starts.len() as u32)?;
    refuse(18, a.n == 0)?;
    let words = picked(a.view(), twins, a.starts, a.block, a.n);
    a.picked.copy_from_slice(&words);
    Ok(0)
}

/// "Refuses by 1, 2 and 5 as erase does"; "its steps are listed and done as in cleaning".
fn sweep(a: &mut Arguments, twins: Test) -> Outcome {
    refuse(1, volume_misfits(a))?;
    refuse(2, slot_unsound(a))?;
    refuse(5, !state_sound(a.pages, a.state))?;
    let steps: Vec<Step> = blankings(erasings(&Volume::copied(a), twins).concat()).collect();
    take(a, &steps);
    Ok(0)
}

/// "One function that stores or blanks one slot does them all."
pub fn take(a: &mut Arguments, steps: &[Step]) {
    for Step { slot, held } in steps {
        set_slot(a.layout(), a.words, a.contents, *slot, held.as_ref().map(|(record, bytes)| (*record, &bytes[..])));
    }
}

/// Gives "the number of links followed, summed over pages, one for each record whose link is compared".
fn recover(a: &mut Arguments, twins: Test) -> Outcome {
    refuse(1, if a.family == Family::Bpcc { volume_misfits(a) } else { table_misfits(a) })?;
    refuse(2, slot_unsound(a))?;
    let table = records(a.family, a.words);
    refuse(3, clash(a.view(), twins))?;
    let highest = highest_records(a.pages, &table).ok_or(3u32)?;
    let walks: Vec<Walk> = (0..a.pages).map(|p| follow(a.family, &table, &highest, p)).collect();
    refuse(4, walks.iter().any(|w| matches!(w.end, End::Astray)))?;
    let last_committed = |(w, &h): (&Walk, &Record)| match w.end {
        End::Committed => Some(h.v),
        _ => committed_before(a.family, &table, h).filter(|&v| lowest_slot(a.family, a.words, h.p, v).is_some()),
    };
    let committed: Vec<u32> = walks.iter().zip(&highest).map(last_committed).collect::<Option<_>>().ok_or(14u32)?;
    for p in 0..a.pages {
        set_entry(a.state, p, Entry { committed: committed[p as usize], used: used_version(&table, p), next: NONE, written: 0 });
    }
    Ok(walks.iter().map(|w| w.compared.len() as u32).sum())
}

/// "Refused: 1 and 2 as in recovery; 19, more than 8 doubtful slots, after 6 (whose empty-list rule does not apply here); 20, no filling
/// recovers, after 19; a listed blank slot is 6."
fn doubtful(a: &mut Arguments, twins: Test) -> Outcome {
    refuse(1, flash_misfits(a) || a.ends.len() != END_WORDS * a.pages as usize)?;
    refuse(2, slot_unsound(a))?;
    refuse(6, !a.list.is_empty() && list_wrong(a.list, a.slots))?;
    refuse(6, a.list.iter().any(|&k| slot(a.family, a.words, k).is_none()))?;
    refuse(19, a.list.len() > MOST_DOUBTFUL)?;
    let found = recovering(&lent(a), a.list, |filling| recover(&mut filling.arguments(), twins).is_ok());
    refuse(20, found.is_empty())?;
    a.ends.copy_from_slice(&ends(&found).concat());
    Ok(found.len() as u32)
}

/// Of 32 or 64 bytes: "stop s … is bit s mod 8 of byte s div 8, lowest bit first; 1 means drawn."
fn count(a: &mut Arguments) -> Outcome {
    refuse(1, WIDTHS.iter().all(|&width| a.bytes.len() != width as usize))?;
    let drawn = (0..8 * a.bytes.len()).filter(|s| a.bytes[s / 8] / 2u8.pow((s % 8) as u32) % 2 == 1).count();
    Ok(drawn as u32)
}

fn read(a: &mut Arguments) -> Outcome {
    refuse(1, volume_misfits(a) || a.out.len() != a.width as usize)?;
    refuse(2, slot_unsound(a))?;
    refuse(5, !state_sound(a.pages, a.state))?;
    refuse(6, a.page >= a.pages)?;
    let k = lowest_slot(a.family, a.words, a.page, entry(a.state, a.page).committed).ok_or(14u32)?;
    a.out.copy_from_slice(&a.contents[slot_bytes(a.width, k)]);
    Ok(0)
}
