//! Generated scripts.

use super::template::ending;
use crate::implementations::reference::Reference;
use crate::inputs;
use crate::interface::{Calls, Family, WIDTHS};
use crate::random::Random;
use crate::volume::{Call, Sizes, Volume};

/// A generated script of some lines on volumes most of which have the width, most lines accepted, sometimes with a spoiled one at the end.
pub fn script(random: &mut Random, width: u32, lines: u32) -> Vec<u8> {
    let mut text = String::new();
    let mut volume: Option<Volume> = None;
    let most_pages = if random.one_in(20) { 256 } else { 6 };
    for _ in 0..lines {
        let line = match &mut volume {
            Some(v) if !random.one_in(40) => next_line(random, &Reference, v),
            _ => {
                let pages = 1 + random.below(most_pages);
                let slots = pages.saturating_add(random.below(12)).saturating_sub(random.below(6) / 5);
                let width = if random.one_in(4) { random.pick(&WIDTHS) } else { width };
                let mut new = Volume::zeroed(Sizes { family: Family::Bpcc, pages, slots, width });
                volume = if new.format(&Reference).answer == 0 { Some(new) } else { volume };
                format!("op=format pages={pages} slots={slots}{}", ending(width))
            }
        };
        text += &line;
        text.push('\n');
    }
    let mut bytes = text.into_bytes();
    if random.one_in(3) {
        spoil(random, &mut bytes);
    }
    bytes
}

/// A script of many short lines on a small volume: transactions, each read and then replaced.
pub fn repeated(width: u32, lines: usize) -> Vec<u8> {
    let round = "op=launch pages=0,1\nop=write page=0 slot=2 fill=7\nop=write page=1 slot=3 fill=1\nop=erase slots=0,1\nop=launch pages=1,0\nop=write page=0 slot=0 fill=0\nop=write page=1 slot=1 fill=9\nop=erase slots=2,3\nop=cut\nop=recover\n";
    let rounds = lines / round.lines().count();
    format!("op=format pages=2 slots=4{}\n{}op=list\n", ending(width), round.repeat(rounds)).into_bytes()
}

/// Chooses a line for the volume as it is, and does it there.
pub fn next_line(random: &mut Random, calls: &dyn Calls, v: &mut Volume) -> String {
    let joined = |list: &[u32]| list.iter().map(u32::to_string).collect::<Vec<_>>().join(",");
    let lost = v.state[0] == u32::MAX;
    let call = match random.below(if lost { 16 } else { 24 }) {
        0 => return String::from("op=list"),
        1 => {
            v.state.fill(u32::MAX);
            return String::from("op=cut");
        }
        2..=9 if lost => Call::Recover,
        2..=4 => Call::Launch(shortened(inputs::pages_to_launch(random, v))),
        5 => Call::Withdraw(inputs::page_to_take(random, v)),
        6 => Call::Recover,
        7..=11 => Call::Erase(shortened(inputs::slots_to_erase(random, v))),
        _ => {
            let (page, slot) = inputs::page_and_slot_to_write(random, v);
            Call::Write { page, slot, bytes: vec![random.number() as u8; v.sizes.width as usize] }
        }
    };
    v.call(calls, &call);
    match call {
        Call::Launch(list) => format!("op=launch pages={}", joined(&list)),
        Call::Write { page, slot, bytes } => format!("op=write page={page} slot={slot} fill={}", bytes[0]),
        Call::Withdraw(page) => format!("op=withdraw page={page}"),
        Call::Erase(list) => format!("op=erase slots={}", joined(&list)),
        Call::Clean { .. } | Call::Sweep => unreachable!("a script has no cleaning and no sweep"),
        Call::Recover => String::from("op=recover"),
    }
}

/// At most 64 entries, at least one.
fn shortened(mut list: Vec<u32>) -> Vec<u32> {
    list.truncate(64);
    if list.is_empty() {
        list.push(0);
    }
    list
}

/// Alters, inserts, removes or repeats one byte in the second half.
pub fn spoil(random: &mut Random, bytes: &mut Vec<u8>) {
    let at = bytes.len() / 2 + random.below(bytes.len() as u32 / 2) as usize;
    let byte = if random.one_in(2) { random.number() as u8 } else { random.pick(b" ,=0123456789\n\r\t\0opz") };
    match random.below(4) {
        0 => bytes[at] = byte,
        1 => bytes.insert(at, byte),
        2 => drop(bytes.remove(at)),
        _ => bytes.insert(at, bytes[at]),
    }
}
