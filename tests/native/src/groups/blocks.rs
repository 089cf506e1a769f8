//! Promise 3 where blocks are small, even and uneven, and where every call is lent another table of them: volumes whose every state is
//! walked, and runs.

pub mod model;
pub mod walk;

use super::runs::run::Cleaning;
use super::runs::{small_runs, told, told_sweeps};
use crate::cleaning::blocks_of;
use crate::harness::{caught, Group};
use crate::implementations::compared::Compared;
use crate::implementations::impostors::{Fault, Impostor};
use crate::implementations::TESTED;
use crate::inputs::blocks::every;
use crate::interface::{Name, WIDTHS};
use crate::volume::{Call, Layout};
use model::Model;
use std::fmt;
use walk::{walk, Walk};

/// The tables of blocks that cleanings are lent.
#[derive(Clone, Copy)]
enum Lent {
    OfTwo,
    /// A block of one slot, one of two, and one of all others.
    Uneven,
    /// Another at each call, of up to three blocks: each block of any table is in one of them.
    Any,
}

impl fmt::Display for Lent {
    fn fmt(&self, f: &mut fmt::Formatter) -> fmt::Result {
        f.write_str(match self {
            Lent::OfTwo => "blocks of two",
            Lent::Uneven => "blocks of one, of two and of the rest",
            Lent::Any => "any block at each call",
        })
    }
}

impl Lent {
    fn tables(self, slots: u32) -> Vec<Vec<u32>> {
        match self {
            Lent::OfTwo => vec![blocks_of(2, slots)],
            Lent::Uneven => vec![vec![0, 1, 3]],
            Lent::Any => every(slots).into_iter().filter(|starts| starts.len() <= 3).collect(),
        }
    }
}

/// Models: the tables lent, pages, slots, the highest version launched, the fillings that a write may have, and how many states they have.
const SMALL: [(Lent, u32, u32, u32, u8, usize); 10] = [
    (Lent::OfTwo, 1, 4, 4, 2, 11_431),
    (Lent::OfTwo, 1, 6, 3, 1, 4_175),
    (Lent::OfTwo, 2, 4, 2, 1, 14_811),
    (Lent::Uneven, 2, 4, 2, 1, 24_812),
    (Lent::Any, 1, 4, 4, 2, 21_067),
    (Lent::Any, 2, 4, 2, 1, 28_418),
    (Lent::Any, 2, 5, 1, 1, 9_024),
    (Lent::OfTwo, 2, 5, 1, 2, 14_288),
    (Lent::OfTwo, 2, 6, 1, 1, 20_100),
    (Lent::OfTwo, 3, 5, 1, 1, 67_248),
];

/// How many of them are walked where slots are wider: the bytes of a slot are all one.
const WIDE: usize = 6;

/// Models of two pages and six slots behind case 6: the tables lent, the highest version launched from there on, and how many states
/// they have.
const BEHIND_CASE_6: [(Lent, u32, usize); 3] = [(Lent::OfTwo, 1, 7_731), (Lent::Any, 1, 15_964), (Lent::OfTwo, 2, 35_736)];

/// What loses a page, the tables by which it does, and the pages that it takes. Only where there are several tables has a block twins
/// within it, and a page alone is never written in flight.
const WRONG: [(Fault, Lent, u32); 4] = [
    (Fault::DriverBlanksBeforeItCopies, Lent::OfTwo, 1),
    (Fault::IgnoresTwins(Name::Recover), Lent::OfTwo, 1),
    (Fault::CleanJudgesOneByOne, Lent::Any, 1),
    (Fault::SweepTakesRecordsInFlight, Lent::OfTwo, 2),
];

/// What loses a page, or leaves too many records, in a sweep behind case 6, or counts a needed straddler there.
const WRONG_BEHIND_CASE_6: [Fault; 7] = [
    Fault::DriverSweepsRising,
    Fault::DriverSweepsObsoleteWithExposed,
    Fault::SweepJudgesBeforeItErases,
    Fault::SweepKeepsEveryTwin,
    Fault::SweepTakesAllTwins,
    Fault::SweepSaysNothingToErase,
    Fault::PickCountsNeededRecords,
];

pub fn tests(group: &mut Group, layout: Layout) {
    let wide = layout.width > WIDTHS[0];
    for (lent, pages, slots, versions, fills, states) in SMALL.into_iter().take(if wide { WIDE } else { SMALL.len() }) {
        let name = format!("all states of P = {pages}, S = {slots}, versions up to {versions}, {fills} fillings of a write, {lent}");
        group.test(&name, || {
            let tables = lent.tables(slots);
            told_walk(walk(&Model { calls: TESTED, tables, versions, fills }, layout.sizes(pages, slots), &[]), states)
        });
    }
    for (lent, versions, states) in BEHIND_CASE_6.into_iter().take(if wide { 1 } else { BEHIND_CASE_6.len() }) {
        group.test(&format!("all states behind case 6, S = 6, launched versions up to {versions}, {lent}"), || {
            let tables = lent.tables(6);
            told_walk(walk(&Model { calls: TESTED, tables, versions, fills: 1 }, layout.sizes(2, 6), &case_6(layout)), states)
        });
    }
    group.test(&format!("all states of P = 2, S = 4, versions up to 1, {}, every call compared", Lent::Any), || {
        let model = Model { calls: &Compared::new(TESTED), tables: Lent::Any.tables(4), versions: 1, fills: 1 };
        told_walk(walk(&model, layout.sizes(2, 4), &[]), 1_740)
    });
    for (fault, lent, pages) in WRONG {
        group.test(&format!("{fault:?}: P = {pages}, S = 4, {lent} meets it"), || {
            caught(|| {
                let tables = lent.tables(4);
                walk(&Model { calls: &Impostor(fault), tables, versions: 1, fills: 1 }, layout.sizes(pages, 4), &[]);
            })
        });
    }
    for fault in WRONG_BEHIND_CASE_6 {
        group.test(&format!("{fault:?}: behind case 6, S = 6, launched versions up to 2, {} meets it", Lent::OfTwo), || {
            caught(|| {
                let tables = Lent::OfTwo.tables(6);
                walk(&Model { calls: &Impostor(fault), tables, versions: 2, fills: 1 }, layout.sizes(2, 6), &case_6(layout));
            })
        });
    }
    for size in [1, 2, 3, 5] {
        group.test(&format!("100 runs of 400 calls and crashes, P = 3, S up to 24, blocks of {size}"), || {
            told(small_runs(TESTED, layout, Cleaning::BlocksOf(size), 3, 100, 400))
        });
    }
}

/// Calls that lead to document 01's case 6 with two pages: (1, 2, 0, 1, 2) is obsolete, and needed because of (0, 1, 0, 1, 1).
fn case_6(layout: Layout) -> Vec<Call> {
    let write = |page: u32, slot: u32| Call::Write { page, slot, bytes: vec![10 * slot as u8; layout.width as usize] };
    let [both, one] = [vec![0, 1], vec![1]].map(Call::Launch);
    vec![both, write(0, 2), Call::Withdraw(0), one.clone(), write(1, 3), one, write(1, 4)]
}

/// What a walk of so many states met.
fn told_walk(found: Walk, expected: usize) -> String {
    let Walk { states, depth, twinned, cleaned, copying, too_few, picked, erasing } = found;
    assert_eq!(states, expected, "states");
    let cleaned = format!("{cleaned} cleanings, {copying} with copies, {too_few} refused by 15, {picked} picks");
    format!("{states} states, {twinned} with twins, depth {depth}, {cleaned}, {}", told_sweeps(states as u64, erasing))
}
