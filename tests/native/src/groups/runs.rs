//! Promise 3: runs with crashes at every point against the ledger.

pub mod choice;
pub mod run;

use super::calls::volumes::SEEN;
use crate::harness::Group;
use crate::implementations::compared::Compared;
use crate::implementations::TESTED;
use crate::interface::{Calls, Family};
use crate::volume::Layout;
use run::{run, Cleaning, Tally};

pub fn tests(group: &mut Group, layout: Layout) {
    for pages in 1..=6 {
        group.test(&format!("400 runs of 400 calls and crashes, P = {pages}, S up to 24"), || {
            told(small_runs(TESTED, layout, Cleaning::Never, pages, 400, 400))
        });
    }
    group.test("4 runs of 20,000 calls and crashes, P = 6, S = 24", || {
        let mut all = Tally::default();
        (1..=4).for_each(|seed| all.add(run(TESTED, layout.sizes(6, 24), Cleaning::Never, 20_000, 1, seed)));
        told(all)
    });
    let (large, cleaning) = match layout.family {
        Family::Bpcc => ("P = 256, S = 1,024, cleaned by any tables", Cleaning::AnyBlocks),
        Family::Scc => ("P = 256, S = 1,024", Cleaning::Never),
    };
    for seed in 1..=3 {
        group.test(&format!("3,000 calls and crashes, {large}, seed {seed}"), || {
            told(run(TESTED, layout.sizes(256, 1024), cleaning, 3000, 100, seed))
        });
    }
    group.test("50 runs of 400 calls and crashes, P = 3, every call compared", || {
        told(small_runs(&Compared::new(TESTED), layout, Cleaning::Never, 3, 50, 400))
    });
    group.test("a volume with no slot to spare", || told(run(TESTED, layout.sizes(4, 4), Cleaning::Never, 2000, 1, 1)));
    if layout.family == Family::Bpcc {
        cleaned(group, layout);
    }
}

/// Volumes that are cleaned, with another table of blocks at each call.
fn cleaned(group: &mut Group, layout: Layout) {
    for pages in [1, 2, 3, 6] {
        group.test(&format!("100 runs of 400 calls and crashes, P = {pages}, S up to 24, cleaned by any tables"), || {
            told(small_runs(TESTED, layout, Cleaning::AnyBlocks, pages, 100, 400))
        });
        group.test(&format!("60 runs of 400 calls and crashes, P = {pages}, S from 65 to 200, cleaned by any tables"), || {
            told(long_runs(TESTED, layout, pages, 60, 400))
        });
    }
    group.test("200 runs of 400 calls and crashes, P = 6, S up to 24, cleaned and swept often: each erasing at least 100 times", || {
        let all = small_runs(TESTED, layout, Cleaning::Often, 6, 200, 400);
        assert!(all.erasing.iter().all(|&n| n >= SEEN), "{}", told(all));
        told(all)
    });
    for slots in [130, 200] {
        group.test(&format!("2,000 calls and crashes, P = 60, S = {slots}, cleaned by any tables"), || {
            told(run(TESTED, layout.sizes(60, slots), Cleaning::AnyBlocks, 2000, 10, 1))
        });
    }
    group.test("10 runs of 400 calls and crashes, P = 3, S from 65 to 200, cleaned by any tables, every call compared", || {
        told(long_runs(&Compared::new(TESTED), layout, 3, 10, 400))
    });
}

/// Runs with crashes over volumes of more than 64 slots, cleaned with any tables of blocks.
pub fn long_runs(calls: &dyn Calls, layout: Layout, pages: u32, seeds: u64, events: u32) -> Tally {
    let mut all = Tally::default();
    for (seed, slots) in (0..seeds).zip([65, 200, 66, 129, 70, 150, 80, 192, 100, 128].into_iter().cycle()) {
        all.add(run(calls, layout.sizes(pages, slots), Cleaning::AnyBlocks, events, 1, seed * 1000 + u64::from(pages)));
    }
    all
}

/// Many runs with crashes over small volumes.
pub fn small_runs(calls: &dyn Calls, layout: Layout, cleaning: Cleaning, pages: u32, seeds: u64, events: u32) -> Tally {
    let mut all = Tally::default();
    for seed in 0..seeds {
        let slots = pages + 1 + (seed as u32 * 7) % (24 - pages);
        all.add(run(calls, layout.sizes(pages, slots), cleaning, events, 1, seed * 1000 + u64::from(pages)));
    }
    all
}

/// What runs met.
pub fn told(all: Tally) -> String {
    let cured = if all.buried == 0 { String::new() } else { format!(" ({} by 16 and cured)", all.buried) };
    let cleaned =
        if all.cleaned == 0 { String::new() } else { format!(" ({} cleanings, {} copies, {} picks)", all.cleaned, all.copies, all.picked) };
    let doubted = if all.doubted == 0 { String::new() } else { format!(" ({} in doubt)", all.doubted) };
    let swept = if all.swept == 0 { String::new() } else { format!(" ({})", told_sweeps(all.swept, all.erasing)) };
    format!(
        "{} accepted{doubted}{cleaned}{swept}, {} refused{cured}, {} crashes, {} completed, {} recoveries compared",
        all.accepted, all.refused, all.crashes, all.completed, all.checks
    )
}

/// What so many sweeps erased.
pub fn told_sweeps(swept: u64, [exposed, obsolete, spare]: [u64; 3]) -> String {
    format!("{swept} sweeps, {exposed} of exposed records, {obsolete} of obsolete ones, {spare} of spare twins")
}
