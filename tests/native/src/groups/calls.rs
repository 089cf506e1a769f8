//! The calls against the second implementation.

pub mod block_tables;
pub mod cleanings;
pub mod doubtings;
pub mod exhaustive;
pub mod kinds;
pub mod lengths;
pub mod pickings;
pub mod sweepings;
pub mod volumes;

use crate::cleaning::blocks_of;
use crate::harness::Group;
use crate::implementations::compared::Compared;
use crate::implementations::TESTED;
use crate::inputs::blocks::every;
use crate::interface::{Family, Name};
use crate::volume::Layout;

pub fn tests(group: &mut Group, layout: Layout) {
    let compared = Compared::new(TESTED);
    for seed in 1..=seeds() {
        group.plain(&format!("all calls on 40,000 volumes, seed {seed}"), || volumes::compare(&compared, layout, 40_000, seed));
    }
    group.test("each answer of each call seen at least 100 times, and no other", || {
        volumes::assert_all_seen(&compared, layout.family);
        let counts = |call: Name| {
            let seen: Vec<String> =
                volumes::answers(layout.family, call).iter().map(|&a| format!("{a}: {}", compared.seen(call, a))).collect();
            format!("\n          {call} {}", seen.join(", "))
        };
        layout.family.calls().map(counts).collect()
    });
    group.plain("format at the limits of the sizes", || volumes::compare_sizes(&compared, layout));
    group.plain("wrong widths, by every call", || lengths::compare_wrong_widths(&compared, layout));
    group.plain("the other width, by every call", || lengths::compare_other_width(&compared, layout));
    group.plain("contents and bytes of a wrong length, by every call", || lengths::compare_lengths(&compared, layout));
    if layout.family == Family::Bpcc {
        group.plain("count of every bit and every byte", || lengths::compare_counts(&compared, layout));
        group.plain("count of every length", || lengths::compare_counted_lengths(&compared));
        blocks(group, &compared, layout);
        picks(group, &compared, layout);
        sweeps(group, &compared, layout);
        doubts(group, &compared, layout);
    }
    group.plain("the largest volume, one transaction over all pages", || volumes::compare_largest(&compared, layout));
    group.plain("lists of 100,001 entries", || volumes::compare_long_lists(&compared, layout));
    for (pages, slots, highest) in [(1, 5, 4), (2, 5, 2), (2, 4, 3), (3, 4, 2)] {
        group.test(&format!("every table of P = {pages}, S = {slots}, versions up to {highest}"), || {
            format!("{} tables", exhaustive::tables(&compared, layout.sizes(pages, slots), highest))
        });
    }
    group.test("every state of two pages, words of five values", || format!("{} states", exhaustive::states(&compared, layout)));
}

/// How many times 40,000 volumes are compared: ten, or as often as BPCC_SEEDS says.
fn seeds() -> u64 {
    std::env::var("BPCC_SEEDS").map_or(10, |n| n.parse().expect("BPCC_SEEDS is a number"))
}

/// Tables of blocks, and what is cleaned by them.
fn blocks(group: &mut Group, compared: &Compared, layout: Layout) {
    group.plain("tables of blocks broken in each way, beside each other refusal", || block_tables::compare_broken(compared, layout));
    group.plain("tables of blocks of every length", || block_tables::compare_lengths(compared, layout));
    for slots in [3, 4] {
        group.test(&format!("every list of up to four numbers as a table of blocks, S = {slots}"), || {
            let (lists, tables) = block_tables::every_small(compared, layout.sizes(1, slots));
            assert_eq!(tables, 1 << (slots - 1), "tables");
            format!("{lists} lists, {tables} of them tables")
        });
    }
    for (slots, length, expected) in RISING {
        group.test(&format!("every rising list of {length} numbers as a table of blocks, S = {slots}"), || {
            let tables = block_tables::every_rising(compared, layout.sizes(2, slots), length);
            assert_eq!(tables, expected, "tables");
            format!("{tables} tables")
        });
    }
    group.plain("lists that differ in one number from tables of 16 blocks, S = 1,024", || {
        for starts in [blocks_of(1, 1024), blocks_of(64, 1024), [&[0][..], &(1009..1024).collect::<Vec<u32>>()].concat()] {
            block_tables::compare_near(compared, layout.sizes(256, 1024), &starts);
        }
    });
    group.test("each block of 10,000 volumes cleaned, every kind of cleaning met at least 100 times", || {
        cleanings::compare(compared, layout, 10_000)
    });
    for (pages, highest) in [(1, 2), (2, 1)] {
        let kinds = [(66, [0, 63, 64, 65], vec![vec![0, 64]], "at a block's end"), (4, [0, 1, 2, 3], every(4), "by every table of blocks")];
        for (slots, places, blocks, how) in kinds {
            group.test(
                &format!("every table of four slots, P = {pages}, S = {slots}, versions up to {highest}, cleaned and picked {how}"),
                || {
                    let sizes = layout.sizes(pages, slots);
                    let (tables, picks) = exhaustive::cleaned_tables(compared, sizes, places, highest, &blocks);
                    format!("{tables} tables, {picks} picks")
                },
            );
        }
    }
}

/// Picks.
fn picks(group: &mut Group, compared: &Compared, layout: Layout) {
    group.test("picks of 40,000 volumes, every kind of pick met at least 100 times", || pickings::compare(compared, layout, 40_000));
    group.plain("picks wrong in every choice of ways at once", || pickings::compare_refusals(compared, layout));
    group.plain("picks from blocks and of numbers of every size", || pickings::compare_numbers(compared, layout));
    group.plain("picks with words lent in every number", || pickings::compare_lengths(compared, layout));
}

/// Sweeps.
fn sweeps(group: &mut Group, compared: &Compared, layout: Layout) {
    group.test("40,000 volumes swept, every kind of sweep met at least 100 times", || sweepings::compare(compared, layout, 40_000));
    group
        .test("every two records of two pages, versions up to 2, and a twin, swept and picked on every sound state, words up to 2", || {
            format!("{} sweeps", exhaustive::swept_states(compared, layout))
        });
}

/// Doubtful slots.
fn doubts(group: &mut Group, compared: &Compared, layout: Layout) {
    group.test("doubtful slots of 20,000 volumes, every kind met at least 100 times", || doubtings::compare(compared, layout, 20_000));
    group.plain("doubtful slots wrong in every choice of ways at once", || doubtings::compare_refusals(compared, layout));
    group.plain("doubtful slots in lists of every length", || doubtings::compare_list_lengths(compared, layout));
    group.plain("doubtful slots with words lent in every number", || doubtings::compare_lengths(compared, layout));
    for (pages, slots, highest, rising) in [(1, 4, 2, false), (2, 4, 1, false), (2, 3, 2, true)] {
        let order = if rising { "rising" } else { "in every order" };
        let name = format!("every table of P = {pages}, S = {slots}, versions up to {highest}, up to three slots in doubt, {order}");
        group.test(&name, || {
            let (tables, lists) = exhaustive::doubtful_tables(compared, layout.sizes(pages, slots), highest, rising);
            format!("{tables} tables, {lists} lists each")
        });
    }
}

/// Slots, starts of a table, and how many sound ones there are: the first is 0, and the others are any of the slots behind it.
const RISING: [(u32, usize, u64); 9] =
    [(16, 15, 15), (16, 16, 1), (16, 17, 0), (17, 15, 120), (17, 16, 16), (17, 17, 0), (20, 15, 11_628), (20, 16, 3_876), (20, 17, 0)];
