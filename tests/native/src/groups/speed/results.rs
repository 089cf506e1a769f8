//! The results of recovery, of the implementation under test, of the simple one and of the second one compared.

use super::tables::Table;
use crate::groups::calls::exhaustive::each_table;
use crate::groups::calls::volumes::{answers, SEEN};
use crate::groups::links;
use crate::harness::Group;
use crate::implementations::compared::Compared;
use crate::inputs;
use crate::inputs::straddled::straddled;
use crate::interface::{Calls, Family, Name, Reply};
use crate::random::Random;
use crate::volume::{Call, Layout, Volume};

/// Recovery of a table of the largest size gives the reply that is expected; where none is it is done.
pub fn assert_recovers(calls: &dyn Calls, table: &Table) {
    let reply = table.volume.clone().call(calls, &Call::Recover);
    assert_eq!(reply, table.reply.unwrap_or(Reply::done(reply.second)));
}

pub fn tests(group: &mut Group, compared: &Compared, layout: Layout) {
    for seed in 1..=4 {
        group.plain(&format!("10,000 volumes, seed {seed}: same results"), || compare(compared, layout, 10_000, seed));
    }
    group.test("each answer of recover seen at least 100 times, and no other", || {
        let expected = answers(layout.family, Name::Recover);
        assert_eq!(compared.answers(Name::Recover), expected);
        let seen: Vec<(u32, u64)> = expected.iter().map(|&answer| (answer, compared.seen(Name::Recover, answer))).collect();
        assert!(seen.iter().all(|&(_, times)| times >= SEEN), "{seen:?}");
        seen.iter().map(|(answer, times)| format!("{answer}: {times}")).collect::<Vec<String>>().join(", ")
    });
    group.plain("volumes at the limits of the sizes: same results", || compare_sizes(compared, layout));
    for (pages, slots, highest) in [(1, 4, 3), (2, 4, 1), (3, 3, 1)] {
        group.test(&format!("every table of P = {pages}, S = {slots}, versions up to {highest}: same results"), || {
            let recover = |mut v: Volume| {
                v.call(compared, &Call::Recover);
            };
            format!("{} tables", each_table(layout.sizes(pages, slots), highest, recover))
        });
    }
    group.plain("several rings: same results", || links::rings(compared, layout));
    group.plain("chains of every length: same results", || links::chains(compared, layout));
    group.plain("refused recoveries of every P: same results", || links::refusals(compared, layout));
}

/// Recovers volumes at the limits of the sizes.
pub fn compare_sizes(calls: &dyn Calls, layout: Layout) {
    for pages in [0, 1, 2, 3, 127, 255, 256, 257] {
        for slots in [0, 1, 2, 3, 126, 254, 255, 256, 257, 1023, 1024, 1025] {
            let sizes = layout.sizes(pages, slots);
            Volume::zeroed(sizes).call(calls, &Call::Recover);
            if slots >= pages {
                Volume::one_ring(sizes).call(calls, &Call::Recover);
            }
        }
    }
}

/// Recovers so many volumes of every kind, one in ten with a wrong size or length.
pub fn compare(calls: &dyn Calls, layout: Layout, volumes: u32, seed: u64) {
    let mut random = Random::new(seed);
    for _ in 0..volumes {
        let with_straddler = layout.family == Family::Bpcc && random.one_in(4);
        let mut v = if with_straddler { straddled(&mut random, layout) } else { inputs::volume(&mut random, layout) };
        if random.one_in(10) {
            inputs::resize(&mut random, &mut v);
        }
        v.call(calls, &Call::Recover);
    }
}
