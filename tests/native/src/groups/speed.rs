//! Recovery beside the simple one of docs/src: the same results, and on the largest tables so much of its time.

pub mod console;
pub mod results;
pub mod tables;
pub mod timing;

use crate::harness::{caught, Group};
use crate::implementations::compared::Compared;
use crate::implementations::simple::{Agreed, Simple, MUTANTS};
use crate::volume::Layout;
use tables::Table;

/// How many times as long as the simple recovery the library's may take: our own aims on rings and chains of all pages, and on every other
/// table that a console has; document 02's "at most twice as long" where they do not hold. Only on tables made so that all records meet in
/// one of the library's chains may it take longer than that, and does by a little in some builds.
pub const LONGEST: f64 = 0.1;
pub const OTHER: f64 = 1.0;
pub const WISHED: f64 = 2.0;
pub const MADE: f64 = 4.0;

pub fn tests(group: &mut Group, layout: Layout) {
    let tables = tables::all(layout);
    if cfg!(feature = "library") {
        group.quiet("the simple recovery is a release build", || assert!(recovery::RELEASE));
        // Between the widths the contents alone differ, and they are looked at for twins alone.
        times(group, tables.iter().filter(|table| layout.width == 32 || table.twins));
    } else {
        println!("no library: no times");
    }
    let compared = Compared::new(&Agreed);
    for table in &tables {
        group.quiet(&format!("{}: same results", table.name), || results::assert_recovers(&compared, table));
    }
    results::tests(group, &compared, layout);
    for (name, _, recovery) in MUTANTS.iter().filter(|(_, words, _)| words.contains(&layout.family.slot_words())) {
        let wrong = Simple(*recovery);
        group.test(&format!("a simple recovery that {} differs", name.replace('_', " ")), || {
            let compared = Compared::new(&wrong);
            caught(|| {
                results::compare(&compared, layout, 10_000, 1);
                results::compare_sizes(&compared, layout);
            })
        });
    }
}

/// How long recovery takes on each table, beside the simple one.
fn times<'a>(group: &mut Group, tables: impl Iterator<Item = &'a Table>) {
    let mut slowest: Option<(f64, &str)> = None;
    for table in tables {
        group.test(&format!("{}: at most {} of the simple recovery's time", table.name, table.limit), || {
            let times = timing::measured(&table.volume, table.limit);
            if table.limit <= WISHED {
                slowest = slowest.filter(|&(most, _)| most >= times.ratio()).or(Some((times.ratio(), &table.name)));
            }
            assert!(times.ratio() <= table.limit, "{times}");
            times.to_string()
        });
    }
    if let Some((most, name)) = slowest {
        group.test(&format!("every table but those made against chains: at most {WISHED} times the simple recovery's time"), || {
            assert!(most <= WISHED, "{most:.3}, on {name}");
            format!("{most:.3} at most, on {name}")
        });
        group.test("the clock tells the simple recovery from itself made three times", timing::assert_told);
    }
}
