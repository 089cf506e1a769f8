//! Runs the native tests, all groups or those named, each for its families and at every width, and counts.

use native::groups::GROUPS;
use native::harness::{said, Group};
use native::interface::WIDTHS;
use native::volume::Layout;
use std::panic::{catch_unwind, AssertUnwindSafe};

fn main() {
    std::panic::set_hook(Box::new(|_| {}));
    let named: Vec<String> = std::env::args().skip(1).collect();
    let chosen: Vec<_> = GROUPS.into_iter().filter(|(name, ..)| named.is_empty() || named.iter().any(|n| n == name)).collect();
    let mut all = Group::default();
    for (i, (name, families, tests)) in chosen.iter().enumerate() {
        println!("== group {} of {}: {name}", i + 1, chosen.len());
        let mut group = Group::default();
        for layout in families.iter().flat_map(|&family| WIDTHS.map(|width| Layout { family, width })) {
            println!("-- {layout}");
            if let Err(panic) = catch_unwind(AssertUnwindSafe(|| tests(&mut group, layout))) {
                group.failed += 1;
                println!("FAILED  {name}: {}", said(&*panic));
            }
        }
        println!("{name}: {} passed, {} failed", group.passed, group.failed);
        all.passed += group.passed;
        all.failed += group.failed;
    }
    println!("{} passed, {} failed", all.passed, all.failed);
    std::process::exit(i32::from(all.failed != 0 || all.passed == 0));
}
