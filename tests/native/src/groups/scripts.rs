//! Scripts through the program that BPCC_SCRIPT names, if any, and the second implementation of it.

pub mod by_hand;
pub mod generated;
pub mod printed;
pub mod template;
pub mod widths;

use crate::harness::Group;
use crate::implementations::reference::Reference;
use crate::implementations::{script_program, TESTED};
use crate::random::Random;
use crate::volume::Layout;
use by_hand::by_hand;
use printed::{assert_prints, printed_by, printed_in_pieces};
use std::process::Command;
use std::time::Instant;

pub fn tests(group: &mut Group, layout: Layout) {
    let width = layout.width;
    let program = std::env::var("BPCC_SCRIPT").ok();
    let passed = group.passed;
    for s in by_hand(width) {
        group.quiet(&format!("script {}", s.name), || {
            assert_prints("the second implementation", &s.input, &script_program::run(&Reference, &s.input), &s.output);
            assert_all_print(&program, &s.input, &s.output);
        });
    }
    println!("ok      {} scripts written by hand", group.passed - passed);
    for seed in [1, 2, 3, 4].map(|n| n + u64::from(width)) {
        group.test(&format!("150 generated scripts, seed {seed}"), || {
            let mut random = Random::new(seed);
            let mut lines = 0;
            for i in 0..150 {
                let length = 1 + random.below(if i % 10 == 0 { 400 } else { 80 });
                lines += length;
                compare(&program, &generated::script(&mut random, width, length));
            }
            format!("{lines} lines")
        });
    }
    group.test("a script of 200,000 lines", || {
        let input = generated::repeated(width, 200_000);
        compare(&None, &input);
        let start = Instant::now();
        compare(&program, &input);
        let rate = 200_000.0 / start.elapsed().as_secs_f32();
        assert!(rate > 100_000.0, "only {rate:.0} lines a second");
        format!("at least {rate:.0} lines a second")
    });
    if let Some(program) = &program {
        for piece in [1, 7, 100] {
            group.plain(&format!("input in pieces of {piece} bytes"), || {
                for s in by_hand(width).into_iter().filter(|s| s.input.len() < 2000) {
                    assert_prints(&s.name, &s.input, &printed_in_pieces(&mut Command::new(program), &s.input, piece), &s.output);
                }
            });
        }
    }
}

/// The calls under test and the program print what the second implementation prints.
fn compare(program: &Option<String>, input: &[u8]) {
    assert_all_print(program, input, &script_program::run(&Reference, input));
}

/// The second implementation over the calls under test, and the program if any, print what is expected.
fn assert_all_print(program: &Option<String>, input: &[u8], expected: &[u8]) {
    assert_prints("over the calls under test", input, &script_program::run(TESTED, input), expected);
    if let Some(program) = program {
        assert_prints("the program", input, &printed_by(&mut Command::new(program), input), expected);
    }
}
