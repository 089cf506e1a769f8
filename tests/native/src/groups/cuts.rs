//! Scripts cut everywhere by the program that BPCC_CUTS names, if any, and by the second implementation of it.

pub mod by_hand;
pub mod generated;
pub mod recorded;
pub mod times;

use super::scripts::printed::{assert_prints, output_in_pieces, printed_by, printed_in_pieces};
use crate::harness::Group;
use crate::implementations::reference::Reference;
use crate::implementations::{cuts_program, TESTED};
use crate::volume::Layout;
use by_hand::by_hand;
use recorded::Recorded;
use std::process::{Command, Stdio};

/// What prints something on a script, in a trial or by our own erase.
pub type Prints<'a> = &'a dyn Fn(bool, &[u8]) -> Vec<u8>;

pub fn tests(group: &mut Group, layout: Layout) {
    let width = layout.width;
    let program = std::env::var("BPCC_CUTS").ok();
    let passed = group.passed;
    for Recorded { trial, script } in by_hand(width) {
        group.quiet(&format!("cuts of {}, trial {trial}", script.name), || {
            assert_prints("the second implementation", &script.input, &cuts_program::run(&Reference, trial, &script.input), &script.output);
            assert_all_print(&program, trial, &script.input, &script.output);
        });
    }
    println!("ok      {} scripts written by hand", group.passed - passed);
    for seed in [1, 2].map(|n| n + u64::from(width)) {
        group.test(&format!("200 generated scripts, seed {seed}, by our own erase and in a trial"), || {
            generated::small(width, seed, 200, &|trial, input| compared(&program, trial, input)).told()
        });
    }
    group.test("6 generated scripts on the largest volume, by our own erase and in a trial", || {
        generated::large(width, &|trial, input| compared(&program, trial, input)).told()
    });
    if let Some(program) = &program {
        times::tests(group, program, width);
        for piece in [1, 7, 100] {
            group.plain(&format!("input in pieces of {piece} bytes"), || in_pieces(program, width, piece));
        }
        group.plain("words that are not taken", || arguments(program));
    }
}

/// The script written by hand by which a program is told from a right one, if any is.
pub fn told_from_right(prints: Prints, width: u32) -> Option<String> {
    by_hand(width).into_iter().find(|r| prints(r.trial, &r.script.input) != r.script.output).map(|r| r.script.name)
}

/// What the second implementation prints; the calls under test and the program print the same.
fn compared(program: &Option<String>, trial: bool, input: &[u8]) -> Vec<u8> {
    let expected = cuts_program::run(&Reference, trial, input);
    assert_all_print(program, trial, input, &expected);
    expected
}

/// The second implementation over the calls under test, and the program if any, print what is expected.
fn assert_all_print(program: &Option<String>, trial: bool, input: &[u8], expected: &[u8]) {
    assert_prints("over the calls under test", input, &cuts_program::run(TESTED, trial, input), expected);
    if let Some(program) = program {
        assert_prints("the program", input, &printed_by(&mut command(program, trial), input), expected);
    }
}

/// The program with its word for a trial.
fn command(program: &str, trial: bool) -> Command {
    let mut command = Command::new(program);
    command.args(trial.then_some("trial"));
    command
}

/// Every other short script reaches the program in pieces, in a trial.
fn in_pieces(program: &str, width: u32, piece: usize) {
    let chosen = |r: &Recorded| r.trial && r.script.input.len() < 2000 && !r.script.name.starts_with("malformed");
    for Recorded { trial, script } in by_hand(width).into_iter().filter(chosen).step_by(2) {
        let printed = printed_in_pieces(&mut command(program, trial), &script.input, piece);
        assert_prints(&script.name, &script.input, &printed, &script.output);
    }
}

/// A wrong word, or more than one, prints the usage on standard error, and nothing on standard output.
fn arguments(program: &str) {
    let lines: &[&[&str]] =
        &[&["own"], &[""], &["tria"], &["trials"], &["Trial"], &["trial "], &["-"], &["trial", "trial"], &["trial", ""], &["", "trial"]];
    for &words in lines {
        let input = recorded::full("format 1 2; launch 0; write 0 1 1").replace('@', "");
        let output = output_in_pieces(Command::new(program).args(words).stderr(Stdio::piped()), input.as_bytes(), input.len());
        assert_eq!(String::from_utf8_lossy(&output.stderr), "usage: cuts_main [trial] < SCRIPT\n", "words {words:?}");
        assert_eq!(output.stdout, b"", "words {words:?}");
    }
}
