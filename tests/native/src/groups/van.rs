//! Volumes on standard input, and the page that is printed of them by the program that BPCC_VAN names, if any, and by the second
//! implementation of it.

pub mod by_hand;
pub mod edges;
pub mod generated;
pub mod page;
pub mod volumes;

use super::scripts::printed::{output_in_pieces, printed_by, printed_in_pieces};
use crate::harness::Group;
use crate::implementations::reference::Reference;
use crate::implementations::{van_program, TESTED};
use crate::interface::other_width;
use crate::volume::Layout;
use by_hand::{by_hand, joined, Given};
use page::{assert_prints, page, Told, BROKEN};
use std::io::Write;
use std::process::{Command, Stdio};
use std::thread::sleep;
use std::time::{Duration, Instant};
use volumes::{by_name, full};

pub fn tests(group: &mut Group, layout: Layout) {
    let width = layout.width;
    let program = std::env::var("BPCC_VAN").ok();
    let passed = group.passed;
    for Given { name, input, output } in by_hand(width) {
        group.quiet(&format!("van: {name}"), || {
            assert_prints("the second implementation", &van_program::run(&Reference, &input), &output);
            assert_all_print(&program, "by hand", &input, &output);
        });
    }
    println!("ok      {} inputs written by hand", group.passed - passed);
    let compared = |name: &str, input: &[u8]| compared(&program, name, input);
    group.test("400 generated inputs", || generated::inputs(Some(width), u64::from(width), 400, &compared).told());
    group.test("200 generated inputs with volumes of both widths", || generated::inputs(None, 1 + u64::from(width), 200, &compared).told());
    group.test("three small volumes cut at every byte", || cut_everywhere(&program, width));
    if let Some(program) = &program {
        for piece in [1, 7, 100, 4097] {
            group.test(&format!("input in pieces of {piece} bytes"), || in_pieces(program, width, piece));
        }
        group.plain("a pipe that stays open behind 32 volumes, and behind wrong sizes", || endless(program, width));
        group.plain("an input that cannot be read", || unreadable(program));
        group.plain("words that are not taken", || arguments(program));
        group.test("the largest input in less than 10 s", || largest(program));
    }
}

/// The name of the input by which a program is told from a right one, if any is.
pub fn told_from_right<'a>(prints: &dyn Fn(&[u8]) -> Vec<u8>, inputs: &'a [Given]) -> Option<&'a str> {
    inputs.iter().find(|given| prints(&given.input) != given.output).map(|given| &given.name[..])
}

/// What the second implementation prints; the calls under test and the program print the same.
fn compared(program: &Option<String>, name: &str, input: &[u8]) -> Vec<u8> {
    let expected = van_program::run(&Reference, input);
    assert_all_print(program, name, input, &expected);
    expected
}

/// The second implementation over the calls under test, and the program if any, print what is expected.
fn assert_all_print(program: &Option<String>, name: &str, input: &[u8], expected: &[u8]) {
    assert_prints(&format!("{name}, over the calls under test"), &van_program::run(TESTED, input), expected);
    if let Some(program) = program {
        assert_prints(&format!("{name}, the program"), &printed_by(&mut Command::new(program), input), expected);
    }
}

/// Every beginning of an input of three volumes, one of which is refused, and one of the other width.
fn cut_everywhere(program: &Option<String>, width: u32) -> String {
    let (first, refused) = (by_name(width, "no blank slot"), by_name(width, "no record at all"));
    let all = [first, refused, by_name(other_width(width), "one page and one slot")];
    let input = joined(&all);
    for length in 0..=input.len() {
        let mut start = 0;
        let begun = all.iter().filter_map(|volume| {
            let (from, end) = (start, start + volume.bytes.len());
            start = end;
            (from < length).then_some(if end <= length { volume.told } else { BROKEN })
        });
        let expected = page(&begun.collect::<Vec<Told>>()).into_bytes();
        assert_prints("the second implementation", &van_program::run(&Reference, &input[..length]), &expected);
        assert_all_print(program, &format!("cut at byte {length}"), &input[..length], &expected);
    }
    format!("{} inputs", input.len() + 1)
}

/// Some of the inputs written by hand reach the program in pieces.
fn in_pieces(program: &str, width: u32, piece: usize) -> String {
    let fits = |given: &Given| given.input.len() > piece && given.input.len() < 400 * piece;
    let chosen: Vec<Given> = by_hand(width).into_iter().filter(fits).step_by(7).collect();
    for Given { name, input, output } in &chosen {
        assert_prints(name, &printed_in_pieces(&mut Command::new(program), input, piece), output);
    }
    assert!(chosen.len() >= 5, "only {} inputs", chosen.len());
    format!("{} inputs", chosen.len())
}

/// The program ends behind what ends the reading, though the input does not: nothing more comes, and the pipe stays open.
fn endless(program: &str, width: u32) {
    let chosen = |given: &Given| given.name == "32 volumes" || given.name == "P = 0, S = 0, width 32, whole, between others";
    let all: Vec<Given> = by_hand(width).into_iter().filter(chosen).collect();
    assert_eq!(all.len(), 2);
    for Given { name, input, output } in &all {
        let mut child = Command::new(program).stdin(Stdio::piped()).stdout(Stdio::piped()).spawn().expect("the program runs");
        let mut stdin = child.stdin.take().unwrap();
        let end = Instant::now() + Duration::from_secs(10);
        // What is behind the end of the reading may find the pipe closed.
        let _ = stdin.write_all(input);
        while child.try_wait().expect("the program can be waited for").is_none() {
            if Instant::now() > end {
                let _ = child.kill();
                panic!("{name}: the program waits for more");
            }
            sleep(Duration::from_millis(1));
        }
        assert_prints(name, &child.wait_with_output().expect("the program has ended").stdout, output);
    }
}

/// A folder, which cannot be read, is told on standard error, and no page is printed.
fn unreadable(program: &str) {
    let folder = std::fs::File::open(".").expect("the folder can be opened");
    let output = Command::new(program).stdin(folder).output().expect("the program runs");
    assert_eq!(String::from_utf8_lossy(&output.stdout), "");
    assert!(!output.stderr.is_empty(), "nothing is told");
}

/// Words print the usage on standard error, and nothing on standard output.
fn arguments(program: &str) {
    let input = by_name(32, "case 6").bytes;
    let lines: &[&[&str]] = &[&["volumes"], &[""], &["-"], &["--help"], &["64"], &["", ""]];
    for &words in lines {
        let output = output_in_pieces(Command::new(program).args(words).stderr(Stdio::piped()), &input, input.len());
        assert_eq!(String::from_utf8_lossy(&output.stderr), "usage: van_main < VOLUMES\n", "words {words:?}");
        assert_eq!(String::from_utf8_lossy(&output.stdout), "", "words {words:?}");
    }
}

/// The program prints the page of 32 volumes of 1,024 records in good time.
fn largest(program: &str) -> String {
    let full = full();
    let start = Instant::now();
    let printed = printed_by(&mut Command::new(program), &full.bytes.repeat(32));
    let took = start.elapsed().as_secs_f32();
    assert_prints("the largest input", &printed, page(&[full.told; 32]).as_bytes());
    assert!(took < 10.0, "{took:.1} s");
    format!("{:.0} ms", took * 1e3)
}
