//! How long the program takes on scripts with the most cuts.

use super::command;
use super::recorded::{full, joined, told, Counts};
use crate::groups::scripts::printed::{assert_prints, printed_by};
use crate::groups::scripts::template::{ending, most_slots};
use crate::harness::Group;
use std::time::Instant;

/// The most seconds that a script may take.
const MOST: f32 = 10.0;

/// Scripts of 256 lines on the largest volume: each takes no longer than it may. The one of a trial is tried where there are the most slots,
/// and not on the second implementation's own program, which is written for clarity.
pub fn tests(group: &mut Group, program: &str, width: u32) {
    let slots = most_slots(width);
    timed(group, program, width, ("247 pages stored in four sets and 247 slots erased", false, (494, 0)), &most_of_our_own(slots));
    if slots == 1024 && !program.ends_with("cuts_program") {
        let blank = format!("; erase {}", joined((256..320).rev()));
        let short = format!("format 256 {slots}{}", blank.repeat(255));
        timed(group, program, width, ("255 erasures of 64 slots in a trial", true, (255 * 64, 0)), &short);
        let short = format!("format 256 {slots}{}{}", sets(&[64, 64], |p| slots - 1 - p), blank.repeat(125));
        timed(
            group,
            program,
            width,
            ("128 pages stored in the last slots and 125 erasures of 64 in a trial", true, (128 + 125 * 64, 0)),
            &short,
        );
    }
}

fn timed(group: &mut Group, program: &str, width: u32, (name, trial, counts): (&str, bool, Counts), short: &str) {
    let input = full(short).replace('@', ending(width)).into_bytes();
    assert_eq!(input.split_inclusive(|&b| b == b'\n').count(), 256, "lines of {name}");
    group.test(&format!("{name}: {} cuts in less than {MOST:.0} s", counts.0), || {
        let start = Instant::now();
        let printed = printed_by(&mut command(program, trial), &input);
        let took = start.elapsed().as_secs_f32();
        assert_prints(name, &input, &printed, told(counts).as_bytes());
        assert!(took < MOST, "{took:.1} s");
        format!("{:.0} µs a cut", took / counts.0 as f32 * 1e6)
    });
}

/// Sets of so many pages each, a page stored in the slot that is given for it.
fn sets(lengths: &[u32], slot: impl Fn(u32) -> u32) -> String {
    let mut text = String::new();
    let mut first = 0;
    for &length in lengths {
        text += &format!("; launch {}", joined(first..first + length));
        (first..first + length).for_each(|p| text += &format!("; write {p} {} {}", slot(p), 1 + p % 255));
        first += length;
    }
    text
}

/// As many cuts as our own erase gives in 256 lines: each write makes one slot free to go.
fn most_of_our_own(slots: u32) -> String {
    let stored = sets(&[64, 64, 64, 55], |p| 256 + p);
    let erased: String = [0..64, 64..128, 128..192, 192..247].map(|slots| format!("; erase {}", joined(slots.rev()))).concat();
    format!("format 256 {slots}{stored}{erased}")
}
