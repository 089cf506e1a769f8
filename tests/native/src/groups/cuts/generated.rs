//! Generated scripts, what is printed of them, and what is seen over a set of them.

use super::Prints;
use crate::groups::scripts::generated::{next_line, spoil};
use crate::groups::scripts::template::{ending, most_slots};
use crate::implementations::cuts_program::{run_as, Cutting, Right, Trial, DROPPED};
use crate::implementations::reference::Reference;
use crate::implementations::script_program::parse;
use crate::interface::{Calls, Family};
use crate::random::Random;
use crate::volume::{Call, Sizes, Volume};
use std::cell::Cell;

/// What a set of scripts came to.
#[derive(Default)]
pub struct Seen {
    scripts: u32,
    accepted: u32,
    /// Scripts with cuts by our own erase, and in a trial with some that differ.
    cut: u32,
    differing: u32,
    own_cuts: u32,
    trial_cuts: u32,
    differ: u32,
    /// Erases done whose list does not rise.
    unsorted: u32,
}

impl Seen {
    pub fn told(&self) -> String {
        format!(
            "{} accepted, {} of them with cuts, {} cuts; in a trial {} cuts, {} of {} scripts differ; {} lists that do not rise",
            self.accepted, self.cut, self.own_cuts, self.trial_cuts, self.differ, self.differing, self.unsorted
        )
    }

    /// Runs a script by our own erase, by which no cut differs, and in a trial.
    fn add(&mut self, input: &[u8], prints: Prints) {
        self.scripts += 1;
        let [own, trial] = [false, true].map(|trial| counts(&prints(trial, input)));
        let (Some([cuts, same, differ]), Some([trial_cuts, trial_same, trial_differ])) = (own, trial) else {
            assert_eq!(own, trial, "a script is accepted or not");
            return;
        };
        assert!(same == cuts && differ == 0, "cuts={cuts} same={same} differ={differ} for {:?}", String::from_utf8_lossy(input));
        assert_eq!(trial_same + trial_differ, trial_cuts);
        self.accepted += 1;
        self.cut += u32::from(cuts > 0);
        self.differing += u32::from(trial_differ > 0);
        self.own_cuts += cuts;
        self.trial_cuts += trial_cuts;
        self.differ += trial_differ;
        let unsorted = Unsorted::default();
        run_as(&unsorted, &Reference, false, input);
        self.unsorted += unsorted.0.get();
    }
}

/// The three numbers of the line that is printed, or nothing where that is answer=line.
fn counts(printed: &[u8]) -> Option<[u32; 3]> {
    let line = std::str::from_utf8(printed).unwrap().strip_suffix('\n').unwrap();
    if line == "answer=line" {
        return None;
    }
    let fields: Vec<&str> = line.split(' ').collect();
    assert_eq!(fields.len(), 3, "{line}");
    let number = |i: usize, name: &str| fields[i].strip_prefix(name).unwrap_or_else(|| panic!("{line}")).parse().unwrap();
    Some([number(0, "cuts="), number(1, "same="), number(2, "differ=")])
}

/// The right program, which counts the erases done whose list does not rise.
#[derive(Default)]
struct Unsorted(Cell<u32>);

impl Cutting for Unsorted {
    fn slots(&self, call: &Call, answer: u32) -> Vec<u32> {
        let slots = Right.slots(call, answer);
        if matches!(call, Call::Erase(list) if answer == 0 && *list != slots) {
            self.0.set(self.0.get() + 1);
        }
        slots
    }
}

/// Scripts of up to 257 lines on small volumes.
pub fn small(width: u32, seed: u64, scripts: u32, prints: Prints) -> Seen {
    let mut random = Random::new(seed);
    let mut seen = Seen::default();
    for _ in 0..scripts {
        let pages = 1 + random.below(6);
        let sizes = Sizes { family: Family::Bpcc, pages, slots: pages + random.below(20).min(10), width };
        let lines = if random.one_in(12) { 256 + random.below(2) } else { 1 + random.below(255) };
        seen.add(&script(&mut random, sizes, lines), prints);
    }
    let [few, many] = [scripts / 10, scripts / 2];
    assert!(seen.accepted > many && seen.accepted < seen.scripts && seen.cut > many, "{}", seen.told());
    assert!(seen.differing > few && seen.unsorted > few, "{}", seen.told());
    seen
}

/// Scripts on the largest volume.
pub fn large(width: u32, prints: Prints) -> Seen {
    let mut random = Random::new(u64::from(width));
    let mut seen = Seen::default();
    let sizes = Sizes { family: Family::Bpcc, pages: 256, slots: most_slots(width), width };
    for _ in 0..6 {
        seen.add(&script(&mut random, sizes, 100), prints);
    }
    seen
}

/// A script on a volume of such sizes, most lines accepted by our own erase or in a trial; now and then its format is refused, missing or
/// not its only one, or a byte is spoiled.
fn script(random: &mut Random, sizes: Sizes, lines: u32) -> Vec<u8> {
    let trial = Trial { calls: &Reference, dropped: DROPPED };
    let calls: &dyn Calls = if random.one_in(3) { &trial } else { &Reference };
    let mut volume = Volume::formatted(&Reference, sizes);
    let format = format!("op=format pages={} slots={}{}", sizes.pages, sizes.slots, ending(sizes.width));
    let mut text = vec![match random.below(40) {
        0 => String::from("op=list"),
        1 => format!("op=format pages={} slots={}{}", sizes.slots + 1, sizes.slots, ending(sizes.width)),
        _ => format.clone(),
    }];
    text.extend((1..lines).map(|_| line(random, calls, &mut volume)));
    if random.one_in(25) {
        text.push(format);
    }
    let mut bytes = (text.join("\n") + "\n").into_bytes();
    match random.below(8) {
        0 => spoil(random, &mut bytes),
        1 => drop(bytes.pop()),
        _ => {}
    }
    bytes
}

/// A line for the volume, done there; few are erases of what may not be erased, so that in a trial not all is lost at once.
fn line(random: &mut Random, calls: &dyn Calls, volume: &mut Volume) -> String {
    loop {
        let (mut after, before) = (volume.clone(), volume.clone());
        let line = next_line(random, calls, &mut after);
        if random.one_in(20) || !is_refused_by_12(before, &line) {
            *volume = after;
            return line;
        }
    }
}

/// Whether our own erase refuses a line by 12.
fn is_refused_by_12(mut volume: Volume, line: &str) -> bool {
    let call = parse(line.as_bytes()).and_then(|line| line.call(volume.sizes.width));
    call.is_some_and(|call| matches!(call, Call::Erase(_)) && volume.call(&Reference, &call).answer == 12)
}
