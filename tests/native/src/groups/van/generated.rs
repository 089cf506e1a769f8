//! Generated inputs, and what is seen over a set of them.

use super::page::{assert_sound, Told, BROKEN, REFUSALS};
use crate::cleaning::twins;
use crate::crash::{left, stages};
use crate::implementations::reference::Reference;
use crate::implementations::van_program::{stored, HEADER_BYTES};
use crate::inputs::{self, straddled::straddled, WRONG_WIDTHS};
use crate::interface::{Family, NONE, WIDTHS};
use crate::random::Random;
use crate::volume::{Call, Layout, Volume};

/// What a set of inputs came to.
#[derive(Default)]
pub struct Seen {
    inputs: u32,
    volumes: u32,
    /// Volumes that recover, those of them with exposed records, and with needed ones.
    counted: u32,
    exposed: u32,
    needed: u32,
    /// Volumes that recovery refuses, by each of its numbers.
    refused: [u32; REFUSALS.len()],
    broken: u32,
    /// Inputs with no volume that recovers, with a remainder in the mean, and with 32 volumes.
    without: u32,
    remainders: u32,
    full: u32,
    /// Volumes written with twins in them.
    twinned: u32,
}

impl Seen {
    pub fn told(&self) -> String {
        let Seen { volumes, counted, exposed, needed, refused, broken, without, remainders, full, twinned, .. } = self;
        format!(
            "{full} with 32 volumes, {without} with none that recovers, {remainders} with a remainder; {volumes} volumes, \
             {counted} counted, {exposed} of them with exposed records, {needed} with needed ones, \
             {refused:?} refused by {REFUSALS:?}, {broken} broken; {twinned} written with twins"
        )
    }

    /// What is told on a page.
    fn add(&mut self, page: &[u8]) {
        let all = assert_sound(page);
        let is = |test: fn(&Told) -> bool| all.iter().filter(|told| test(told)).count() as u32;
        let counted = is(|told| matches!(told, Told::Figures(_)));
        self.inputs += 1;
        self.volumes += all.len() as u32;
        self.counted += counted;
        self.exposed += is(|told| matches!(told, Told::Figures([.., exposed, _]) if *exposed > 0));
        self.needed += is(|told| matches!(told, Told::Figures([.., needed]) if *needed > 0));
        for (seen, answer) in self.refused.iter_mut().zip(REFUSALS) {
            *seen += all.iter().filter(|&&told| told == Told::Alone(answer)).count() as u32;
        }
        self.broken += is(|&told| told == BROKEN);
        self.without += u32::from(counted == 0);
        let set: u32 = all.iter().map(|told| if let Told::Figures([set, ..]) = told { *set } else { 0 }).sum();
        self.remainders += u32::from(set.checked_rem(counted).is_some_and(|remainder| remainder > 0));
        self.full += u32::from(all.len() == 32);
    }

    /// Everything was seen often enough.
    pub fn assert_enough(&self) {
        let few = self.inputs / 40;
        let often = [self.exposed, self.needed, self.broken, self.without, self.remainders, self.full, self.twinned];
        assert!(often.iter().chain(&self.refused).all(|&seen| seen > few), "{}", self.told());
        assert!(self.counted > self.inputs, "{}", self.told());
    }
}

/// Inputs with volumes of a width, or of both where none is given, each of which is printed.
pub fn inputs(width: Option<u32>, seed: u64, number: u32, prints: &dyn Fn(&str, &[u8]) -> Vec<u8>) -> Seen {
    let mut random = Random::new(seed);
    let mut seen = Seen::default();
    for i in 1..=number {
        let input = input(&mut random, width, &mut seen);
        seen.add(&prints(&format!("input {i} of seed {seed}"), &input));
    }
    seen.assert_enough();
    seen
}

/// An input of 0 to 34 volumes: now and then one has wrong sizes, all are cut short, or there are bytes behind them.
fn input(random: &mut Random, width: Option<u32>, seen: &mut Seen) -> Vec<u8> {
    let number = match random.below(10) {
        0 => 30 + random.below(5),
        1 => random.below(2),
        _ => 1 + random.below(8),
    };
    let spoiled = if random.one_in(5) { random.below(number) } else { number };
    let mut input = Vec::new();
    for i in 0..number {
        let layout = Layout { family: Family::Bpcc, width: width.unwrap_or_else(|| random.pick(&WIDTHS)) };
        let volume = volume(random, layout);
        seen.twinned += u32::from(has_twins(&volume));
        let mut bytes = stored(&volume);
        if i == spoiled {
            spoil(random, &mut bytes);
        }
        input.extend(bytes);
    }
    match random.below(10) {
        0 => input.truncate(random.below(input.len() as u32 + 1) as usize),
        1 => {
            let length = random.below(100);
            input.extend(random.bytes(length));
        }
        _ => {}
    }
    input
}

/// A volume that a run with cuts leaves, or what is left of one when a record is lost, one with an obsolete record that straddles an
/// exposed one's link, or any.
fn volume(random: &mut Random, layout: Layout) -> Volume {
    match random.below(8) {
        0..=2 => left_by_a_run(random, layout),
        3 => {
            let mut v = left_by_a_run(random, layout);
            let held: Vec<u32> = v.records().into_iter().map(|(k, _)| k).collect();
            v.blank(&[random.pick(&held)]);
            v
        }
        4..=5 => straddled(random, layout),
        _ => inputs::volume(random, layout),
    }
}

/// What a run of calls leaves, now and then cut in one of them and recovered.
fn left_by_a_run(random: &mut Random, layout: Layout) -> Volume {
    let pages = 1 + random.below(6);
    let mut v = Volume::formatted(&Reference, layout.sizes(pages, pages + random.below(12)));
    for _ in 0..random.below(60) {
        let call = if random.one_in(30) { Call::Sweep } else { inputs::call(random, &v) };
        let mut after = v.clone();
        let done = after.call(&Reference, &call).answer == 0;
        if done && random.one_in(6) {
            let stages = stages(&call, &v, &after);
            (v, _) = left(random, &v, &after, &stages);
            v.state.fill(NONE);
            assert_eq!(v.call(&Reference, &Call::Recover).answer, 0, "recovery behind a cut");
        } else {
            v = after;
        }
    }
    v
}

/// Alters P, S or the width, as a rule to what no volume has.
fn spoil(random: &mut Random, bytes: &mut [u8]) {
    let at = 4 * random.below(3) as usize;
    let wrong = match at {
        0 => random.pick(&[0, 257, 1024, NONE]),
        4 => random.pick(&[0, 1025, 1 << 16, NONE]),
        _ => random.pick(&WRONG_WIDTHS),
    };
    let word = if random.one_in(4) { random.number() as u32 } else { wrong };
    bytes[..HEADER_BYTES][at..at + 4].copy_from_slice(&word.to_le_bytes());
}

fn has_twins(v: &Volume) -> bool {
    let held: Vec<u32> = v.records().into_iter().map(|(k, _)| k).collect();
    held.iter().any(|&k| held.iter().any(|&l| k < l && twins(v.view(), k, l)))
}
