//! The calls, the implementation under test against the second one, on many inputs.

use super::sweepings::{assert_swept, swept};
use crate::cleaning::blocks_of;
use crate::harness::said;
use crate::implementations::compared::Compared;
use crate::inputs;
use crate::interface::{Arguments, Calls, Family, Name, Reply, END_WORDS, PICK_WORDS, WIDTHS};
use crate::random::Random;
use crate::sweeping::assert_left;
use crate::volume::{Call, Layout, Volume, LENT};
use std::panic::{catch_unwind, AssertUnwindSafe};

/// Document 01's table of which call gives which number, and document 02's 15 to 20.
pub fn answers(family: Family, call: Name) -> &'static [u32] {
    match call {
        Name::Write if family == Family::Scc => &[0, 1, 2, 5, 6, 9, 10, 11, 16],
        Name::Format => &[0, 1],
        Name::Launch => &[0, 1, 5, 6, 7, 8],
        Name::Write => &[0, 1, 2, 5, 6, 9, 10, 11],
        Name::Withdraw => &[0, 1, 5, 6, 9],
        Name::Erase => &[0, 1, 2, 5, 6, 12],
        Name::Suggest => &[0, 1, 2, 5, 13],
        Name::CheckBlocks => &[0, 1, 17],
        Name::Clean => &[0, 1, 2, 5, 6, 15, 17],
        Name::Pick => &[0, 1, 2, 5, 6, 17, 18],
        Name::Sweep => &[0, 1, 2, 5],
        Name::Recover => &[0, 1, 2, 3, 4, 14],
        Name::Doubtful => &[0, 1, 2, 6, 19, 20],
        Name::Count => &[0, 1],
        Name::Read => &[0, 1, 2, 5, 6, 14],
    }
}

/// How often each answer of each call is to be seen.
pub const SEEN: u64 = 100;

/// Compares every call on `rounds` volumes of a layout.
pub fn compare(compared: &Compared, layout: Layout, rounds: u32, seed: u64) {
    let mut random = Random::new(seed);
    for _ in 0..rounds {
        let mut volume = inputs::volume(&mut random, layout);
        // Arguments that fit the volume are chosen before its sizes are made wrong.
        let mut choices = Choices::new(&mut random, &volume);
        if random.one_in(10) {
            inputs::resize(&mut random, &mut volume);
            choices.resize(&mut random, volume.sizes.width);
        }
        let round = catch_unwind(AssertUnwindSafe(|| one_round(compared, &volume, &choices)));
        if let Err(panic) = round {
            let input = if volume.sizes.slots <= 64 { format!("{volume:?} {choices:?}") } else { String::from("a large volume") };
            panic!("{} on {input}", said(&*panic));
        }
    }
}

/// Each answer of each call was seen often enough, and no other.
pub fn assert_all_seen(compared: &Compared, family: Family) {
    for call in family.calls() {
        assert_eq!(compared.answers(call), answers(family, call), "the answers of {call}");
        for &answer in answers(family, call) {
            let times = compared.seen(call, answer);
            assert!(times >= SEEN, "{call} answered {answer} only {times} times");
        }
    }
    for done in [0, 1] {
        assert!(compared.seen_second(Name::Write, done) >= SEEN, "write with done {done}");
    }
}

/// Arguments for one round.
#[derive(Debug)]
struct Choices {
    launch: Vec<u32>,
    erase: Vec<u32>,
    write: (u32, u32),
    clean: (Vec<u32>, u32),
    pick: u32,
    /// In every other round, as all fillings of these slots are recovered.
    doubtful: Option<Vec<u32>>,
    withdraw: u32,
    read: u32,
    bytes: Vec<u8>,
    out: Vec<u8>,
    picked: Vec<u32>,
    ends: Vec<u32>,
}

impl Choices {
    fn new(random: &mut Random, v: &Volume) -> Choices {
        let width = v.sizes.width;
        let mut length = || {
            if random.one_in(30) {
                random.pick(&[0, 1, width - 1, width + 1, WIDTHS[0], WIDTHS[1], 1000])
            } else {
                width
            }
        };
        let (bytes, out) = (length(), length());
        let picked = if random.one_in(30) { random.pick(&[0, 1, 3, 5, 8]) } else { PICK_WORDS };
        let pages = v.sizes.pages as usize;
        let ends = if random.one_in(30) { random.pick(&[0, 1, pages, 2 * pages - 1, 2 * pages + 1, 4 * pages]) } else { END_WORDS * pages };
        let clean = inputs::blocks_to_clean(random, v);
        Choices {
            launch: inputs::pages_to_launch(random, v),
            erase: inputs::slots_to_erase(random, v),
            write: inputs::page_and_slot_to_write(random, v),
            pick: inputs::blocks_to_look_at(random, &clean.0),
            clean,
            doubtful: random.one_in(2).then(|| inputs::slots_to_doubt(random, v)),
            withdraw: inputs::page_to_take(random, v),
            read: inputs::page_to_take(random, v),
            bytes: random.bytes(bytes),
            out: random.bytes(out),
            picked: vec![LENT; picked],
            ends: vec![LENT; ends],
        }
    }

    /// Most often gives the bytes and the place for bytes read the length of a width.
    fn resize(&mut self, random: &mut Random, width: u32) {
        if inputs::is_short(width) && !random.one_in(4) {
            (self.bytes, self.out) = (random.bytes(width), random.bytes(width));
        }
    }

    /// The page, the slot and the list for a call: 0, 0 and none where it takes no such thing. The table of blocks, the block and how
    /// many are looked at are the same for all.
    fn of(&self, call: Name) -> (u32, u32, &[u32]) {
        match call {
            Name::Launch => (0, 0, &self.launch),
            Name::Write => (self.write.0, self.write.1, &[]),
            Name::Withdraw => (self.withdraw, 0, &[]),
            Name::Erase => (0, 0, &self.erase),
            Name::Doubtful => (0, 0, self.doubtful.as_deref().unwrap_or_default()),
            Name::Read => (self.read, 0, &[]),
            Name::Format | Name::Suggest | Name::CheckBlocks | Name::Clean | Name::Pick => (0, 0, &[]),
            Name::Sweep | Name::Recover | Name::Count => (0, 0, &[]),
        }
    }
}

/// Each call on a copy of the volume; a refused one leaves the copy as it was, a sweep that is done leaves nothing to erase.
fn one_round(compared: &Compared, volume: &Volume, choices: &Choices) {
    for call in volume.sizes.family.calls().filter(|&call| call != Name::Doubtful || choices.doubtful.is_some()) {
        let (mut v, mut out, mut picked, mut ends) = (volume.clone(), choices.out.clone(), choices.picked.clone(), choices.ends.clone());
        let (page, slot, list) = choices.of(call);
        let ((starts, block), n, bytes) = (&choices.clean, choices.pick, &choices.bytes);
        let lent = Arguments { bytes, out: &mut out, picked: &mut picked, ends: &mut ends, ..v.arguments() };
        let reply = compared.call(call, &mut Arguments { page, slot, list, starts, block: *block, n, ..lent });
        let own = [picked != choices.picked, ends != choices.ends];
        let others = v != *volume || out != choices.out;
        assert!(reply.answer == 0 || (!others && own == [false; 2]), "a refused call altered a buffer");
        match call {
            Name::Pick => assert!(!others && !own[1], "a pick altered something else than its words"),
            Name::Doubtful => assert!(!others && !own[0], "doubtful altered something else than its words"),
            _ => {}
        }
        if call == Name::Sweep && reply.answer == 0 {
            assert_swept(compared, &v);
        }
    }
}

/// Format at every pair of sizes near a limit, with the lengths that the sizes ask for.
pub fn compare_sizes(compared: &Compared, layout: Layout) {
    for pages in [0, 1, 2, 3, 127, 255, 256, 257, 1024] {
        for slots in [0, 1, 2, 3, 126, 254, 255, 256, 257, 511, 512, 513, 1023, 1024, 1025] {
            Volume::zeroed(layout.sizes(pages, slots)).format(compared);
        }
    }
}

/// Volumes of the largest size, all calls, one transaction over all pages, every block cleaned.
pub fn compare_largest(compared: &Compared, layout: Layout) {
    let (pages, slots, width) = (256, 1024, layout.width);
    let mut v = Volume::formatted(compared, layout.sizes(pages, slots));
    for round in 0..2 {
        let list: Vec<u32> = (0..pages).map(|i| (i * 7 + round) % pages).collect();
        assert_eq!(v.call(compared, &Call::Launch(list.clone())).answer, 0);
        for (i, &page) in list.iter().enumerate() {
            let slot = pages * (round + 1) + i as u32;
            let reply = v.call(compared, &Call::Write { page, slot, bytes: vec![page as u8; width as usize] });
            assert_eq!(reply, Reply::done(u32::from(i + 1 == list.len())));
        }
        if layout.family == Family::Bpcc {
            assert_eq!(v.suggest(compared).answer, 0);
            assert_left(&swept(compared, &v).expect("a sweep of rings"));
        }
        assert_eq!(v.clone().call(compared, &Call::Recover), Reply::done(pages * pages));
        if layout.family == Family::Bpcc {
            assert_eq!(v.doubted(compared, &[]), (1, vec![[round + 1; 2]; pages as usize]));
            assert_eq!(v.doubted(compared, &[pages * (round + 2) - 1]), (2, vec![[round, round + 1]; pages as usize]));
        }
    }
    let obsolete: Vec<u32> = (0..2 * pages).collect();
    assert_eq!(v.call(compared, &Call::Erase(obsolete)).answer, 0);
    let all: Vec<u32> = (0..slots).collect();
    assert_eq!(v.call(compared, &Call::Erase(all)).answer, 12);
    if layout.family == Family::Bpcc {
        let starts = blocks_of(64, slots);
        for block in 0..16 {
            [1, 4, 16].iter().for_each(|&n| assert_eq!(v.picked(compared, &starts, block, n)[2], n));
            assert_eq!(v.call(compared, &Call::Clean { starts: starts.clone(), block }).answer, 0);
        }
    }
    let mut out = vec![0; width as usize];
    assert_eq!(v.read(compared, 255, &mut out).answer, 0);
    assert_eq!(out, vec![255; width as usize]);
}

/// Lists far longer than any that fits: the last entry out of range, or all in range with repeats.
pub fn compare_long_lists(compared: &Compared, layout: Layout) {
    let (pages, slots) = (256, 1024);
    let mut v = Volume::formatted(compared, layout.sizes(pages, slots));
    for last in [0, pages, slots] {
        let mut list: Vec<u32> = (0..100_000).map(|i| i % pages).collect();
        list.push(last);
        assert_eq!(v.call(compared, &Call::Launch(list.clone())).answer, 6);
        if layout.family == Family::Bpcc {
            assert_eq!(v.doubtful(compared, &list).0.answer, 6);
        }
        assert_eq!(v.call(compared, &Call::Erase(list)).answer, 6);
    }
}
