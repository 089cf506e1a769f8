//! Document 01's table of cases, document 02's sentences on twins, cleaning, tables of blocks, picking, the sweep and doubtful slots, and
//! its four-word records, by the implementation under test and by the second one.

pub mod blocks;
pub mod cleaning;
pub mod doubting;
pub mod five_words;
pub mod four_words;
pub mod picking;
pub mod sweeping;
pub mod twins;

use crate::harness::Group;
use crate::implementations::reference::Reference;
use crate::implementations::TESTED;
use crate::interface::{Calls, Family, Reply};
use crate::rules::{entry, set_entry, Entry, Record};
use crate::volume::{Call, Layout, Volume};

type Case = (&'static str, fn(&dyn Calls, Layout));

const FIVE_WORDS: &[Case] = &[
    ("cases 1 to 5 and 11: what recovery finds", five_words::recoveries),
    ("cases 9 and 10: what recovery refuses", five_words::refused_recoveries),
    ("cases 6 to 8: needed straddlers", five_words::needed_straddlers),
    ("twins: equal in all words and bytes, or a clash", twins::recoveries),
    ("twins: one outside the list, or the old rule", twins::erasures),
    ("twins in flight at used and of needed straddlers", twins::kept_twins),
    ("twins: suggest judges a list of one", twins::suggestions),
    ("cleaning: what stays is copied, rising, to the lowest blank slots outside", cleaning::copies),
    ("cleaning: of twins only the lowest, and none with a twin outside", cleaning::twins),
    ("cleaning: 15 where fewer slots are blank than are copied", cleaning::limit),
    ("cleaning: which blocks there are", cleaning::blocks),
    ("cleaning: a needed straddler stays with the record that needs it", cleaning::straddlers),
    ("cleaning: twins after a crash between the copies", cleaning::crashes),
    ("blocks: which tables there are", blocks::tables),
    ("blocks: what cleaning refuses, in this order", blocks::order),
    ("blocks: small ones at the front, each cleaned", blocks::small_first),
    ("blocks: one volume, other tables", blocks::two_tables),
    ("pick: from a named block on and round, no more than n", picking::going_round),
    ("pick: the earliest seen on ties", picking::ties),
    ("pick: how much an unseen block could beat it", picking::unseen),
    ("pick: records judged one by one, twins too", picking::one_by_one),
    ("pick: what may not be erased does not count", picking::kept),
    ("pick: what it refuses, in this order", picking::refusals),
    ("pick: block after block until nothing may be erased", picking::emptied),
    ("sweep: case 6's straddler goes behind the exposed record that needs it", sweeping::straddler),
    ("sweep: of twins that stay the lowest alone", sweeping::twins),
    ("sweep: a page in flight keeps its record at used, written or not", sweeping::in_flight),
    ("sweep: nothing to erase is done", sweeping::nothing),
    ("sweep: a straddler stays with a record in flight that needs it", sweeping::kept_straddler),
    ("sweep: what it refuses, in this order", sweeping::refusals),
    ("sweep: cuts in each erasing", sweeping::cuts),
    ("doubtful: an empty list gives recovery's own versions", doubting::empty),
    ("doubtful: a set of two pages, whole or not at all", doubting::set),
    ("doubtful: fillings that do not recover count for nothing", doubting::failing),
    ("doubtful: twins, each in doubt by itself, and records that clash", doubting::twins),
    ("doubtful: a straddler that is missing raises a version", doubting::straddlers),
    ("doubtful: versions up to the last, each end reached", doubting::versions),
    ("doubtful: eight slots are taken, nine are not", doubting::limit),
    ("doubtful: what it refuses, in this order", doubting::refusals),
];

const FOUR_WORDS: &[Case] = &[
    ("cases 1 to 3 and 11 without c: what recovery finds", four_words::recoveries),
    ("cases 4 and 5 without c: case 1 of recovery means committed", four_words::case_1_is_committed),
    ("an uncommitted highest version gives the second highest", four_words::second_highest),
    ("what recovery refuses: equal records, links astray, no second version", four_words::refused_recoveries),
    ("equal records are no twins", four_words::no_twins),
    ("writes that would bury a record by its page and by its link", four_words::buried),
    ("a write that would bury to a slot that is not blank", four_words::not_blank_first),
    ("rings of one, two and three pages, written in any order", four_words::rings),
    ("any obsolete record may be erased", four_words::obsolete),
    ("an exposed record may be erased but not at used in flight", four_words::exposed),
];

const OF_BOTH: &[Case] = &[("case 12: the last version", last_version), ("sizes", sizes), ("a transaction all written", all_written)];

pub fn tests(group: &mut Group, layout: Layout) {
    let own = match layout.family {
        Family::Bpcc => FIVE_WORDS,
        Family::Scc => FOUR_WORDS,
    };
    for (name, case) in own.iter().chain(OF_BOTH) {
        group.plain(name, || case(TESTED, layout));
        group.plain(&format!("{name}, second implementation"), || case(&Reference, layout));
    }
}

/// Recovers a table and gives the reply, the committed and the used versions.
fn recovered(calls: &dyn Calls, layout: Layout, pages: u32, held: &[impl Into<Record> + Copy]) -> (Reply, Vec<u32>, Vec<u32>) {
    let mut v = Volume::with_records(layout.sizes(pages, held.len() as u32 + 1), held);
    let reply = v.call(calls, &Call::Recover);
    let of = |field: &dyn Fn(Entry) -> u32| (0..pages).map(|p| field(entry(&v.state, p))).collect();
    (reply, of(&|e| e.committed), of(&|e| e.used))
}

/// Recovery of a table is refused, its state untouched.
fn assert_refused(calls: &dyn Calls, layout: Layout, pages: u32, held: &[impl Into<Record> + Copy], answer: u32, name: &str) {
    let before = Volume::with_records(layout.sizes(pages, 8), held);
    let mut v = before.clone();
    assert_eq!(v.call(calls, &Call::Recover), Reply::refused(answer), "{name}");
    assert!(v == before, "{name} leaves the state");
}

/// A call's answer.
fn answer(calls: &dyn Calls, v: &mut Volume, call: Call) -> u32 {
    v.call(calls, &call).answer
}

/// The slot of a record.
fn slot_of(v: &Volume, record: impl Into<Record>) -> u32 {
    let record = record.into();
    v.records().iter().find(|&&(_, r)| r == record).expect("the record is there").0
}

/// Case 12: the last version there is.
fn last_version(calls: &dyn Calls, layout: Layout) {
    for committed in [0, 1, 4_294_967_292, 4_294_967_293] {
        let mut v = Volume::formatted(calls, layout.sizes(2, 4));
        let used = 4_294_967_293;
        let e = entry(&v.state, 0);
        set_entry(&mut v.state, 0, Entry { committed, used, ..e });
        let answers = [Call::Launch(vec![0]), Call::Withdraw(0), Call::Launch(vec![0])].map(|call| v.call(calls, &call).answer);
        assert_eq!(answers, [0, 0, 8], "case 12 with committed {committed}");
    }
}

/// The sizes below the table of cases.
fn sizes(calls: &dyn Calls, layout: Layout) {
    for (pages, slots, answer) in [(0, 4, 1), (257, 1024, 1), (2, 1025, 1), (3, 2, 1), (256, 1024, 0), (256, 256, 0), (1, 1, 0)] {
        let mut v = Volume::zeroed(layout.sizes(pages, slots));
        assert_eq!(v.format(calls).answer, answer, "P={pages} S={slots}");
    }
}

/// A transaction all of whose pages are already written: each write is 10, and withdraw ends it.
fn all_written(calls: &dyn Calls, layout: Layout) {
    let mut v = Volume::formatted(calls, layout.sizes(3, 6));
    for (page, next) in [(0, 1), (1, 0)] {
        set_entry(&mut v.state, page, Entry { committed: 0, used: 1, next, written: 1 });
    }
    for page in [0, 1] {
        assert_eq!(v.call(calls, &Call::Write { page, slot: 4, bytes: vec![0; layout.width as usize] }), Reply::refused(10));
    }
    assert_eq!(v.call(calls, &Call::Withdraw(1)).answer, 0);
    assert_eq!([0, 1].map(|p| entry(&v.state, p).in_flight()), [false, false]);
}
