//! Document 01's cases without c, and document 02's sentences on four-word records.

use super::{answer, assert_refused, recovered, slot_of};
use crate::interface::{Calls, Reply};
use crate::rules::{entry, set_entry, Entry};
use crate::volume::{Call, Layout, Volume};

type Four = [u32; 4];

/// F: the formatted records of P pages, and further records.
fn formatted_and(pages: u32, more: &[Four]) -> Vec<Four> {
    (0..pages).map(|i| [i, 0, i, 0]).chain(more.iter().copied()).collect()
}

/// Cases 1, 2, 3 and 11: what recovery finds, and the links that it follows from page 0, from page 1 and so on.
pub fn recoveries(calls: &dyn Calls, layout: Layout) {
    let found = |pages: u32, more: &[Four]| recovered(calls, layout, pages, &formatted_and(pages, more));
    assert_eq!(found(1, &[]), (Reply::done(1), vec![0], vec![0]), "case 1");
    assert_eq!(found(2, &[[0, 1, 1, 1]]), (Reply::done(1 + 1), vec![0, 0], vec![1, 1]), "case 2");
    assert_eq!(found(2, &[[0, 1, 1, 1], [1, 1, 0, 1]]), (Reply::done(2 + 2), vec![1, 1], vec![1, 1]), "case 3");
    assert_eq!(found(2, &[[0, 1, 1, 1], [1, 1, 0, 2]]), (Reply::done(2 + 1), vec![0, 0], vec![2, 1]), "case 11");
}

/// Cases 4 and 5, which are one here: page 0's link is to a version below page 1's highest.
pub fn case_1_is_committed(calls: &dyn Calls, layout: Layout) {
    let held = [[0, 1, 1, 1], [1, 2, 2, 1], [2, 1, 1, 2]];
    let expected = (Reply::done(1 + 2 + 2), vec![1, 2, 1], vec![1, 2, 1]);
    assert_eq!(recovered(calls, layout, 3, &formatted_and(3, &held)), expected, "with F");
    assert_eq!(recovered(calls, layout, 3, &held), expected, "without F");
    let behind = [[0, 5, 1, 3], [1, 3, 2, 4], [2, 9, 2, 9]];
    assert_eq!(recovered(calls, layout, 3, &behind), (Reply::done(2 + 1 + 1), vec![5, 3, 9], vec![5, 3, 9]), "a link further on");
}

/// Of three versions, in any order, the second; it is not asked where its own link leads.
pub fn second_highest(calls: &dyn Calls, layout: Layout) {
    let held = [[0, 2, 1, 7], [0, 5, 1, 9], [0, 0, 0, 0], [1, 3, 1, 3]];
    let expected = (Reply::done(1 + 1), vec![2, 3], vec![5, 9]);
    assert_eq!(recovered(calls, layout, 2, &held), expected, "the second of three");
    let [a, b, c, other] = held;
    for held in [[a, c, b, other], [b, a, c, other], [b, c, a, other], [c, a, b, other], [c, b, a, other], [other, c, a, b]] {
        assert_eq!(recovered(calls, layout, 2, &held), expected, "{held:?}");
    }
    let last = 4_294_967_294;
    let highest = [[0, last, 1, last], [0, last - 1, 0, last - 1], [1, 0, 1, 0]];
    assert_eq!(recovered(calls, layout, 2, &highest), (Reply::done(1 + 1), vec![last - 1, 0], vec![last, last]), "the last versions");
}

/// "Two records of equal page and version always give 3", cases 9 and 10, and 4 before 14.
pub fn refused_recoveries(calls: &dyn Calls, layout: Layout) {
    let refused = |pages: u32, held: &[Four], answer: u32, name: &str| assert_refused(calls, layout, pages, held, answer, name);
    refused(1, &[[0, 0, 0, 0], [0, 0, 0, 0]], 3, "equal records");
    refused(2, &formatted_and(2, &[[0, 1, 1, 1], [1, 1, 0, 1], [0, 1, 0, 1]]), 3, "equal page and version");
    refused(2, &[[0, 0, 0, 0]], 3, "a page without a record");
    let nine = [[0, 1, 1, 1], [1, 1, 2, 1], [2, 1, 1, 1]];
    refused(3, &nine, 4, "case 9");
    refused(2, &[[0, 2, 1, 5], [1, 0, 1, 0]], 14, "case 10: no second version");
    refused(2, &[[0, 2, 1, 5], [1, 0, 0, 2]], 14, "no second version of either");
    let [a, b, c] = nine;
    refused(4, &[a, b, c, [3, 1, 0, 2]], 4, "links astray before no second version");
    refused(2, &[[0, 2, 2, 5], [1, 0, 1, 0]], 2, "a next page out of range");
    refused(2, &[[0, 2, 0, 1], [1, 0, 1, 0]], 2, "a link to the own page at another version");
    refused(2, &[[0, 0, 0, 0], [1, 0, 1, 0], [0, 4_294_967_295, 1, 0]], 2, "a version out of range");
}

/// "Wish 1's twin rules don't hold there": records equal in all words and bytes give 3, and neither may go because of the other.
pub fn no_twins(calls: &dyn Calls, layout: Layout) {
    let mut v = Volume::formatted(calls, layout.sizes(2, 6));
    v.copy_within(0, 4);
    for list in [&[0][..], &[4], &[0, 4]] {
        assert_eq!(answer(calls, &mut v.clone(), Call::Erase(list.to_vec())), 12, "committed, {list:?}");
    }
    assert_eq!(v.call(calls, &Call::Recover), Reply::refused(3));
}

/// A write of a page to a slot.
fn write(layout: Layout, page: u32, slot: u32) -> Call {
    Call::Write { page, slot, bytes: vec![9; layout.width as usize] }
}

/// A formatted volume of two pages on which a transaction was given up after its first page: slot 2 holds (0, 1, 1, 1). It was withdrawn,
/// or a crash came.
fn given_up(calls: &dyn Calls, layout: Layout, crash: bool) -> Volume {
    let mut v = Volume::formatted(calls, layout.sizes(2, 6));
    assert_eq!(answer(calls, &mut v, Call::Launch(vec![0, 1])), 0);
    assert_eq!(v.call(calls, &write(layout, 0, 2)), Reply::done(0));
    assert_eq!(v.slot(2), Some([0, 1, 1, 1].into()));
    let end = if crash { Call::Recover } else { Call::Withdraw(1) };
    assert_eq!(answer(calls, &mut v, end), 0);
    v
}

/// The record given up is buried by the next write of its page and by the next of the page that it links to; when it is erased, either
/// is done.
pub fn buried(calls: &dyn Calls, layout: Layout) {
    for crash in [false, true] {
        for list in [&[0][..], &[1], &[0, 1], &[1, 0]] {
            let mut v = given_up(calls, layout, crash);
            assert_eq!(answer(calls, &mut v, Call::Launch(list.to_vec())), 0);
            for &page in list {
                let before = v.clone();
                assert_eq!(v.call(calls, &write(layout, page, 3)), Reply::refused(16), "page {page} of {list:?}");
                assert!(v == before, "a refused write altered the volume");
            }
            assert_eq!(answer(calls, &mut v, Call::Erase(vec![2])), 0, "the exposed record");
            for (slot, &page) in (2..).zip(list) {
                let done = u32::from(slot as usize == list.len() + 1);
                assert_eq!(v.call(calls, &write(layout, page, slot)), Reply::done(done), "page {page} of {list:?}");
            }
        }
    }
}

/// 16 is tried after 9, 10 and 11.
pub fn not_blank_first(calls: &dyn Calls, layout: Layout) {
    let mut v = given_up(calls, layout, false);
    assert_eq!(v.call(calls, &write(layout, 0, 2)), Reply::refused(9));
    assert_eq!(answer(calls, &mut v, Call::Launch(vec![0])), 0);
    for slot in [0, 1, 2] {
        assert_eq!(v.call(calls, &write(layout, 0, slot)), Reply::refused(11), "slot {slot}");
    }
    assert_eq!(v.call(calls, &write(layout, 0, 6)), Reply::refused(6));
    let e = entry(&v.state, 0);
    set_entry(&mut v.state, 0, Entry { written: 1, ..e });
    assert_eq!(v.call(calls, &write(layout, 0, 3)), Reply::refused(10));
}

/// "A ring's own earlier record … does not count": rings complete in whatever order they are written.
pub fn rings(calls: &dyn Calls, layout: Layout) {
    let orders: [&[u32]; 9] = [&[0], &[0, 1], &[1, 0], &[0, 1, 2], &[0, 2, 1], &[1, 0, 2], &[1, 2, 0], &[2, 0, 1], &[2, 1, 0]];
    for order in orders {
        let mut v = Volume::formatted(calls, layout.sizes(3, 9));
        for round in 0..2 {
            let list: Vec<u32> = (0..order.len() as u32).collect();
            assert_eq!(answer(calls, &mut v, Call::Launch(list)), 0);
            for (i, &page) in order.iter().enumerate() {
                let done = u32::from(i + 1 == order.len());
                let slot = 3 + round * order.len() as u32 + i as u32;
                assert_eq!(v.call(calls, &write(layout, page, slot)), Reply::done(done), "page {page} of {order:?}");
            }
        }
        assert_eq!(answer(calls, &mut v, Call::Recover), 0);
        let committed = [0, 1, 2].map(|p| entry(&v.state, p).committed);
        assert_eq!(committed, [0, 1, 2].map(|p| if order.contains(&p) { 2 } else { 0 }), "{order:?}");
    }
}

/// Case 6's table without c: the record that a five-word volume keeps may go, alone or with others, and page 0 stays at version 1.
pub fn obsolete(calls: &dyn Calls, layout: Layout) {
    let held = formatted_and(3, &[[0, 1, 1, 1], [1, 2, 2, 1], [2, 1, 1, 2]]);
    let mut v = Volume::with_records(layout.sizes(3, 8), &held);
    assert_eq!(answer(calls, &mut v, Call::Recover), 0);
    assert_eq!(answer(calls, &mut v, Call::Launch(vec![1])), 0);
    assert_eq!(v.call(calls, &write(layout, 1, 7)), Reply::done(1));
    assert_eq!(v.slot(7), Some([1, 3, 1, 3].into()));
    let old = [[1, 2, 2, 1], [1, 0, 1, 0], [0, 0, 0, 0], [2, 0, 2, 0]].map(|r| slot_of(&v, r));
    let committed = [[0, 1, 1, 1], [1, 3, 1, 3], [2, 1, 1, 2]].map(|r| slot_of(&v, r));
    for list in old.map(|k| vec![k]).into_iter().chain([old.to_vec()]) {
        let mut v = v.clone();
        assert_eq!(answer(calls, &mut v, Call::Erase(list.clone())), 0, "slots {list:?}");
        assert_eq!(answer(calls, &mut v, Call::Recover), 0);
        assert_eq!([0, 1, 2].map(|p| entry(&v.state, p).committed), [1, 3, 1], "slots {list:?}");
    }
    for k in committed {
        assert_eq!(answer(calls, &mut v.clone(), Call::Erase(vec![k])), 12, "a committed record");
        assert_eq!(answer(calls, &mut v.clone(), Call::Erase(vec![old[0], k])), 12, "a committed record in a list");
    }
}

/// An exposed record goes where its page is not in flight, or is at another version; at used in flight it stays, written or not.
pub fn exposed(calls: &dyn Calls, layout: Layout) {
    let mut v = given_up(calls, layout, false);
    let erased = |v: &Volume, k: u32| answer(calls, &mut v.clone(), Call::Erase(vec![k]));
    assert_eq!(erased(&v, 2), 0, "not in flight");
    assert_eq!(answer(calls, &mut v, Call::Launch(vec![0])), 0);
    assert_eq!(erased(&v, 2), 0, "in flight at another version");
    assert_eq!(erased(&v, 0), 12, "committed");
    assert_eq!(erased(&v, 5), 12, "blank");
    let e = entry(&v.state, 0);
    for written in [0, 1] {
        set_entry(&mut v.state, 0, Entry { used: 1, written, ..e });
        assert_eq!(erased(&v, 2), 12, "at used in flight, written {written}");
    }
}
