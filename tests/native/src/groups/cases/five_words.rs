//! Document 01's cases 1 to 11.

use super::{assert_refused, recovered, slot_of};
use crate::interface::{Calls, Reply};
use crate::volume::{Call, Layout, Volume};

type Five = [u32; 5];

/// F: the formatted records of P pages, and further records.
fn formatted_and(pages: u32, more: &[Five]) -> Vec<Five> {
    (0..pages).map(|i| [i, 0, 0, i, 0]).chain(more.iter().copied()).collect()
}

/// Case 4's table.
fn case_4() -> Vec<Five> {
    formatted_and(3, &[[0, 1, 0, 1, 1], [1, 2, 0, 2, 1], [2, 1, 0, 1, 2]])
}

/// Cases 1 to 5 and 11: what recovery finds, and the links that it follows from page 0, from page 1 and so on.
pub fn recoveries(calls: &dyn Calls, layout: Layout) {
    let found = |pages: u32, held: &[Five]| recovered(calls, layout, pages, held);
    let two = [[0, 1, 0, 1, 1]];
    let three = [two[0], [1, 1, 0, 0, 1]];
    let five = [[0, 1, 0, 1, 1], [1, 2, 1, 2, 1], [2, 1, 0, 1, 2]];
    let eleven = [two[0], [1, 1, 0, 0, 2]];
    assert_eq!(found(1, &formatted_and(1, &[])), (Reply::done(1), vec![0], vec![0]), "case 1");
    assert_eq!(found(2, &formatted_and(2, &two)), (Reply::done(1 + 1), vec![0, 0], vec![1, 1]), "case 2");
    assert_eq!(found(2, &formatted_and(2, &three)), (Reply::done(2 + 2), vec![1, 1], vec![1, 1]), "case 3");
    assert_eq!(found(3, &case_4()), (Reply::done(1 + 2 + 2), vec![0, 2, 1], vec![1, 2, 1]), "case 4");
    assert_eq!(found(3, &five), (Reply::done(1 + 2 + 2), vec![1, 2, 1], vec![1, 2, 1]), "case 5");
    assert_eq!(found(3, &formatted_and(3, &five)), (Reply::done(1 + 2 + 2), vec![1, 2, 1], vec![1, 2, 1]), "case 5 with F");
    assert_eq!(found(2, &formatted_and(2, &eleven)), (Reply::done(2 + 1), vec![0, 0], vec![2, 1]), "case 11");
}

/// Cases 9 and 10: what recovery refuses, its state untouched.
pub fn refused_recoveries(calls: &dyn Calls, layout: Layout) {
    let nine = [[0, 1, 0, 1, 1], [1, 1, 0, 2, 1], [2, 1, 0, 1, 1]];
    let ten = [[0, 2, 1, 1, 5], [1, 0, 0, 1, 0]];
    assert_refused(calls, layout, 3, &nine, 4, "case 9");
    assert_refused(calls, layout, 2, &ten, 14, "case 10");
}

/// Case 6's volume: case 4 recovered, then page 1 alone launched and written.
pub(super) fn case_6(calls: &dyn Calls, layout: Layout) -> Volume {
    let mut v = Volume::with_records(layout.sizes(3, 8), &case_4());
    assert_eq!(v.call(calls, &Call::Recover).answer, 0);
    assert_eq!(v.call(calls, &Call::Launch(vec![1])).answer, 0);
    assert_eq!(v.call(calls, &Call::Write { page: 1, slot: 7, bytes: vec![9; layout.width as usize] }), Reply::done(1));
    assert_eq!(&v.words[35..40], &[1, 3, 2, 1, 3]);
    v
}

/// Cases 6, 7 and 8: a needed straddler stays until the exposed record that needs it is gone.
pub fn needed_straddlers(calls: &dyn Calls, layout: Layout) {
    let v = case_6(calls, layout);
    let straddler = slot_of(&v, [1, 2, 0, 2, 1]);
    let exposed = slot_of(&v, [0, 1, 0, 1, 1]);
    let old = slot_of(&v, [1, 0, 0, 1, 0]);
    let erase = |v: &mut Volume, list: &[u32]| v.call(calls, &Call::Erase(list.to_vec())).answer;
    assert_eq!(erase(&mut v.clone(), &[straddler]), 12, "case 6");
    let mut seven = v.clone();
    assert_eq!((erase(&mut seven, &[exposed]), erase(&mut seven, &[straddler])), (0, 0), "case 7");
    for both in [[exposed, straddler], [straddler, exposed]] {
        let mut together = v.clone();
        assert_eq!(erase(&mut together, &both), 12, "case 7, both in one call");
        assert!(together == v, "case 7 leaves the volume");
    }
    assert_eq!(erase(&mut v.clone(), &[old]), 0, "case 8");
}
