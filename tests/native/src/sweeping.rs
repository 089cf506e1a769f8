//! Document 02's wish 7: what a sweep erases, in which order, and how many records it leaves.

use crate::cleaning::{erasable, Test};
use crate::rules::{entry, is_obsolete, Record};
use crate::volume::Volume;

/// The slots that a sweep's three erasings blank, "exposed, obsolete, spare twins": each is empty or a list that erase accepts on the
/// flash that those before it leave.
pub type Erasings = [Vec<u32>; 3];

/// "First erases each exposed record other than one whose page is in flight with v = used, then each obsolete one that may then be erased,
/// all judged as one list, and of other twins keeps the lowest."
pub fn erasings(before: &Volume, twins: Test) -> Erasings {
    let mut left = before.clone();
    let exposed = left.left_exposed();
    left.blank(&exposed);
    let obsolete: Vec<u32> = erasable(left.view(), twins, &obsolete(&left)).collect();
    left.blank(&obsolete);
    [exposed, obsolete, spare(&left, twins)]
}

/// The slots of the obsolete records.
pub fn obsolete(v: &Volume) -> Vec<u32> {
    v.records().into_iter().filter(|&(_, r)| is_obsolete(&v.state, r)).map(|(k, _)| k).collect()
}

/// The slots with a twin below them.
fn spare(v: &Volume, twins: Test) -> Vec<u32> {
    let held: Vec<u32> = v.records().into_iter().map(|(k, _)| k).collect();
    let is_spare = |i: usize| held[..i].iter().any(|&l| twins(v.view(), held[i], l));
    (0..held.len()).filter(|&i| is_spare(i)).map(|i| held[i]).collect()
}

/// The number of the erasing that blanks a slot with such a record, as a driver tells it.
pub fn erasing(state: &[u32], r: Record) -> usize {
    let e = entry(state, r.p);
    if r.v > e.committed && !(e.in_flight() && r.v == e.used) {
        0
    } else if r.v < e.committed {
        1
    } else {
        2
    }
}

/// "The number of records left is exactly P plus the written pages in flight."
pub fn assert_left(v: &Volume) {
    let written = (0..v.sizes.pages).filter(|&p| entry(&v.state, p).in_flight() && entry(&v.state, p).written == 1).count();
    assert_eq!(v.records().len(), v.sizes.pages as usize + written, "records left by a sweep: {:?}", v.words);
}
