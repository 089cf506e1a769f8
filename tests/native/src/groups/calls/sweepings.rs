//! Sweeps compared on volumes of every kind, each beside the three erases that it stands for, and every kind of sweep met often.

use super::kinds::Kinds;
use crate::cleaning::{erasable, twins};
use crate::implementations::compared::Compared;
use crate::inputs::{self, straddled::straddled};
use crate::interface::{Calls, Reply, NONE};
use crate::random::Random;
use crate::rules::{entry, is_exposed, is_obsolete, Record};
use crate::sweeping::{erasings, obsolete};
use crate::volume::{Call, Layout, Volume};

/// Kinds of sweep, by what goes and what stays.
const KINDS: [&str; 16] = [
    "nothing goes",
    "no exposed record goes",
    "exposed records go",
    "no obsolete record goes",
    "obsolete records go",
    "no spare twin goes",
    "spare twins go",
    "exposed records, obsolete ones and spare twins go",
    "an obsolete record goes behind the exposed one that needed it",
    "an obsolete record stays needed",
    "one of its twins goes",
    "two of three twins go",
    "an exposed record at used of a page in flight, written, stays",
    "one of a page not written stays",
    "one of its twins goes",
    "an exposed record of a page in flight at another version goes",
];

/// Sweeps so many volumes, and gives how often each kind was met.
pub fn compare(compared: &Compared, layout: Layout, volumes: u32) -> String {
    let mut random = Random::new(u64::from(layout.width));
    let mut met = Kinds::new(KINDS);
    for i in 0..volumes {
        let v = if i % 2 == 0 { inputs::volume(&mut random, layout) } else { straddled(&mut random, layout) };
        if let Some(after) = swept(compared, &v) {
            assert_erases(compared, &v, &after);
            met.count(kinds(&v, &after));
        }
    }
    met.told()
}

/// What a sweep that is done makes of a volume.
pub fn swept(compared: &Compared, volume: &Volume) -> Option<Volume> {
    let mut v = volume.clone();
    let done = v.call(compared, &Call::Sweep).answer == 0;
    done.then(|| {
        assert_swept(compared, &v);
        v
    })
}

/// Nothing may be erased of a volume that was swept, and another sweep alters nothing.
pub fn assert_swept(compared: &Compared, volume: &Volume) {
    let mut v = volume.clone();
    assert_eq!(v.suggest(compared), Reply { answer: 13, second: NONE }, "suggest after a sweep");
    assert_eq!(v.call(compared, &Call::Sweep), Reply::done(0), "a second sweep");
    assert!(v == *volume, "a second sweep alters something");
}

/// Erases of the three lists, one after the other, make the same of the volume, and so do those of what the driver blanks in each stage,
/// which has a spare twin of an obsolete record that stays in the second.
fn assert_erases(compared: &Compared, before: &Volume, after: &Volume) {
    let (lists, stages) = (erasings(before, twins), compared.stages(&Call::Sweep, before, after));
    let is_obsolete = |k: &u32| obsolete(before).contains(k);
    assert!(lists[0] == stages[0] && lists[2].iter().filter(|k| !is_obsolete(k)).eq(&stages[2]), "{stages:?} for {lists:?}");
    for erased in [&lists[..], &stages] {
        let mut v = before.clone();
        for list in erased.iter().filter(|list| !list.is_empty()) {
            assert_eq!(v.call(compared, &Call::Erase(list.clone())), Reply::done(0), "erase of {list:?}");
        }
        assert!(v == *after, "three erases leave something else");
    }
}

/// Whether a sweep is of each kind.
fn kinds(before: &Volume, after: &Volume) -> [bool; KINDS.len()] {
    let (state, lists) = (&before.state, erasings(before, twins));
    let [exposed, gone, spare] = &lists;
    let flies = |r: Record| is_exposed(state, r) && entry(state, r.p).in_flight();
    let stays = |is: &dyn Fn(Record) -> bool| after.records().into_iter().any(|(_, r)| is(r));
    let goes = |list: &[u32], is: &dyn Fn(Record) -> bool| list.iter().filter_map(|&k| before.slot(k)).any(is);
    let is_obsolete = |r: Record| is_obsolete(state, r);
    let written = |r: Record| entry(state, r.p).written == 1;
    let at_once: Vec<u32> = erasable(before.view(), twins, &obsolete(before)).collect();
    [
        lists.iter().all(Vec::is_empty),
        exposed.is_empty(),
        !exposed.is_empty(),
        gone.is_empty(),
        !gone.is_empty(),
        spare.is_empty(),
        !spare.is_empty(),
        lists.iter().all(|list| !list.is_empty()),
        gone.len() > at_once.len(),
        stays(&is_obsolete),
        goes(spare, &is_obsolete),
        spare.iter().any(|&k| spare.iter().any(|&l| twins(before.view(), k, l))),
        stays(&|r| flies(r) && written(r)),
        stays(&|r| flies(r) && !written(r)),
        goes(spare, &flies),
        goes(exposed, &flies),
    ]
}
