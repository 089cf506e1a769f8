//! Faulty sweeps.

use super::{is_refused, Fault, Impostor};
use crate::cleaning::{erasable, twins};
use crate::interface::{Arguments, Name, Reply};
use crate::rules::{entry, is_exposed, set_slot};
use crate::sweeping::{erasings, obsolete, Erasings};
use crate::volume::Volume;

impl Impostor {
    /// Sweeps, where nothing refuses.
    pub(super) fn sweep(&self, a: &mut Arguments) -> Reply {
        let order = if self.0 == Fault::SweepLooksAtTheStateBeforeSlots { [1, 5, 2] } else { [1, 2, 5] };
        if let Some(answer) = order.into_iter().find(|&answer| is_refused(a, answer)) {
            return Reply::refused(answer);
        }
        let before = Volume::copied(a);
        let blanked = self.erasings(&before).concat();
        blanked.iter().for_each(|&k| set_slot(a.layout(), a.words, a.contents, k, None));
        if self.0 == Fault::SweepKeepsTheContents {
            a.contents.copy_from_slice(&before.contents);
        }
        self.put_back_behind_32(Name::Sweep, &before, &[], a);
        match self.0 {
            Fault::SweepSaysNothingToErase if blanked.is_empty() => Reply::refused(13),
            Fault::SweepCountsSlots => Reply::done(blanked.len() as u32),
            _ => Reply::done(0),
        }
    }

    /// The slots that each erasing blanks.
    fn erasings(&self, before: &Volume) -> Erasings {
        let [mut first, mut second, mut third] = erasings(before, twins);
        let next_below = |k: u32| (0..k).rev().find(|&l| twins(before.view(), k, l)).expect("a spare twin has one below it");
        let listed = |k: u32| before.slot(k).map(|r| (r, entry(&before.state, r.p)));
        let exposed = before.records().into_iter().filter(|&(_, r)| is_exposed(&before.state, r)).map(|(k, _)| k);
        match self.0 {
            Fault::SweepDoesNothing => return Erasings::default(),
            Fault::SweepKeepsExposedRecords => first.clear(),
            Fault::SweepKeepsPagesInFlight => first.retain(|&k| listed(k).is_some_and(|(_, e)| !e.in_flight())),
            Fault::SweepKeepsWrittenPagesAlone => {
                first = exposed.filter(|&k| listed(k).is_some_and(|(r, e)| e.written == 0 || r.v != e.used)).collect()
            }
            Fault::SweepTakesRecordsInFlight => first = exposed.collect(),
            Fault::SweepKeepsObsoleteRecords => second.clear(),
            Fault::SweepJudgesBeforeItErases => second = erasable(before.view(), twins, &obsolete(before)).collect(),
            Fault::SweepTakesNeededRecords => second = obsolete(before),
            Fault::SweepKeepsEveryTwin => third.clear(),
            Fault::SweepKeepsTheHighestTwin => third = third.into_iter().map(next_below).collect(),
            Fault::SweepTakesAllTwins => third.extend(third.clone().into_iter().map(next_below)),
            _ => {}
        }
        [first, second, third]
    }
}
