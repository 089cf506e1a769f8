//! Faulty counting of pages and records.

use super::Wrong;
use crate::cleaning::twins;
use crate::implementations::van_program::{figures, Figures, Right, Surveying};
use crate::rules::{self, entry, highest_records, lowest_slot, slot_bytes, Record};
use crate::volume::{Sizes, Volume};

pub fn is_set(wrong: Wrong, volume: &Volume, page: u32) -> bool {
    let Sizes { family, width, pages, .. } = volume.sizes;
    let e = entry(&volume.state, page);
    match wrong {
        Wrong::SetByBytes => {
            let k = lowest_slot(family, &volume.words, page, e.committed).expect("a page that recovers has a slot");
            volume.contents[slot_bytes(width, k)].iter().any(|&b| b != 0)
        }
        Wrong::SetByUsed => e.used != 0,
        Wrong::SetByHighest => highest_records(pages, &volume.records()).is_some_and(|highest| highest[page as usize].v != 0),
        Wrong::ComparesSigned => e.committed as i32 > 0,
        _ => Right.is_set(volume, page),
    }
}

pub fn wrong_records(wrong: Wrong, volume: &Volume) -> Vec<(u32, Record)> {
    let mut records = Right.records(volume);
    if wrong == Wrong::CountsTwinsOnce {
        records.retain(|&(k, _)| !(0..k).any(|l| twins(volume.view(), k, l)));
    }
    records
}

pub fn is_obsolete(wrong: Wrong, volume: &Volume, r: Record) -> bool {
    let e = entry(&volume.state, r.p);
    match wrong {
        Wrong::ObsoleteWithoutNeeded => Right.is_obsolete(volume, r) && !Right.is_needed(volume, &volume.records(), r),
        Wrong::ObsoleteBelowHighest => !is_highest(&volume.records(), r),
        Wrong::ObsoleteUpToCommitted => r.v <= e.committed,
        Wrong::ComparesSigned => (r.v as i32) < e.committed as i32,
        _ => Right.is_obsolete(volume, r),
    }
}

pub fn is_exposed(wrong: Wrong, volume: &Volume, r: Record) -> bool {
    let e = entry(&volume.state, r.p);
    match wrong {
        Wrong::ExposedAboveUsed => r.v > e.used,
        Wrong::ExposedAtUsed => r.v > e.committed && r.v == e.used,
        Wrong::ExposedAtHighest => r.v > e.committed && is_highest(&volume.records(), r),
        Wrong::ComparesSigned => r.v as i32 > e.committed as i32,
        _ => Right.is_exposed(volume, r),
    }
}

fn is_highest(table: &[(u32, Record)], r: Record) -> bool {
    !table.iter().any(|&(_, l)| l.p == r.p && l.v > r.v)
}

pub fn is_needed(wrong: Wrong, volume: &Volume, table: &[(u32, Record)], k: Record) -> bool {
    let is_exposed = |i: Record| rules::is_exposed(&volume.state, i);
    let any = |is: &dyn Fn(Record) -> bool| table.iter().any(|&(_, i)| is(i));
    let straddles = || any(&|i| is_exposed(i) && k.straddles(i));
    let kept = || rules::is_obsolete(&volume.state, k) && !any(&|l| l.p == k.p && l.c == k.c && l.v > k.v);
    match wrong {
        Wrong::NeededWithoutObsolete => rules::is_needed(table, &volume.state, k),
        Wrong::NeededByAnyExposedRecord => kept() && any(&is_exposed),
        Wrong::NeededByAnyExposedLinkToItsPage => kept() && any(&|i| is_exposed(i) && i.np == k.p),
        Wrong::NeededByAnyRecord => kept() && any(&|i| k.straddles(i)),
        Wrong::NeededByHighestRecords => kept() && any(&|i| is_exposed(i) && k.straddles(i) && is_highest(table, i)),
        Wrong::NeededThoughOutdone => rules::is_obsolete(&volume.state, k) && straddles(),
        Wrong::NeededUnlessOutdoneByAnyPage => kept() && straddles() && !any(&|l| l.c == k.c && l.v > k.v),
        Wrong::NeededByLinksToAnyPage => kept() && any(&|i| is_exposed(i) && k.c < i.nv && i.nv < k.v),
        Wrong::NeededAtTheEndsOfItsSpan => kept() && any(&|i| is_exposed(i) && k.p == i.np && k.c <= i.nv && i.nv <= k.v),
        _ => Right.is_needed(volume, table, k),
    }
}

pub fn wrong_figures(wrong: Wrong, volume: &Volume) -> Figures {
    let (table, state) = (volume.records(), &volume.state);
    let [set, obsolete, exposed, needed] = figures(&wrong, volume);
    let straddlers = |i: Record| table.iter().filter(|&&(_, k)| k.straddles(i) && Right.is_needed(volume, &table, k)).count() as u32;
    let needing = || table.iter().filter(|&&(_, i)| rules::is_exposed(state, i)).map(|&(_, i)| straddlers(i));
    match wrong {
        Wrong::SetByCommittedRecords => {
            let is_committed = |r: Record| r.v != 0 && r.v == entry(state, r.p).committed;
            [table.iter().filter(|&&(_, r)| is_committed(r)).count() as u32, obsolete, exposed, needed]
        }
        Wrong::CountsExposedRecordsThatNeed => [set, obsolete, exposed, needing().filter(|&n| n > 0).count() as u32],
        Wrong::CountsLinksThatNeed => [set, obsolete, exposed, needing().sum()],
        Wrong::ExchangesObsoleteAndExposed => [set, exposed, obsolete, needed],
        _ => [set, obsolete, exposed, needed],
    }
}
