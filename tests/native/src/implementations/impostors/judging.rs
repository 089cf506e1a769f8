//! Faulty judging of what a write would bury and of what may be erased.

use super::{Fault, Impostor};
use crate::cleaning::{may_erase, twins};
use crate::interface::{Arguments, Family, Reply};
use crate::rules::{entry, is_exposed, records, slot, would_bury, Record};
use crate::volume::Volume;

impl Impostor {
    /// Whether the write of a page is refused by 16, by the faulty rule.
    pub(super) fn buries(&self, before: &Volume, p: u32) -> bool {
        if before.sizes.family == Family::Bpcc {
            return false;
        }
        let (table, state) = (before.records(), &before.state);
        let v = entry(state, p).used;
        let any = |test: &dyn Fn(Record) -> bool| table.iter().any(|&(_, j)| test(j));
        match self.0 {
            Fault::WriteBuriesEveryRecord => false,
            Fault::WriteLooksAtPagesOnly => any(&|j| is_exposed(state, j) && j.p == p && j.v < v),
            Fault::WriteLooksAtLinksOnly => any(&|j| is_exposed(state, j) && j.np == p && j.nv < v),
            Fault::WriteLooksAtLinksLiterally => any(&|j| is_exposed(state, j) && j.np == p),
            Fault::WriteTakesTheRuleLiterally => any(&|j| is_exposed(state, j) && (j.p == p || j.np == p)),
            Fault::WriteLooksAtObsoleteRecordsToo => {
                any(&|j| j.v != entry(state, j.p).committed && ((j.p == p && j.v < v) || (j.np == p && j.nv < v)))
            }
            _ => would_bury(&table, state, p),
        }
    }

    /// Whether a listed slot that may be erased is kept by the faulty permission.
    pub(super) fn keeps_any(&self, before: &Volume, list: &[u32]) -> bool {
        let (table, state) = (before.records(), &before.state);
        let better = |k: Record| table.iter().any(|&(_, l)| l.p == k.p && l.v > k.v);
        let straddles = |k: Record| table.iter().any(|&(_, i)| is_exposed(state, i) && k.straddles(i));
        list.iter().filter_map(|&k| before.slot(k)).any(|r| match self.0 {
            Fault::EraseKeepsExposedRecords => is_exposed(state, r),
            Fault::EraseKeepsStraddlers => !is_exposed(state, r) && !better(r) && straddles(r),
            _ => false,
        })
    }

    /// Erases what a right call refuses, if the faulty permission lets every listed slot go.
    pub(super) fn erase(&self, a: &mut Arguments) -> Option<Reply> {
        let mut after = Volume::copied(a);
        for &k in a.list {
            let may = match self.0 {
                Fault::EraseJudgesAfterBlanking => after.may_erase(k),
                Fault::EraseIgnoresStraddlers
                | Fault::EraseLooksAtHighestLinksOnly
                | Fault::EraseTakesRecordsInFlight
                | Fault::EraseTakesAllTwins => self.lets_go(a, k),
                _ => false,
            };
            if !may {
                return None;
            }
            after.blank(&[k]);
        }
        a.words.copy_from_slice(&after.words);
        a.contents.copy_from_slice(&after.contents);
        Some(Reply::done(0))
    }

    /// Whether a slot goes by the faulty permission.
    fn lets_go(&self, a: &Arguments, k: u32) -> bool {
        let Some(record) = slot(a.family, a.words, k) else { return false };
        if may_erase(a.view(), twins, |l| a.list.contains(&l), k) {
            return true;
        }
        let table = records(a.family, a.words);
        let highest = |r: Record| table.iter().all(|&(_, q)| q.p != r.p || q.v <= r.v);
        let obsolete = record.v < entry(a.state, record.p).committed;
        match self.0 {
            Fault::EraseTakesRecordsInFlight => is_exposed(a.state, record),
            Fault::EraseIgnoresStraddlers => obsolete,
            Fault::EraseTakesAllTwins => (0..a.slots).any(|l| twins(a.view(), k, l)),
            _ => obsolete && !table.iter().any(|&(_, i)| highest(i) && record.straddles(i)),
        }
    }
}
