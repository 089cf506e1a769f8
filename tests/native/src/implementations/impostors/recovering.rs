//! Faulty recovery.

use super::{Fault, Impostor};
use crate::implementations::reference::Reference;
use crate::interface::{Arguments, Family, Reply, NONE};
use crate::rules::{committed_before, follow, highest_records, records, set_entry, used_version, End, Entry, Record, Walk};
use crate::volume::{Call, Volume};

impl Impostor {
    /// What recovery fills in for a page, where a right one fills in `e`.
    pub(super) fn recovered(&self, a: &Arguments, p: u32, e: Entry) -> Entry {
        match self.0 {
            Fault::RecoverPutsEveryPageAtZero => Entry { committed: 0, used: 0, ..e },
            Fault::RecoverTakesUsedFromVersionsAlone => {
                let own = records(a.family, a.words).into_iter().filter(|(_, r)| r.p == p);
                Entry { used: own.map(|(_, r)| r.v).max().unwrap(), ..e }
            }
            Fault::RecoverCallsABrokenRingUncommitted
            | Fault::RecoverStopsAtTheStartsPage
            | Fault::RecoverLooksAtTheLowestLaterVersion
            | Fault::RecoverLooksForStraddlers
            | Fault::RecoverTakesTheHighestVersion
            | Fault::RecoverTakesTheLowestVersion => Entry { committed: self.committed(a, p), ..e },
            _ => e,
        }
    }

    /// The committed version by a faulty following of links or a faulty choice behind it, on a table whose links end.
    fn committed(&self, a: &Arguments, start: u32) -> u32 {
        let table = records(a.family, a.words);
        let highest = highest_records(a.pages, &table).unwrap();
        let own = highest[start as usize];
        if self.is_committed(a.family, &table, &highest, start) {
            return own.v;
        }
        let lowest = table.iter().filter(|(_, r)| r.p == start).map(|(_, r)| r.v).min();
        match self.0 {
            Fault::RecoverTakesTheHighestVersion => own.v,
            Fault::RecoverTakesTheLowestVersion => lowest.unwrap(),
            _ => committed_before(a.family, &table, own).unwrap_or(own.v),
        }
    }

    fn is_committed(&self, family: Family, table: &[(u32, Record)], highest: &[Record], start: u32) -> bool {
        let mut j = highest[start as usize];
        loop {
            let next = highest[j.np as usize];
            if self.0 == Fault::RecoverStopsAtTheStartsPage && j.np == start {
                return true;
            }
            if j.nv < next.v {
                let straddled = || table.iter().any(|&(_, k)| k.straddles(j));
                let later = table.iter().map(|&(_, k)| k).filter(|k| k.p == j.np && k.v > j.nv).min_by_key(|k| k.v).unwrap();
                return match self.0 {
                    Fault::RecoverCallsABrokenRingUncommitted => false,
                    Fault::RecoverLooksAtTheLowestLaterVersion => later.c >= j.nv,
                    Fault::RecoverLooksForStraddlers => !straddled(),
                    _ => family == Family::Scc || !straddled(),
                };
            }
            if j.nv > next.v {
                return false;
            }
            if j.np == start {
                return true;
            }
            j = next;
        }
    }

    /// Recovers where a page has no second version, and puts it at its highest.
    pub(super) fn recover_highest(&self, a: &mut Arguments) -> Reply {
        let table = records(a.family, a.words);
        for p in 0..a.pages {
            let used = used_version(&table, p);
            set_entry(a.state, p, Entry { committed: self.committed(a, p), used, next: NONE, written: 0 });
        }
        Reply::done(self.links(a))
    }

    /// Recovers as if of records that are equal in all words the lowest alone were there.
    pub(super) fn recover_without_equals(&self, a: &mut Arguments) -> Option<Reply> {
        let mut v = Volume::copied(a);
        let table = v.records();
        let equal = table.iter().filter(|(k, r)| table.iter().any(|(l, q)| l < k && q == r)).map(|&(k, _)| k);
        v.blank(&equal.collect::<Vec<u32>>());
        let reply = v.call(&Reference, &Call::Recover);
        a.state.copy_from_slice(&v.state);
        (reply.answer == 0).then_some(reply)
    }

    /// The links of all walks, less those that the fault leaves out.
    pub(super) fn links(&self, a: &Arguments) -> u32 {
        let table = records(a.family, a.words);
        let highest = highest_records(a.pages, &table).unwrap();
        let last = |walk: &Walk| highest[walk.compared[walk.compared.len() - 1] as usize];
        let returned = |walk: &Walk, start: u32| last(walk).np == start && last(walk).nv == highest[start as usize].v;
        let counted = |start: u32| {
            let walk = follow(a.family, &table, &highest, start);
            let left_out = match self.0 {
                Fault::RecoverCountsNoReturn => returned(&walk, start),
                Fault::RecoverCountsNoUncommittedEnd => matches!(walk.end, End::Uncommitted),
                _ => false,
            };
            walk.compared.len() as u32 - u32::from(left_out)
        };
        (0..a.pages).map(counted).sum()
    }
}
