//! The paper's models (appendices A and B): a state is a volume, and each operator of the listing is a function of it.

use crate::interface::{Calls, Family, PAGE_WORDS};
use crate::rules::{entry, is_exposed, planned, Record};
use crate::volume::{Call, Volume};
use std::cell::Cell;

/// The rule of the walk: the library's, or one of the paper's that differ from it.
#[derive(Clone, Copy, PartialEq, Eq, Debug)]
pub enum Rule {
    /// Of five words the paper's own, of four the paper's with document 02's "below".
    Right,
    /// `UnneededForStraddle_CheckNone`: straddlers are ignored when the walk erases.
    CheckNone,
    /// `UnneededForStraddle_CheckHigh`: only the links of highest records count.
    CheckHigh,
    /// `WouldBuryMeta`: without "below", so that a ring's own earlier record stops its last one.
    Literal,
    /// `WouldBuryMeta_CheckNone`: every planned record is written.
    BuryCheckNone,
    /// `WouldBuryMeta_CheckP`: a record's page alone counts.
    BuryCheckP,
    /// `WouldBuryMeta_CheckNP`: a record's next page alone counts.
    BuryCheckNP,
}

/// A model: pages, the highest version within the constraint, and room for every record that it can hold.
pub struct Model<'a> {
    pub calls: &'a dyn Calls,
    pub family: Family,
    pub pages: u32,
    pub slots: u32,
    pub max_version: u32,
    pub rule: Rule,
    pub renamings: Vec<Vec<u32>>,
    /// The most pages of a transaction that completed so far.
    pub longest: Cell<usize>,
}

/// What tells a state from another.
pub type Key = Vec<u8>;

impl Model<'_> {
    /// The state's records, sorted, and its words, under the renaming of pages that gives the least.
    pub fn key(&self, s: &Volume) -> Key {
        let table = s.records();
        self.renamings.iter().map(|to| self.renamed(s, &table, to)).min().unwrap()
    }

    fn renamed(&self, s: &Volume, table: &[(u32, Record)], to: &[u32]) -> Key {
        let mut held: Vec<[u8; 5]> =
            table.iter().map(|(_, r)| [to[r.p as usize] as u8, r.v as u8, r.c as u8, to[r.np as usize] as u8, r.nv as u8]).collect();
        held.sort_unstable();
        let mut key: Key = held.concat();
        let at = key.len();
        key.resize(at + PAGE_WORDS * self.pages as usize, 0);
        for p in 0..self.pages {
            let e = entry(&s.state, p);
            let next = if e.in_flight() { to[e.next as usize] as u8 } else { u8::MAX };
            let from = at + PAGE_WORDS * to[p as usize] as usize;
            key[from..from + PAGE_WORDS].copy_from_slice(&[e.committed as u8, e.used as u8, next, e.written as u8]);
        }
        key
    }

    /// The records planned and not yet written.
    pub fn planned(&self, s: &Volume) -> Vec<Record> {
        (0..self.pages)
            .filter(|&p| entry(&s.state, p).in_flight() && entry(&s.state, p).written == 0)
            .map(|p| planned(self.family, &s.state, p))
            .collect()
    }

    /// `AllMeta`: the records written or planned.
    fn all_records(&self, s: &Volume) -> Vec<Record> {
        s.records().into_iter().map(|(_, r)| r).chain(self.planned(s)).collect()
    }

    /// `MaxVersConstraint`
    pub fn within(&self, s: &Volume) -> bool {
        self.all_records(s).iter().all(|r| r.v <= self.max_version)
    }

    /// `InvMetaUniq`, `InvUsed` and `InvComm`, with recovery by the call.
    pub fn check(&self, s: &Volume) -> Result<(), String> {
        let all = self.all_records(s);
        if all.iter().enumerate().any(|(i, r)| all[..i].iter().any(|q| q.p == r.p && q.v == r.v)) {
            return Err(String::from("InvMetaUniq"));
        }
        for p in 0..self.pages {
            let mentioned = all.iter().flat_map(|r| [(r.p, r.v), (r.np, r.nv)]).filter(|m| m.0 == p).map(|m| m.1).max();
            if Some(entry(&s.state, p).used) < mentioned {
                return Err(format!("InvUsed of page {p}"));
            }
        }
        let mut found = s.clone();
        let answer = found.call(self.calls, &Call::Recover).answer;
        if answer != 0 {
            return Err(format!("recover answers {answer}"));
        }
        match (0..self.pages).find(|&p| entry(&s.state, p).committed != entry(&found.state, p).committed) {
            Some(p) => Err(format!("InvComm of page {p}")),
            None => Ok(()),
        }
    }

    /// `CollectableMetas`, as the slots that hold them.
    pub fn collectable(&self, s: &Volume) -> Vec<u32> {
        let table = s.records();
        let committed = |r: Record| entry(&s.state, r.p).committed;
        let highest = |r: Record| table.iter().all(|&(_, q)| q.p != r.p || q.v <= r.v);
        let better = |m: Record| table.iter().any(|&(_, l)| l.p == m.p && l.c == m.c && l.v > m.v);
        let straddled_by = |i: Record, m: Record| i.np == m.p && i.nv > m.c && i.nv < m.v;
        let unneeded = |m: Record| match self.rule {
            _ if self.family == Family::Scc => true,
            Rule::CheckNone => true,
            Rule::CheckHigh => better(m) || table.iter().all(|&(_, i)| !highest(i) || !straddled_by(i, m)),
            _ => better(m) || table.iter().all(|&(_, i)| i.v <= committed(i) || !straddled_by(i, m)),
        };
        let current = |m: Record| entry(&s.state, m.p).in_flight() && m.v == entry(&s.state, m.p).used;
        let may_go = |m: Record| (m.v < committed(m) && unneeded(m)) || (m.v > committed(m) && !current(m));
        table.iter().filter(|&&(_, r)| may_go(r)).map(|&(k, _)| k).collect()
    }

    /// `IsWritableMeta`, with the rule's `WouldBuryMeta`.
    pub fn writable(&self, s: &Volume, m: Record) -> bool {
        let (page, next_page) = (|m1: Record| m.p == m1.p, |m1: Record| m.p == m1.np);
        let would_bury = |m1: Record| match self.rule {
            _ if self.family == Family::Bpcc => false,
            Rule::Literal => page(m1) || next_page(m1),
            Rule::BuryCheckNone => false,
            Rule::BuryCheckP => page(m1),
            Rule::BuryCheckNP => next_page(m1),
            _ => (page(m1) && m1.v < m.v) || (next_page(m1) && m1.nv < m.v),
        };
        s.records().iter().all(|&(_, m1)| !is_exposed(&s.state, m1) || !would_bury(m1))
    }
}
