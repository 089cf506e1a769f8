//! Implementations that are wrong in one way each, as documents 01 and 02 name them: the tests must tell every one from a right one.

/// What may be wrong with a program, and a list of every fault.
macro_rules! wrong {
    ($($name:ident,)*) => {
        /// What is wrong with a program.
        #[derive(Clone, Copy, Debug, PartialEq, Eq)]
        pub enum Wrong {
            $($name,)*
        }

        /// Every fault.
        pub const WRONG: &[Wrong] = &[$(Wrong::$name,)*];
    };
}

mod blocks;
mod cleaning;
pub mod cutting;
mod doubting;
pub mod faults;
mod judging;
mod picking;
mod recovering;
pub mod surveying;
mod sweeping;

use super::reference::{refusal, slot_unsound, store, volume_misfits, with, Reference};
use crate::cleaning::{may_erase_alone, twins};
use crate::crash::{stages, Stage};
use crate::interface::{Arguments, Calls, Name, Reply, NONE, WIDTHS};
use crate::rules::{cycle, entry, lowest_slot, planned, records, set_entry, set_slot, slot, slot_bytes, state_sound};
use crate::volume::{Call, Volume};
pub use faults::Fault;

pub struct Impostor(pub Fault);

/// The right call, and then what is wrong.
impl Calls for Impostor {
    fn call(&self, name: Name, a: &mut Arguments) -> Reply {
        let width = if name == Name::Count { a.bytes.len() as u32 } else { a.width };
        match self.0 {
            Fault::TakesAnyWidth(of) if of == name => return with(twins, name, a),
            Fault::Refuses64(of) if of == name && width == 64 => return refusal(name, 1),
            _ => {}
        }
        match self.twins(name) {
            Some(twins) if WIDTHS.contains(&width) => return with(twins, name, a),
            _ if name == Name::CheckBlocks => return self.check_blocks(a),
            _ if name == Name::Clean => return self.clean(a),
            _ if name == Name::Pick => return self.pick(a),
            _ if name == Name::Sweep => return self.sweep(a),
            _ if name == Name::Doubtful => return self.doubtful(a),
            _ => {}
        }
        let (before, out) = (Volume::copied(a), a.out.to_vec());
        let right = Reference.call(name, a);
        if right.answer != 0 {
            return self.refused(name, a, right);
        }
        self.put_back(name, &before, &out, a);
        self.put_back_behind_32(name, &before, &out, a);
        self.alter(name, &before, a);
        self.reply(name, &before, a, right)
    }

    fn stages(&self, call: &Call, before: &Volume, after: &Volume) -> Vec<Stage> {
        let stages = stages(call, before, after);
        match (call, self.0) {
            (Call::Clean { .. }, Fault::DriverBlanksBeforeItCopies) => stages.into_iter().rev().collect(),
            (Call::Sweep, Fault::DriverSweepsRising) => before.altered(after).into_iter().map(|k| vec![k]).collect(),
            (Call::Sweep, Fault::DriverSweepsObsoleteWithExposed) => vec![[&stages[0][..], &stages[1]].concat(), stages[2].clone()],
            _ => stages,
        }
    }
}

/// Whether a call that takes the volume is refused by 1, 2 or 5.
fn is_refused(a: &Arguments, answer: u32) -> bool {
    match answer {
        1 => !WIDTHS.contains(&a.width) || volume_misfits(a),
        2 => slot_unsound(a),
        _ => !state_sound(a.pages, a.state),
    }
}

/// What is wrong with a call that is done.
impl Impostor {
    /// Puts back what the fault leaves undone.
    fn put_back(&self, name: Name, before: &Volume, out: &[u8], a: &mut Arguments) {
        let (words, contents, state) = match (name, self.0) {
            (Name::Format, Fault::FormatDoesNothing) => (true, true, true),
            (Name::Launch, Fault::LaunchDoesNothing | Fault::LaunchRefusesEveryList) => (false, false, true),
            (Name::Write, Fault::WriteSkipsTheFlash) => (true, true, false),
            (Name::Write, Fault::WriteSkipsTheContents) => (false, true, false),
            (Name::Withdraw, Fault::WithdrawDoesNothing) => (false, false, true),
            (Name::Write, _) if self.buries(before, a.page) => (true, true, true),
            (Name::Erase, Fault::EraseDoesNothing) => (true, false, false),
            (Name::Erase, _) if self.keeps_any(before, a.list) => (true, true, false),
            (Name::Erase, Fault::EraseKeepsTheContents) => (false, true, false),
            (Name::Recover, Fault::RecoverDoesNothing) => (false, false, true),
            _ => (false, false, false),
        };
        if words {
            a.words.copy_from_slice(&before.words);
        }
        if contents {
            a.contents.copy_from_slice(&before.contents);
        }
        if state {
            a.state.copy_from_slice(&before.state);
        }
        if name == Name::Read && self.0 == Fault::ReadDoesNothing {
            a.out.copy_from_slice(out);
        }
    }

    /// Puts back what stands behind the first 32 bytes of a page, where the fault goes no further.
    fn put_back_behind_32(&self, name: Name, before: &Volume, out: &[u8], a: &mut Arguments) {
        match (name, self.0) {
            (Name::Format, Fault::FormatFills32Bytes)
            | (Name::Write, Fault::WriteCopies32Bytes)
            | (Name::Erase, Fault::EraseBlanks32Bytes)
            | (Name::Clean, Fault::CleanCopies32Bytes)
            | (Name::Sweep, Fault::SweepBlanks32Bytes) => {
                for bytes in (0..a.slots).map(|k| slot_bytes(a.width, k)) {
                    a.contents[bytes.clone()][32..].copy_from_slice(&before.contents[bytes][32..]);
                }
            }
            (Name::Read, Fault::ReadCopies32Bytes) => a.out[32..].copy_from_slice(&out[32..]),
            _ => {}
        }
    }

    /// Does what the fault does besides.
    fn alter(&self, name: Name, before: &Volume, a: &mut Arguments) {
        match (name, self.0) {
            (Name::Write, Fault::WriteStoresTheWholeTransaction) => {
                for q in cycle(&before.state, a.page).into_iter().filter(|&q| q != a.page) {
                    let blank = (0..a.slots).find(|&k| slot(a.family, a.words, k).is_none());
                    if let (Some(k), true) = (blank, entry(a.state, q).in_flight()) {
                        set_slot(a.layout(), a.words, a.contents, k, Some((planned(a.family, a.state, q), a.bytes)));
                    }
                }
            }
            (Name::Withdraw, Fault::WithdrawForgetsOnePage) => {
                if let [_, .., last] = cycle(&before.state, a.page)[..] {
                    set_entry(a.state, last, entry(&before.state, last));
                }
            }
            (Name::Recover, _) => {
                for p in 0..a.pages {
                    set_entry(a.state, p, self.recovered(a, p, entry(a.state, p)));
                }
            }
            (Name::Read, Fault::ReadTakesTheHighestSlot) => {
                let committed = entry(a.state, a.page).committed;
                let (k, _) = *records(a.family, a.words).iter().rfind(|(_, r)| r.p == a.page && r.v == committed).unwrap();
                a.out.copy_from_slice(&a.contents[slot_bytes(a.width, k)]);
            }
            (Name::Read, Fault::ReadTakesSlotsFor32Bytes) => {
                let k = lowest_slot(a.family, a.words, a.page, entry(a.state, a.page).committed).unwrap();
                a.out.copy_from_slice(&a.contents[slot_bytes(32, k).start..][..a.width as usize]);
            }
            _ => {}
        }
    }

    /// What the call says.
    fn reply(&self, name: Name, before: &Volume, a: &Arguments, right: Reply) -> Reply {
        match (name, self.0) {
            (Name::Write, _) if self.buries(before, a.page) => Reply::refused(16),
            (Name::Erase, _) if self.keeps_any(before, a.list) => Reply::refused(12),
            (Name::Launch, Fault::LaunchRefusesEveryList) => Reply::refused(6),
            (Name::Write, Fault::WriteIsDoneTooEarly) => Reply::done(1),
            (Name::Suggest, Fault::SuggestSaysNothingToErase) => Reply { answer: 13, second: NONE },
            (Name::Suggest, Fault::SuggestNamesABlankSlot) => {
                let blank = (0..a.slots).find(|&k| slot(a.family, a.words, k).is_none());
                blank.map_or(right, Reply::done)
            }
            (Name::Suggest, Fault::SuggestNamesTheHighestSlot) => {
                let highest = (0..a.slots).rev().find(|&k| may_erase_alone(a.view(), twins, k));
                highest.map_or(right, Reply::done)
            }
            (Name::Suggest, Fault::SuggestSkipsSlotZero) => {
                let later = (1..a.slots).find(|&k| may_erase_alone(a.view(), twins, k));
                later.map_or(Reply { answer: 13, second: NONE }, Reply::done)
            }
            (Name::Recover, Fault::RecoverCountsNoReturn | Fault::RecoverCountsNoUncommittedEnd) => Reply::done(self.links(a)),
            (Name::Recover, Fault::RecoverCountsEachPageOnce) => Reply::done(a.pages),
            (Name::Count, Fault::CountGivesZero) => Reply::done(0),
            (Name::Count, Fault::CountStopsAt256) => Reply::done(a.bytes[..32].iter().map(|b| b.count_ones()).sum()),
            (Name::Count, Fault::CountLooksAtOneBitOfEachByte) => Reply::done(a.bytes.iter().filter(|&&b| b & 1 == 1).count() as u32),
            _ => right,
        }
    }
}

/// What is wrong with a call that is refused.
impl Impostor {
    fn refused(&self, name: Name, a: &mut Arguments, right: Reply) -> Reply {
        match (name, right.answer, self.0) {
            (Name::Write, 5, Fault::RefusesBySlotsBeforeState) if a.page >= a.pages => Reply::refused(6),
            (Name::Write, 11, Fault::WriteLooksAtTheSlotLast) if self.buries(&Volume::copied(a), a.page) => Reply::refused(16),
            (Name::Write, 16, _) if !self.buries(&Volume::copied(a), a.page) => Reply::done(store(a)),
            (Name::Erase, 12, _) => self.erase(a).unwrap_or(right),
            (Name::Recover, 3, Fault::RecoverTakesEqualRecords) => self.recover_without_equals(a).unwrap_or(right),
            (Name::Recover, 14, Fault::RecoverNeedsNoSecondVersion) => self.recover_highest(a),
            (Name::Recover, 14, Fault::RecoverFillsBeforeItRefuses) => {
                a.state[3] = 0;
                right
            }
            (Name::Recover, 4 | 14, Fault::RecoverCountsLinksWhereItRefuses) => Reply { second: self.links(a), ..right },
            _ => right,
        }
    }
}
