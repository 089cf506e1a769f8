//! The calls as one interface: which there are, what each takes, and what each gives back.

use crate::crash::{stages, Stage};
use crate::volume::{Call, Volume};
use std::fmt;

/// 4,294,967,295: a word of a blank slot, "not in flight", and the slot that a refused suggest names.
pub const NONE: u32 = u32::MAX;

/// The widths of a volume: bytes of contents for each slot.
pub const WIDTHS: [u32; 2] = [32, 64];

/// The other of the two widths.
pub fn other_width(width: u32) -> u32 {
    WIDTHS[usize::from(width == WIDTHS[0])]
}

/// The families of calls, by the records that their volumes have.
#[derive(Clone, Copy, Debug, Default, PartialEq, Eq, PartialOrd, Ord)]
pub enum Family {
    /// `bpcc_…`: five words, one of them a back pointer.
    #[default]
    Bpcc,
    /// `scc_…`: four words.
    Scc,
}

impl Family {
    /// Words of a slot in the slot table.
    pub fn slot_words(self) -> usize {
        match self {
            Family::Bpcc => 5,
            Family::Scc => 4,
        }
    }

    /// The calls of the family.
    pub fn calls(self) -> impl Iterator<Item = Name> + Clone {
        ROWS.iter().filter(move |(family, ..)| *family == self).map(|&(_, name, _)| name)
    }
}

/// Words of a page in the state (document 01: sheet).
pub const PAGE_WORDS: usize = 4;

/// The most blocks of a table.
pub const MOST_BLOCKS: usize = 16;

/// The words that a pick fills.
pub const PICK_WORDS: usize = 4;

/// The most slots in doubt, and the words that doubtful fills of each page.
pub const MOST_DOUBTFUL: usize = 8;
pub const END_WORDS: usize = 2;

/// Hands the calls to a macro, a row for each: its family, its name, its name in C, and what it takes in the order of the header. A
/// name in brackets is a buffer, in C a pointer and then a length.
macro_rules! calls {
    ($to:ident) => {
        $to! {
            Bpcc Format      bpcc_format       (pages, slots, width, [words], [contents], [state])
            Bpcc Launch      bpcc_launch       (pages, slots, width, [state], [list])
            Bpcc Write       bpcc_write        (pages, slots, width, [words], [contents], [state], page, slot, [bytes])
            Bpcc Withdraw    bpcc_withdraw     (pages, slots, width, [state], page)
            Bpcc Erase       bpcc_erase        (pages, slots, width, [words], [contents], [state], [list])
            Bpcc Suggest     bpcc_suggest      (pages, slots, width, [words], [contents], [state])
            Bpcc CheckBlocks bpcc_check_blocks (pages, slots, width, [starts])
            Bpcc Clean       bpcc_clean        (pages, slots, width, [words], [contents], [state], [starts], block)
            Bpcc Pick        bpcc_pick         (pages, slots, width, [words], [contents], [state], [starts], block, n, [picked])
            Bpcc Sweep       bpcc_sweep        (pages, slots, width, [words], [contents], [state])
            Bpcc Recover     bpcc_recover      (pages, slots, width, [words], [contents], [state])
            Bpcc Doubtful    bpcc_doubtful     (pages, slots, width, [words], [contents], [list], [ends])
            Bpcc Count       bpcc_count        ([bytes])
            Bpcc Read        bpcc_read         (pages, slots, width, [words], [contents], [state], page, [out])
            Scc  Format      scc_format        (pages, slots, width, [words], [contents], [state])
            Scc  Launch      scc_launch        (pages, slots, width, [state], [list])
            Scc  Write       scc_write         (pages, slots, width, [words], [contents], [state], page, slot, [bytes])
            Scc  Withdraw    scc_withdraw      (pages, slots, width, [state], page)
            Scc  Erase       scc_erase         (pages, slots, width, [words], [contents], [state], [list])
            Scc  Recover     scc_recover       (pages, slots, width, [words], [state])
            Scc  Read        scc_read          (pages, slots, width, [words], [contents], [state], page, [out])
        }
    };
}
#[cfg(any(feature = "library", feature = "exports"))]
pub(crate) use calls;

/// What calls take: numbers, and buffers that they are lent. A call takes those of its row and leaves the others alone. The family
/// says whose call it is.
#[derive(Default)]
pub struct Arguments<'a> {
    pub family: Family,
    pub pages: u32,
    pub slots: u32,
    pub width: u32,
    pub words: &'a mut [u32],
    pub contents: &'a mut [u8],
    pub state: &'a mut [u32],
    pub page: u32,
    pub slot: u32,
    pub list: &'a [u32],
    pub starts: &'a [u32],
    pub block: u32,
    pub n: u32,
    pub bytes: &'a [u8],
    pub out: &'a mut [u8],
    pub picked: &'a mut [u32],
    pub ends: &'a mut [u32],
}

/// Which call of a family.
#[derive(Clone, Copy, Debug, PartialEq, Eq, PartialOrd, Ord)]
pub enum Name {
    Format,
    Launch,
    Write,
    Withdraw,
    Erase,
    Suggest,
    CheckBlocks,
    Clean,
    Pick,
    Sweep,
    Recover,
    Doubtful,
    Count,
    Read,
}

/// As in C, without the family's prefix.
impl fmt::Display for Name {
    fn fmt(&self, f: &mut fmt::Formatter) -> fmt::Result {
        let row = ROWS.iter().find(|(_, name, _)| name == self);
        f.write_str(row.and_then(|(_, _, c)| c.split_once('_')).expect("every call has a row").1)
    }
}

macro_rules! rows {
    ($($family:ident $name:ident $c:ident $takes:tt)*) => {
        /// Every call with its family and its name in C.
        const ROWS: &[(Family, Name, &str)] = &[$((Family::$family, Name::$name, stringify!($c)),)*];
    };
}

calls!(rows);

/// What a call gives back besides its buffers: the answer and the second number.
#[derive(Clone, Copy, Debug, PartialEq, Eq)]
pub struct Reply {
    pub answer: u32,
    pub second: u32,
}

impl Reply {
    pub fn done(second: u32) -> Reply {
        Reply { answer: 0, second }
    }

    pub fn refused(answer: u32) -> Reply {
        Reply { answer, second: 0 }
    }

    /// The answer in the lower 32 bits, the second number in the upper.
    pub fn from_u64(r: u64) -> Reply {
        Reply { answer: r as u32, second: (r >> 32) as u32 }
    }

    pub fn to_u64(self) -> u64 {
        u64::from(self.second) << 32 | u64::from(self.answer)
    }
}

/// An implementation of the calls.
pub trait Calls {
    fn call(&self, name: Name, arguments: &mut Arguments) -> Reply;

    /// The slots that the driver alters for a call that is done, in stages.
    fn stages(&self, call: &Call, before: &Volume, after: &Volume) -> Vec<Stage> {
        stages(call, before, after)
    }
}
