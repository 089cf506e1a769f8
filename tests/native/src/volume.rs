//! A volume with its state, and the calls that a run makes on it.

use crate::cleaning::{may_erase_alone, twins, View};
use crate::interface::{Arguments, Calls, Family, Name, Reply, END_WORDS, NONE, PAGE_WORDS, PICK_WORDS};
use crate::rules::{entry, is_exposed, old_rule, records, set_slot, slot, slot_bytes, slot_words, Record};
use crate::{doubting, picking};
use std::fmt;

/// How slots lie in a volume's buffers: the family, by which a record has five words or four, and the bytes of contents for each slot.
#[derive(Clone, Copy, Debug, PartialEq, Eq)]
pub struct Layout {
    pub family: Family,
    pub width: u32,
}

impl Layout {
    pub fn sizes(self, pages: u32, slots: u32) -> Sizes {
        let Layout { family, width } = self;
        Sizes { family, pages, slots, width }
    }
}

impl fmt::Display for Layout {
    fn fmt(&self, f: &mut fmt::Formatter) -> fmt::Result {
        write!(f, "records of {} words, width {}", self.family.slot_words(), self.width)
    }
}

/// A volume's sizes: the words of its records, by its family, its pages, its slots, and the bytes of contents for each slot.
#[derive(Clone, Copy, Debug, PartialEq, Eq)]
pub struct Sizes {
    pub family: Family,
    pub pages: u32,
    pub slots: u32,
    pub width: u32,
}

impl Sizes {
    pub fn layout(self) -> Layout {
        Layout { family: self.family, width: self.width }
    }

    /// The sizes as a call takes them, all else left out.
    fn arguments<'a>(self) -> Arguments<'a> {
        let Sizes { family, pages, slots, width } = self;
        Arguments { family, pages, slots, width, ..Arguments::default() }
    }

    pub fn check_blocks(self, calls: &dyn Calls, starts: &[u32]) -> Reply {
        calls.call(Name::CheckBlocks, &mut Arguments { starts, ..self.arguments() })
    }
}

impl Arguments<'_> {
    pub fn layout(&self) -> Layout {
        Layout { family: self.family, width: self.width }
    }

    pub fn view(&self) -> View<'_> {
        View { layout: self.layout(), words: self.words, contents: self.contents, state: self.state }
    }
}

/// The records of a ring: the listed pages at version 1, each linked to the next of the list, the last to the first.
pub fn ring(list: &[u32]) -> Vec<Record> {
    list.iter().zip(list.iter().cycle().skip(1)).map(|(&p, &np)| Record { p, v: 1, c: 0, np, nv: 1 }).collect()
}

/// A call of a run, with its arguments.
#[derive(Clone, Debug)]
pub enum Call {
    Launch(Vec<u32>),
    Write { page: u32, slot: u32, bytes: Vec<u8> },
    Withdraw(u32),
    Erase(Vec<u32>),
    Clean { starts: Vec<u32>, block: u32 },
    Sweep,
    Recover,
}

/// What stands in the words lent to a pick, and to doubtful.
pub const LENT: u32 = 0xA5A5_A5A5;

#[derive(Clone, Debug, PartialEq, Eq)]
pub struct Volume {
    pub sizes: Sizes,
    pub words: Vec<u32>,
    pub contents: Vec<u8>,
    pub state: Vec<u32>,
}

impl Volume {
    /// A volume of the sizes' lengths whose words and bytes are all zero.
    pub fn zeroed(sizes: Sizes) -> Volume {
        let [pages, slots, width] = [sizes.pages, sizes.slots, sizes.width].map(|n| n as usize);
        Volume {
            sizes,
            words: vec![0; sizes.family.slot_words() * slots],
            contents: vec![0; width * slots],
            state: vec![0; PAGE_WORDS * pages],
        }
    }

    /// A freshly formatted volume.
    pub fn formatted(calls: &dyn Calls, sizes: Sizes) -> Volume {
        let mut v = Volume::zeroed(sizes);
        assert_eq!(v.format(calls), Reply::done(0), "format of {sizes:?}");
        v
    }

    /// A copy of what a call is lent.
    pub fn copied(a: &Arguments) -> Volume {
        Volume {
            sizes: a.layout().sizes(a.pages, a.slots),
            words: a.words.to_vec(),
            contents: a.contents.to_vec(),
            state: a.state.to_vec(),
        }
    }

    /// A volume with the given records in its lowest slots, each with bytes of its own, the other slots blank, and the state lost.
    pub fn with_records(sizes: Sizes, held: &[impl Into<Record> + Copy]) -> Volume {
        let mut v = Volume::zeroed(sizes);
        v.words.fill(NONE);
        v.contents.fill(255);
        v.state.fill(NONE);
        for (k, &record) in (0..).zip(held) {
            v.words[slot_words(sizes.family, k)].copy_from_slice(&record.into().words(sizes.family));
            let bytes = &mut v.contents[slot_bytes(sizes.width, k)];
            bytes.fill(k as u8);
            bytes[..4].copy_from_slice(&k.to_le_bytes());
        }
        v
    }

    /// The one-ring table, on which recovery follows P×P links, the most of all tables with P pages: slot p below P holds
    /// (p, 1, 0, p + 1, 1), of the last page (p, 1, 0, 0, 1), without the third word where there is no c; the other slots are blank,
    /// and the state is lost.
    pub fn one_ring(sizes: Sizes) -> Volume {
        let pages: Vec<u32> = (0..sizes.pages).collect();
        Volume::with_records(sizes, &ring(&pages))
    }

    /// The volume lent to a call, the call's own arguments left out.
    pub fn arguments(&mut self) -> Arguments<'_> {
        let Volume { sizes, words, contents, state } = self;
        Arguments { words, contents, state, ..sizes.arguments() }
    }

    pub fn call(&mut self, calls: &dyn Calls, call: &Call) -> Reply {
        let volume = self.arguments();
        match *call {
            Call::Launch(ref list) => calls.call(Name::Launch, &mut Arguments { list, ..volume }),
            Call::Write { page, slot, ref bytes } => calls.call(Name::Write, &mut Arguments { page, slot, bytes, ..volume }),
            Call::Withdraw(page) => calls.call(Name::Withdraw, &mut Arguments { page, ..volume }),
            Call::Erase(ref list) => calls.call(Name::Erase, &mut Arguments { list, ..volume }),
            Call::Clean { ref starts, block } => calls.call(Name::Clean, &mut Arguments { starts, block, ..volume }),
            Call::Sweep => calls.call(Name::Sweep, &mut { volume }),
            Call::Recover => calls.call(Name::Recover, &mut { volume }),
        }
    }

    pub fn format(&mut self, calls: &dyn Calls) -> Reply {
        calls.call(Name::Format, &mut self.arguments())
    }

    pub fn suggest(&mut self, calls: &dyn Calls) -> Reply {
        calls.call(Name::Suggest, &mut self.arguments())
    }

    /// What a pick says, and its words: those that it is lent where it is refused.
    pub fn pick(&mut self, calls: &dyn Calls, starts: &[u32], block: u32, n: u32) -> (Reply, picking::Words) {
        let mut picked = [LENT; PICK_WORDS];
        let reply = calls.call(Name::Pick, &mut Arguments { starts, block, n, picked: &mut picked, ..self.arguments() });
        (reply, picked)
    }

    /// The words of a pick that is done; it alters nothing, and what is shown of it holds.
    pub fn picked(&self, calls: &dyn Calls, starts: &[u32], block: u32, n: u32) -> picking::Words {
        let mut v = self.clone();
        let (reply, mut picked) = v.pick(calls, starts, block, n);
        assert_eq!(reply, Reply::done(0), "a pick from block {block} on, {n} of {starts:?}");
        picking::assert_promised(calls, &mut Arguments { starts, block, n, picked: &mut picked, ..v.arguments() });
        assert!(v == *self, "a pick altered the volume");
        picked
    }

    /// What doubtful says of these slots, and its words: those that it is lent where it is refused.
    pub fn doubtful(&mut self, calls: &dyn Calls, list: &[u32]) -> (Reply, Vec<u32>) {
        let mut ends = vec![LENT; END_WORDS * self.sizes.pages as usize];
        let reply = calls.call(Name::Doubtful, &mut Arguments { list, ends: &mut ends, ..self.arguments() });
        (reply, ends)
    }

    /// How many fillings recover, and each page's ends, where doubtful is done; it alters nothing, and what is shown of it holds.
    pub fn doubted(&self, calls: &dyn Calls, list: &[u32]) -> (u32, Vec<doubting::Ends>) {
        let mut v = self.clone();
        let (reply, mut words) = v.doubtful(calls, list);
        assert_eq!(reply.answer, 0, "doubtful slots {list:?}");
        doubting::assert_promised(calls, &mut Arguments { list, ends: &mut words, ..v.arguments() }, reply.second);
        assert!(v == *self, "doubtful altered the volume");
        (reply.second, words.chunks(END_WORDS).map(|ends| [ends[0], ends[1]]).collect())
    }

    /// The committed version of each page.
    pub fn committed(&self) -> Vec<u32> {
        (0..self.sizes.pages).map(|p| entry(&self.state, p).committed).collect()
    }

    pub fn read(&mut self, calls: &dyn Calls, page: u32, out: &mut [u8]) -> Reply {
        calls.call(Name::Read, &mut Arguments { page, out, ..self.arguments() })
    }

    /// The contents of all pages, one after the other, as recovery finds them.
    pub fn recovered(mut self, calls: &dyn Calls, when: &str) -> Vec<u8> {
        let answer = self.call(calls, &Call::Recover).answer;
        assert_eq!(answer, 0, "recover {when}: {:?}", self.words);
        let width = self.sizes.width as usize;
        let mut contents = vec![0xA5; width * self.sizes.pages as usize];
        for (page, out) in (0..).zip(contents.chunks_mut(width)) {
            assert_eq!(self.read(calls, page, out).answer, 0, "read of page {page} {when}");
        }
        contents
    }

    /// The blank slots, rising.
    pub fn blank_slots(&self) -> Vec<u32> {
        (0..self.sizes.slots).filter(|&k| self.slot(k).is_none()).collect()
    }

    /// Slot k's record, or nothing where the slot is blank.
    pub fn slot(&self, k: u32) -> Option<Record> {
        slot(self.sizes.family, &self.words, k)
    }

    /// The records with their slots, rising.
    pub fn records(&self) -> Vec<(u32, Record)> {
        records(self.sizes.family, &self.words)
    }

    pub fn view(&self) -> View<'_> {
        View { layout: self.sizes.layout(), words: &self.words, contents: &self.contents, state: &self.state }
    }

    /// Whether slot k alone may be erased.
    pub fn may_erase(&self, k: u32) -> bool {
        may_erase_alone(self.view(), twins, k)
    }

    /// Whether the old rule lets slot k go.
    fn old_rule(&self, k: u32) -> bool {
        old_rule(self.sizes.family, &self.words, &self.state, k)
    }

    /// The slots of the exposed records other than those whose page is in flight with v = used.
    pub fn left_exposed(&self) -> Vec<u32> {
        self.records().into_iter().filter(|&(k, r)| is_exposed(&self.state, r) && self.old_rule(k)).map(|(k, _)| k).collect()
    }

    /// A write that would bury a record is done when those exposed records are erased.
    pub fn assert_cured(&mut self, calls: &dyn Calls, write: &Call) {
        let answers = [&Call::Erase(self.left_exposed()), write].map(|call| self.call(calls, call).answer);
        assert_eq!(answers, [0, 0], "erase of the exposed records and again {write:?}");
    }

    /// Blanks these slots.
    pub fn blank(&mut self, slots: &[u32]) {
        slots.iter().for_each(|&k| set_slot(self.sizes.layout(), &mut self.words, &mut self.contents, k, None));
    }

    /// Makes one slot what another is.
    pub fn copy_within(&mut self, from: u32, to: u32) {
        let Layout { family, width } = self.sizes.layout();
        self.words.copy_within(slot_words(family, from), slot_words(family, to).start);
        self.contents.copy_within(slot_bytes(width, from), slot_bytes(width, to).start);
    }

    /// The slots whose words or bytes another volume of the same sizes has otherwise, rising.
    pub fn altered(&self, to: &Volume) -> Vec<u32> {
        let Layout { family, width } = self.sizes.layout();
        let differs = |k: u32| {
            let (words, bytes) = (slot_words(family, k), slot_bytes(width, k));
            self.words[words.clone()] != to.words[words] || self.contents[bytes.clone()] != to.contents[bytes]
        };
        (0..self.sizes.slots).filter(|&k| differs(k)).collect()
    }

    /// Makes slot k what it is in another volume of the same sizes.
    pub fn copy_slot(&mut self, from: &Volume, k: u32) {
        let (words, bytes) = (slot_words(self.sizes.family, k), slot_bytes(self.sizes.width, k));
        self.words[words.clone()].copy_from_slice(&from.words[words]);
        self.contents[bytes.clone()].copy_from_slice(&from.contents[bytes]);
    }
}
