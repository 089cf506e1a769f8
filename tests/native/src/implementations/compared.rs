//! Calls made twice, by the implementation under test and by the second one: same answer, same second number, same buffers,
//! nothing touched beside them; and of a pick and of doubtful what is shown of it.

use super::reference::Reference;
use crate::interface::{Arguments, Calls, Name, Reply};
use crate::{doubting, picking};
use std::cell::RefCell;
use std::collections::BTreeMap;
use std::fmt::Debug;

/// An element of a buffer, with the value that stands around lent buffers.
pub trait Element: Copy + PartialEq + Debug {
    const GUARD: Self;
}

impl Element for u8 {
    const GUARD: u8 = 0xC3;
}

impl Element for u32 {
    const GUARD: u32 = 0xC3C3_5A5A;
}

const GUARDS: usize = 8;

/// A copy of a buffer with guards before and after it.
struct Guarded<T> {
    all: Vec<T>,
    length: usize,
}

impl<T: Element> Guarded<T> {
    fn new(buffer: &[T]) -> Guarded<T> {
        let guards = [T::GUARD; GUARDS];
        Guarded { all: [&guards[..], buffer, &guards[..]].concat(), length: buffer.len() }
    }

    fn lent(&mut self) -> &mut [T] {
        &mut self.all[GUARDS..GUARDS + self.length]
    }

    /// The buffer is as expected, and the guards stand.
    fn assert_is(&self, expected: &[T], call: Name, name: &str) {
        assert!(self.all[GUARDS..GUARDS + self.length] == *expected, "{call} leaves other {name}");
        let outside = self.all[..GUARDS].iter().chain(&self.all[GUARDS + self.length..]);
        assert!(outside.into_iter().all(|&x| x == T::GUARD), "{call} alters what lies beside {name}");
    }
}

/// A guarded copy of every buffer that a call is lent.
struct Copies {
    words: Guarded<u32>,
    contents: Guarded<u8>,
    state: Guarded<u32>,
    list: Guarded<u32>,
    starts: Guarded<u32>,
    bytes: Guarded<u8>,
    out: Guarded<u8>,
    picked: Guarded<u32>,
    ends: Guarded<u32>,
}

impl Copies {
    fn new(a: &Arguments) -> Copies {
        Copies {
            words: Guarded::new(a.words),
            contents: Guarded::new(a.contents),
            state: Guarded::new(a.state),
            list: Guarded::new(a.list),
            starts: Guarded::new(a.starts),
            bytes: Guarded::new(a.bytes),
            out: Guarded::new(a.out),
            picked: Guarded::new(a.picked),
            ends: Guarded::new(a.ends),
        }
    }

    /// The arguments with the copies in place of the buffers.
    fn lent(&mut self, a: &Arguments) -> Arguments<'_> {
        let &Arguments { family, pages, slots, width, page, slot, block, n, .. } = a;
        Arguments {
            family,
            pages,
            slots,
            width,
            page,
            slot,
            block,
            n,
            words: self.words.lent(),
            contents: self.contents.lent(),
            state: self.state.lent(),
            list: self.list.lent(),
            starts: self.starts.lent(),
            bytes: self.bytes.lent(),
            out: self.out.lent(),
            picked: self.picked.lent(),
            ends: self.ends.lent(),
        }
    }

    /// The copies are as the buffers.
    fn assert_are(&self, a: &Arguments, call: Name) {
        self.words.assert_is(a.words, call, "words");
        self.contents.assert_is(a.contents, call, "contents");
        self.state.assert_is(a.state, call, "state");
        self.list.assert_is(a.list, call, "list");
        self.starts.assert_is(a.starts, call, "starts");
        self.bytes.assert_is(a.bytes, call, "bytes");
        self.out.assert_is(a.out, call, "out");
        self.picked.assert_is(a.picked, call, "words picked");
        self.ends.assert_is(a.ends, call, "ends");
    }
}

/// The implementation under test beside the second one; it counts the answers that each call gave.
pub struct Compared<'a> {
    tested: &'a dyn Calls,
    seen: RefCell<BTreeMap<(Name, u32, u32), u64>>,
}

impl<'a> Compared<'a> {
    pub fn new(tested: &'a dyn Calls) -> Compared<'a> {
        Compared { tested, seen: RefCell::default() }
    }

    /// How often a call gave an answer.
    pub fn seen(&self, call: Name, answer: u32) -> u64 {
        self.seen.borrow().iter().filter(|((c, a, _), _)| *c == call && *a == answer).map(|(_, n)| n).sum()
    }

    /// How often an accepted call gave a second number.
    pub fn seen_second(&self, call: Name, second: u32) -> u64 {
        self.seen.borrow().get(&(call, 0, second)).copied().unwrap_or(0)
    }

    /// The answers that a call gave.
    pub fn answers(&self, call: Name) -> Vec<u32> {
        let mut answers: Vec<u32> = self.seen.borrow().keys().filter(|(c, _, _)| *c == call).map(|(_, a, _)| *a).collect();
        answers.dedup();
        answers
    }
}

impl Calls for Compared<'_> {
    fn call(&self, name: Name, a: &mut Arguments) -> Reply {
        let mut copies = Copies::new(a);
        let got = self.tested.call(name, &mut copies.lent(a));
        let expected = Reference.call(name, a);
        copies.assert_are(a, name);
        assert!(got == expected, "{name} gives {got:?} for {expected:?}");
        *self.seen.borrow_mut().entry((name, got.answer, got.second)).or_default() += 1;
        match (name, got.answer) {
            (Name::Pick, 0) => picking::assert_promised(self.tested, a),
            (Name::Doubtful, 0) => doubting::assert_promised(self.tested, a, got.second),
            _ => {}
        }
        got
    }
}
