//! Document 01's ledger: told the calls, their answers and the crashes, it keeps what each page holds.

use crate::volume::{Call, Sizes};

type Bytes = Vec<u8>;

#[derive(Clone, Debug)]
pub struct Ledger {
    /// Each page's contents, at first all zero.
    kept: Vec<Bytes>,
    /// The open transactions (document 01: rings), each its pages, some with bytes entered.
    open: Vec<Vec<(u32, Option<Bytes>)>>,
}

impl Ledger {
    pub fn new(sizes: Sizes) -> Ledger {
        Ledger { kept: vec![vec![0; sizes.width as usize]; sizes.pages as usize], open: Vec::new() }
    }

    pub fn kept(&self, page: u32) -> &[u8] {
        &self.kept[page as usize]
    }

    /// What is entered for a page in its open transaction, if it is in one.
    pub fn open(&self, page: u32) -> Option<Option<&[u8]>> {
        self.open.iter().flatten().find(|(p, _)| *p == page).map(|(_, held)| held.as_deref())
    }

    /// A call and its answer; a refused one changes nothing.
    pub fn called(&mut self, call: &Call, answer: u32) {
        if answer != 0 {
            return;
        }
        match call {
            Call::Launch(list) => self.open.push(list.iter().map(|&p| (p, None)).collect()),
            Call::Write { page, bytes, .. } => self.entered(*page, bytes),
            Call::Withdraw(page) => self.open.retain(|ring| ring.iter().all(|(p, _)| p != page)),
            Call::Erase(_) | Call::Clean { .. } | Call::Sweep => {}
            Call::Recover => self.open.clear(),
        }
    }

    /// A crash in a call, with whether it left a write's slot stored, or between two calls.
    pub fn crashed(&mut self, within: Option<(&Call, bool)>) {
        if let Some((Call::Write { page, bytes, .. }, true)) = within {
            self.entered(*page, bytes);
        }
        self.open.clear();
    }

    /// Enters bytes for the page in its open transaction, and completes the transaction if all its pages now have bytes.
    fn entered(&mut self, page: u32, bytes: &[u8]) {
        let Some(at) = self.open.iter().position(|ring| ring.iter().any(|&(p, _)| p == page)) else { return };
        for (p, held) in &mut self.open[at] {
            if *p == page {
                *held = Some(bytes.to_vec());
            }
        }
        if self.open[at].iter().all(|(_, held)| held.is_some()) {
            for (p, held) in self.open.remove(at) {
                self.kept[p as usize] = held.unwrap();
            }
        }
    }
}
