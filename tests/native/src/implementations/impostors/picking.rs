//! Faulty picks.

use super::{is_refused, Fault, Impostor};
use crate::cleaning::{block, erasable, may_erase_alone, twins, View};
use crate::interface::{Arguments, Name, Reply, PICK_WORDS};
use crate::picking::{frees, seen, Words};
use crate::rules::{entry, is_exposed, set_slot};

impl Impostor {
    /// Picks, where nothing refuses.
    pub(super) fn pick(&self, a: &mut Arguments) -> Reply {
        if let Some(answer) = self.pick_refused(a) {
            if self.0 == Fault::PickFillsBeforeItRefuses && matches!(answer, 6 | 18) {
                a.picked.fill(0);
            }
            return Reply::refused(answer);
        }
        let words = self.words(a);
        if self.0 != Fault::PickDoesNothing {
            a.picked.iter_mut().zip(words).for_each(|(to, word)| *to = word);
        }
        if self.0 == Fault::PickErasesWhatItCounts {
            let counted = |k: &u32| may_erase_alone(a.view(), twins, *k);
            let slots: Vec<u32> = block(a.slots, a.starts, words[0]).into_iter().flatten().filter(counted).collect();
            slots.into_iter().for_each(|k| set_slot(a.layout(), a.words, a.contents, k, None));
        }
        Reply::done(if self.0 == Fault::PickSaysWhatItFrees { words[1] } else { 0 })
    }

    /// The answer by which a pick is refused.
    fn pick_refused(&self, a: &Arguments) -> Option<u32> {
        let order = match self.0 {
            Fault::LooksAtTheTableFirst(Name::Pick) => [17, 1, 2, 5, 6, 18],
            Fault::PickLooksAtSlotsBeforeTheTable => [1, 2, 17, 5, 6, 18],
            Fault::PickLooksAtTheStateBeforeSlots => [1, 17, 5, 2, 6, 18],
            Fault::PickLooksAtTheBlockBeforeTheState => [1, 17, 2, 6, 5, 18],
            Fault::PickLooksAtTheNumberFirst => [18, 1, 17, 2, 5, 6],
            Fault::PickLooksAtTheNumberBeforeTheTable => [1, 18, 17, 2, 5, 6],
            Fault::PickLooksAtTheNumberBeforeTheBlock => [1, 17, 2, 5, 18, 6],
            _ => [1, 17, 2, 5, 6, 18],
        };
        let words_misfit = match self.0 {
            Fault::PickTakesMoreWords => a.picked.len() < PICK_WORDS,
            Fault::PickTakesFewerWords => a.picked.len() > PICK_WORDS,
            _ => a.picked.len() != PICK_WORDS,
        };
        let refused = |answer: &u32| match *answer {
            1 => is_refused(a, 1) || words_misfit,
            17 => self.blocks_wrong(Name::Pick, a),
            6 => a.block as usize >= a.starts.len() && (self.0 != Fault::PickGoesRoundToTheStart || a.starts.is_empty()),
            18 => a.n == 0 && self.0 != Fault::PickLooksAtNoBlock,
            answer => is_refused(a, answer),
        };
        order.into_iter().find(refused)
    }

    /// The words that are filled in.
    fn words(&self, a: &Arguments) -> Words {
        let looked_at = self.looked_at(a);
        let counted: Vec<(u32, u32)> = looked_at.iter().map(|&number| (number, self.frees(a, number))).collect();
        let most = counted.iter().map(|&(_, frees)| frees).max().unwrap_or(0);
        let mut ties = counted.iter().filter(|&&(_, frees)| frees == most).map(|&(number, _)| number);
        let named = match self.0 {
            Fault::PickTakesTheLastOnTies => ties.next_back(),
            Fault::PickTakesTheLowestOnTies => ties.min(),
            _ => ties.next(),
        };
        let named = named.unwrap_or(a.block);
        let said = match self.0 {
            Fault::PickTellsThePlace => looked_at.iter().position(|&number| number == named).unwrap_or(0) as u32,
            Fault::PickTellsTheFirstSlot => a.starts[named as usize],
            _ => named,
        };
        let looked = if self.0 == Fault::PickTellsN { a.n } else { a.n.min(a.starts.len() as u32) };
        [said, most, looked, self.beaten_by(a, most)]
    }

    /// The blocks looked at, in their order.
    fn looked_at(&self, a: &Arguments) -> Vec<u32> {
        let (blocks, block) = (a.starts.len() as u32, a.block);
        match self.0 {
            Fault::PickSkipsTheStart => seen(a.starts, (block + 1) % blocks, a.n),
            Fault::PickStopsAtTheEnd => (0..a.n.min(blocks)).map(|i| (block + i).min(blocks - 1)).collect(),
            Fault::PickEndsAtTheEnd => (block..blocks).take(a.n as usize).collect(),
            Fault::PickStartsAtBlock0 => seen(a.starts, 0, a.n),
            Fault::PickGoesBack => (0..=block).rev().chain((block + 1..blocks).rev()).take(a.n as usize).collect(),
            Fault::PickLooksAtOneMore => seen(a.starts, block, a.n.saturating_add(1)),
            Fault::PickLooksAtAll => seen(a.starts, block, blocks),
            _ => seen(a.starts, block % blocks, a.n),
        }
    }

    /// What a block frees.
    fn frees(&self, a: &Arguments, number: u32) -> u32 {
        let v = a.view();
        let slots = block(self.end(a), a.starts, number).expect("a block of the table");
        let goes = |k: u32| may_erase_alone(v, twins, k);
        let state = |k: u32| v.slot(k).map(|r| (r, entry(v.state, r.p)));
        let counted = |k: u32| match self.0 {
            Fault::PickCountsBlankSlots => goes(k) || v.slot(k).is_none(),
            Fault::PickCountsEveryRecord => v.slot(k).is_some(),
            Fault::PickCountsNeededRecords => goes(k) || state(k).is_some_and(|(r, e)| r.v < e.committed),
            Fault::PickCountsRecordsInFlight => goes(k) || v.slot(k).is_some_and(|r| is_exposed(v.state, r)),
            Fault::PickCountsObsoleteRecordsAlone => goes(k) && state(k).is_some_and(|(r, e)| r.v < e.committed),
            Fault::PickCountsTwinsOnce => goes(k) && !(slots.start..k).any(|l| twins(v, k, l)),
            _ => goes(k),
        };
        match self.0 {
            Fault::PickJudgesTheBlockAsOneList => erasable(v, twins, &slots.collect::<Vec<u32>>()).count() as u32,
            _ => slots.clone().filter(|&k| counted(k)).count() as u32,
        }
    }

    /// Where the last block ends.
    fn end(&self, a: &Arguments) -> u32 {
        a.slots - u32::from(self.0 == Fault::PickEndsTheLastBlockEarly)
    }

    /// How much an unseen block could beat the number.
    fn beaten_by(&self, a: &Arguments, most: u32) -> u32 {
        let (v, seen): (View, Vec<u32>) = (a.view(), seen(a.starts, a.block % a.starts.len() as u32, a.n));
        let is_unseen = |number: &u32| !seen.contains(number) || self.0 == Fault::PickTakesTheLargestOfAll;
        let unseen = (0..a.starts.len() as u32).filter(is_unseen);
        let mut sizes = unseen.clone().map(|number| block(self.end(a), a.starts, number).map_or(0, |slots| slots.len() as u32));
        match self.0 {
            Fault::PickWrapsTheBound => sizes.max().map_or(0, |size| size.wrapping_sub(most)),
            Fault::PickTellsTheSize => sizes.max().unwrap_or(0),
            Fault::PickTakesTheSmallestUnseen => sizes.min().unwrap_or(0).saturating_sub(most),
            Fault::PickTakesTheFirstUnseen => sizes.next().unwrap_or(0).saturating_sub(most),
            Fault::PickLooksIntoUnseenBlocks => {
                unseen.map(|number| frees(v, twins, a.starts, number)).max().unwrap_or(0).saturating_sub(most)
            }
            _ => sizes.max().unwrap_or(0).saturating_sub(most),
        }
    }
}
