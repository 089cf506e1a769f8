//! Faulty answers about doubtful slots.

use super::{is_refused, Fault, Impostor};
use crate::cleaning::twins;
use crate::doubting::{ends, fillings, lent, Ends};
use crate::implementations::reference::{flash_misfits, Reference};
use crate::interface::{Arguments, Reply, END_WORDS, MOST_DOUBTFUL, WIDTHS};
use crate::rules::{entry, slot};
use crate::volume::{Call, Volume};

/// A filling, and what recovery says of it; its state is recovered where that is 0.
type Filling = (Volume, u32);

impl Impostor {
    /// Tells of doubtful slots, where nothing refuses.
    pub(super) fn doubtful(&self, a: &mut Arguments) -> Reply {
        if let Some(answer) = self.doubt_refused(a) {
            return Reply::refused(answer);
        }
        let all = self.fillings(a);
        let found: Vec<Vec<u32>> = all.iter().filter(|(_, answer)| *answer == 0).map(|(v, _)| self.versions(v)).collect();
        if self.finds_nothing(a, &all) {
            if self.0 == Fault::DoubtfulFillsBeforeItRefuses {
                a.ends.fill(0);
            }
            let second = if self.0 == Fault::DoubtfulCountsWhereItRefuses { all.len() as u32 } else { 0 };
            let answer = if self.0 == Fault::DoubtfulGivesRecoverysRefusal { all[0].1 } else { 20 };
            return Reply { answer, second };
        }
        let words = self.ends(a, &all, &found);
        if self.0 != Fault::DoubtfulDoesNothing {
            a.ends.iter_mut().zip(words).for_each(|(to, word)| *to = word);
        }
        if let (Fault::DoubtfulLeavesAFilling, Some((last, _))) = (self.0, all.last()) {
            a.words.copy_from_slice(&last.words);
        }
        Reply::done(self.number(a, &all, &found))
    }

    /// The answer by which the call is refused before any filling is recovered, or by 20 where the fault does so.
    fn doubt_refused(&self, a: &Arguments) -> Option<u32> {
        let order: &[u32] = match self.0 {
            Fault::DoubtfulLooksAtTheListBeforeSlots => &[1, 6, 2, 19],
            Fault::DoubtfulLooksAtTheNumberFirst => &[19, 1, 2, 6],
            Fault::DoubtfulLooksAtTheNumberBeforeSlots => &[1, 19, 2, 6],
            Fault::DoubtfulLooksAtTheNumberBeforeTheList => &[1, 2, 19, 6],
            Fault::DoubtfulRecoversBeforeItLooksAtTheList => &[1, 2, 20, 6, 19],
            Fault::DoubtfulRecoversBeforeItLooksAtTheNumber => &[1, 2, 6, 20, 19],
            _ => &[1, 2, 6, 19],
        };
        let words = END_WORDS * a.pages as usize;
        let words_misfit = match self.0 {
            Fault::DoubtfulTakesMoreWords => a.ends.len() < words,
            Fault::DoubtfulTakesFewerWords => a.ends.len() > words,
            _ => a.ends.len() != words,
        };
        let most = match self.0 {
            Fault::DoubtfulTakesNineSlots => MOST_DOUBTFUL + 1,
            Fault::DoubtfulRefusesEightSlots => MOST_DOUBTFUL - 1,
            _ => MOST_DOUBTFUL,
        };
        let refused = |answer: &u32| match *answer {
            1 => !WIDTHS.contains(&a.width) || flash_misfits(a) || words_misfit,
            6 => self.doubts_wrong(a),
            19 => a.list.len() > most,
            20 => self.fillings(a).iter().all(|(_, answer)| *answer != 0),
            answer => is_refused(a, answer),
        };
        order.iter().copied().find(refused)
    }

    /// Whether the list is refused by 6.
    fn doubts_wrong(&self, a: &Arguments) -> bool {
        let past = a.list.iter().any(|&k| k >= a.slots) && self.0 != Fault::DoubtfulTakesSlotsPastS;
        let twice = (0..a.list.len()).any(|i| a.list[..i].contains(&a.list[i])) && self.0 != Fault::DoubtfulTakesASlotTwice;
        let blank = |&k: &u32| k < a.slots && slot(a.family, a.words, k).is_none();
        let empty = a.list.is_empty() && self.0 == Fault::DoubtfulRefusesAnEmptyList;
        empty || past || twice || (a.list.iter().any(blank) && self.0 != Fault::DoubtfulTakesBlankSlots)
    }

    /// The fillings that are recovered, at most as many as nine slots have.
    fn fillings(&self, a: &Arguments) -> Vec<Filling> {
        let v = lent(a);
        let list: Vec<u32> = a.list.iter().copied().filter(|&k| k < a.slots).take(MOST_DOUBTFUL + 1).collect();
        let blanked = |slots: &[u32]| {
            let mut filling = v.clone();
            filling.blank(slots);
            filling
        };
        let apart = |filling: &Volume| list.iter().any(|&k| list.iter().any(|&l| twins(v.view(), k, l) && differs(filling, k, l)));
        let all: Vec<Volume> = match self.0 {
            Fault::DoubtfulBlanksEverySlot => vec![blanked(&list)],
            Fault::DoubtfulBlanksNoSlot => vec![v.clone()],
            Fault::DoubtfulBlanksOneSlotAtATime => [v.clone()].into_iter().chain(list.iter().map(|&k| blanked(&[k]))).collect(),
            Fault::DoubtfulBlanksInTheListsOrder => (0..=list.len()).map(|n| blanked(&list[..n])).collect(),
            Fault::DoubtfulBlanksTwinsTogether => fillings(&v, &list).filter(|filling| !apart(filling)).collect(),
            Fault::DoubtfulSkipsTheVolumeItself if !list.is_empty() => fillings(&v, &list).skip(1).collect(),
            Fault::DoubtfulSkipsAllBlank if !list.is_empty() => fillings(&v, &list).take((1 << list.len()) - 1).collect(),
            _ => fillings(&v, &list).collect(),
        };
        let recovered = |mut v: Volume| {
            let answer = v.call(&Reference, &Call::Recover).answer;
            (v, answer)
        };
        all.into_iter().map(recovered).collect()
    }

    /// Whether the call is refused by 20.
    fn finds_nothing(&self, a: &Arguments, all: &[Filling]) -> bool {
        let fails = |(_, answer): &Filling| *answer != 0;
        match self.0 {
            Fault::DoubtfulFindsNothingInAnEmptyList => a.list.is_empty() || all.iter().all(fails),
            Fault::DoubtfulNeedsTheVolumeItself => fails(&all[0]),
            Fault::DoubtfulNeedsEveryFilling => all.iter().any(fails),
            _ => all.iter().all(fails),
        }
    }

    /// The version of each page in a filling that recovers.
    fn versions(&self, v: &Volume) -> Vec<u32> {
        let used = (0..v.sizes.pages).map(|p| entry(&v.state, p).used);
        match self.0 {
            Fault::DoubtfulTellsUsedVersions => used.collect(),
            Fault::DoubtfulTellsHighestVersions => highest(v),
            _ => v.committed(),
        }
    }

    /// The words that are filled in.
    fn ends(&self, a: &Arguments, all: &[Filling], found: &[Vec<u32>]) -> Vec<u32> {
        let failing = all.iter().filter(|(_, answer)| *answer != 0);
        let with = |more: Vec<Vec<u32>>| ends(&[found, &more].concat());
        let mut told: Vec<Ends> = match self.0 {
            Fault::DoubtfulStopsAtTheFirstFilling => ends(&found[..1]),
            Fault::DoubtfulTakesTheFirstAndTheLast => pairs(&found[0], &found[found.len() - 1]),
            Fault::DoubtfulTakesTheLowestFilling => pairs(found.iter().min().unwrap(), found.iter().max().unwrap()),
            Fault::DoubtfulStartsAtZero => with(vec![vec![0; a.pages as usize]]),
            Fault::DoubtfulTakesTheHighestOfAll => with(failing.map(|(v, _)| highest(v)).collect()),
            Fault::DoubtfulTakesTheLowestOfAll => with(failing.map(|(v, _)| before(v)).collect()),
            Fault::DoubtfulComparesSigned => (0..a.pages as usize).map(|p| signed_ends(found.iter().map(|versions| versions[p]))).collect(),
            _ => ends(found),
        };
        for (own, right) in told.iter_mut().zip(ends(found)) {
            match self.0 {
                Fault::DoubtfulTakesTheHighestOfAll => own[0] = right[0],
                Fault::DoubtfulTakesTheLowestOfAll => own[1] = right[1],
                Fault::DoubtfulTellsTheLowestTwice => own[1] = own[0],
                Fault::DoubtfulTellsTheHighestTwice => own[0] = own[1],
                Fault::DoubtfulExchangesTheEnds => own.swap(0, 1),
                _ => {}
            }
        }
        match self.0 {
            Fault::DoubtfulTellsAllLowestFirst => told.iter().map(|own| own[0]).chain(told.iter().map(|own| own[1])).collect(),
            _ => told.concat(),
        }
    }

    /// The second number.
    fn number(&self, a: &Arguments, all: &[Filling], found: &[Vec<u32>]) -> u32 {
        let number = match self.0 {
            Fault::DoubtfulCountsEveryFilling => all.len(),
            Fault::DoubtfulCountsSlots => a.list.len(),
            Fault::DoubtfulStopsAtTheFirstFilling => 1,
            Fault::DoubtfulCountsOutcomes => distinct(found.to_vec()),
            Fault::DoubtfulCountsTwinsOnce => {
                let records = |v: &Volume| sorted(v.records().into_iter().map(|(_, r)| r).collect());
                distinct(all.iter().filter(|(_, answer)| *answer == 0).map(|(v, _)| records(v)).collect())
            }
            _ => found.len(),
        };
        number as u32
    }
}

/// Whether one of two slots is blank and the other not.
fn differs(v: &Volume, k: u32, l: u32) -> bool {
    v.slot(k).is_some() != v.slot(l).is_some()
}

/// Each page's highest version, 0 where it has no record.
fn highest(v: &Volume) -> Vec<u32> {
    (0..v.sizes.pages).map(|p| v.records().iter().filter(|(_, r)| r.p == p).map(|(_, r)| r.v).max().unwrap_or(0)).collect()
}

/// Each page's version before its highest, 0 where it has no record.
fn before(v: &Volume) -> Vec<u32> {
    let own = |p: u32| v.records().into_iter().map(|(_, r)| r).filter(move |r| r.p == p);
    (0..v.sizes.pages).map(|p| own(p).max_by_key(|r| r.v).map_or(0, |r| r.c)).collect()
}

fn pairs(lowest: &[u32], highest: &[u32]) -> Vec<Ends> {
    lowest.iter().zip(highest).map(|(&low, &high)| [low, high]).collect()
}

/// The ends of versions taken as signed numbers.
fn signed_ends(versions: impl Iterator<Item = u32> + Clone) -> Ends {
    let signed = versions.map(|v| v as i32);
    [signed.clone().min(), signed.max()].map(|end| end.expect("a filling") as u32)
}

fn sorted<T: Ord>(mut list: Vec<T>) -> Vec<T> {
    list.sort();
    list
}

fn distinct<T: Ord>(list: Vec<T>) -> usize {
    let mut list = sorted(list);
    list.dedup();
    list.len()
}
