//! Document 02's wish 9: which blocks a pick looks at, what each frees, what the pick gives, and what is to hold of that.

use crate::cleaning::{block, may_erase_alone, twins, Test, View};
use crate::interface::{Arguments, Calls, Name, Reply, NONE, PICK_WORDS};

/// "In four lent words, the block, that number, the blocks looked at …, and how much an unseen block could beat it."
pub type Words = [u32; PICK_WORDS];

/// "Starting from a named block and going round, look at no more than n blocks": their numbers, in the order in which they are seen.
pub fn seen(starts: &[u32], block: u32, n: u32) -> Vec<u32> {
    let blocks = starts.len() as u32;
    (block..blocks).chain(0..block).take(n as usize).collect()
}

/// The blocks not looked at.
pub fn unseen(starts: &[u32], block: u32, n: u32) -> Vec<u32> {
    let seen = seen(starts, block, n);
    (0..starts.len() as u32).filter(|number| !seen.contains(number)).collect()
}

/// "Frees means its records that may be erased, judged one by one": their number, of a block of the table.
pub fn frees(v: View, twins: Test, starts: &[u32], number: u32) -> u32 {
    let slots = block(v.slots(), starts, number).expect("a block of the table");
    slots.filter(|&k| may_erase_alone(v, twins, k)).count() as u32
}

/// The number of slots of a block of the table.
pub fn size(v: View, starts: &[u32], number: u32) -> u32 {
    block(v.slots(), starts, number).expect("a block of the table").len() as u32
}

/// "Name the one that frees most, the earliest seen on ties", and the three words behind it; the last is "the largest unseen block's size
/// less the number, or 0".
pub fn picked(v: View, twins: Test, starts: &[u32], block: u32, n: u32) -> Words {
    let seen: Vec<(u32, u32)> = seen(starts, block, n).into_iter().map(|number| (number, frees(v, twins, starts, number))).collect();
    let most = seen.iter().map(|&(_, frees)| frees).max().expect("a block that is looked at");
    let (named, _) = *seen.iter().find(|&&(_, frees)| frees == most).expect("the earliest of those that free most");
    let largest = unseen(starts, block, n).into_iter().map(|number| size(v, starts, number)).max().unwrap_or(0);
    [named, most, seen.len() as u32, largest.saturating_sub(most)]
}

/// What is shown of a pick that is done and gave these words: none of the blocks looked at frees more, and none seen earlier as much; "no
/// unseen block beats the number by more than that"; where all are looked at the last word is 0. "A larger n never finds less."
pub fn assert_promised(calls: &dyn Calls, a: &mut Arguments) {
    let [named, most, _, beaten_by] = a.picked.try_into().expect("four words");
    let all: Vec<u32> = (0..a.starts.len() as u32).map(|number| frees(a.view(), twins, a.starts, number)).collect();
    let (seen, unseen) = (seen(a.starts, a.block, a.n), unseen(a.starts, a.block, a.n));
    let of = |number: u32| all[number as usize];
    let at = seen.iter().position(|&number| number == named).expect("a block that is looked at is named");
    assert_eq!(of(named), most, "what block {named} frees");
    assert!(seen[..at].iter().all(|&number| of(number) < most), "a block seen earlier frees as much: {all:?}");
    assert!(seen.iter().all(|&number| of(number) <= most), "a block looked at frees more: {all:?}");
    let bound = u64::from(most) + u64::from(beaten_by);
    assert!(unseen.iter().all(|&number| u64::from(of(number)) <= bound), "an unseen block frees more than {bound}: {all:?}");
    assert!(!unseen.is_empty() || beaten_by == 0, "{beaten_by} for an unseen block where all are seen");
    assert_no_less(calls, a, most);
}

/// With one block more, and with all, no less is found.
fn assert_no_less(calls: &dyn Calls, a: &mut Arguments, most: u32) {
    let mut found = most;
    for n in [a.n.saturating_add(1), NONE] {
        let mut picked = [0; PICK_WORDS];
        let &mut Arguments { family, pages, slots, width, starts, block, .. } = a;
        let volume = Arguments { words: a.words, contents: a.contents, state: a.state, ..Arguments::default() };
        let more = Arguments { family, pages, slots, width, starts, block, n, picked: &mut picked, ..volume };
        assert_eq!(calls.call(Name::Pick, &mut { more }), Reply::done(0), "a pick of {n}");
        assert!(picked[1] >= found, "a pick of {n} finds {} for {found}", picked[1]);
        found = picked[1];
    }
}
