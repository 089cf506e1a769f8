//! Document 02's wish 11: the fillings of a volume with doubtful slots, the versions over those that recover, and what is to hold of these.

use crate::interface::{Arguments, Calls, END_WORDS, NONE, PAGE_WORDS};
use crate::volume::{Call, Volume};

/// "The lowest and highest committed version" of a page.
pub type Ends = [u32; END_WORDS];

/// The volume that a call without a state is lent, with a lost one.
pub fn lent(a: &Arguments) -> Volume {
    Volume { state: vec![NONE; PAGE_WORDS * a.pages as usize], ..Volume::copied(a) }
}

/// "A list of slots that may be there or blank": every filling, the volume itself first and that with all of them blank last.
pub fn fillings<'a>(v: &'a Volume, list: &'a [u32]) -> impl Iterator<Item = Volume> + 'a {
    (0..1u32 << list.len()).map(|mask| {
        let blank: Vec<u32> = list.iter().enumerate().filter(|(i, _)| mask >> i & 1 == 1).map(|(_, &k)| k).collect();
        let mut filling = v.clone();
        filling.blank(&blank);
        filling
    })
}

/// The committed versions of each filling "whose recovery succeeds".
pub fn recovering(v: &Volume, list: &[u32], recovers: impl Fn(&mut Volume) -> bool) -> Vec<Vec<u32>> {
    fillings(v, list).filter_map(|mut filling| recovers(&mut filling).then(|| filling.committed())).collect()
}

/// "For each page the lowest and highest committed version over all" of these, of which there is one at least.
pub fn ends(found: &[Vec<u32>]) -> Vec<Ends> {
    let of = |page: usize| found.iter().map(move |versions| versions[page]);
    (0..found[0].len()).map(|page| [of(page).min(), of(page).max()].map(|end| end.expect("a filling"))).collect()
}

/// What is shown of doubtful where it is done and gave these words and this number: so many fillings recover, in each every page is
/// between its ends, and "each end is reached by some filling". With an empty list the one filling is the volume itself, and its versions
/// are recovery's own.
pub fn assert_promised(calls: &dyn Calls, a: &mut Arguments, number: u32) {
    let found = recovering(&lent(a), a.list, |filling| filling.call(calls, &Call::Recover).answer == 0);
    assert!(found.len() == number as usize && number <= 1 << a.list.len(), "{} fillings recover, {number} are told", found.len());
    for (page, ends) in a.ends.chunks(END_WORDS).enumerate() {
        let versions = || found.iter().map(|versions| versions[page]);
        assert!(versions().all(|v| (ends[0]..=ends[1]).contains(&v)), "a filling has page {page} outside {ends:?}: {found:?}");
        assert!(ends.iter().all(|&end| versions().any(|v| v == end)), "no filling has page {page} at an end of {ends:?}: {found:?}");
    }
}
