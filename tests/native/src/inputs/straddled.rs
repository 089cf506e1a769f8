//! Volumes with an obsolete record that straddles an exposed one's link.

use super::add_twins;
use crate::interface::NONE;
use crate::random::Random;
use crate::rules::{set_entry, Entry, Record};
use crate::volume::{Layout, Volume};

/// A volume of two to four pages with a sound state, its records in any order: one or two of a page are exposed and link to another page,
/// at a version between the back pointer and the version of an obsolete record of that one, which a later one may outdo. The first page is
/// not in flight, or it is, at its highest version or above. Some records may have twins, or what differs from these in a byte or a word.
pub fn straddled(random: &mut Random, layout: Layout) -> Volume {
    let pages = 2 + random.below(3);
    let order = random.order(pages);
    let (p, q) = (order[0], order[1]);
    let c = random.below(2);
    let nv = c + 1 + random.below(2);
    let v = nv + 1 + random.below(2);
    let (committed, exposed) = (v + 2, 1 + random.below(2));
    let alone = |p: u32, v: u32, c: u32| Record { p, v, c, np: p, nv: v };
    let mut held: Vec<Record> = order.iter().filter(|&&page| page != q).map(|&page| alone(page, 0, 0)).collect();
    held.extend([alone(q, v, c), alone(q, committed, v)]);
    held.extend(random.one_in(4).then(|| alone(q, v + 1, c)));
    held.extend((1..=exposed).map(|v| Record { p, v, c: 0, np: q, nv }));
    held.resize(held.len() + random.below(6) as usize, Record::BLANK);
    random.shuffle(&mut held);
    let mut volume = Volume::with_records(layout.sizes(pages, held.len() as u32), &held);
    for page in order {
        set_entry(&mut volume.state, page, Entry { committed: 0, used: 0, next: NONE, written: 0 });
    }
    set_entry(&mut volume.state, q, Entry { committed, used: committed, next: NONE, written: 0 });
    let (next, written) = if random.one_in(2) { (NONE, 0) } else { (p, random.below(2)) };
    set_entry(&mut volume.state, p, Entry { committed: 0, used: exposed + random.below(2), next, written });
    add_twins(random, &mut volume);
    volume
}
