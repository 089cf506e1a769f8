//! The width and the lengths that it fixes, right and wrong, by every call.

use crate::implementations::compared::Compared;
use crate::implementations::reference::{refusal, Reference};
use crate::inputs::{is_short, WRONG_WIDTHS};
use crate::interface::{other_width, Arguments, Calls, Family, Name, Reply, END_WORDS, PICK_WORDS, WIDTHS};
use crate::volume::{Call, Layout, Volume, LENT};

/// A volume on which every call of `reply` is done: page 1 is in flight, page 0 is not, slot 3 is blank, slot 0 may be erased and be in
/// doubt, and the two slots behind block 0 take what stays of it.
fn ready(layout: Layout) -> Volume {
    let mut v = Volume::formatted(&Reference, layout.sizes(2, 6));
    let bytes = vec![3; layout.width as usize];
    for call in [Call::Launch(vec![0]), Call::Write { page: 0, slot: 2, bytes }, Call::Launch(vec![1])] {
        assert_eq!(v.call(&Reference, &call).answer, 0);
    }
    v
}

/// What a call says, with so many bytes to write or count and room for as many to read; a refused one leaves every buffer.
fn reply(compared: &Compared, call: Name, volume: &Volume, length: usize) -> Reply {
    let (bytes, before) = (vec![9; length], vec![5; length]);
    let (mut v, mut out, mut picked, mut ends) = (volume.clone(), before.clone(), [LENT; PICK_WORDS], [LENT; 2 * END_WORDS]);
    let lent = Arguments { bytes: &bytes, out: &mut out, picked: &mut picked, ends: &mut ends, ..v.arguments() };
    let reply = compared.call(call, &mut Arguments { page: 1, slot: 3, list: &[0], starts: &[0, 4], n: 1, ..lent });
    let words_kept = picked.iter().chain(&ends).all(|&word| word == LENT);
    assert!(reply.answer == 0 || (v == *volume && out == before && words_kept), "a refused {call} altered a buffer");
    reply
}

/// Every call answers 0, but for some that answer 1.
fn assert_refused(compared: &Compared, volume: &Volume, length: usize, refused: &[Name]) {
    for call in volume.sizes.family.calls() {
        let got = reply(compared, call, volume, length);
        let expected = if refused.contains(&call) { refusal(call, 1) } else { Reply { answer: 0, ..got } };
        assert_eq!(got, expected, "{call} at width {}, {} bytes of contents, {length} bytes", volume.sizes.width, volume.contents.len());
    }
}

/// The calls that take the contents.
fn of_contents(family: Family) -> &'static [Name] {
    match family {
        Family::Bpcc => &[
            Name::Format,
            Name::Write,
            Name::Erase,
            Name::Suggest,
            Name::Clean,
            Name::Pick,
            Name::Sweep,
            Name::Recover,
            Name::Doubtful,
            Name::Read,
        ],
        Family::Scc => &[Name::Format, Name::Write, Name::Erase, Name::Read],
    }
}

/// A width that no volume has is refused by every call that takes one, with buffers of a right width and with buffers of its own.
pub fn compare_wrong_widths(compared: &Compared, layout: Layout) {
    let (width, calls) = (layout.width, layout.family.calls());
    let taking_width: Vec<Name> = calls.clone().filter(|&call| call != Name::Count).collect();
    assert_refused(compared, &ready(layout), width as usize, &[]);
    for wrong in WRONG_WIDTHS {
        let mut v = ready(layout);
        v.sizes.width = wrong;
        assert_refused(compared, &v, width as usize, &taking_width);
        if is_short(wrong) {
            v.contents.resize(wrong as usize * v.sizes.slots as usize, 255);
            assert_refused(compared, &v, wrong as usize, &calls.clone().collect::<Vec<Name>>());
        }
    }
}

/// The other width on buffers of this one: refused where the contents are taken, and no matter where they are not.
pub fn compare_other_width(compared: &Compared, layout: Layout) {
    let mut v = ready(layout);
    v.sizes.width = other_width(layout.width);
    for length in WIDTHS {
        assert_refused(compared, &v, length as usize, of_contents(layout.family));
    }
}

/// Contents one byte short, one long, and of the other width; bytes to write and room to read likewise. Count takes either width.
pub fn compare_lengths(compared: &Compared, layout: Layout) {
    let (v, width, other) = (ready(layout), layout.width, other_width(layout.width));
    let slots = v.sizes.slots;
    for length in [width * slots - 1, width * slots + 1, other * slots] {
        let mut v = v.clone();
        v.contents.resize(length as usize, 255);
        assert_refused(compared, &v, width as usize, of_contents(layout.family));
    }
    for length in [width - 1, width + 1] {
        assert_refused(compared, &v, length as usize, &[Name::Write, Name::Count, Name::Read]);
    }
    assert_refused(compared, &v, other as usize, &[Name::Write, Name::Read]);
}

/// Count on every single bit, every byte value at every place and at all of them.
pub fn compare_counts(compared: &Compared, layout: Layout) {
    let (width, length) = (layout.width, layout.width as usize);
    for bit in 0..8 * length {
        let mut bytes = vec![0; length];
        bytes[bit / 8] = 1 << (bit % 8);
        assert_eq!(count(compared, &bytes), Reply::done(1), "bit {bit}");
    }
    for value in 0..=255u8 {
        for at in 0..length {
            let mut bytes = vec![0; length];
            bytes[at] = value;
            count(compared, &bytes);
        }
        assert_eq!(count(compared, &vec![value; length]), Reply::done(width * value.count_ones()), "all bytes {value}");
    }
}

/// Count at every length up to 200: 32 and 64 bytes are counted.
pub fn compare_counted_lengths(compared: &Compared) {
    for length in 0..200 {
        let expected = if WIDTHS.contains(&length) { Reply::done(length) } else { Reply::refused(1) };
        assert_eq!(count(compared, &vec![1; length as usize]), expected, "{length} bytes");
    }
}

fn count(compared: &Compared, bytes: &[u8]) -> Reply {
    compared.call(Name::Count, &mut Arguments { bytes, ..Arguments::default() })
}
