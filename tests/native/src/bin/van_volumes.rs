//! Writes the volumes of examples/van.volumes to standard output: what four consoles bring to the service van.

use native::implementations::{reference::Reference, van_program::stored};
use native::interface::Family;
use native::volume::{Call, Sizes, Volume};
use std::io::{stdout, Write};

fn main() -> std::io::Result<()> {
    if std::env::args_os().len() > 1 {
        eprintln!("usage: van_volumes > VOLUMES");
        return Ok(());
    }
    let volumes = [straddled(), wide(), doubled(), broken_off()];
    stdout().lock().write_all(&volumes.iter().flat_map(stored).collect::<Vec<u8>>())
}

/// Document 01's case 6: of the set of pages 0 and 1 only the record of page 0 was stored, in slot 3. The record of page 1 in slot 4, of a
/// set with page 2, is obsolete behind the one in slot 6, and needed: it tells that the first set was never stored whole.
fn straddled() -> Volume {
    let mut v = formatted(3, 8, 32);
    begin(&mut v, &[0, 1], &[(0, 3, 1)]);
    cut(&mut v);
    store(&mut v, &[(1, 4, 3), (2, 5, 7)]);
    store(&mut v, &[(1, 6, 15)]);
    v
}

/// Pages of 64 bytes: all three stored in one set, and two of the formatted records erased.
fn wide() -> Volume {
    let mut v = formatted(3, 6, 64);
    store(&mut v, &[(0, 3, 255), (1, 4, 127), (2, 5, 63)]);
    call(&mut v, &Call::Erase(vec![0, 2]));
    v
}

/// A chip that gives another byte of a record than a copy of it: the two have one page and one version, and are no twins. Recovery
/// refuses it by 3.
fn doubled() -> Volume {
    let mut v = formatted(2, 4, 32);
    store(&mut v, &[(0, 2, 1)]);
    v.copy_within(2, 3);
    *v.contents.last_mut().unwrap() = 2;
    v
}

/// Pages 1 and 2 stored as a set, and a set of all three cut before its last record.
fn broken_off() -> Volume {
    let mut v = formatted(3, 8, 32);
    store(&mut v, &[(1, 3, 31), (2, 4, 63)]);
    begin(&mut v, &[0, 1, 2], &[(0, 5, 127), (1, 6, 255)]);
    cut(&mut v);
    v
}

fn formatted(pages: u32, slots: u32, width: u32) -> Volume {
    Volume::formatted(&Reference, Sizes { family: Family::Bpcc, pages, slots, width })
}

/// A call that is done; gives its second number.
fn call(v: &mut Volume, call: &Call) -> u32 {
    let reply = v.call(&Reference, call);
    assert_eq!(reply.answer, 0, "{call:?}");
    reply.second
}

/// Launches a set and writes some of its pages, each with its slot and the value of its bytes; gives whether the set is stored.
fn begin(v: &mut Volume, set: &[u32], written: &[(u32, u32, u8)]) -> bool {
    call(v, &Call::Launch(set.to_vec()));
    let bytes = |fill| vec![fill; v.sizes.width as usize];
    let writes: Vec<Call> = written.iter().map(|&(page, slot, fill)| Call::Write { page, slot, bytes: bytes(fill) }).collect();
    writes.iter().fold(0, |_, write| call(v, write)) == 1
}

/// Stores a set whole.
fn store(v: &mut Volume, written: &[(u32, u32, u8)]) {
    let set: Vec<u32> = written.iter().map(|&(page, ..)| page).collect();
    assert!(begin(v, &set, written), "the set {set:?} is stored");
}

/// The state is lost, and recovered.
fn cut(v: &mut Volume) {
    v.state.fill(u32::MAX);
    call(v, &Call::Recover);
}
