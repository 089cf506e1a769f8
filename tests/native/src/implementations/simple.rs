//! The simple recovery of docs/src, with which the library is compared, and wrong ones that differ from it in one place.

use super::reference::Reference;
use super::TESTED;
use crate::interface::{Arguments, Calls, Family, Name, Reply};
use crate::volume::Volume;

/// Recovers what a call is lent.
pub type Recovery = fn(&mut Arguments) -> Reply;

/// The recovery of a module with the text of docs/src/recovery.rs.
macro_rules! recovered {
    ($by:ident, $a:ident) => {{
        let family = match $a.family {
            Family::Bpcc => $by::Family::FiveWords,
            Family::Scc => $by::Family::FourWords,
        };
        let &mut Arguments { pages, slots, width, ref words, ref contents, .. } = $a;
        let volume = $by::Volume { family, pages, slots, width, words, contents };
        $by::recover(volume, $a.state).map_or_else(Reply::refused, Reply::done)
    }};
}

/// Made by build.rs of the edits in mutants.rs.
mod wrong {
    use super::{Arguments, Family, Recovery, Reply};
    include!(concat!(env!("OUT_DIR"), "/mutants.rs"));
}
pub use wrong::MUTANTS;

/// The simple recovery.
pub const SIMPLE: &dyn Calls = &Simple(|a| recovered!(recovery, a));

/// A recovery, every other call the second implementation's.
pub struct Simple(pub Recovery);

impl Calls for Simple {
    fn call(&self, name: Name, a: &mut Arguments) -> Reply {
        match name {
            Name::Recover => self.0(a),
            _ => Reference.call(name, a),
        }
    }
}

/// The simple recovery and that of the implementation under test side by side, reply and buffers compared; every other call is the second
/// implementation's.
pub struct Agreed;

impl Calls for Agreed {
    fn call(&self, name: Name, a: &mut Arguments) -> Reply {
        if name != Name::Recover {
            return Reference.call(name, a);
        }
        let mut lent = Volume::copied(a);
        let tested = TESTED.call(name, &mut lent.arguments());
        let simple = SIMPLE.call(name, a);
        assert_eq!(tested, simple, "recover by the implementation under test, and by docs/src/recovery.rs");
        assert!(lent == Volume::copied(a), "recover leaves other buffers than docs/src/recovery.rs does");
        simple
    }
}
