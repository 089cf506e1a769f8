//! Kinds of input, each of which a comparison meets often.

use super::volumes::SEEN;

/// Kinds by their names, and how often each was met.
pub struct Kinds<const N: usize> {
    names: [&'static str; N],
    met: [u64; N],
}

impl<const N: usize> Kinds<N> {
    pub fn new(names: [&'static str; N]) -> Kinds<N> {
        Kinds { names, met: [0; N] }
    }

    /// Counts an input, by whether it is of each kind.
    pub fn count(&mut self, is: [bool; N]) {
        self.met.iter_mut().zip(is).for_each(|(met, is)| *met += u64::from(is));
    }

    /// How often each kind was met, none too seldom.
    pub fn told(&self) -> String {
        let seen: String = self.names.iter().zip(self.met).map(|(name, met)| format!("\n          {name}: {met}")).collect();
        assert!(self.met.iter().all(|&met| met >= SEEN), "a kind is met too seldom:{seen}");
        seen
    }
}
