//! Native tests of the C library against a second implementation, and that implementation.

pub mod cleaning;
pub mod crash;
pub mod doubting;
pub mod groups;
pub mod harness;
pub mod implementations;
pub mod inputs;
pub mod interface;
pub mod ledger;
pub mod picking;
pub mod random;
pub mod rules;
pub mod sweeping;
pub mod volume;
