//! The groups of tests, a file for each; what a group needs besides is in the folder of its name.

pub mod blocks;
pub mod calls;
pub mod cases;
pub mod cuts;
pub mod impostors;
pub mod links;
pub mod models;
pub mod runs;
pub mod scripts;
pub mod speed;
pub mod van;

use crate::harness::Group;
use crate::interface::Family;
use crate::volume::Layout;

/// A group's tests of volumes of a layout, counted.
pub type Tests = fn(&mut Group, Layout);

/// Every group by its name, with the families that have it, in the order in which they run.
pub const GROUPS: [(&str, &[Family], Tests); 11] = [
    ("cases", BOTH, cases::tests),
    ("calls", BOTH, calls::tests),
    ("links", BOTH, links::tests),
    ("runs", BOTH, runs::tests),
    ("models", BOTH, models::tests),
    ("blocks", &[Family::Bpcc], blocks::tests),
    ("scripts", &[Family::Bpcc], scripts::tests),
    ("cuts", &[Family::Bpcc], cuts::tests),
    ("van", &[Family::Bpcc], van::tests),
    ("impostors", BOTH, impostors::tests),
    ("speed", BOTH, speed::tests),
];

const BOTH: &[Family] = &[Family::Bpcc, Family::Scc];
