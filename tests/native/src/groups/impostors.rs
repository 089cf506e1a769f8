//! Implementations that are wrong in one way are told from a right one.

use super::calls::volumes;
use super::cuts;
use super::runs::run::Cleaning;
use super::runs::{long_runs, small_runs};
use super::van;
use crate::harness::{caught, Group};
use crate::implementations::compared::Compared;
use crate::implementations::impostors::faults::{
    breaking_doubts, breaking_picks, faults, losing, losing_in_blocks, losing_in_sweeps, Fault,
};
use crate::implementations::impostors::Impostor;
use crate::implementations::impostors::{cutting, surveying};
use crate::implementations::reference::Reference;
use crate::implementations::{cuts_program, van_program};
use crate::interface::Family;
use crate::volume::Layout;

pub fn tests(group: &mut Group, layout: Layout) {
    for fault in faults(layout.family) {
        group.test(&format!("{fault:?} differs"), || caught(|| volumes::compare(&Compared::new(&Impostor(fault)), layout, 100_000, 1)));
    }
    group.plain("a driver's fault alone does not differ", || {
        volumes::compare(&Compared::new(&Impostor(Fault::DriverSweepsRising)), layout, 40_000, 1)
    });
    for fault in losing(layout.family, layout.width) {
        group.test(&format!("{fault:?} loses a page in runs with crashes"), || {
            caught(|| {
                for pages in (1..=6).rev() {
                    small_runs(&Impostor(fault), layout, Cleaning::Never, pages, 100, 400);
                }
            })
        });
    }
    for fault in losing_in_blocks(layout.family, layout.width) {
        group.test(&format!("{fault:?} loses a page in runs with cleanings and crashes"), || {
            caught(|| {
                for pages in [6, 3, 1] {
                    long_runs(&Impostor(fault), layout, pages, 100, 400);
                }
            })
        });
    }
    for (faults, cleaning, with) in [
        (losing_in_sweeps(layout.family), Cleaning::AnyBlocks, "sweeps and crashes"),
        (breaking_picks(layout.family), Cleaning::Often, "picks"),
        (breaking_doubts(layout.family), Cleaning::Never, "slots in doubt"),
    ] {
        for &fault in faults {
            group.test(&format!("{fault:?} is found in runs with {with}"), || {
                caught(|| {
                    for pages in [6, 3, 1] {
                        small_runs(&Impostor(fault), layout, cleaning, pages, 100, 400);
                    }
                })
            });
        }
    }
    if layout.family == Family::Bpcc {
        programs(group, layout.width);
    }
}

/// Programs that are wrong are each told from a right one by an input that is written by hand.
fn programs(group: &mut Group, width: u32) {
    for wrong in cutting::WRONG {
        group.test(&format!("a program that cuts everywhere, {wrong:?}, differs"), || {
            let prints = |trial: bool, input: &[u8]| cuts_program::run_as(wrong, &Reference, trial, input);
            cuts::told_from_right(&prints, width).expect("not found")
        });
    }
    let inputs = van::by_hand::by_hand(width);
    for wrong in surveying::WRONG {
        group.test(&format!("a program for the van, {wrong:?}, differs"), || {
            let prints = |input: &[u8]| van_program::run_as(wrong, &Reference, input);
            String::from(van::told_from_right(&prints, &inputs).expect("not found"))
        });
    }
}
