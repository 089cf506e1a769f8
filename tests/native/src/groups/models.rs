//! The paper's Tables 1 to 4, and the models of four-word records with document 02's "below".

pub mod actions;
pub mod model;
pub mod walk;

use crate::harness::Group;
use crate::implementations::impostors::{Fault, Impostor};
use crate::implementations::TESTED;
use crate::interface::{Calls, Family};
use crate::volume::Layout;
use model::Rule;
use walk::walk;

pub fn tests(group: &mut Group, layout: Layout) {
    match layout.family {
        Family::Bpcc => five_words(group, layout),
        Family::Scc => four_words(group, layout),
    }
}

/// Tables 3 and 4.
fn five_words(group: &mut Group, layout: Layout) {
    for (pages, versions, states, depth) in [(2, 2, 403, 10), (2, 3, 8_599, 14), (2, 4, 186_657, 18), (3, 2, 11_783, 14)] {
        whole(group, layout, TESTED, Rule::Right, (pages, versions), (states, depth), pages);
    }
    for (rule, versions, depth, states) in [(Rule::CheckNone, 3, 9, 1_339), (Rule::CheckHigh, 4, 12, 21_745)] {
        faulty(group, layout, TESTED, rule, (2, versions), (states, depth), states);
    }
}

/// Tables 1 and 2 by implementations with the paper's rules, and the models of Table 1 with the library's own.
fn four_words(group: &mut Group, layout: Layout) {
    let literal = Impostor(Fault::WriteTakesTheRuleLiterally);
    let table_1 = [(2, 2, 183, 10), (2, 3, 1_356, 14), (2, 4, 8_133, 18), (3, 2, 2_199, 14), (3, 3, 60_263, 20)];
    for (pages, versions, states, depth) in table_1 {
        whole(group, layout, &literal, Rule::Literal, (pages, versions), (states, depth), 1);
    }
    // The states before a fault depend on the order in which those of one depth come: the paper has 88, 194 and 203.
    let table_2 = [
        (Rule::BuryCheckNone, Fault::WriteBuriesEveryRecord, 2, 88, 88),
        (Rule::BuryCheckP, Fault::WriteLooksAtPagesOnly, 3, 194, 241),
        (Rule::BuryCheckNP, Fault::WriteLooksAtLinksLiterally, 3, 203, 202),
    ];
    for (rule, fault, pages, paper, states) in table_2 {
        faulty(group, layout, &Impostor(fault), rule, (pages, 2), (states, 6), paper);
    }
    for (pages, versions, states, depth) in [(2, 2, 303, 10), (2, 3, 3_971, 14), (2, 4, 50_417, 18), (3, 2, 7_287, 14)] {
        whole(group, layout, TESTED, Rule::Right, (pages, versions), (states, depth), pages);
    }
}

/// A model of so many pages and versions breaks no invariant, has so many states at such a depth, and completes transactions of so many
/// pages and no more.
fn whole(
    group: &mut Group,
    layout: Layout,
    calls: &dyn Calls,
    rule: Rule,
    (pages, versions): (u32, u32),
    (states, depth): (usize, usize),
    longest: u32,
) {
    group.test(&format!("{rule:?}, {pages} pages, MaxVers {versions}: {states} states"), || {
        let found = walk(calls, layout, pages, versions, rule);
        assert_eq!(found.fault, None);
        assert_eq!((found.states, found.depth, found.longest), (states, depth, longest as usize), "states, depth and longest ring");
        format!("depth {depth}, rings of up to {longest}")
    });
}

/// A model with a fault of the paper's: a state that breaks an invariant is found at such a depth, as the so-manieth state; the paper's
/// number of states fits some order of those at one depth.
fn faulty(
    group: &mut Group,
    layout: Layout,
    calls: &dyn Calls,
    rule: Rule,
    (pages, versions): (u32, u32),
    (states, depth): (usize, usize),
    paper: usize,
) {
    group.test(&format!("{rule:?}, {pages} pages, MaxVers {versions}: a fault at depth {depth}"), || {
        let found = walk(calls, layout, pages, versions, rule);
        let (at, broken) = found.fault.expect("a state that breaks an invariant");
        assert_eq!((at, found.states), (depth, states), "depth and states");
        assert!(found.any_order.contains(&paper), "the paper's {paper} states are not within {:?}", found.any_order);
        format!("{states} states, in another order of those at one depth {:?}, {broken}", found.any_order)
    });
}
