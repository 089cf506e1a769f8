//! Recorded scripts in short, and what is printed of them.

use crate::groups::scripts::template::{template, Script};

/// A script and what it prints, in a trial or by our own erase.
pub struct Recorded {
    pub trial: bool,
    pub script: Script,
}

/// The script that a short one stands for, at either width: lines as `write 0 3 1`, between them a semicolon and a space.
pub fn full(short: &str) -> String {
    short.split("; ").map(line).collect()
}

fn line(short: &str) -> String {
    let line = match short.split(' ').collect::<Vec<_>>()[..] {
        ["format", pages, slots] => format!("format pages={pages} slots={slots}@"),
        ["launch", pages] => format!("launch pages={pages}"),
        ["write", page, slot, fill] => format!("write page={page} slot={slot} fill={fill}"),
        ["withdraw", page] => format!("withdraw page={page}"),
        ["erase", slots] => format!("erase slots={slots}"),
        [other] => String::from(other),
        _ => panic!("no line {short:?}"),
    };
    format!("op={line}\n")
}

/// The numbers of a list.
pub fn joined(numbers: impl Iterator<Item = u32>) -> String {
    numbers.map(|n| n.to_string()).collect::<Vec<_>>().join(",")
}

/// So many cuts, and how many of them differ.
pub type Counts = (u32, u32);

/// The line that is printed.
pub fn told((cuts, differ): Counts) -> String {
    format!("cuts={cuts} same={} differ={differ}\n", cuts - differ)
}

/// A script by our own erase and in a trial.
pub fn both(width: u32, name: &str, input: &str, own: &str, trial: &str) -> [Recorded; 2] {
    [(false, own), (true, trial)].map(|(trial, output)| Recorded { trial, script: template(name, input, output).at(width) })
}
