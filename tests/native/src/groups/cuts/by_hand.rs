//! Scripts written by hand, with what is printed of each by our own erase and in a trial, at either width.

use super::recorded::{both, full, joined, told, Counts, Recorded};
use crate::groups::scripts::by_hand::MALFORMED;
use crate::groups::scripts::template::{ending, most_slots, Script, FORMAT};
use crate::groups::scripts::widths::MALFORMED_WIDTHS;

/// Document 01's case 6 up to its erase, and what follows: slot 3 has page 0 exposed, slot 4 the straddler, slot 1 what may go.
macro_rules! case_6 {
    ($then:literal) => {
        concat!(
            "format 3 9; launch 0,1; write 0 3 1; cut; recover; launch 1,2; write 1 4 2; write 2 5 3; recover; launch 1; write 1 6 4; ",
            $then
        )
    };
}

/// Scripts in short, with what our own erase gives and what a trial does.
const RUNS: [(&str, &str, Counts, Counts); 37] = [
    ("a format", "format 2 4", (0, 0), (0, 0)),
    ("document 01's sample", "format 2 4; launch 0,1; write 0 2 3; cut; recover; launch 1; write 1 3 3; list", (2, 0), (2, 0)),
    (
        "case 6",
        "format 3 7; launch 0,1; write 0 3 1; cut; recover; launch 1,2; write 1 4 2; write 2 5 3; recover; launch 1; write 1 6 4; erase 4",
        (4, 0),
        (5, 1),
    ),
    (
        "case 6 by a withdrawal",
        "format 3 7; launch 0,1; write 0 3 1; withdraw 1; launch 1,2; write 1 4 2; write 2 5 3; launch 1; write 1 6 4; erase 4",
        (4, 0),
        (5, 1),
    ),
    (
        "case 6 with a silence",
        "format 3 7; launch 0,1; write 0 3 0; cut; recover; launch 1,2; write 1 4 2; write 2 5 3; recover; launch 1; write 1 6 4; erase 4",
        (4, 0),
        (5, 0),
    ),
    ("the exposed record below the straddler", case_6!("erase 3,4"), (4, 0), (6, 0)),
    ("the exposed record below the straddler, listed behind it", case_6!("erase 4,3"), (4, 0), (6, 0)),
    (
        "the exposed record above the straddler",
        "format 3 7; launch 0,1; write 0 6 1; cut; recover; launch 1,2; write 1 3 2; write 2 5 3; launch 1; write 1 4 4; erase 6,3",
        (4, 0),
        (6, 1),
    ),
    ("case 7", case_6!("erase 3; erase 4"), (6, 0), (6, 0)),
    ("case 7 in one call, then case 8", case_6!("erase 3,4; erase 1"), (5, 0), (7, 0)),
    ("a loss that lasts until its page is stored", case_6!("erase 4; launch 2; write 2 7 9; launch 0; write 0 8 5"), (6, 0), (7, 2)),
    ("a loss that the run recovers to", case_6!("erase 4; recover; erase 0"), (4, 0), (6, 2)),
    ("a set of three", "format 3 6; launch 0,1,2; write 0 3 1; write 1 4 2; write 2 5 3", (3, 0), (3, 0)),
    (
        "three sets at once",
        "format 5 10; launch 3,0; launch 4; launch 1,2; write 0 5 1; write 1 6 2; write 4 7 3; write 2 8 4; write 3 9 5",
        (5, 0),
        (5, 0),
    ),
    ("three erased in no order", "format 3 6; launch 0,1,2; write 2 3 1; write 0 4 2; write 1 5 3; erase 2,0,1", (6, 0), (6, 0)),
    ("a set over a set", "format 2 6; launch 0,1; write 0 2 1; write 1 3 2; launch 1,0; write 1 4 3; cut; recover; list", (3, 0), (3, 0)),
    (
        "refused writes",
        "format 2 5; write 0 2 1; launch 0,1; write 0 0 1; write 0 5 1; write 2 2 1; write 0 4294967295 1; write 0 3 7; write 0 4 8; write 1 3 1; write 1 4 9; write 1 2 1",
        (2, 0),
        (2, 0),
    ),
    ("refused launches and withdrawals", "format 2 5; launch 2; launch 0,0; withdraw 0; withdraw 2; launch 0; launch 1,0; write 0 2 1", (1, 0), (1, 0)),
    ("wrong lists", "format 2 4; erase 2,2; erase 4; erase 3,4; erase 0,0; erase 4294967295", (0, 0), (0, 0)),
    ("what may not be erased", "format 2 4; erase 0; erase 1; erase 2; erase 0,1", (0, 0), (5, 5)),
    ("blank slots", "format 2 4; erase 3,2", (0, 0), (2, 0)),
    ("an erased slot again", "format 2 4; launch 0; write 0 2 1; erase 0; erase 0", (2, 0), (3, 0)),
    ("a withdrawn set", "format 2 6; launch 0,1; write 0 2 7; withdraw 1; launch 0; write 0 3 8; erase 2,0", (4, 0), (4, 0)),
    ("an exposed record", "format 2 5; launch 0,1; write 0 2 1; withdraw 0; erase 2; erase 2", (2, 0), (3, 0)),
    ("a record in flight", "format 2 6; launch 0,1; write 0 2 5; erase 2; write 1 3 6", (2, 0), (3, 1)),
    ("recovered with a set open", "format 2 5; launch 0,1; write 0 2 5; recover; launch 0; write 0 3 6", (2, 0), (2, 0)),
    (
        "a lost state",
        "format 2 4; launch 0; cut; write 0 2 1; erase 2; erase 0,0; launch 0; withdraw 0; list; cut; recover; launch 0; write 0 2 1",
        (1, 0),
        (1, 0),
    ),
    ("a state that is lost for good", "format 2 4; cut; launch 0; write 0 2 1; erase 3", (0, 0), (0, 0)),
    ("lists", "format 2 4; list; launch 0; list; write 0 2 1; list; cut; list; recover; list", (1, 0), (1, 0)),
    ("the last record of the last page", "format 2 4; launch 1; write 1 2 1; erase 2", (1, 0), (2, 1)),
    ("both records of a page", "format 2 4; launch 0; write 0 2 1; erase 0,2", (1, 0), (3, 1)),
    ("both records of a page, listed falling", "format 2 4; launch 0; write 0 2 1; erase 2,0", (1, 0), (3, 1)),
    ("a page gone for good", "format 2 4; launch 0; write 0 2 1; erase 0,2; list; cut; recover; launch 1; write 1 3 1", (2, 0), (3, 1)),
    ("a page gone and stored anew", "format 1 3; launch 0; write 0 1 7; erase 0,1; recover; launch 0; write 0 2 9", (2, 0), (4, 1)),
    ("the same contents by an older record", "format 1 3; launch 0; write 0 1 5; launch 0; write 0 2 5; erase 2", (2, 0), (3, 0)),
    ("the old contents by an older record", "format 1 3; launch 0; write 0 1 5; launch 0; write 0 2 6; erase 2", (2, 0), (3, 1)),
    ("no room", "format 1 1; launch 0; write 0 0 1; erase 0; write 0 0 2", (0, 0), (2, 1)),
];

/// First lines that begin no script, and second format lines.
const NO_FORMATS: [&str; 16] = [
    "launch 0",
    "launch 0; format 2 4",
    "list; format 2 4",
    "cut; recover; format 2 4; list",
    "format 0 4",
    "format 0 4; format 2 4",
    "format 257 300",
    "format 3 2; list",
    "format 4294967295 4294967295",
    "format 2 1025; format 2 4; list",
    "format 2 4; format 2 4",
    "format 2 4; format 0 4",
    "format 2 4; launch 0; write 0 2 1; format 2 4",
    "format 2 4; launch 0; write 0 2 1; format 3 2; erase 0",
    "format 2 4; cut; format 2 4",
    "format 2 4; list; list; format 256 512; list",
];

/// The hand-written scripts.
pub fn by_hand(width: u32) -> Vec<Recorded> {
    let refused = "answer=line\n";
    let mut all = Vec::new();
    for (name, short, own, trial) in RUNS {
        all.extend(both(width, name, &full(short), &told(own), &told(trial)));
    }
    for short in NO_FORMATS {
        all.extend(both(width, short, &full(short), refused, refused));
    }
    for (name, input, counts) in edges(width) {
        let output = counts.map_or(String::from(refused), told);
        all.extend(both(width, name, &input, &output, &output));
    }
    for line in MALFORMED.iter().chain(&MALFORMED_WIDTHS) {
        let before = if line.starts_with("op=format") { "" } else { FORMAT };
        all.extend(both(width, &format!("malformed {line:?}"), &format!("{before}{line}\n"), refused, refused));
    }
    for bytes in [&b"op=list\xC3\xA9\n"[..], b"\xFF\n", b"op=\x00list\n", b"\x80", b"\x00"] {
        let name = format!("bytes {bytes:?}");
        all.push(Recorded { trial: false, script: Script { name, input: bytes.to_vec(), output: refused.into() } });
    }
    all
}

/// Numbers and lengths of lines, their ends, and lists, with what is counted of those that are taken.
fn edges(width: u32) -> Vec<(&'static str, String, Option<Counts>)> {
    let lists = |n: usize| format!("{FORMAT}{}", "op=list\n".repeat(n - 1));
    let stored = full("format 2 4; launch 0; write 0 2 1; erase 0");
    let padded = |n: usize| format!("{FORMAT}op=launch pages={}1\n", "0".repeat(n - 17));
    let unended = |text: &str| String::from(text.trim_end_matches('\n'));
    vec![
        ("empty input", String::new(), None),
        ("one LF", String::from("\n"), None),
        ("an empty first line", format!("\n{stored}"), None),
        ("an empty line", stored.replacen('\n', "\n\n", 2), None),
        ("an empty last line", format!("{stored}\n"), None),
        ("no last LF", unended(&stored), Some((2, 0))),
        ("a format without LF", unended(FORMAT), Some((0, 0))),
        ("CR LF", stored.replace('\n', "\r\n"), None),
        ("CR LF at the end", format!("{}\r\n", unended(&stored)), None),
        ("leading zeros", full("format 002 0000004; launch 00; write 000 02 0001; erase 00000"), Some((2, 0))),
        ("255 lines", lists(255), Some((0, 0))),
        ("256 lines", lists(256), Some((0, 0))),
        ("256 lines, the last without LF", unended(&lists(256)), Some((0, 0))),
        ("257 lines", lists(257), None),
        ("257 lines, the last without LF", unended(&lists(257)), None),
        ("257 lines, the last empty", format!("{}\n", lists(256)), None),
        ("257 lines, the last malformed", format!("{}op", lists(256)), None),
        ("600 lines", lists(600), None),
        ("256 lines, the last malformed", format!("{}op=lis\n", lists(255)), None),
        ("256 lines, the last a format", format!("{}{FORMAT}", lists(255)), None),
        ("256 lines, the last an erase", stored.replace("op=erase", &format!("{}op=erase", "op=list\n".repeat(252))), Some((2, 0))),
        ("a malformed last line without LF", format!("{stored}op=erase slots=0,"), None),
        ("a malformed line behind many", format!("{}op=list \nop=list\n", lists(200)), None),
        ("512 bytes", padded(512), Some((0, 0))),
        ("512 bytes without LF", unended(&padded(512)), Some((0, 0))),
        ("513 bytes", padded(513), None),
        ("513 bytes without LF", unended(&padded(513)), None),
        ("100,000 bytes", padded(100_000), None),
        ("256 lines of 512 bytes", longest(width), Some((0, 0))),
        ("64 entries", sixty_four(width), Some((128, 0))),
        ("65 entries", full(&format!("format 128 200; launch {}", joined(0..65))), None),
    ]
}

/// A set of 64 pages, in the last slots, and the erasure of 64 slots in falling order.
fn sixty_four(width: u32) -> String {
    let most = most_slots(width);
    let writes: Vec<String> = (0..64).map(|p| format!("write {p} {} {}", most - 64 + p, p + 1)).collect();
    full(&format!("format 256 {most}; launch {}; {}; erase {}", joined((0..64).rev()), writes.join("; "), joined((0..64).rev())))
}

/// The longest script of all, whose launches are refused but for the first.
fn longest(width: u32) -> String {
    let zeros = |n: usize| "0".repeat(n);
    let format = format!("op=format pages={}2 slots=4{}", zeros(512 - 25 - ending(width).len()), ending(width));
    let lines = vec![format!("op=launch pages={}1", zeros(512 - 17)); 255];
    format!("{format}\n{}\n", lines.join("\n"))
}
