//! The page that is expected of volumes, and what holds of any page by itself.

use crate::implementations::van_program::{Figures, FIGURE_COLUMNS, NUMBER_COLUMNS};

/// What is told of a volume: its figures, or a number that stands alone, a refusal or the 1 of one that ended the reading.
#[derive(Clone, Copy, Debug, PartialEq, Eq)]
pub enum Told {
    Figures(Figures),
    Alone(u32),
}

/// What is told of a volume with wrong sizes or cut short.
pub const BROKEN: Told = Told::Alone(1);

/// The refusals of recovery that a page tells.
pub const REFUSALS: [u32; 4] = [2, 3, 4, 14];

/// The most volumes of a page, and the columns of a line.
const MOST_VOLUMES: usize = 32;
const COLUMNS: usize = 72;

/// The totals, and how many volumes they are of.
fn totals(all: &[Told]) -> (Figures, u32) {
    let (mut totals, mut counted) = (Figures::default(), 0);
    for told in all {
        if let Told::Figures(figures) = told {
            (0..4).for_each(|i| totals[i] += figures[i]);
            counted += 1;
        }
    }
    (totals, counted)
}

/// The page of these volumes.
pub fn page(all: &[Told]) -> String {
    let mut text = String::new();
    for (number, told) in (1..).zip(all) {
        text += &match told {
            Told::Figures([set, obsolete, exposed, needed]) => format!("{number:8}{set:16}{obsolete:16}{exposed:16}{needed:16}\n"),
            Told::Alone(alone) => format!("{number:8}{alone:16}{:48}\n", ""),
        };
    }
    let ([set, obsolete, exposed, needed], counted) = totals(all);
    let divisor = counted.max(1);
    text += &format!("{:8}{set:16}{obsolete:16}{exposed:16}{needed:16}\n", "");
    text + &format!("{:8}{:16}{:16}{:32}\n", "", set / divisor, set % divisor, "")
}

/// What must hold of a page whatever its volumes are; gives what is told of each.
pub fn assert_sound(page: &[u8]) -> Vec<Told> {
    let text = std::str::from_utf8(page).expect("a page is text").strip_suffix('\n').expect("the last line has its end");
    let lines: Vec<[Option<u32>; 5]> = text.split('\n').map(cells).collect();
    let [volumes @ .., totals_line, mean_line] = &lines[..] else { panic!("{} lines", lines.len()) };
    assert!(volumes.len() <= MOST_VOLUMES, "{} volumes", volumes.len());
    let all: Vec<Told> = (1..).zip(volumes).map(|(number, &cells)| told(number, cells)).collect();
    assert!(all.iter().rev().skip(1).all(|&told| told != BROKEN), "volumes behind the one that ended the reading:\n{text}");
    let ([set, obsolete, exposed, needed], counted) = totals(&all);
    assert_eq!(*totals_line, [None, Some(set), Some(obsolete), Some(exposed), Some(needed)], "the totals of\n{text}");
    let [None, Some(whole), Some(remainder), None, None] = *mean_line else { panic!("the mean of\n{text}") };
    assert_eq!(whole * counted + remainder, set, "the mean of\n{text}");
    assert!(remainder < counted.max(1) && (counted > 0 || whole == 0), "the mean of\n{text}");
    all
}

/// The numbers of a line, each right-aligned in its columns, or nothing where these are blank.
fn cells(line: &str) -> [Option<u32>; 5] {
    assert!(line.is_ascii() && line.len() == COLUMNS, "{} columns: {line:?}", line.len());
    let (mut cells, mut from) = ([None; 5], 0);
    for (cell, columns) in cells.iter_mut().zip([NUMBER_COLUMNS, FIGURE_COLUMNS, FIGURE_COLUMNS, FIGURE_COLUMNS, FIGURE_COLUMNS]) {
        let digits = line[from..from + columns].trim_start_matches(' ');
        from += columns;
        if !digits.is_empty() {
            let number: u32 = digits.parse().unwrap_or_else(|_| panic!("no number {digits:?}: {line:?}"));
            assert_eq!(number.to_string(), digits, "{line:?}");
            *cell = Some(number);
        }
    }
    assert_eq!(from, COLUMNS);
    cells
}

/// What a volume's line tells.
fn told(number: u32, cells: [Option<u32>; 5]) -> Told {
    assert_eq!(cells[0], Some(number), "the number of volume {number}");
    match cells {
        [_, Some(set), Some(obsolete), Some(exposed), Some(needed)] => {
            // Each page has a record with its committed version, which is neither.
            assert!(set <= 256 && obsolete + exposed < 1024, "volume {number}: {cells:?}");
            assert!(needed <= obsolete && (needed == 0 || exposed > 0), "volume {number}: {cells:?}");
            Told::Figures([set, obsolete, exposed, needed])
        }
        [_, Some(alone), None, None, None] => {
            assert!(alone == 1 || REFUSALS.contains(&alone), "volume {number} is told by {alone}");
            Told::Alone(alone)
        }
        _ => panic!("{cells:?}"),
    }
}

/// A page is what is expected, of which the first line that differs is shown, and what must hold of any page holds of it.
pub fn assert_prints(name: &str, got: &[u8], expected: &[u8]) {
    if got != expected {
        let [g, e] = [got, expected].map(String::from_utf8_lossy);
        let at = g.split_inclusive('\n').zip(e.split_inclusive('\n')).take_while(|(a, b)| a == b).count();
        let line = |text: &str| text.split_inclusive('\n').nth(at).map(String::from);
        panic!("{name}: line {} is {:?} for {:?}", at + 1, line(&g), line(&e));
    }
    assert_sound(got);
}
