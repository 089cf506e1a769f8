//! Inputs written by hand, with the page that is printed on each.

use super::edges::{cut_short, header, limits, numbers, wrong_sizes};
use super::page::{page, Told};
use super::volumes::{by_name, counted, full, refused, sizes, Listed};
use crate::interface::other_width;

/// An input that has a name, and what is printed on it.
pub struct Given {
    pub name: String,
    pub input: Vec<u8>,
    pub output: Vec<u8>,
}

/// The input of these volumes.
pub fn given(name: &str, volumes: &[Listed]) -> Given {
    given_and(name, volumes, &[], &[])
}

/// The input of these volumes, and more bytes behind them, of which this is told besides.
pub fn given_and(name: &str, volumes: &[Listed], more: &[u8], besides: &[Told]) -> Given {
    let told: Vec<Told> = volumes.iter().map(|volume| volume.told).chain(besides.iter().copied()).collect();
    Given { name: String::from(name), input: [joined(volumes), more.to_vec()].concat(), output: page(&told).into_bytes() }
}

/// The bytes of these volumes, one behind the other.
pub fn joined(volumes: &[Listed]) -> Vec<u8> {
    volumes.iter().flat_map(|volume| volume.bytes.iter().copied()).collect()
}

/// The hand-written inputs, of volumes of a width, and of both: the longest last.
pub fn by_hand(width: u32) -> Vec<Given> {
    let mut all = written_out(width);
    for volume in counted(width).into_iter().chain(refused(width)) {
        all.push(given(&format!("{} alone", volume.name), &[volume]));
    }
    for volume in refused(width) {
        let [before, behind, last] = ["case 6", "one straddler for two", "case 3"].map(|name| by_name(width, name));
        all.push(given(&format!("{} between others", volume.name), &[before, volume, behind, last]));
    }
    for (which, width) in [("", width), (" of the other width", other_width(width))] {
        all.push(given(&format!("all{which} that recover"), &counted(width)));
        all.push(given(&format!("all{which} that do not recover"), &refused(width)));
    }
    all.extend(wrong_sizes(width));
    all.extend(cut_short(width));
    all.extend(limits());
    all.extend(numbers(width));
    all.push(given("32 volumes of 1,024 slots by 32", &vec![full(); 32]));
    all
}

/// Inputs whose pages are written out; volumes by their names, of which some are of the other width.
fn written_out(width: u32) -> Vec<Given> {
    let volume = |name: &str| match name.strip_prefix("other: ") {
        Some(name) => by_name(other_width(width), name),
        None => by_name(width, name),
    };
    let volumes = |names: &[&str]| joined(&names.iter().map(|name| volume(name)).collect::<Vec<Listed>>());
    let written = |name: &str, input: Vec<u8>, page: &str| Given { name: String::from(name), input, output: page.as_bytes().to_vec() };
    let refused = ["a word of a blank slot", "case 3", "equal words, other bytes", "case 9", "other: a set of five pages", "case 10"];
    let wrong = [volumes(&["case 3", "case 10", "other: case 6"]), header(sizes(3, 2, width)), volumes(&["case 6", "case 3"])];
    vec![
        written("no input", Vec::new(), NOTHING),
        written("a formatted volume", volumes(&["formatted"]), FORMATTED),
        written("case 6, its exposed record alone, its twins", volumes(&["case 6", "case 2", "case 6 with twins"]), STRADDLERS),
        written("both widths", volumes(&["case 6", "other: case 6", "other: a set of five pages", "case 3"]), WIDTHS),
        written("what does not recover", volumes(&refused), REFUSALS),
        written("nothing that recovers", volumes(&["case 10", "other: case 9"]), NOTHING_RECOVERS),
        written("wrong sizes behind others, and others behind them", wrong.concat(), WRONG_SIZES),
    ]
}

/// What is printed without a volume.
const NOTHING: &str = concat!(
    "                       0               0               0               0\n",
    "                       0               0                                \n",
);

const FORMATTED: &str = concat!(
    "       1               0               0               0               0\n",
    "                       0               0               0               0\n",
    "                       0               0                                \n",
);

const STRADDLERS: &str = concat!(
    "       1               2               3               1               1\n",
    "       2               0               0               1               0\n",
    "       3               2               5               3               2\n",
    "                       4               8               5               3\n",
    "                       1               1                                \n",
);

const WIDTHS: &str = concat!(
    "       1               2               3               1               1\n",
    "       2               2               3               1               1\n",
    "       3               5               5               0               0\n",
    "       4               2               2               0               0\n",
    "                      11              13               2               2\n",
    "                       2               3                                \n",
);

const REFUSALS: &str = concat!(
    "       1               2                                                \n",
    "       2               2               2               0               0\n",
    "       3               3                                                \n",
    "       4               4                                                \n",
    "       5               5               5               0               0\n",
    "       6              14                                                \n",
    "                       7               7               0               0\n",
    "                       3               1                                \n",
);

const NOTHING_RECOVERS: &str = concat!(
    "       1              14                                                \n",
    "       2               4                                                \n",
    "                       0               0               0               0\n",
    "                       0               0                                \n",
);

const WRONG_SIZES: &str = concat!(
    "       1               2               2               0               0\n",
    "       2              14                                                \n",
    "       3               2               3               1               1\n",
    "       4               1                                                \n",
    "                       4               5               1               1\n",
    "                       2               0                                \n",
);
