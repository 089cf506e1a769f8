//! Document 01's script program over the calls, with document 02's widths: one call a line, decimal numbers, what each prints.

use crate::interface::{Arguments, Calls, Family, Name, NONE};
use crate::rules::{entry, lowest_slot};
use crate::volume::{Call, Sizes, Volume};
use std::io::{BufRead, Read, Write};

/// "Lines have at most 512 bytes", the LF not counted.
const LINE_BYTES: usize = 512;

/// "Lists 1 to 64 entries."
const LIST_ENTRIES: usize = 64;

/// A line of a script.
#[derive(Debug, PartialEq, Eq)]
pub enum Line {
    Format(Sizes),
    Launch(Vec<u32>),
    Write { page: u32, slot: u32, fill: u8 },
    Withdraw(u32),
    Erase(Vec<u32>),
    Cut,
    Recover,
    List,
}

impl Line {
    /// The call that the line makes on a volume of the width, if it makes one.
    pub fn call(&self, width: u32) -> Option<Call> {
        match *self {
            Line::Launch(ref pages) => Some(Call::Launch(pages.clone())),
            Line::Write { page, slot, fill } => Some(Call::Write { page, slot, bytes: vec![fill; width as usize] }),
            Line::Withdraw(page) => Some(Call::Withdraw(page)),
            Line::Erase(ref slots) => Some(Call::Erase(slots.clone())),
            Line::Recover => Some(Call::Recover),
            Line::Format(_) | Line::Cut | Line::List => None,
        }
    }
}

/// A decimal number of at most 4,294,967,295; leading zeros count for nothing.
fn number(text: &str) -> Option<u32> {
    if text.is_empty() || !text.bytes().all(|b| b.is_ascii_digit()) {
        return None;
    }
    text.bytes().try_fold(0u32, |n, b| n.checked_mul(10)?.checked_add(u32::from(b - b'0')))
}

fn list(text: &str) -> Option<Vec<u32>> {
    let entries: Vec<&str> = text.split(',').collect();
    if entries.len() > LIST_ENTRIES {
        return None;
    }
    entries.into_iter().map(number).collect()
}

/// "The script's format line may end in width=64, then with at most 512 slots (more prints answer=line); without it the width is 32."
fn sizes(pages: u32, slots: u32, ending: Option<&&str>) -> Option<Sizes> {
    let family = Family::Bpcc;
    match ending {
        None => Some(Sizes { family, pages, slots, width: 32 }),
        Some(&"width=64") if slots <= 512 => Some(Sizes { family, pages, slots, width: 64 }),
        Some(_) => None,
    }
}

/// The line's meaning, if it has one: fields as shown, one space between, nothing after the last.
pub fn parse(line: &[u8]) -> Option<Line> {
    if line.len() > LINE_BYTES {
        return None;
    }
    let fields: Vec<&str> = std::str::from_utf8(line).ok()?.split(' ').collect();
    let value = |i: usize, name: &str| fields[i].strip_prefix(name)?.strip_prefix('=');
    let one = |i: usize, name: &str| number(value(i, name)?);
    let many = |i: usize, name: &str| list(value(i, name)?);
    match (value(0, "op")?, fields.len()) {
        ("format", 3 | 4) => Some(Line::Format(sizes(one(1, "pages")?, one(2, "slots")?, fields.get(3))?)),
        ("launch", 2) => Some(Line::Launch(many(1, "pages")?)),
        ("write", 4) => Some(Line::Write { page: one(1, "page")?, slot: one(2, "slot")?, fill: u8::try_from(one(3, "fill")?).ok()? }),
        ("withdraw", 2) => Some(Line::Withdraw(one(1, "page")?)),
        ("erase", 2) => Some(Line::Erase(many(1, "slots")?)),
        ("cut", 1) => Some(Line::Cut),
        ("recover", 1) => Some(Line::Recover),
        ("list", 1) => Some(Line::List),
        _ => None,
    }
}

/// What a script prints.
pub fn run(calls: &dyn Calls, input: &[u8]) -> Vec<u8> {
    let mut printed = Vec::new();
    run_through(calls, input, &mut printed).expect("memory takes every byte");
    printed
}

/// Runs a script line by line from a reader to a writer.
pub fn run_through(calls: &dyn Calls, mut input: impl BufRead, mut output: impl Write) -> std::io::Result<()> {
    let mut volume = None;
    loop {
        let mut line = Vec::new();
        // One byte more than a line with its LF may have.
        if (&mut input).take(LINE_BYTES as u64 + 2).read_until(b'\n', &mut line)? == 0 {
            return Ok(());
        }
        if line.last() == Some(&b'\n') {
            line.pop();
        }
        match (parse(&line), &mut volume) {
            (Some(Line::Format(sizes)), volume) => output.write_all(format(calls, sizes, volume).as_bytes())?,
            (Some(line), Some(volume)) => output.write_all(step(calls, volume, line).as_bytes())?,
            _ => return output.write_all(b"answer=line\n"),
        }
    }
}

/// "A refused later format leaves the volume as it was", its width too.
fn format(calls: &dyn Calls, sizes: Sizes, volume: &mut Option<Volume>) -> String {
    let answer = match formatted(calls, sizes) {
        Ok(new) => {
            *volume = Some(new);
            0
        }
        Err(answer) => answer,
    };
    format!("answer={answer}\n")
}

/// The volume that a format line makes, or the number that refuses it.
pub fn formatted(calls: &dyn Calls, sizes: Sizes) -> Result<Volume, u32> {
    // Memory for the largest sizes at most: format refuses what is above.
    let mut new = Volume { sizes, ..Volume::zeroed(Sizes { pages: sizes.pages.min(256), slots: sizes.slots.min(1024), ..sizes }) };
    match new.format(calls).answer {
        0 => Ok(new),
        answer => Err(answer),
    }
}

/// What a line other than format does and prints.
fn step(calls: &dyn Calls, volume: &mut Volume, line: Line) -> String {
    match (&line, line.call(volume.sizes.width)) {
        (Line::Write { .. }, Some(call)) => {
            let reply = volume.call(calls, &call);
            format!("answer={} done={}\n", reply.answer, reply.second)
        }
        (_, Some(call)) => format!("answer={}\n", volume.call(calls, &call).answer),
        (Line::Cut, None) => {
            volume.state.fill(NONE);
            String::from("answer=0\n")
        }
        (_, None) => listing(calls, volume).unwrap_or_else(|answer| format!("answer={answer}\n")),
    }
}

/// One line for each page, or the number of the first read that is refused.
fn listing(calls: &dyn Calls, volume: &mut Volume) -> Result<String, u32> {
    let mut lines = String::new();
    for page in 0..volume.sizes.pages {
        let mut bytes = vec![0; volume.sizes.width as usize];
        let reply = volume.read(calls, page, &mut bytes);
        if reply.answer != 0 {
            return Err(reply.answer);
        }
        let version = entry(&volume.state, page).committed;
        let slot = lowest_slot(volume.sizes.family, &volume.words, page, version).expect("a page that was read has a slot");
        let drawn = calls.call(Name::Count, &mut Arguments { bytes: &bytes, ..Arguments::default() }).second;
        let is = if version == 0 { "empty" } else { "set" };
        lines += &format!("page={page} version={version} slot={slot} drawn={drawn} state={is}\n");
    }
    Ok(lines + "answer=0\n")
}
