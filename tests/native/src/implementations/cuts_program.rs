//! Document 02's program that cuts a recorded script everywhere, over the calls: wish 12, a sentence a function.

use super::script_program::{formatted, parse, Line};
use crate::interface::{Arguments, Calls, Name, Reply, NONE};
use crate::ledger::Ledger;
use crate::rules::set_slot;
use crate::volume::{Call, Volume};

/// What the program prints on a script, in a trial or by our own erase.
pub fn run(calls: &dyn Calls, trial: bool, input: &[u8]) -> Vec<u8> {
    run_as(&Right, calls, trial, input)
}

/// The same, by the decisions of a right program or of a wrong one.
pub fn run_as(cutting: &dyn Cutting, calls: &dyn Calls, trial: bool, input: &[u8]) -> Vec<u8> {
    let calls = &Trial { calls, dropped: cutting.dropped(trial) };
    let lines = cutting.lines(input);
    let script = if lines.len() > cutting.most_lines() { None } else { cutting.script(calls, lines) };
    let printed = match script {
        Some((volume, lines)) => Run::new(cutting, calls, volume).through(&lines),
        None => String::from("answer=line\n"),
    };
    printed.into_bytes()
}

/// The calls with a trial erase: where it would be refused by one of some numbers all listed slots are blanked and it answers 0.
pub struct Trial<'a> {
    pub calls: &'a dyn Calls,
    pub dropped: &'static [u32],
}

/// The refusal that a trial erase drops.
pub const DROPPED: &[u32] = &[12];

impl Calls for Trial<'_> {
    fn call(&self, name: Name, a: &mut Arguments) -> Reply {
        let reply = self.calls.call(name, a);
        if name != Name::Erase || !self.dropped.contains(&reply.answer) {
            return reply;
        }
        for &k in a.list.iter().filter(|&&k| k < a.slots) {
            set_slot(a.layout(), a.words, a.contents, k, None);
        }
        Reply::done(0)
    }
}

/// What the program decides.
pub trait Cutting {
    /// "A trial erase that never answers 12."
    fn dropped(&self, trial: bool) -> &'static [u32] {
        if trial {
            DROPPED
        } else {
            &[]
        }
    }

    /// A line ends at LF, the last one at the end of the input too.
    fn lines<'a>(&self, input: &'a [u8]) -> Vec<&'a [u8]> {
        input.split_inclusive(|&b| b == b'\n').map(|line| line.strip_suffix(b"\n").unwrap_or(line)).collect()
    }

    /// "Up to 256 lines", the format line among them.
    fn most_lines(&self) -> usize {
        256
    }

    /// The formatted volume and every line; nothing where there is "a malformed line, a missing or refused first format line, a second
    /// format line".
    fn script(&self, calls: &dyn Calls, lines: Vec<&[u8]>) -> Option<(Volume, Vec<Line>)> {
        let lines = lines.into_iter().map(parse).collect::<Option<Vec<Line>>>()?;
        match lines.split_first()? {
            (Line::Format(sizes), others) if !others.iter().any(|line| matches!(line, Line::Format(_))) => {
                Some((formatted(calls, *sizes).ok()?, lines))
            }
            _ => None,
        }
    }

    /// "After each flash slot stored or blanked …, in rising slot order within an erase."
    fn slots(&self, call: &Call, answer: u32) -> Vec<u32> {
        match call {
            Call::Write { slot, .. } if answer == 0 => vec![*slot],
            Call::Erase(list) if answer == 0 => {
                let mut slots = list.clone();
                slots.sort_unstable();
                slots
            }
            _ => Vec::new(),
        }
    }

    /// The flash at the cut behind each of these slots, in this order.
    fn flashes(&self, slots: &[u32], before: &Volume, after: &Volume) -> Vec<Volume> {
        let mut done = before.clone();
        let cut = |&k: &u32| {
            done.copy_slot(after, k);
            done.clone()
        };
        slots.iter().map(cut).collect()
    }

    /// "A write whose slot it left stored is entered as if it had answered 0. Then every open ring closes."
    fn cut(&self, ledger: &mut Ledger, call: &Call) {
        ledger.crashed(Some((call, true)));
    }

    /// Not "cuts whose recovery refuses or whose contents are not those of the last completed rings".
    fn is_same(&self, run: &Run, flash: Volume, ledger: &Ledger) -> bool {
        run.recovered(flash).is_some_and(|contents| (0..).zip(&contents).all(|(page, bytes)| bytes == ledger.kept(page)))
    }

    /// The run's ledger is told a call and its answer.
    fn tell(&self, ledger: &mut Ledger, call: &Call, answer: u32) {
        ledger.called(call, answer);
    }

    /// What a wrong program does besides, behind a line.
    fn besides(&self, _run: &mut Run, _line: &Line) {}
}

/// The right program.
pub struct Right;

impl Cutting for Right {}

/// A run, and what has become of its volume and its ledger; no cut that is counted alters it.
pub struct Run<'a> {
    cutting: &'a dyn Cutting,
    pub calls: &'a dyn Calls,
    pub volume: Volume,
    pub ledger: Ledger,
    same: u32,
    differ: u32,
}

impl<'a> Run<'a> {
    fn new(cutting: &'a dyn Cutting, calls: &'a dyn Calls, volume: Volume) -> Run<'a> {
        let ledger = Ledger::new(volume.sizes);
        Run { cutting, calls, volume, ledger, same: 0, differ: 0 }
    }

    /// "Print only one line, cuts= same= differ= each with its number."
    fn through(mut self, lines: &[Line]) -> String {
        for line in lines {
            self.step(line);
            self.cutting.besides(&mut self, line);
        }
        let Run { same, differ, .. } = self;
        format!("cuts={} same={same} differ={differ}\n", same + differ)
    }

    fn step(&mut self, line: &Line) {
        match (line, line.call(self.volume.sizes.width)) {
            (_, Some(call)) => self.call(&call),
            (Line::Cut, None) => {
                self.volume.state.fill(NONE);
                self.ledger.crashed(None);
            }
            // The format is done before the run, and a list alters nothing.
            (_, None) => {}
        }
    }

    /// Makes a call and cuts it behind each slot.
    fn call(&mut self, call: &Call) {
        let before = self.volume.clone();
        let answer = self.volume.call(self.calls, call).answer;
        let slots = self.cutting.slots(call, answer);
        let mut ledger = self.ledger.clone();
        self.cutting.cut(&mut ledger, call);
        for flash in self.cutting.flashes(&slots, &before, &self.volume) {
            self.count(flash, &ledger);
        }
        self.cutting.tell(&mut self.ledger, call, answer);
    }

    /// Counts a cut that leaves this flash.
    pub fn count(&mut self, flash: Volume, ledger: &Ledger) {
        if self.cutting.is_same(self, flash, ledger) {
            self.same += 1;
        } else {
            self.differ += 1;
        }
    }

    /// The volume as recovery leaves it, or nothing where it refuses.
    pub fn recover(&self, mut flash: Volume) -> Option<Volume> {
        flash.state.fill(NONE);
        (flash.call(self.calls, &Call::Recover).answer == 0).then_some(flash)
    }

    /// The contents of all pages as recovery finds them, or nothing where it refuses.
    pub fn recovered(&self, flash: Volume) -> Option<Vec<Vec<u8>>> {
        self.read(self.recover(flash)?)
    }

    /// The contents of all pages by the state of a volume, or nothing where a read is refused.
    pub fn read(&self, mut volume: Volume) -> Option<Vec<Vec<u8>>> {
        let [pages, width] = [volume.sizes.pages, volume.sizes.width];
        let read = |page| {
            let mut bytes = vec![0; width as usize];
            (volume.read(self.calls, page, &mut bytes).answer == 0).then_some(bytes)
        };
        (0..pages).map(read).collect()
    }
}
