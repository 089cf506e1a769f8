//! Programs that cut a script everywhere, wrong in one way each.

use crate::implementations::cuts_program::{Cutting, Right, Run, DROPPED};
use crate::implementations::script_program::{formatted, parse, Line};
use crate::interface::Calls;
use crate::ledger::Ledger;
use crate::volume::{Call, Volume};

wrong! {
    TriesNothing,
    TriesWithoutBeingTold,
    TriesWrongLists,
    TriesWithALostState,
    Takes255Lines,
    Takes257Lines,
    TakesEmptyLines,
    TakesCrLf,
    DropsALastLineWithoutLf,
    EndsInAnEmptyLine,
    TakesEmptyInput,
    TakesASecondFormat,
    SkipsARefusedFormat,
    SkipsLinesBeforeTheFormat,
    StopsAtAMalformedLine,
    CountsTheFormat,
    CountsRefusedCalls,
    CountsRecordsAlone,
    CountsOpCut,
    CountsACutBetweenCalls,
    CountsWritesAlone,
    BlanksFalling,
    BlanksInTheListsOrder,
    BlanksAtOnce,
    BlanksEachAlone,
    CutsBeforeEachSlot,
    CompletesNoRing,
    KeepsEveryWrite,
    EntersRefusedWrites,
    WithdrawKeepsRingsOpen,
    RecoverKeepsRingsOpen,
    RecoversBehindOpCut,
    GoesOnFromTheCut,
    LedgerGoesOnFromTheCut,
    TakesARefusalForSame,
    ComparesTheFirstPage,
    ComparesTheLastPage,
    ComparesVersions,
    ComparesWithTheRun,
}

/// The right decision, or what is wrong.
impl Cutting for Wrong {
    fn dropped(&self, trial: bool) -> &'static [u32] {
        match self {
            Wrong::TriesNothing => &[],
            Wrong::TriesWithoutBeingTold => DROPPED,
            Wrong::TriesWrongLists if trial => &[6, 12],
            Wrong::TriesWithALostState if trial => &[5, 12],
            _ => Right.dropped(trial),
        }
    }

    fn lines<'a>(&self, input: &'a [u8]) -> Vec<&'a [u8]> {
        let mut lines = Right.lines(input);
        match self {
            Wrong::TakesEmptyLines => lines.retain(|line| !line.is_empty()),
            Wrong::TakesCrLf => lines.iter_mut().for_each(|line| *line = line.strip_suffix(b"\r").unwrap_or(line)),
            Wrong::DropsALastLineWithoutLf if !input.ends_with(b"\n") => drop(lines.pop()),
            Wrong::EndsInAnEmptyLine if input.ends_with(b"\n") => lines.push(b""),
            Wrong::TakesEmptyInput if input.is_empty() => lines.push(b"op=format pages=1 slots=1"),
            Wrong::StopsAtAMalformedLine => lines.truncate(lines.iter().take_while(|line| parse(line).is_some()).count()),
            _ => {}
        }
        lines
    }

    fn most_lines(&self) -> usize {
        match self {
            Wrong::Takes255Lines => 255,
            Wrong::Takes257Lines => 257,
            _ => Right.most_lines(),
        }
    }

    fn script(&self, calls: &dyn Calls, mut lines: Vec<&[u8]>) -> Option<(Volume, Vec<Line>)> {
        let format = |line: &[u8]| match parse(line) {
            Some(Line::Format(sizes)) => Some(formatted(calls, sizes).is_ok()),
            _ => None,
        };
        let leading = |lines: &[&[u8]], skipped| lines.iter().take_while(|line| format(line) == skipped).count();
        match self {
            Wrong::TakesASecondFormat => {
                let mut first = true;
                lines.retain(|line| format(line).is_none() || std::mem::take(&mut first));
            }
            Wrong::SkipsARefusedFormat => drop(lines.drain(..leading(&lines, Some(false)))),
            Wrong::SkipsLinesBeforeTheFormat => drop(lines.drain(..leading(&lines, None))),
            _ => {}
        }
        Right.script(calls, lines)
    }

    fn slots(&self, call: &Call, answer: u32) -> Vec<u32> {
        let mut slots = Right.slots(call, answer);
        match (self, call) {
            (Wrong::CountsRefusedCalls, Call::Write { .. } | Call::Erase(_)) => slots = Right.slots(call, 0),
            (Wrong::CountsWritesAlone, Call::Erase(_)) => slots.clear(),
            (Wrong::BlanksFalling, _) => slots.reverse(),
            (Wrong::BlanksInTheListsOrder, Call::Erase(list)) if answer == 0 => slots.clone_from(list),
            _ => {}
        }
        slots
    }

    fn flashes(&self, slots: &[u32], before: &Volume, after: &Volume) -> Vec<Volume> {
        // A refused call may name a slot that is not there.
        let slots: &[u32] = &slots.iter().copied().filter(|&k| k < before.sizes.slots).collect::<Vec<_>>();
        match self {
            Wrong::BlanksAtOnce => Right.flashes(slots, before, after).pop().into_iter().collect(),
            Wrong::BlanksEachAlone => slots.iter().flat_map(|&k| Right.flashes(&[k], before, after)).collect(),
            Wrong::CutsBeforeEachSlot => {
                [before.clone()].into_iter().chain(Right.flashes(slots, before, after)).take(slots.len()).collect()
            }
            Wrong::CountsRecordsAlone => {
                let altered: Vec<u32> = slots.iter().copied().filter(|&k| before.slot(k) != after.slot(k)).collect();
                Right.flashes(&altered, before, after)
            }
            _ => Right.flashes(slots, before, after),
        }
    }

    fn cut(&self, ledger: &mut Ledger, call: &Call) {
        match self {
            Wrong::CompletesNoRing => ledger.crashed(None),
            Wrong::KeepsEveryWrite => {
                ledger.crashed(None);
                if let Call::Write { page, .. } = call {
                    ledger.called(&Call::Launch(vec![*page]), 0);
                }
                Right.cut(ledger, call);
            }
            _ => Right.cut(ledger, call),
        }
    }

    fn is_same(&self, run: &Run, flash: Volume, ledger: &Ledger) -> bool {
        let page_is_same = |page: u32| run.recovered(flash.clone()).is_some_and(|contents| contents[page as usize] == ledger.kept(page));
        match self {
            Wrong::TakesARefusalForSame if run.recovered(flash.clone()).is_none() => true,
            Wrong::ComparesTheFirstPage => page_is_same(0),
            Wrong::ComparesTheLastPage => page_is_same(flash.sizes.pages - 1),
            Wrong::ComparesVersions => run.recover(flash).is_some_and(|v| v.committed() == run.volume.committed()),
            Wrong::ComparesWithTheRun => run.recovered(flash) == run.read(run.volume.clone()),
            _ => Right.is_same(run, flash, ledger),
        }
    }

    fn tell(&self, ledger: &mut Ledger, call: &Call, answer: u32) {
        match (self, call) {
            (Wrong::WithdrawKeepsRingsOpen, Call::Withdraw(_)) | (Wrong::RecoverKeepsRingsOpen, Call::Recover) => {}
            (Wrong::EntersRefusedWrites, Call::Write { .. }) => ledger.called(call, 0),
            (Wrong::LedgerGoesOnFromTheCut, Call::Write { .. } | Call::Erase(_)) if answer == 0 => ledger.crashed(Some((call, true))),
            _ => Right.tell(ledger, call, answer),
        }
    }

    fn besides(&self, run: &mut Run, line: &Line) {
        let ledger = run.ledger.clone();
        match (self, line) {
            (Wrong::CountsTheFormat, Line::Format(_)) => (0..run.volume.sizes.slots).for_each(|_| run.count(run.volume.clone(), &ledger)),
            (Wrong::CountsOpCut, Line::Cut) => run.count(run.volume.clone(), &ledger),
            (Wrong::CountsACutBetweenCalls, _) if line.call(0).is_some() => run.count(run.volume.clone(), &ledger),
            (Wrong::RecoversBehindOpCut, Line::Cut) | (Wrong::GoesOnFromTheCut, Line::Write { .. } | Line::Erase(_)) => {
                let answer = run.volume.call(run.calls, &Call::Recover).answer;
                run.ledger.called(&Call::Recover, answer);
            }
            _ => {}
        }
    }
}
