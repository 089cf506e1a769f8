//! Programs that print the page for the service van, wrong in one way each.

mod counting;
mod faults;

use crate::cleaning::Test;
use crate::implementations::reference::with;
use crate::implementations::van_program::{content_bytes, line, lines, word_bytes, Figures, Found, Right, Surveying};
use crate::interface::{Calls, Name};
use crate::rules::Record;
use crate::volume::{Sizes, Volume};
use counting::{is_exposed, is_needed, is_obsolete, is_set, wrong_figures, wrong_records};
pub use faults::{Wrong, WRONG};

/// The right decision, or what is wrong.
impl Surveying for Wrong {
    fn most_volumes(&self) -> usize {
        match self {
            Wrong::Reads31Volumes => 31,
            Wrong::Reads33Volumes => 33,
            _ => Right.most_volumes(),
        }
    }

    fn is_volume(&self, header: &[u8]) -> bool {
        match self {
            Wrong::TakesNoInputForAVolume => true,
            Wrong::TakesNoPartOfAHeaderForAVolume => Right.sizes(header).is_some(),
            _ => Right.is_volume(header),
        }
    }

    fn sizes(&self, header: &[u8]) -> Option<Sizes> {
        let sizes = Right.sizes(header)?;
        let each = |f: fn(u32) -> u32| Sizes { pages: f(sizes.pages), slots: f(sizes.slots), width: f(sizes.width), ..sizes };
        Some(match self {
            Wrong::ReadsHighestByteFirst | Wrong::ReadsSizesHighestByteFirst => each(u32::swap_bytes),
            Wrong::ReadsSizesOf16Bits => each(|size| size & 0xFFFF),
            Wrong::TakesEveryWidthFor32 if sizes.width == 64 => Sizes { width: 32, ..sizes },
            _ => sizes,
        })
    }

    fn sizes_right(&self, sizes: Sizes) -> bool {
        let Sizes { pages, slots, width, .. } = sizes;
        let right = Right.sizes_right(sizes);
        match self {
            Wrong::TakesAnyWidth if width < 1000 => right || Right.sizes_right(Sizes { width: 32, ..sizes }),
            Wrong::TakesNoPages if pages == 0 => Right.sizes_right(Sizes { pages: 1, ..sizes }),
            Wrong::Takes257Pages if pages == 257 => Right.sizes_right(Sizes { pages: 256, ..sizes }),
            Wrong::Takes1025Slots if slots == 1025 => Right.sizes_right(Sizes { slots: 1024, ..sizes }),
            Wrong::TakesFewerSlotsThanPages if slots < pages => Right.sizes_right(Sizes { pages: 1, ..sizes }),
            Wrong::Takes513SlotsOf64 if slots == 513 => Right.sizes_right(Sizes { slots: 512, ..sizes }),
            Wrong::Takes1024SlotsOf64 if width == 64 => Right.sizes_right(Sizes { width: 32, ..sizes }),
            Wrong::Refuses512SlotsOf64 if width == 64 => right && slots < 512,
            Wrong::Refuses1024Slots => right && slots < 1024,
            Wrong::Refuses256Pages => right && pages < 256,
            Wrong::RefusesAsManySlotsAsPages => right && slots > pages,
            _ => right,
        }
    }

    fn volume(&self, sizes: Sizes, mut bytes: Vec<u8>) -> Option<Volume> {
        let whole = (word_bytes(sizes) + content_bytes(sizes)) as usize;
        match self {
            Wrong::TakesVolumesCutInTheContents if bytes.len() as u64 >= word_bytes(sizes) => bytes.resize(whole, 255),
            Wrong::TakesVolumesCutInTheWords => bytes.resize(whole, 255),
            _ => {}
        }
        let mut volume = Right.volume(sizes, bytes)?;
        if matches!(self, Wrong::ReadsHighestByteFirst | Wrong::ReadsWordsHighestByteFirst) {
            volume.words.iter_mut().for_each(|word| *word = word.swap_bytes());
        }
        Some(volume)
    }

    fn recovered(&self, calls: &dyn Calls, mut volume: Volume) -> Found {
        let twins: Test = match self {
            Wrong::RecoversWithoutContents => |v, k, l| v.slot(k) == v.slot(l),
            Wrong::RecoversByTheFirst32Bytes => |v, k, l| v.slot(k) == v.slot(l) && v.bytes(k)[..32] == v.bytes(l)[..32],
            Wrong::RecoversWithoutTwins => |_, _, _| false,
            _ => return Right.recovered(calls, volume),
        };
        match with(twins, Name::Recover, &mut volume.arguments()).answer {
            0 => Found::Recovered(volume),
            answer => Found::Refused(volume, answer),
        }
    }

    fn ends_reading(&self, found: &Found) -> bool {
        match self {
            Wrong::GoesOnBehindWrongSizes => false,
            Wrong::StopsAtARefusal => !matches!(found, Found::Recovered(_)),
            _ => Right.ends_reading(found),
        }
    }

    fn is_set(&self, volume: &Volume, page: u32) -> bool {
        is_set(*self, volume, page)
    }

    fn records(&self, volume: &Volume) -> Vec<(u32, Record)> {
        wrong_records(*self, volume)
    }

    fn is_obsolete(&self, volume: &Volume, r: Record) -> bool {
        is_obsolete(*self, volume, r)
    }

    fn is_exposed(&self, volume: &Volume, r: Record) -> bool {
        is_exposed(*self, volume, r)
    }

    fn is_needed(&self, volume: &Volume, table: &[(u32, Record)], k: Record) -> bool {
        is_needed(*self, volume, table, k)
    }

    fn figures(&self, volume: &Volume) -> Figures {
        wrong_figures(*self, volume)
    }

    fn told(&self, found: &Found) -> Vec<u32> {
        match (self, found) {
            (Wrong::PrintsZeroForBroken, Found::Broken) => vec![0],
            (Wrong::PrintsRefusalsAsOne, Found::Refused(..)) => vec![1],
            (Wrong::PrintsZerosBehindRefusals, Found::Refused(_, answer)) => vec![*answer, 0, 0, 0],
            (Wrong::PrintsFiguresOfRefused, Found::Refused(volume, _)) => self.figures(&unset(volume)).to_vec(),
            (_, Found::Recovered(volume)) => self.figures(volume).to_vec(),
            _ => Right.told(found),
        }
    }

    fn adds(&self, found: &Found) -> Figures {
        match (self, found) {
            (Wrong::AddsRefusals, Found::Refused(_, answer)) => [*answer, 0, 0, 0],
            (Wrong::AddsOnes, Found::Broken) => [1, 0, 0, 0],
            (Wrong::AddsFiguresOfRefused, Found::Refused(volume, _)) => self.figures(&unset(volume)),
            (_, Found::Recovered(volume)) => self.figures(volume),
            _ => Right.adds(found),
        }
    }

    fn is_counted(&self, found: &Found) -> bool {
        match (self, found) {
            (Wrong::CountsRefusedInTheMean, Found::Refused(..)) | (Wrong::CountsBrokenInTheMean, Found::Broken) => true,
            (Wrong::CountsAllInTheMean, _) => true,
            _ => Right.is_counted(found),
        }
    }

    fn mean(&self, set: u32, volumes: u32) -> Vec<u32> {
        let [whole, remainder] = Right.mean(set, volumes)[..] else { unreachable!("a mean has two numbers") };
        match self {
            Wrong::MeanOver32 => Right.mean(set, 32),
            Wrong::RemainderOver32 => vec![whole, set % 32],
            Wrong::RoundsTheMean if 2 * remainder > volumes => vec![whole + 1, remainder],
            Wrong::PrintsNoRemainder => vec![whole],
            Wrong::ExchangesMeanAndRemainder => vec![remainder, whole],
            Wrong::PrintsNoMeanOfNone if volumes == 0 => vec![],
            _ => vec![whole, remainder],
        }
    }

    fn number(&self, before: usize) -> u32 {
        Right.number(before) - u32::from(*self == Wrong::NumbersFromZero)
    }

    fn cell(&self, number: Option<u32>, columns: usize) -> String {
        let cell = Right.cell(number, columns);
        match self {
            Wrong::LeftAligned => format!("{:columns$}", cell.trim_start()),
            Wrong::PadsWithZeros if number.is_some() => cell.replace(' ', "0"),
            _ => cell,
        }
    }

    fn line(&self, number: Option<u32>, figures: &[u32]) -> String {
        let line = line(self, number, figures);
        match self {
            Wrong::LineOf71Columns => format!("{}\n", &line[1..]),
            Wrong::LineOf73Columns => format!("{line} \n"),
            Wrong::PadsNoLine => format!("{}\n", line.trim_end()),
            Wrong::EndsLinesWithCrLf => format!("{line}\r\n"),
            _ => format!("{line}\n"),
        }
    }

    fn lines(&self, all: &[Found]) -> Vec<String> {
        let mut lines = lines(self, all);
        let volumes = all.len();
        match self {
            Wrong::PrintsRefusalsInTheNextColumn => {
                let refused = lines.iter_mut().zip(all).filter(|(_, found)| matches!(found, Found::Refused(..)));
                refused.for_each(|(line, _)| *line = format!("{}{:16}{}\n", &line[..8], "", &line[8..56]));
            }
            Wrong::NumbersCountedAlone => {
                let mut number = 0;
                for (line, found) in lines.iter_mut().zip(all) {
                    number += u32::from(Right.is_counted(found));
                    *line = self.line(Some(number), &self.told(found));
                }
            }
            Wrong::AddsTheLastVolumeAlone => {
                lines[volumes] = self.line(None, &all.last().map_or(Figures::default(), |found| self.adds(found)));
            }
            Wrong::NumbersTheTotals => lines[volumes].replace_range(..8, &self.cell(Some(volumes as u32), 8)),
            Wrong::NoTotals => drop(lines.remove(volumes)),
            Wrong::NoTotalsWithoutVolumes if volumes == 0 => lines.clear(),
            Wrong::NoMean => drop(lines.pop()),
            Wrong::MeanBeforeTotals => lines.swap(volumes, volumes + 1),
            Wrong::MeanInTheLastColumns => {
                let mean = &lines[volumes + 1];
                lines[volumes + 1] = format!("{}{}{}\n", &mean[..8], &mean[40..72], &mean[8..40]);
            }
            _ => {}
        }
        lines
    }

    fn page(&self, all: &[Found]) -> String {
        let mut page = self.lines(all).concat();
        match self {
            Wrong::NoLastLineEnd => drop(page.pop()),
            Wrong::ALineEndMore => page.push('\n'),
            _ => {}
        }
        page
    }
}

/// A volume that does not recover, as if no page of it were set: what is not sound in it is blank.
fn unset(volume: &Volume) -> Volume {
    let mut v = volume.clone();
    v.state.fill(0);
    let unsound: Vec<u32> = v.records().into_iter().filter(|(_, r)| !r.is_sound(v.sizes.pages)).map(|(k, _)| k).collect();
    v.blank(&unsound);
    v
}
