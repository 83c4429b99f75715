//! A show file as a desk loads it.
use crate::anew::{self, Anew};
use crate::passed::{passed, Passed};
use crate::records;
use sphairune::{Desk, Memory, Patched, Refused, Report, Totals};

/// The two loads of paper 01 and paper 02.
#[derive(Clone, Copy, PartialEq, Eq)]
pub enum Load {
    /// Memories keep the numbers that they have.
    Normal,
    /// With translation: they are numbered anew.
    Translated,
}

/// A stream loaded into an emptied desk.
pub struct Show {
    /// As the user named the file; "standard input" for `-`.
    pub name: String,
    pub desk: Desk,
    pub load: Load,
    pub stream: Vec<u8>,
    pub store: Vec<u8>,
    pub totals: Totals,
    /// All of them, in order.
    pub reports: Vec<Report>,
}

impl Show {
    pub fn load(name: String, desk: Desk, load: Load, stream: Vec<u8>) -> Result<Show, Refused> {
        let mut store = vec![0; desk.needed()?];
        let mut list = vec![0; stream.len() + 1]; // one more than the bytes: such a list never fills
        desk.empty(&mut store)?;
        let totals = match load {
            Load::Normal => desk.load(&mut store, &stream, &mut list)?,
            Load::Translated => desk.translate(&mut store, &stream, &mut list)?,
        };
        let reports = totals.stored(&list).collect();
        Ok(Show { name, desk, load, stream, store, totals, reports })
    }

    pub fn is_translated(&self) -> bool {
        self.load == Load::Translated
    }

    /// Whether a report is of no record: 0100 is of the stream's end, and a lost link is told there.
    pub fn is_of_the_end(&self, report: &Report) -> bool {
        report.condition == 100 || self.is_lost_link(report)
    }

    /// With translation the number of a CUE, a GROUP or a LINK refuses none of them, so that 0041 is of lost links alone.
    pub fn is_lost_link(&self, report: &Report) -> bool {
        self.is_translated() && report.condition == 41
    }

    /// The records read, as received, in order: record n of a report is `records()[n - 1]`.
    pub fn records(&self) -> Vec<&[u8]> {
        let mut read = records::records(&self.stream);
        read.truncate(self.totals.records() as usize);
        read
    }

    /// By page and number.
    pub fn cues(&self) -> Vec<Memory<'_>> {
        kept(self.desk.cues(&self.store))
    }

    /// By page and number.
    pub fn groups(&self) -> Vec<Memory<'_>> {
        kept(self.desk.groups(&self.store))
    }

    /// By page and number.
    pub fn submasters(&self) -> Vec<Memory<'_>> {
        kept(self.desk.submasters(&self.store))
    }

    /// By page and dimmer.
    pub fn patch(&self) -> Vec<Patched> {
        self.desk.patch(&self.store).expect(LOADED).collect()
    }

    /// What was passed over, the most frequent first.
    pub fn passed(&self) -> Vec<Passed> {
        passed(self)
    }

    /// What was numbered anew, in the order of the stream; nothing where the load was the normal one.
    pub fn anew(&self) -> Vec<Anew> {
        match self.load {
            Load::Normal => Vec::new(),
            Load::Translated => anew::anew(self),
        }
    }

    /// How many cues were refused for their number or page, which a load with translation does not look at.
    pub fn cues_refused(&self) -> usize {
        let records = self.records();
        let is_cue = |record: &[u8]| records::keyword(record).is_some_and(|keyword| records::is_keyword(&keyword, "CUE"));
        let blamed = self.reports.iter().filter(|r| matches!(r.condition, 41..=43) && !self.is_of_the_end(r));
        blamed.filter(|r| is_cue(records[r.record as usize - 1])).count()
    }

    /// The highest channel that a 0201 report blames, where channels were out of range; a channel 0 asks for no larger desk.
    pub fn channels_asked(&self) -> Option<u32> {
        let records = self.records();
        let blamed = self.reports.iter().filter(|r| r.condition == 201);
        blamed.map(|r| channel(&records[r.record as usize - 1][r.column as usize - 1..])).max().filter(|&channel| channel != 0)
    }
}

/// No call refuses a store that a load has just filled.
const LOADED: &str = "a loaded store is in good form";

fn kept<'a>(memories: Result<impl Iterator<Item = Memory<'a>>, Refused>) -> Vec<Memory<'a>> {
    memories.expect(LOADED).collect()
}

/// The integer that stands here; a long one is the largest there is.
fn channel(characters: &[u8]) -> u32 {
    records::field(characters).parse().unwrap_or(u32::MAX)
}

#[cfg(test)]
mod tests {
    use super::*;

    fn show(stream: &[u8]) -> Show {
        Show::load("test".into(), Desk::HOUSE, Load::Normal, stream.to_vec()).unwrap()
    }

    #[test]
    fn channels_that_the_desk_lacks() {
        let asked = |stream: &str| show(stream.as_bytes()).channels_asked();
        assert_eq!(asked("CUE 1\nCHAN 96@50 97@50 9\x01\x02120@50 100@50\nENDDATA\n"), Some(9120));
        assert_eq!(asked("CUE 1\nCHAN 99999999999999999999@50\n"), Some(u32::MAX));
        assert_eq!(asked("CUE 1\nCHAN 0@50\nPATCH 1 0097<1@50\n"), Some(97));
        assert_eq!(asked("CUE 1\nCHAN 0@50 x@50\n"), None);
        assert_eq!(asked("CUE 1\nCHAN 96@50\n"), None);
    }

    #[test]
    fn records_behind_the_end_are_not_read() {
        let show = show(b"CUE 1\r\n\r\nENDDATA\r\nCUE 2\r\n");
        assert_eq!(show.records(), [b"CUE 1".as_slice(), b"", b"ENDDATA"]);
    }
}
