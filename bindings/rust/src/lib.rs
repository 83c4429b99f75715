//! A safe wrapper of the proved reader and writer of lighting show data (USITT ASCII 3.0).
//!
//! A show lives in a store, which is the caller's own bytes; a [`Desk`] says how long it has to be and how it is laid out. Nothing
//! allocates, and a call that is turned away ([`Refused`]) changes no lent byte.
//!
//! ```
//! use sphairune::Desk;
//!
//! let mut store = vec![0; Desk::HOUSE.needed()?];
//! let stream = b"IDENT 3:0\nCUE 2.5\nUP 3\nCHAN 1@HFF 2@H8F\nENDDATA\n";
//! let mut reports = [0; 64];
//! let totals = Desk::HOUSE.load(&mut store, stream, &mut reports)?;
//! assert_eq!((totals.obeyed, totals.closing), (5, 0));
//! let levels = Desk::HOUSE.look_up(&store, 1, 2, 5)?.expect("cue 2.5 is kept");
//! assert_eq!(levels[..3], [0xff, 0x8f, 0]);
//! # Ok::<(), sphairune::Refused>(())
//! ```
//!
//! The calls of the library are proved, this wrapper is not; it knows no bit of a store's layout. docs/LIBRARY.md tells what each call
//! promises.
#![cfg_attr(not(test), no_std)]
#![deny(missing_docs, unsafe_code)]

pub mod calls;
mod store;

pub use store::{Fade, Kind, Memories, Memory, Number, Patched, Patches, MOST_SLOTS};

use core::fmt;

/// The longest stream that is read or written, in bytes. An output of this length takes every stream that is written.
pub const MOST_STREAM: usize = 262_143;

/// The size of a desk: its nine limits.
#[derive(Clone, Copy, Debug, PartialEq, Eq)]
pub struct Desk {
    /// 1 to 512.
    pub channels: u32,
    /// 1 to 512.
    pub dimmers: u32,
    /// Cue memories, all pages together: 1 to 600.
    pub cues: u32,
    /// Group memories, all pages together: 0 to 200; 0 is a desk without groups.
    pub groups: u32,
    /// The highest submaster of each page: 0 to 96; 0 is a desk without submasters.
    pub submasters: u32,
    /// 1 to 63.
    pub cue_pages: u32,
    /// 1 to 63, even without groups.
    pub group_pages: u32,
    /// 1 to 8, even without submasters.
    pub submaster_pages: u32,
    /// 1 to 4.
    pub patch_pages: u32,
}

/// Why a call was turned away. Every lent byte is as it was.
#[derive(Clone, Copy, Debug, PartialEq, Eq)]
pub enum Refused {
    /// The stream is longer than [`MOST_STREAM`].
    R1,
    /// A limit of the desk is outside its range.
    R2,
    /// The store is shorter than the desk needs.
    R3,
    /// The store is not in good form for this desk (never emptied, another desk's, or damaged): the slot in this place is out of form by
    /// itself. Places count from 1, through the cues, then the groups, then the submasters; it is the first such slot.
    R4a(usize),
    /// As R4a, where every slot is in form by itself: the slot in this place has the number and page of an earlier one of its kind. It is
    /// the first that repeats one.
    R4b(usize),
    /// As R4a, where no slot is at fault: the patch entry in this place is out of form. Places count the entries, from 1, page by page and
    /// by dimmer; it is the first such entry.
    R4c(usize),
    /// The written stream would be longer than [`MOST_STREAM`].
    R5,
    /// The written stream is longer than the output given; it needs this many bytes.
    R6(usize),
    /// With translation: the desk has no groups, or no submasters. Tested after R4c.
    R7,
}

impl Refused {
    /// Its number in the answers of [`calls`].
    pub fn number(self) -> u32 {
        match self {
            Refused::R1 => 1,
            Refused::R2 => 2,
            Refused::R3 => 3,
            Refused::R4a(_) => 0x4a,
            Refused::R4b(_) => 0x4b,
            Refused::R4c(_) => 0x4c,
            Refused::R5 => 5,
            Refused::R6(_) => 6,
            Refused::R7 => 7,
        }
    }

    /// Its name, as `R4a`.
    pub fn name(self) -> &'static str {
        match self {
            Refused::R1 => "R1",
            Refused::R2 => "R2",
            Refused::R3 => "R3",
            Refused::R4a(_) => "R4a",
            Refused::R4b(_) => "R4b",
            Refused::R4c(_) => "R4c",
            Refused::R5 => "R5",
            Refused::R6(_) => "R6",
            Refused::R7 => "R7",
        }
    }

    /// The answer of a call, with the length that goes with R6.
    fn of(answer: u32, length: usize) -> Refused {
        let place = (answer >> 8) as usize;
        match answer & 0xff {
            1 => Refused::R1,
            2 => Refused::R2,
            3 => Refused::R3,
            0x4a => Refused::R4a(place),
            0x4b => Refused::R4b(place),
            0x4c => Refused::R4c(place),
            5 => Refused::R5,
            6 => Refused::R6(length),
            7 => Refused::R7,
            number => unreachable!("the library has no refusal {number}"),
        }
    }
}

impl fmt::Display for Refused {
    fn fmt(&self, f: &mut fmt::Formatter<'_>) -> fmt::Result {
        match self {
            Refused::R1 => f.write_str("the stream is longer than 262143 bytes"),
            Refused::R2 => f.write_str("a limit of the desk is outside its range"),
            Refused::R3 => f.write_str("the store is shorter than the desk needs"),
            Refused::R4a(place) => write!(f, "slot {place} is out of form for this desk"),
            Refused::R4b(place) => write!(f, "slot {place} has the number and page of an earlier one"),
            Refused::R4c(place) => write!(f, "patch entry {place} is out of form for this desk"),
            Refused::R5 => f.write_str("the written stream would be longer than 262143 bytes"),
            Refused::R6(_) => f.write_str("the written stream is longer than the output given"),
            Refused::R7 => f.write_str("the desk has no groups, or no submasters, and a load with translation needs both"),
        }
    }
}

impl core::error::Error for Refused {}

/// What a load tells, with translation or without. Each record read is in one of the four tallies.
#[derive(Clone, Copy, Debug, Default, PartialEq, Eq)]
pub struct Totals {
    /// How many conditions were reported, those that found no room in the list too.
    pub reports: u32,
    /// Records with no field.
    pub blank: u32,
    /// Records obeyed; of CHAN and PATCH single pairs or triples may have been dropped, each with its report.
    pub obeyed: u32,
    /// Records passed over or skipped.
    pub passed: u32,
    /// Records dropped whole, each with its report.
    pub dropped: u32,
    /// The last error, else the last warning, else 0.
    pub closing: u32,
}

impl Totals {
    /// What a load answers, with the totals that go with 0.
    fn of(answer: u32, [reports, blank, obeyed, passed, dropped, closing]: [u32; 6]) -> Result<Totals, Refused> {
        match answer {
            0 => Ok(Totals { reports, blank, obeyed, passed, dropped, closing }),
            r => Err(Refused::of(r, 0)),
        }
    }

    /// The records read.
    pub fn records(self) -> u32 {
        self.blank + self.obeyed + self.passed + self.dropped
    }

    /// The reports that a load left in its list, in order.
    pub fn stored(self, list: &[u64]) -> impl Iterator<Item = Report> + '_ {
        let count = list.len().min(self.reports as usize);
        list[..count].iter().map(|&word| Report::of(word))
    }
}

/// A condition, and where it was met.
#[derive(Clone, Copy, Debug, PartialEq, Eq)]
pub struct Report {
    /// From 1. With 0100, and with 0041 of a link that [`Desk::translate`] removed, it is the count of records read.
    pub record: u32,
    /// The standard's number.
    pub condition: u32,
    /// Where the blamed field's first character stands in the record as received: 1 to 80, counting every character, an ignored one or a
    /// tab as one. 51, 52, 151 and 152 blame the keyword. 0 where the field is missing, with 21, 22, 91, 100, 701 and 702, and with 41 of a
    /// link that was removed.
    pub column: u32,
}

impl Report {
    /// A report's word: 18 bits of record, 14 of condition, 7 of column, 25 zero bits.
    pub fn of(word: u64) -> Report {
        Report { record: (word >> 46) as u32, condition: (word >> 32) as u32 & 0x3fff, column: (word >> 25) as u32 & 0x7f }
    }
}

/// The standard's letter for a condition: E error, W warning, I (of the closing number 0 alone) information.
pub fn severity(condition: u32) -> char {
    char::from(calls::severity(condition))
}

/// The longest of the texts that [`condition_text`] and [`time_text`] give.
pub const MOST_TEXT: usize = 44;

/// A short text, held by value: used as a `str`.
#[derive(Clone, Copy, PartialEq, Eq)]
pub struct Text {
    bytes: [u8; MOST_TEXT],
    length: usize,
}

impl Text {
    /// What a call puts into a list that has room for any text.
    fn put(call: impl FnOnce(&mut [u8], &mut [usize]) -> u32) -> Text {
        let (mut bytes, mut length) = ([0; MOST_TEXT], [0]);
        let answer = call(&mut bytes, &mut length);
        assert_eq!(answer, 0, "no text is longer");
        Text { bytes, length: length[0] }
    }
}

impl core::ops::Deref for Text {
    type Target = str;

    fn deref(&self) -> &str {
        core::str::from_utf8(&self.bytes[..self.length]).expect("the library's texts are ASCII")
    }
}

impl fmt::Display for Text {
    fn fmt(&self, f: &mut fmt::Formatter<'_>) -> fmt::Result {
        f.pad(self)
    }
}

impl fmt::Debug for Text {
    fn fmt(&self, f: &mut fmt::Formatter<'_>) -> fmt::Result {
        fmt::Debug::fmt(&**self, f)
    }
}

/// A level in percent, by Table C-1 of the standard.
pub fn percent(level: u8) -> u32 {
    calls::percent(level)
}

/// A time in tenths of a second as the written stream has it: `3`, `1:30`, `2:00:10.5`, and past 999:59:59.9 as `999:100:05`.
pub fn time_text(tenths: u32) -> Text {
    Text::put(|out, length| calls::time_text(tenths, out, length))
}

/// The standard's text for a condition that a load can report (Appendix B), or for the closing number 0; "" for any other number. Where
/// the appendix puts the record's own field or keyword between two words, the text has the words alone.
pub fn condition_text(condition: u32) -> Text {
    Text::put(|out, length| calls::condition_text(condition, out, length))
}

impl Desk {
    /// The house small desk. Its store needs 35,136 bytes.
    pub const HOUSE: Desk = Desk {
        channels: 96,
        dimmers: 192,
        cues: 200,
        groups: 40,
        submasters: 24,
        cue_pages: 2,
        group_pages: 1,
        submaster_pages: 2,
        patch_pages: 1,
    };

    /// The largest desk that there is. Its store needs 846,592 bytes.
    pub const LARGEST: Desk = Desk {
        channels: 512,
        dimmers: 512,
        cues: 600,
        groups: 200,
        submasters: 96,
        cue_pages: 63,
        group_pages: 63,
        submaster_pages: 8,
        patch_pages: 4,
    };

    /// A desk by its limits, in the order of the struct.
    pub fn of(limits: [u32; 9]) -> Desk {
        let [channels, dimmers, cues, groups, submasters, cue_pages, group_pages, submaster_pages, patch_pages] = limits;
        Desk { channels, dimmers, cues, groups, submasters, cue_pages, group_pages, submaster_pages, patch_pages }
    }

    /// Its limits, in the order of the struct.
    pub fn limits(self) -> [u32; 9] {
        [
            self.channels,
            self.dimmers,
            self.cues,
            self.groups,
            self.submasters,
            self.cue_pages,
            self.group_pages,
            self.submaster_pages,
            self.patch_pages,
        ]
    }

    /// How many bytes a store of this desk needs; or R2.
    pub fn needed(self) -> Result<usize, Refused> {
        let mut length = [0];
        match calls::needed(&self.limits(), &mut length) {
            0 => Ok(length[0]),
            r => Err(Refused::of(r, 0)),
        }
    }

    /// Empties a store, whatever it holds: every needed byte becomes zero. Or R2, R3.
    pub fn empty(self, store: &mut [u8]) -> Result<(), Refused> {
        match calls::empty(&self.limits(), store) {
            0 => Ok(()),
            r => Err(Refused::of(r, 0)),
        }
    }

    /// Reads a stream into a store, on top of what it keeps. Or R1, R2, R3, R4a, R4b, R4c.
    ///
    /// Faults in the stream are no refusals: they are reported, and the rest is read. `reports` gets as many as it has room for
    /// ([`Totals::stored`]); a list with one entry more than the stream has bytes never fills.
    pub fn load(self, store: &mut [u8], stream: &[u8], reports: &mut [u64]) -> Result<Totals, Refused> {
        let mut totals = [0; 6];
        let answer = calls::load(&self.limits(), store, stream, reports, &mut totals);
        Totals::of(answer, totals)
    }

    /// As [`load`](Desk::load), with translation (§6.4): every cue, group and submaster that is accepted gets the next whole number of its
    /// kind, whatever number and page its record has. Or R1, R2, R3, R4a, R4b, R4c, R7.
    ///
    /// The numbers are 1, 2, 3 on page 1, then on page 2 once 999 (for submasters, the highest) is used; a memory that is kept under one of
    /// them is overwritten. CLEAR's page is ignored. LINK follows the renumbering: it leads to the last accepted cue whose record has the
    /// number that it asks for, before or after it. Where there is none, the link is removed and reported when the load ends: 0041, column
    /// 0, under the number of records read.
    pub fn translate(self, store: &mut [u8], stream: &[u8], reports: &mut [u64]) -> Result<Totals, Refused> {
        let mut totals = [0; 6];
        let answer = calls::translate(&self.limits(), store, stream, reports, &mut totals);
        Totals::of(answer, totals)
    }

    /// Writes a store's show as one fixed stream, at the beginning of `out`, and says its length. Or R2, R3, R4a, R4b, R4c, R5, R6.
    pub fn write(self, store: &[u8], out: &mut [u8]) -> Result<usize, Refused> {
        let mut length = [0];
        match calls::write(&self.limits(), store, out, &mut length) {
            0 => Ok(length[0]),
            r => Err(Refused::of(r, length[0])),
        }
    }

    /// Where the levels of cue whole.tenths begin in the store, or `None` where it is not kept. Or R2, R3, R4a, R4b, R4c.
    pub fn find(self, store: &[u8], page: u32, whole: u32, tenths: u32) -> Result<Option<usize>, Refused> {
        let mut place = [0];
        match calls::find(&self.limits(), store, page, whole, tenths, &mut place) {
            0 => Ok(Some(place[0])),
            calls::NOT_KEPT => Ok(None),
            r => Err(Refused::of(r, 0)),
        }
    }

    /// The levels of cue whole.tenths, channel 1 first, as the very bytes of the store; `None` where it is not kept. Or R2, R3, R4a, R4b,
    /// R4c.
    pub fn look_up(self, store: &[u8], page: u32, whole: u32, tenths: u32) -> Result<Option<&[u8]>, Refused> {
        let place = self.find(store, page, whole, tenths)?;
        Ok(place.map(|at| self.levels_at(store, at)))
    }

    /// The kept cues, by page and number. Or R2, R3, R4a, R4b, R4c.
    pub fn cues(self, store: &[u8]) -> Result<Memories<'_>, Refused> {
        self.memories(store, Kind::Cue)
    }

    /// The kept groups, by page and number. Or R2, R3, R4a, R4b, R4c.
    pub fn groups(self, store: &[u8]) -> Result<Memories<'_>, Refused> {
        self.memories(store, Kind::Group)
    }

    /// The kept submasters, by page and number. Or R2, R3, R4a, R4b, R4c.
    pub fn submasters(self, store: &[u8]) -> Result<Memories<'_>, Refused> {
        self.memories(store, Kind::Submaster)
    }

    /// The patched dimmers, by page and dimmer. Or R2, R3, R4a, R4b, R4c.
    pub fn patch(self, store: &[u8]) -> Result<Patches<'_>, Refused> {
        self.in_good_form(store)?;
        Ok(Patches::new(self, store))
    }

    /// The levels that begin at a place, channel 1 first.
    fn levels_at(self, store: &[u8], place: usize) -> &[u8] {
        &store[place..place + self.channels as usize]
    }

    /// The library itself is asked: no cue is on page 0, so that the answer is "not kept" or the refusal.
    fn in_good_form(self, store: &[u8]) -> Result<(), Refused> {
        self.find(store, 0, 0, 0).map(|_| ())
    }
}

#[cfg(test)]
mod tests;
