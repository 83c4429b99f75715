//! A plain Rust reader and writer of show data, written from the papers: what the proved library is measured and compared with.

use crate::{Limits, Refused, Totals, LONGEST};
use std::collections::HashMap;
use std::ops::{Range, RangeInclusive};

pub(crate) const HEAD: usize = 24;
pub(crate) const ENTRY: usize = 3;
pub(crate) const LONGEST_RECORD: usize = 80;
const MOST_CUES: usize = 600;
const MOST_GROUPS: usize = 200;
/// 96 submasters on each of 8 pages.
const MOST_OF_A_KIND: usize = 768;
/// 999:999:999.9 in tenths of a second.
const LONGEST_TIME: u32 = 36_573_399;

const RANGES: [RangeInclusive<u32>; 9] = [1..=512, 1..=512, 1..=600, 0..=200, 0..=96, 1..=63, 1..=63, 1..=8, 1..=4];

// The public calls.

/// How many bytes a store of this desk needs.
pub fn needed(limits: &Limits) -> Result<usize, Refused> {
    Desk::new(limits).map(|desk| desk.needed())
}

/// Makes a store's needed bytes zero.
pub fn empty(limits: &Limits, store: &mut [u8]) -> Result<(), Refused> {
    let desk = Desk::new(limits)?;
    store.get_mut(..desk.needed()).ok_or(Refused::R3)?.fill(0);
    Ok(())
}

/// Reads a stream into a store. A report is 18 bits of the record's number, 14 of the condition, 7 of the column, and 25 zero bits.
pub fn load(limits: &Limits, store: &mut [u8], stream: &[u8], reports: &mut [u64]) -> Result<Totals, Refused> {
    Ok(read(Load::begin(limits, store, stream, reports)?, stream))
}

/// Reads a stream into a store with translation (§6.4): memories are numbered anew, and links follow.
pub fn translate(limits: &Limits, store: &mut [u8], stream: &[u8], reports: &mut [u64]) -> Result<Totals, Refused> {
    Ok(read(Load::begin(limits, store, stream, reports)?.translating()?, stream))
}

fn read(mut load: Load, stream: &[u8]) -> Totals {
    for record in Records(stream) {
        load.log.record += 1;
        let outcome = load.record(record);
        if load.count(outcome) {
            return load.end(true);
        }
    }
    load.end(false)
}

/// Puts a store's show into `out` as one stream, and tells its length.
pub fn write(limits: &Limits, store: &[u8], out: &mut [u8]) -> Result<usize, Refused> {
    let desk = Desk::new(limits)?;
    let store = store.get(..desk.needed()).ok_or(Refused::R3)?;
    desk.good_form(store)?;
    let mut text = Text(Vec::with_capacity(out.len().min(LONGEST)));
    desk.show(store, &mut text).ok_or(Refused::R5)?;
    let text = text.0;
    out.get_mut(..text.len()).ok_or(Refused::R6(text.len()))?.copy_from_slice(&text);
    Ok(text.len())
}

/// Where in the store the levels of a kept cue begin.
pub fn find(limits: &Limits, store: &[u8], page: u32, whole: u32, tenths: u32) -> Result<Option<usize>, Refused> {
    let desk = Desk::new(limits)?;
    let store = store.get(..desk.needed()).ok_or(Refused::R3)?;
    desk.good_form(store)?;
    if !(1..=63).contains(&page) || whole > 999 || tenths > 9 {
        return Ok(None);
    }
    Ok(desk.find(store, Kind::Cue, key(page, Number { whole, tenths })).map(|i| i * desk.slot() + HEAD))
}

/// The slots of the kept memories of a kind, from 1, by page and number, as many as there is room for; and how many are kept. `None` where
/// there is no such kind.
pub fn memories(limits: &Limits, store: &[u8], kind: u32, slots: &mut [u32]) -> Result<Option<usize>, Refused> {
    let desk = Desk::new(limits)?;
    let store = store.get(..desk.needed()).ok_or(Refused::R3)?;
    desk.good_form(store)?;
    let kind = match kind {
        0 => Kind::Cue,
        1 => Kind::Group,
        2 => Kind::Sub,
        _ => return Ok(None),
    };
    let mut order = [0; MOST_OF_A_KIND];
    let mut count = 0;
    for (i, slot) in store[desk.bytes(kind)].chunks_exact(desk.slot()).enumerate().filter(|(_, slot)| used(slot)) {
        order[count] = slot_key(slot) << 10 | i as u32;
        count += 1;
    }
    order[..count].sort_unstable();
    for (to, word) in slots.iter_mut().zip(&order[..count]) {
        *to = desk.places(kind).start as u32 + (word & 0x3ff) + 1;
    }
    Ok(Some(count))
}

/// The values of a slot's head, as many as there is room for; whether the desk has such a slot.
pub fn head(limits: &Limits, store: &[u8], slot: u32, values: &mut [u32]) -> Result<bool, Refused> {
    let desk = Desk::new(limits)?;
    let store = store.get(..desk.needed()).ok_or(Refused::R3)?;
    let Some(slot) = desk.place(slot) else { return Ok(false) };
    let head = head_of(&store[slot * desk.slot()..]);
    for (to, field) in values.iter_mut().zip(HEAD_FIELDS) {
        *to = get(head, field);
    }
    Ok(true)
}

/// Where in the store a slot's levels begin.
pub fn levels(limits: &Limits, store: &[u8], slot: u32) -> Result<Option<usize>, Refused> {
    let desk = Desk::new(limits)?;
    store.get(..desk.needed()).ok_or(Refused::R3)?;
    Ok(desk.place(slot).map(|slot| slot * desk.slot() + HEAD))
}

/// A dimmer's channel, level and zero bits, as many as there is room for; whether the desk has such a dimmer.
pub fn patch(limits: &Limits, store: &[u8], page: u32, dimmer: u32, values: &mut [u32]) -> Result<bool, Refused> {
    let desk = Desk::new(limits)?;
    let store = store.get(..desk.needed()).ok_or(Refused::R3)?;
    let (page, dimmer) = (page as usize, dimmer as usize);
    if !(1..=desk.patch_pages).contains(&page) || !(1..=desk.dimmers).contains(&dimmer) {
        return Ok(false);
    }
    let from = desk.slots() * desk.slot() + ((page - 1) * desk.dimmers + dimmer - 1) * ENTRY;
    let word = u32::from_be_bytes([0, store[from], store[from + 1], store[from + 2]]);
    for (to, value) in values.iter_mut().zip([word >> 14, word >> 6 & 0xff, word & 0x3f]) {
        *to = value;
    }
    Ok(true)
}

/// Table C-1, by the formula that it is based on.
pub fn percent(level: u8) -> u32 {
    (f64::from(level) * (100.0 / 255.0)).round() as u32
}

/// Appendix B: errors are 70 to 149.
pub fn severity(condition: u32) -> u8 {
    match condition {
        0 => b'I',
        70..=149 => b'E',
        _ => b'W',
    }
}

/// The hours, minutes and seconds that a time is written in. Past 999:59:59.9 they are 999 hours, as many whole minutes as fit up to 999,
/// and the rest in seconds.
fn time_parts(tenths: u32) -> (u32, u32, u32) {
    let seconds = tenths / 10;
    if seconds < 1_000 * 3_600 {
        return (seconds / 3_600, seconds / 60 % 60, seconds % 60);
    }
    let rest = seconds - 999 * 3_600;
    let minutes = (rest / 60).min(999);
    (999, minutes, rest - minutes * 60)
}

/// A time as it is written, at the front of `out`, and its length.
pub fn time_text(tenths: u32, out: &mut [u8]) -> Result<usize, Refused> {
    let (hours, minutes, seconds) = time_parts(tenths);
    let mut text = match (hours, minutes) {
        (0, 0) => format!("{seconds}"),
        (0, _) => format!("{minutes}:{seconds:02}"),
        _ => format!("{hours}:{minutes:02}:{seconds:02}"),
    };
    if tenths % 10 != 0 {
        text += &format!(".{}", tenths % 10);
    }
    put(&text, out)
}

/// The words of Appendix B, at the front of `out`, and their length.
pub fn condition_text(condition: u32, out: &mut [u8]) -> Result<usize, Refused> {
    let named = CONDITIONS.iter().find(|(number, _)| *number == condition);
    put(named.map_or("", |(_, text)| text), out)
}

fn put(text: &str, out: &mut [u8]) -> Result<usize, Refused> {
    out.get_mut(..text.len()).ok_or(Refused::R6(text.len()))?.copy_from_slice(text.as_bytes());
    Ok(text.len())
}

const CONDITIONS: [(u32, &str); 23] = [
    (0, "Data stream successfully processed"),
    (21, "Cue memory exhausted"),
    (22, "Group memory exhausted"),
    (41, "Invalid cue or group number"),
    (42, "Cue or group number too large"),
    (43, "Page out of range"),
    (44, "Submaster number out of range"),
    (51, "Groups not supported"),
    (52, "Submasters not supported"),
    (91, "Encountered record longer than 80 characters"),
    (99, "Ident mismatch prohibits processing"),
    (100, "Data stream terminated without ENDDATA"),
    (151, "Undefined standard keyword"),
    (152, "Wrong secondary keyword"),
    (171, "Invalid integer"),
    (172, "Invalid hexadecimal value"),
    (201, "Channel out of range"),
    (203, "Dimmer out of range"),
    (221, "Invalid level"),
    (231, "Patch page skipped"),
    (241, "Invalid time"),
    (701, "Ignored character with high-bit set"),
    (702, "Ignored non-printing character"),
];

// The desk and its store.

#[derive(Clone, Copy, PartialEq, Eq)]
pub(crate) enum Kind {
    Cue,
    Group,
    Sub,
}

#[derive(Clone, Copy)]
pub(crate) struct Desk {
    pub(crate) channels: usize,
    pub(crate) dimmers: usize,
    cues: usize,
    groups: usize,
    subs: usize,
    cue_pages: usize,
    group_pages: usize,
    sub_pages: usize,
    pub(crate) patch_pages: usize,
}

impl Desk {
    pub(crate) fn new(limits: &Limits) -> Result<Desk, Refused> {
        if !RANGES.iter().zip(limits).all(|(range, limit)| range.contains(limit)) {
            return Err(Refused::R2);
        }
        let [channels, dimmers, cues, groups, subs, cue_pages, group_pages, sub_pages, patch_pages] = limits.map(|n| n as usize);
        Ok(Desk { channels, dimmers, cues, groups, subs, cue_pages, group_pages, sub_pages, patch_pages })
    }

    pub(crate) fn slot(&self) -> usize {
        HEAD + self.channels
    }

    pub(crate) fn slots(&self) -> usize {
        self.cues + self.groups + self.subs * self.sub_pages
    }

    pub(crate) fn needed(&self) -> usize {
        self.slots() * self.slot() + self.patch_pages * self.dimmers * ENTRY
    }

    /// The numbers of a kind's slots.
    fn places(&self, kind: Kind) -> Range<usize> {
        match kind {
            Kind::Cue => 0..self.cues,
            Kind::Group => self.cues..self.cues + self.groups,
            Kind::Sub => self.cues + self.groups..self.slots(),
        }
    }

    /// The slot of a number, which counts from 1.
    fn place(&self, slot: u32) -> Option<usize> {
        (slot as usize).checked_sub(1).filter(|&slot| slot < self.slots())
    }

    fn bytes(&self, kind: Kind) -> Range<usize> {
        let places = self.places(kind);
        places.start * self.slot()..places.end * self.slot()
    }

    fn pages(&self, kind: Kind) -> usize {
        match kind {
            Kind::Cue => self.cue_pages,
            Kind::Group => self.group_pages,
            Kind::Sub => self.sub_pages,
        }
    }

    fn supports(&self, kind: Kind) -> bool {
        !self.places(kind).is_empty()
    }

    fn find(&self, store: &[u8], kind: Kind, key: u32) -> Option<usize> {
        let at = store[self.bytes(kind)].chunks_exact(self.slot()).position(|slot| slot_key(slot) == key)?;
        Some(self.places(kind).start + at)
    }

    fn unused(&self, store: &[u8], kind: Kind) -> Option<usize> {
        let at = store[self.bytes(kind)].chunks_exact(self.slot()).position(|slot| !used(slot))?;
        Some(self.places(kind).start + at)
    }

    /// The page and number that a primary's fields name.
    fn named(&self, kind: Kind, given: Field, on: Field) -> Result<(u32, Number), Fault> {
        let number = match kind {
            Kind::Sub => Number { whole: place(given, self.subs, Condition::Submaster)? as u32, tenths: 0 },
            _ => number(given)?,
        };
        let page = match on {
            Field { text: [], .. } => 1,
            on => page(on, self.pages(kind), Condition::Page)?,
        };
        Ok((page, number))
    }

    /// Or R4a, R4b, R4c with their places, each looked for in the whole store before the next.
    pub(crate) fn good_form(&self, store: &[u8]) -> Result<(), Refused> {
        // Kind, key and place of the used cues and groups, so that sorted those with the same name stand together, the earliest first.
        let mut names = [0; MOST_CUES + MOST_GROUPS];
        let mut count = 0;
        for kind in [Kind::Cue, Kind::Group, Kind::Sub] {
            let first = self.places(kind).start;
            for (i, slot) in store[self.bytes(kind)].chunks_exact(self.slot()).enumerate() {
                if !self.slot_is_good(slot, kind, i) {
                    return Err(Refused::R4a(first + i + 1));
                }
                // A submaster that agrees with its place repeats no other.
                if used(slot) && kind != Kind::Sub {
                    names[count] = (kind as u32) << 31 | slot_key(slot) << 10 | (first + i) as u32;
                    count += 1;
                }
            }
        }
        let names = &mut names[..count];
        names.sort_unstable();
        let repeated = names.windows(2).filter(|pair| pair[0] >> 10 == pair[1] >> 10).map(|pair| pair[1] & 0x3ff);
        if let Some(place) = repeated.min() {
            return Err(Refused::R4b(place as usize + 1));
        }
        match store[self.slots() * self.slot()..].chunks_exact(ENTRY).position(|entry| !self.entry_is_good(entry)) {
            Some(i) => Err(Refused::R4c(i + 1)),
            None => Ok(()),
        }
    }

    /// Of the slot in a place among those of its kind, from 0.
    fn slot_is_good(&self, slot: &[u8], kind: Kind, place: usize) -> bool {
        if used(slot) {
            self.head_is_good(head_of(slot), kind, place)
        } else {
            // No early exit, so that it goes many bytes at a time.
            slot.iter().fold(0, |all, byte| all | byte) == 0
        }
    }

    fn head_is_good(&self, head: &[u8; HEAD], kind: Kind, place: usize) -> bool {
        let page = get(head, PAGE) as usize;
        let number = Number { whole: get(head, WHOLE), tenths: get(head, TENTHS) };
        let named = match kind {
            Kind::Sub => page == place / self.subs + 1 && number.whole as usize == place % self.subs + 1 && number.tenths == 0,
            _ => (1..=self.pages(kind)).contains(&page) && number.is_good(),
        };
        let link = Number { whole: get(head, LINK_WHOLE), tenths: get(head, LINK_TENTHS) };
        let time = |field| get(head, field) <= LONGEST_TIME;
        named
            && match get(head, LINK) {
                0 => link == Number { whole: 0, tenths: 0 },
                _ => kind == Kind::Cue && link.is_good(),
            }
            && [UP, DOWN].into_iter().all(|fade| match get(head, fade.given) {
                0 => get(head, fade.fade) == 0 && get(head, fade.delay) == 0,
                _ => kind != Kind::Group && time(fade.fade) && time(fade.delay),
            })
            && match get(head, FOLLOWON) {
                0 => get(head, FOLLOWON_TIME) == 0,
                _ => kind == Kind::Cue && time(FOLLOWON_TIME),
            }
            && get(head, ZERO) == 0
    }

    fn entry_is_good(&self, entry: &[u8]) -> bool {
        let word = u32::from_be_bytes([0, entry[0], entry[1], entry[2]]);
        match word >> 14 {
            0 => word == 0,
            channel => channel as usize <= self.channels && word & 0x3f == 0,
        }
    }

    // The written stream. `None` is a stream that grew too long.

    fn show(&self, store: &[u8], text: &mut Text) -> Option<()> {
        text.put(b"IDENT 3:0\r\nCLEAR ALL\r\n");
        self.patch(store, text);
        for (kind, name) in [(Kind::Cue, &b"CUE "[..]), (Kind::Group, b"GROUP ")] {
            let mut order = [0; MOST_CUES];
            let mut count = 0;
            for (i, slot) in store[self.bytes(kind)].chunks_exact(self.slot()).enumerate().filter(|(_, slot)| used(slot)) {
                order[count] = slot_key(slot) << 10 | i as u32;
                count += 1;
            }
            let order = &mut order[..count];
            order.sort_unstable();
            for word in order {
                let from = (self.places(kind).start + (*word as usize & 0x3ff)) * self.slot();
                memory(name, &store[from..from + self.slot()], text)?;
            }
        }
        for slot in store[self.bytes(Kind::Sub)].chunks_exact(self.slot()).filter(|slot| used(slot)) {
            memory(b"SUB ", slot, text)?;
        }
        text.put(b"ENDDATA\r\n");
        text.fits()
    }

    fn patch(&self, store: &[u8], text: &mut Text) {
        for (i, entry) in store[self.slots() * self.slot()..].chunks_exact(ENTRY).enumerate() {
            let word = u32::from_be_bytes([0, entry[0], entry[1], entry[2]]);
            if word != 0 {
                text.put(b"PATCH ");
                text.integer((i / self.dimmers + 1) as u32);
                text.put(b" ");
                text.integer(word >> 14);
                text.put(b"<");
                text.integer((i % self.dimmers + 1) as u32);
                text.level((word >> 6) as u8);
                text.put(b"\r\n");
            }
        }
    }
}

fn memory(name: &[u8], slot: &[u8], text: &mut Text) -> Option<()> {
    let head = head_of(slot);
    text.put(name);
    text.number(Number { whole: get(head, WHOLE), tenths: get(head, TENTHS) });
    text.put(b" ");
    text.integer(get(head, PAGE));
    text.put(b"\r\n");
    for (name, fade) in [(&b"UP "[..], UP), (b"DOWN ", DOWN)] {
        if get(head, fade.given) != 0 {
            text.put(name);
            text.time(get(head, fade.fade));
            let delay = get(head, fade.delay);
            if delay != 0 {
                text.put(b" ");
                text.time(delay);
            }
            text.put(b"\r\n");
        }
    }
    if get(head, FOLLOWON) != 0 {
        text.put(b"FOLLOWON ");
        text.time(get(head, FOLLOWON_TIME));
        text.put(b"\r\n");
    }
    if get(head, LINK) != 0 {
        text.put(b"LINK ");
        text.number(Number { whole: get(head, LINK_WHOLE), tenths: get(head, LINK_TENTHS) });
        text.put(b"\r\n");
    }
    let mut pairs = 0;
    for (i, &level) in slot[HEAD..].iter().enumerate() {
        if level != 0 {
            text.put(match pairs % 8 {
                0 if pairs == 0 => b"CHAN ",
                0 => b"\r\nCHAN ",
                _ => b" ",
            });
            text.integer(i as u32 + 1);
            text.level(level);
            pairs += 1;
        }
    }
    if pairs != 0 {
        text.put(b"\r\n");
    }
    text.fits()
}

struct Text(Vec<u8>);

impl Text {
    fn put(&mut self, text: &[u8]) {
        self.0.extend_from_slice(text);
    }

    fn fits(&self) -> Option<()> {
        (self.0.len() <= LONGEST).then_some(())
    }

    /// Of at most three digits.
    fn integer(&mut self, n: u32) {
        let digit = |d| b'0' + (d % 10) as u8;
        if n >= 100 {
            self.put(&[digit(n / 100), digit(n / 10), digit(n)]);
        } else if n >= 10 {
            self.put(&[digit(n / 10), digit(n)]);
        } else {
            self.put(&[digit(n)]);
        }
    }

    /// A part of a time after a colon, of two digits at least.
    fn part(&mut self, n: u32) {
        self.put(if n < 10 { b":0" } else { b":" });
        self.integer(n);
    }

    fn tenths(&mut self, tenths: u32) {
        if tenths != 0 {
            self.put(&[b'.', b'0' + tenths as u8]);
        }
    }

    fn number(&mut self, number: Number) {
        self.integer(number.whole);
        self.tenths(number.tenths);
    }

    fn level(&mut self, level: u8) {
        const DIGITS: &[u8; 16] = b"0123456789ABCDEF";
        self.put(&[b'@', b'H', DIGITS[(level >> 4) as usize], DIGITS[(level & 15) as usize]]);
    }

    fn time(&mut self, time: u32) {
        let (hours, minutes, seconds) = time_parts(time);
        if hours != 0 {
            self.integer(hours);
            self.part(minutes);
            self.part(seconds);
        } else if minutes != 0 {
            self.integer(minutes);
            self.part(seconds);
        } else {
            self.integer(seconds);
        }
        self.tenths(time % 10);
    }
}

// A slot's head: fields as their first bit and their width, most significant bit first.

type Bits = (usize, usize);

#[derive(Clone, Copy)]
struct Fade {
    given: Bits,
    fade: Bits,
    delay: Bits,
}

const USED: Bits = (0, 1);
const PAGE: Bits = (1, 6);
const WHOLE: Bits = (7, 10);
const TENTHS: Bits = (17, 4);
const LINK: Bits = (21, 1);
const LINK_WHOLE: Bits = (22, 10);
const LINK_TENTHS: Bits = (32, 4);
const UP: Fade = Fade { given: (36, 1), fade: (37, 26), delay: (63, 26) };
const DOWN: Fade = Fade { given: (89, 1), fade: (90, 26), delay: (116, 26) };
const FOLLOWON: Bits = (142, 1);
const FOLLOWON_TIME: Bits = (143, 26);
const ZERO: Bits = (169, 23);

/// All of them, in the order of the paper's table.
const HEAD_FIELDS: [Bits; 16] = [
    USED, PAGE, WHOLE, TENTHS, LINK, LINK_WHOLE, LINK_TENTHS, UP.given, UP.fade, UP.delay, DOWN.given, DOWN.fade, DOWN.delay, FOLLOWON,
    FOLLOWON_TIME, ZERO,
];

fn head_of(slot: &[u8]) -> &[u8; HEAD] {
    slot.first_chunk().expect("a slot begins with its head")
}

fn used(slot: &[u8]) -> bool {
    slot[0] & 0x80 != 0
}

/// The first 21 bits: used, page, number.
fn slot_key(slot: &[u8]) -> u32 {
    u32::from_be_bytes([0, slot[0], slot[1], slot[2]]) >> 3
}

fn key(page: u32, number: Number) -> u32 {
    1 << 20 | page << 14 | number.whole << 4 | number.tenths
}

/// The eight bytes that a field lies in, and how far it is from their end.
#[inline]
fn window((at, width): Bits) -> (Range<usize>, usize) {
    let from = (at / 8).min(HEAD - 8);
    (from..from + 8, 64 - (at - from * 8) - width)
}

#[inline]
fn get(head: &[u8; HEAD], field: Bits) -> u32 {
    let (bytes, shift) = window(field);
    let word = u64::from_be_bytes(head[bytes].try_into().expect("eight bytes"));
    (word >> shift) as u32 & ((1 << field.1) - 1)
}

#[inline]
fn set(head: &mut [u8; HEAD], field: Bits, value: u32) {
    let (bytes, shift) = window(field);
    let word = u64::from_be_bytes(head[bytes.clone()].try_into().expect("eight bytes"));
    let mask = ((1u64 << field.1) - 1) << shift;
    head[bytes].copy_from_slice(&(word & !mask | (value as u64) << shift).to_be_bytes());
}

// Records and fields.

struct Records<'a>(&'a [u8]);

impl<'a> Iterator for Records<'a> {
    type Item = &'a [u8];

    fn next(&mut self) -> Option<&'a [u8]> {
        if self.0.is_empty() {
            return None;
        }
        let Some(end) = self.0.iter().position(|&b| b == b'\r' || b == b'\n') else {
            return Some(std::mem::take(&mut self.0));
        };
        let (record, rest) = self.0.split_at(end);
        self.0 = match rest {
            [b'\r', b'\n', rest @ ..] | [b'\n', b'\r', rest @ ..] | [_, rest @ ..] => rest,
            [] => rest,
        };
        Some(record)
    }
}

pub(crate) fn is_delimiter(b: u8) -> bool {
    matches!(b, b'\t' | b' ' | b',' | b'/' | b';' | b'<' | b'=' | b'>' | b'@')
}

pub(crate) fn is_control(b: u8) -> bool {
    b < 0x20 && b != b'\t' || b == 0x7f
}

/// The column of each character of a record that has none to ignore.
pub(crate) const COLUMNS: [u8; LONGEST_RECORD] = {
    let mut columns = [0; LONGEST_RECORD];
    let mut i = 0;
    while i < LONGEST_RECORD {
        columns[i] = i as u8 + 1;
        i += 1;
    }
    columns
};

/// The characters of a record that are not ignored, each with the column that it stands in.
pub(crate) struct Kept {
    text: [u8; LONGEST_RECORD],
    columns: [u8; LONGEST_RECORD],
    count: usize,
}

impl Kept {
    pub(crate) fn of(record: &[u8]) -> Kept {
        let mut kept = Kept { text: [0; LONGEST_RECORD], columns: [0; LONGEST_RECORD], count: 0 };
        for (&b, column) in record.iter().zip(1..).filter(|(&b, _)| b < 0x80 && !is_control(b)) {
            kept.text[kept.count] = b;
            kept.columns[kept.count] = column;
            kept.count += 1;
        }
        kept
    }

    pub(crate) fn text(&self) -> &[u8] {
        &self.text[..self.count]
    }

    pub(crate) fn columns(&self) -> &[u8] {
        &self.columns[..self.count]
    }
}

/// A field, and the column of its first character; a missing one is empty, in column 0.
#[derive(Clone, Copy)]
pub(crate) struct Field<'a> {
    pub(crate) text: &'a [u8],
    pub(crate) column: u8,
}

impl Field<'_> {
    fn blame(self, condition: Condition) -> Fault {
        Fault { condition, column: self.column }
    }
}

/// A record's fields, then empty ones without end: every reader of a value calls an empty field malformed. There is a column for each
/// character of the text.
pub(crate) struct Fields<'a> {
    pub(crate) text: &'a [u8],
    pub(crate) columns: &'a [u8],
}

impl<'a> Fields<'a> {
    pub(crate) fn next(&mut self) -> Field<'a> {
        let from = self.text.iter().position(|&b| !is_delimiter(b)).unwrap_or(self.text.len());
        let rest = &self.text[from..];
        let to = rest.iter().position(|&b| is_delimiter(b)).unwrap_or(rest.len());
        let columns = &self.columns[from..];
        let field = Field { text: &rest[..to], column: columns.first().copied().unwrap_or(0) };
        (self.text, self.columns) = (&rest[to..], &columns[to..]);
        field
    }
}

// Values.

#[derive(Clone, Copy, PartialEq, Eq, Hash)]
struct Number {
    whole: u32,
    tenths: u32,
}

impl Number {
    fn is_good(self) -> bool {
        self.whole <= 999 && self.tenths <= 9 && (self.whole, self.tenths) != (0, 0)
    }
}

/// A long integer is too large for every use, never wrapped.
fn integer(field: &[u8]) -> Option<u32> {
    if field.is_empty() {
        return None;
    }
    field.iter().try_fold(0u32, |n, b| b.is_ascii_digit().then(|| n.saturating_mul(10).saturating_add((b - b'0') as u32)))
}

/// The parts of a field before and after the first of a character.
fn split_once(field: &[u8], at: u8) -> Option<(&[u8], &[u8])> {
    let i = field.iter().position(|&b| b == at)?;
    Some((&field[..i], &field[i + 1..]))
}

/// An integer and one digit after a point, if there is a point.
fn with_tenths(field: &[u8]) -> Option<(u32, u32)> {
    match split_once(field, b'.') {
        None => Some((integer(field)?, 0)),
        Some((whole, &[tenth])) if tenth.is_ascii_digit() => Some((integer(whole)?, (tenth - b'0') as u32)),
        Some(_) => None,
    }
}

fn number(field: Field) -> Result<Number, Fault> {
    match with_tenths(field.text) {
        None | Some((0, 0)) => Err(field.blame(Condition::BadNumber)),
        Some((whole, _)) if whole > 999 => Err(field.blame(Condition::LargeNumber)),
        Some((whole, tenths)) => Ok(Number { whole, tenths }),
    }
}

/// A number as §7.4 formats one, 0 too, whether a desk has such a cue or not: what a foreign CUE bears and its LINK asks for.
fn borne(field: &[u8]) -> Option<Number> {
    let (whole, tenths) = with_tenths(field)?;
    (whole <= 9_999).then_some(Number { whole, tenths })
}

fn page(field: Field, pages: usize, condition: Condition) -> Result<u32, Fault> {
    integer(field.text).filter(|page| (1..=pages as u32).contains(page)).ok_or(field.blame(condition))
}

/// Channels and dimmers.
fn place(field: Field, most: usize, out_of_range: Condition) -> Result<usize, Fault> {
    match integer(field.text) {
        None => Err(field.blame(Condition::BadInteger)),
        Some(n) if n == 0 || n as usize > most => Err(field.blame(out_of_range)),
        Some(n) => Ok(n as usize),
    }
}

fn level(field: Field) -> Result<u8, Fault> {
    if let [b'H' | b'h', digits @ ..] = field.text {
        return hexadecimal(digits).ok_or(field.blame(Condition::BadHexadecimal));
    }
    match integer(field.text) {
        Some(percent @ 0..=999) => Ok(((percent.min(100) * 255 + 50) / 100) as u8),
        _ => Err(field.blame(Condition::BadLevel)),
    }
}

fn hexadecimal(digits: &[u8]) -> Option<u8> {
    if !(1..=4).contains(&digits.len()) {
        return None;
    }
    let mut value = 0;
    for &b in digits {
        value = value << 4 | (b as char).to_digit(16)?;
    }
    Some(if digits.len() > 2 { value >> 8 } else { value } as u8)
}

/// `[[h:]m:]s[.t]` in tenths of a second.
fn time(field: Field) -> Result<u32, Fault> {
    tenths_of(field.text).ok_or(field.blame(Condition::BadTime))
}

fn tenths_of(field: &[u8]) -> Option<u32> {
    let part = |n: u32| (n <= 999).then_some(n);
    let Some((first, rest)) = split_once(field, b':') else {
        let (seconds, tenths) = with_tenths(field)?;
        return Some(part(seconds)? * 10 + tenths);
    };
    let (hours, minutes, last) = match split_once(rest, b':') {
        None => (0, part(integer(first)?)?, rest),
        Some((minutes, last)) => (part(integer(first)?)?, part(integer(minutes)?)?, last),
    };
    let (seconds, tenths) = with_tenths(last)?;
    Some(hours * 36_000 + minutes * 600 + part(seconds)? * 10 + tenths)
}

// The load.

#[derive(Clone, Copy, PartialEq, Eq)]
pub(crate) enum Condition {
    CueRoom = 21,
    GroupRoom = 22,
    BadNumber = 41,
    LargeNumber = 42,
    Page = 43,
    Submaster = 44,
    NoGroups = 51,
    NoSubmasters = 52,
    TooLong = 91,
    Ident = 99,
    NoEnd = 100,
    Unknown = 151,
    WrongSecondary = 152,
    BadInteger = 171,
    BadHexadecimal = 172,
    Channel = 201,
    Dimmer = 203,
    BadLevel = 221,
    PatchPage = 231,
    BadTime = 241,
    HighBit = 701,
    NonPrinting = 702,
}

impl Condition {
    /// Of no field.
    pub(crate) fn alone(self) -> Fault {
        Fault { condition: self, column: 0 }
    }
}

/// A condition, and the column of the field that is blamed.
#[derive(Clone, Copy)]
pub(crate) struct Fault {
    pub(crate) condition: Condition,
    pub(crate) column: u8,
}

pub(crate) struct Log<'a> {
    pub(crate) list: &'a mut [u64],
    pub(crate) count: u32,
    pub(crate) record: u32,
    pub(crate) error: u32,
    pub(crate) warning: u32,
}

impl Log<'_> {
    pub(crate) fn report(&mut self, Fault { condition, column }: Fault) {
        if let Some(entry) = self.list.get_mut(self.count as usize) {
            *entry = (self.record as u64) << 46 | (condition as u64) << 32 | (column as u64) << 25;
        }
        self.count += 1;
        match condition {
            Condition::TooLong | Condition::Ident | Condition::NoEnd => self.error = condition as u32,
            _ => self.warning = condition as u32,
        }
    }
}

pub(crate) enum Outcome {
    Blank,
    Obeyed,
    Passed,
    Dropped(Fault),
    End,
}

#[derive(Clone, Copy)]
pub(crate) enum Open {
    Nothing,
    Skipping,
    /// With the number of its slot.
    Memory(Kind, usize),
}

pub(crate) struct Load<'a> {
    pub(crate) desk: Desk,
    pub(crate) store: &'a mut [u8],
    open: Open,
    pub(crate) log: Log<'a>,
    pub(crate) totals: Totals,
    translation: Option<Translation>,
}

/// What a load with translation remembers.
#[derive(Default)]
struct Translation {
    /// How many cues, groups and submasters were accepted.
    accepted: [usize; 3],
    /// By the number that its record bore, the new number of the last such cue.
    bearers: HashMap<Number, Number>,
    /// By the slot of a cue, what its last LINK asked for; `None` is no number.
    asked: HashMap<usize, Option<Number>>,
}

impl Translation {
    /// The page and number of the next memory of a kind, if it has one more.
    fn next(&self, desk: &Desk, kind: Kind) -> Option<(u32, Number)> {
        let accepted = self.accepted[kind as usize];
        let most = if kind == Kind::Sub { desk.subs } else { 999 };
        let (page, whole) = (accepted / most + 1, accepted % most + 1);
        (page <= desk.pages(kind)).then_some((page as u32, Number { whole: whole as u32, tenths: 0 }))
    }

    /// A memory was accepted, whose record has this number field.
    fn accept(&mut self, kind: Kind, slot: usize, given: Field, number: Number) {
        self.accepted[kind as usize] += 1;
        if kind == Kind::Cue {
            // Started afresh, it has asked for nothing.
            self.asked.remove(&slot);
            if let Some(borne) = borne(given.text) {
                self.bearers.insert(borne, number);
            }
        }
    }
}

/// The first ten characters in capitals.
fn keyword<'a>(field: &[u8], room: &'a mut [u8; 10]) -> &'a [u8] {
    for (to, from) in room.iter_mut().zip(field) {
        *to = from.to_ascii_uppercase();
    }
    &room[..field.len().min(10)]
}

impl<'a> Load<'a> {
    /// Or R1, R2, R3, R4a, R4b, R4c.
    pub(crate) fn begin(limits: &Limits, store: &'a mut [u8], stream: &[u8], reports: &'a mut [u64]) -> Result<Load<'a>, Refused> {
        if stream.len() > LONGEST {
            return Err(Refused::R1);
        }
        let desk = Desk::new(limits)?;
        let store = store.get_mut(..desk.needed()).ok_or(Refused::R3)?;
        desk.good_form(store)?;
        let log = Log { list: reports, count: 0, record: 0, error: 0, warning: 0 };
        Ok(Load { desk, store, open: Open::Nothing, log, totals: Totals::default(), translation: None })
    }

    /// The same load with translation; or R7.
    pub(crate) fn translating(self) -> Result<Load<'a>, Refused> {
        if !self.desk.supports(Kind::Group) || !self.desk.supports(Kind::Sub) {
            return Err(Refused::R7);
        }
        Ok(Load { translation: Some(Translation::default()), ..self })
    }

    /// Puts a record into its tally, and tells whether the load stops at it.
    pub(crate) fn count(&mut self, outcome: Outcome) -> bool {
        match outcome {
            Outcome::Blank => self.totals.blank += 1,
            Outcome::Obeyed => self.totals.obeyed += 1,
            Outcome::Passed => self.totals.passed += 1,
            Outcome::Dropped(fault) => {
                self.totals.dropped += 1;
                self.log.report(fault);
                return matches!(fault.condition, Condition::TooLong | Condition::Ident);
            }
            Outcome::End => {
                self.totals.obeyed += 1;
                return true;
            }
        }
        false
    }

    /// What a load comes to that was stopped by a record, or not.
    pub(crate) fn end(mut self, stopped: bool) -> Totals {
        self.link();
        if !stopped {
            self.log.report(Condition::NoEnd.alone());
        }
        let Log { count, error, warning, .. } = self.log;
        Totals { reports: count, closing: if error != 0 { error } else { warning }, ..self.totals }
    }

    /// With translation each kept cue gets the link that it asked for, or a report where no accepted CUE bore that number.
    fn link(&mut self) {
        let Some(Translation { bearers, asked, .. }) = self.translation.take() else { return };
        for (slot, asked) in asked {
            if !used(self.slot(slot)) {
                continue;
            }
            match asked.and_then(|number| bearers.get(&number)) {
                Some(&number) => self.set_link(slot, number),
                None => self.log.report(Condition::BadNumber.alone()),
            }
        }
    }

    fn set_link(&mut self, slot: usize, number: Number) {
        let head = self.head(slot);
        set(head, LINK, 1);
        set(head, LINK_WHOLE, number.whole);
        set(head, LINK_TENTHS, number.tenths);
    }

    fn record(&mut self, record: &[u8]) -> Outcome {
        if record.len() > LONGEST_RECORD {
            return Outcome::Dropped(Condition::TooLong.alone());
        }
        let kept;
        let high = record.iter().fold(false, |any, &b| any | (b >= 0x80));
        let control = record.iter().fold(false, |any, &b| any | is_control(b));
        let (text, columns) = if high || control {
            if high {
                self.log.report(Condition::HighBit.alone());
            }
            if control {
                self.log.report(Condition::NonPrinting.alone());
            }
            kept = Kept::of(record);
            (kept.text(), kept.columns())
        } else {
            (record, &COLUMNS[..record.len()])
        };
        let end = text.iter().position(|&b| b == b'!').unwrap_or(text.len());
        let mut fields = Fields { text: &text[..end], columns: &columns[..end] };
        let first = fields.next();
        if first.text.is_empty() {
            return Outcome::Blank;
        }
        self.obey(first, fields).unwrap_or_else(Outcome::Dropped)
    }

    pub(crate) fn obey(&mut self, first: Field, mut fields: Fields) -> Result<Outcome, Fault> {
        let mut room = [0; 10];
        match keyword(first.text, &mut room) {
            b"CHAN" => self.secondary(first, |_| true, |load, slot| load.chan(slot, fields)),
            b"CUE" => self.primary(Kind::Cue, first, fields),
            b"UP" => self.fade(UP, first, fields),
            b"DOWN" => self.fade(DOWN, first, fields),
            b"PATCH" => self.patch(fields),
            b"GROUP" => self.primary(Kind::Group, first, fields),
            b"SUB" => self.primary(Kind::Sub, first, fields),
            b"FOLLOWON" => self.secondary(
                first,
                |kind| kind == Kind::Cue,
                |load, slot| {
                    let time = time(fields.next())?;
                    let head = load.head(slot);
                    set(head, FOLLOWON, 1);
                    set(head, FOLLOWON_TIME, time);
                    Ok(())
                },
            ),
            b"LINK" => self.secondary(
                first,
                |kind| kind == Kind::Cue,
                |load, slot| {
                    let given = fields.next();
                    match &mut load.translation {
                        None => load.set_link(slot, number(given)?),
                        Some(translation) => drop(translation.asked.insert(slot, borne(given.text))),
                    }
                    Ok(())
                },
            ),
            b"CLEAR" => self.clear(first, fields),
            b"IDENT" => {
                let field = fields.next();
                match split_once(field.text, b':') {
                    Some((version, revision)) if integer(version) == Some(3) && integer(revision) == Some(0) => Ok(Outcome::Obeyed),
                    _ => Err(field.blame(Condition::Ident)),
                }
            }
            b"ENDDATA" => Ok(Outcome::End),
            b"MANUFACTUR" | b"CONSOLE" | b"SET" | b"TEXT" | b"PART" => Ok(Outcome::Passed),
            [b'$', b'$', ..] => Ok(Outcome::Passed),
            [b'$', ..] => {
                self.open = Open::Skipping;
                Ok(Outcome::Passed)
            }
            _ => Err(first.blame(Condition::Unknown)),
        }
    }

    fn primary(&mut self, kind: Kind, first: Field, fields: Fields) -> Result<Outcome, Fault> {
        self.open = Open::Skipping;
        let slot = self.start(kind, first, fields)?;
        self.open = Open::Memory(kind, slot);
        Ok(Outcome::Obeyed)
    }

    /// Starts the named memory afresh and tells its slot.
    fn start(&mut self, kind: Kind, first: Field, mut fields: Fields) -> Result<usize, Fault> {
        let desk = self.desk;
        if !desk.supports(kind) {
            return Err(first.blame(if kind == Kind::Group { Condition::NoGroups } else { Condition::NoSubmasters }));
        }
        let given = fields.next();
        let no_room = || match kind {
            Kind::Cue => Condition::CueRoom.alone(),
            Kind::Group => Condition::GroupRoom.alone(),
            Kind::Sub => given.blame(Condition::Submaster),
        };
        let (page, number) = match &self.translation {
            None => desk.named(kind, given, fields.next())?,
            Some(translation) => translation.next(&desk, kind).ok_or_else(no_room)?,
        };
        let key = key(page, number);
        let found = match kind {
            Kind::Sub => Some(desk.places(kind).start + (page as usize - 1) * desk.subs + number.whole as usize - 1),
            _ => desk.find(self.store, kind, key).or_else(|| desk.unused(self.store, kind)),
        };
        let slot = found.ok_or_else(no_room)?;
        let bytes = self.slot(slot);
        bytes.fill(0);
        bytes[..3].copy_from_slice(&(key << 3).to_be_bytes()[1..]);
        if let Some(translation) = &mut self.translation {
            translation.accept(kind, slot, given, number);
        }
        Ok(slot)
    }

    fn slot(&mut self, slot: usize) -> &mut [u8] {
        let length = self.desk.slot();
        &mut self.store[slot * length..(slot + 1) * length]
    }

    fn head(&mut self, slot: usize) -> &mut [u8; HEAD] {
        self.slot(slot).first_chunk_mut().expect("a slot begins with its head")
    }

    pub(crate) fn secondary(
        &mut self,
        first: Field,
        applies: impl FnOnce(Kind) -> bool,
        act: impl FnOnce(&mut Self, usize) -> Result<(), Fault>,
    ) -> Result<Outcome, Fault> {
        match self.open {
            Open::Skipping => Ok(Outcome::Passed),
            Open::Memory(kind, slot) if applies(kind) => act(self, slot).map(|()| Outcome::Obeyed),
            _ => Err(first.blame(Condition::WrongSecondary)),
        }
    }

    fn fade(&mut self, fade: Fade, first: Field, mut fields: Fields) -> Result<Outcome, Fault> {
        self.secondary(
            first,
            |kind| kind != Kind::Group,
            |load, slot| {
                let up = time(fields.next())?;
                let delay = match fields.next() {
                    Field { text: [], .. } => 0,
                    given => time(given)?,
                };
                let head = load.head(slot);
                set(head, fade.given, 1);
                set(head, fade.fade, up);
                set(head, fade.delay, delay);
                Ok(())
            },
        )
    }

    fn chan(&mut self, slot: usize, mut fields: Fields) -> Result<(), Fault> {
        let channels = self.desk.channels;
        let from = slot * self.desk.slot() + HEAD;
        let levels = &mut self.store[from..from + channels];
        loop {
            let channel = fields.next();
            if channel.text.is_empty() {
                return Ok(());
            }
            let given = fields.next();
            match place(channel, channels, Condition::Channel).and_then(|channel| Ok((channel, level(given)?))) {
                Ok((channel, level)) => levels[channel - 1] = level,
                Err(fault) => self.log.report(fault),
            }
        }
    }

    fn patch(&mut self, mut fields: Fields) -> Result<Outcome, Fault> {
        let desk = self.desk;
        let page = page(fields.next(), desk.patch_pages, Condition::PatchPage)? as usize;
        let from = desk.slots() * desk.slot() + (page - 1) * desk.dimmers * ENTRY;
        loop {
            let channel = fields.next();
            if channel.text.is_empty() {
                return Ok(Outcome::Obeyed);
            }
            let (dimmer, given) = (fields.next(), fields.next());
            let triple = || {
                let channel = place(channel, desk.channels, Condition::Channel)?;
                let dimmer = place(dimmer, desk.dimmers, Condition::Dimmer)?;
                Ok((channel, dimmer, level(given)?))
            };
            match triple() {
                Ok((channel, dimmer, level)) => {
                    let word = (channel as u32) << 14 | (level as u32) << 6;
                    let at = from + (dimmer - 1) * ENTRY;
                    self.store[at..at + ENTRY].copy_from_slice(&word.to_be_bytes()[1..]);
                }
                Err(fault) => self.log.report(fault),
            }
        }
    }

    fn clear(&mut self, first: Field, mut fields: Fields) -> Result<Outcome, Fault> {
        let desk = self.desk;
        let mut room = [0; 10];
        let item = keyword(fields.next().text, &mut room);
        let (kinds, patch): (&[Kind], bool) = match item {
            b"ALL" => (&[Kind::Cue, Kind::Group, Kind::Sub], true),
            b"CUES" => (&[Kind::Cue], false),
            b"GROUPS" => (&[Kind::Group], false),
            b"SUBMASTERS" => (&[Kind::Sub], false),
            b"PATCH" => (&[], true),
            [b'$', ..] => return Ok(Outcome::Obeyed),
            _ => return Err(first.blame(Condition::Unknown)),
        };
        let pages = kinds.iter().filter(|&&kind| desk.supports(kind)).map(|&kind| desk.pages(kind));
        let Some(pages) = pages.chain(patch.then_some(desk.patch_pages)).max() else {
            return Ok(Outcome::Obeyed);
        };
        let page = match fields.next() {
            Field { text: [], .. } => None,
            _ if self.translation.is_some() => None,
            given => Some(page(given, pages, Condition::Page)?),
        };
        for &kind in kinds {
            for slot in self.store[desk.bytes(kind)].chunks_exact_mut(desk.slot()) {
                if used(slot) && page.is_none_or(|page| get(head_of(slot), PAGE) == page) {
                    slot.fill(0);
                }
            }
        }
        if patch {
            let entries = &mut self.store[desk.slots() * desk.slot()..];
            match page {
                None => entries.fill(0),
                Some(page) => {
                    if let Some(entries) = entries.chunks_exact_mut(desk.dimmers * ENTRY).nth(page as usize - 1) {
                        entries.fill(0);
                    }
                }
            }
        }
        if let Open::Memory(_, slot) = self.open {
            if !used(self.slot(slot)) {
                self.open = Open::Nothing;
            }
        }
        Ok(Outcome::Obeyed)
    }
}
