//! Desks, streams and stores for the benchmark and the differential run, all drawn from one number.

use crate::{Limits, LONGEST};
use std::io::Write;

/// The house small desk.
pub const HOUSE: Limits = [96, 192, 200, 40, 24, 2, 1, 2, 1];

/// The largest desk.
pub const LARGE: Limits = [512, 512, 600, 200, 96, 63, 63, 8, 4];

/// Splitmix: small, and the same on every machine.
#[derive(Clone)]
pub struct Dice(pub u64);

impl Dice {
    pub fn word(&mut self) -> u64 {
        self.0 = self.0.wrapping_add(0x9e37_79b9_7f4a_7c15);
        let mut z = self.0;
        z = (z ^ (z >> 30)).wrapping_mul(0xbf58_476d_1ce4_e5b9);
        z = (z ^ (z >> 27)).wrapping_mul(0x94d0_49bb_1331_11eb);
        z ^ (z >> 31)
    }

    /// Below `n`, which is not 0.
    pub fn below(&mut self, n: usize) -> usize {
        (self.word() % n as u64) as usize
    }

    pub fn range(&mut self, from: u32, to: u32) -> u32 {
        from + self.below((to - from) as usize + 1) as u32
    }

    pub fn one_in(&mut self, n: usize) -> bool {
        self.below(n) == 0
    }

    pub fn pick<T: Copy>(&mut self, list: &[T]) -> T {
        list[self.below(list.len())]
    }
}

// Shows as a writer puts them, for the benchmark.

/// A canonical stream of nearly `size` bytes: an empty table is filled with memories that each light one channel in `sparse`, ascending
/// by page and number, so that writing it back gives the same bytes.
pub fn show(limits: &Limits, size: usize, sparse: usize, dice: &mut Dice) -> Vec<u8> {
    let [channels, dimmers, cues, groups, subs, .., sub_pages, patch_pages] = *limits;
    let end: &[u8] = b"ENDDATA\r\n";
    let mut out = b"IDENT 3:0\r\nCLEAR ALL\r\n".to_vec();
    let fits = |out: &Vec<u8>, more: &Vec<u8>| out.len() + more.len() + end.len() <= size;
    let mut more = Vec::new();
    // The patch takes at most a quarter.
    'patch: for page in 1..=patch_pages {
        for dimmer in 1..=dimmers {
            more.clear();
            put(&mut more, format_args!("PATCH {page} {}<{dimmer}@H{:02X}\r\n", dice.range(1, channels), dice.range(0, 255)));
            if out.len() + more.len() > size / 4 {
                break 'patch;
            }
            out.extend_from_slice(&more);
        }
    }
    let memories = (1..=cues)
        .map(|n| ("CUE", n, 1))
        .chain((1..=groups).map(|n| ("GROUP", n, 1)))
        .chain((1..=sub_pages).flat_map(|page| (1..=subs).map(move |n| ("SUB", n, page))));
    for (kind, number, page) in memories {
        more.clear();
        put(&mut more, format_args!("{kind} {number} {page}\r\n"));
        if kind != "GROUP" {
            put(&mut more, format_args!("UP {}.{}\r\nDOWN {} {}\r\n", dice.range(0, 59), dice.range(1, 9), dice.range(0, 59), dice.range(1, 59)));
        }
        if kind == "CUE" {
            put(&mut more, format_args!("FOLLOWON {}:{:02}\r\nLINK {}\r\n", dice.range(1, 59), dice.range(0, 59), dice.range(1, 999)));
        }
        let mut pairs = 0;
        for channel in 1..=channels {
            if dice.one_in(sparse) {
                let before: &str = if pairs % 8 == 0 {
                    if pairs == 0 {
                        "CHAN"
                    } else {
                        "\r\nCHAN"
                    }
                } else {
                    ""
                };
                put(&mut more, format_args!("{before} {channel}@H{:02X}", dice.range(1, 255)));
                pairs += 1;
            }
        }
        if pairs > 0 {
            more.extend_from_slice(b"\r\n");
        }
        if !fits(&out, &more) {
            break;
        }
        out.extend_from_slice(&more);
    }
    out.extend_from_slice(end);
    out
}

fn put(out: &mut Vec<u8>, text: std::fmt::Arguments) {
    out.write_fmt(text).expect("a vector takes everything");
}

/// Every cue and group slot taken, whole numbers in order on page 1, and every submaster; no levels, no patch.
pub fn full(limits: &Limits) -> Vec<u8> {
    let [_, _, cues, groups, subs, _, _, sub_pages, _] = *limits;
    let mut out = b"CLEAR ALL\n".to_vec();
    for n in 1..=cues {
        put(&mut out, format_args!("CUE {n}\n"));
    }
    for n in 1..=groups {
        put(&mut out, format_args!("GROUP {n}\n"));
    }
    for page in 1..=sub_pages {
        for n in 1..=subs {
            put(&mut out, format_args!("SUB {n} {page}\n"));
        }
    }
    out.extend_from_slice(b"ENDDATA");
    out
}

/// A canonical stream of exactly `length` bytes for the largest desk: a sparse show, then one submaster that makes up what is wanting.
pub fn show_of(length: usize) -> Vec<u8> {
    const TIMES: [&str; 7] = ["3", "13", "3.5", "1:30", "10:30", "1:30.5", "10:30.5"];
    let mut out = show(&LARGE, length - 200, 16, &mut Dice(length as u64));
    out.truncate(out.len() - b"ENDDATA\r\n".len());
    for pairs in 0..89 {
        for time in TIMES {
            let mut more = Vec::new();
            put(&mut more, format_args!("SUB 96 8\r\nUP {time}\r\n"));
            for i in 0..pairs {
                put(&mut more, format_args!("{} {}@HFF{}", if i % 8 == 0 { "CHAN" } else { "" }, i + 10, if i % 8 == 7 { "\r\n" } else { "" }));
            }
            if pairs % 8 != 0 {
                more.extend_from_slice(b"\r\n");
            }
            more.extend_from_slice(b"ENDDATA\r\n");
            if out.len() + more.len() == length {
                out.extend_from_slice(&more);
                return out;
            }
        }
    }
    panic!("no show of {length} bytes")
}

/// `first` once, then `again` as often as it fits into `size` bytes.
pub fn repeated(first: &[u8], again: &[u8], size: usize) -> Vec<u8> {
    let mut out = first.to_vec();
    while out.len() + again.len() <= size.min(LONGEST) {
        out.extend_from_slice(again);
    }
    out
}

// Desks, stores and streams of every sort, for the differential run.

const LEAST: Limits = [1, 1, 1, 0, 0, 1, 1, 1, 1];

/// Small most of the time; some with many memories of few channels, or few of many; at times the house small desk, seldom the largest. Limits
/// are at the ends of their ranges or just past them at times.
pub fn desk(dice: &mut Dice) -> Limits {
    let mut limits = match dice.below(1_600) {
        0..=11 => LARGE,
        12..=31 => LARGE.map(|most| dice.range(1, most)),
        32..=80 => HOUSE,
        81..=180 => [6, 9, 600, 200, 9, 63, 63, 3, 3].map(|most| dice.range(1, most)),
        181..=280 => [512, 512, 6, 5, 4, 3, 3, 3, 4].map(|most| dice.range(1, most)),
        _ => [12, 9, 6, 5, 4, 3, 3, 3, 3].map(|most| dice.range(1, most)),
    };
    if dice.one_in(6) {
        limits[dice.pick(&[3, 4])] = 0;
    }
    if dice.one_in(12) {
        let i = dice.below(9);
        let small = limits[0] < 64;
        limits[i] = match dice.below(6) {
            0 => LEAST[i],
            1 if !small || i > 4 => LARGE[i],
            2 => LARGE[i] + 1,
            3 => LEAST[i].wrapping_sub(1),
            4 => dice.word() as u32,
            _ => limits[i],
        };
    }
    limits
}

/// A stream in the grammar with faults of every sort in it, or one that is hardly in the grammar at all.
pub fn stream(limits: &Limits, dice: &mut Dice) -> Vec<u8> {
    match dice.below(30) {
        0 => return (0..dice.below(200)).map(|_| dice.word() as u8).collect(),
        1..=3 => return lined(dice),
        4..=6 => return crowd(limits, dice),
        _ => (),
    }
    let mut talk = Talk::new(limits, &[], dice);
    talk.stream();
    let Talk { out, .. } = talk;
    damaged(out, dice)
}

/// As it is most of the time; else with a few bytes changed, cut short, or at the longest.
fn damaged(mut out: Vec<u8>, dice: &mut Dice) -> Vec<u8> {
    if dice.one_in(8) {
        for _ in 0..=dice.below(4) {
            if !out.is_empty() {
                let at = dice.below(out.len());
                match dice.below(4) {
                    0 => out[at] ^= 1 << dice.below(8),
                    1 => out[at] = dice.word() as u8,
                    2 => drop(out.remove(at)),
                    _ => out.insert(at, dice.word() as u8),
                }
            }
        }
    }
    if dice.one_in(10) {
        out.truncate(dice.below(out.len() + 1));
    }
    if dice.one_in(3_000) {
        // At the longest, and past it.
        let length = LONGEST - 1 + dice.below(3);
        let filler: &[u8] = dice.pick(&[&b"\r\n"[..], b"\n", b"! act two\r\n", b"UP 3\n", b"SET CHANNELS 9\n"]);
        while out.len() + filler.len() <= length {
            out.extend_from_slice(filler);
        }
        out.resize(length, b'\n');
    }
    out
}

/// What may be ignored, end a record or its text, or stand next to what may.
pub const SPECIALS: [&[u8]; 20] = [
    b"!", b"\t", b"\x00", b"\x08", b"\x01", b"\x1f", b"\x7f", b"\x80", b"\xff", b"\r", b"\n", b"\r\n", b"\n\r", b"\t\x02", b"\x7e", b"\"", b" ",
    b"\x80\x1f", b"!\x80", b"!\x7f",
];

/// A record of so many characters in which every character counts: few of its fields have more than two.
pub fn long_record(length: usize, dice: &mut Dice) -> Vec<u8> {
    let mut out = Vec::new();
    let body = dice.below(8);
    out.extend_from_slice(match body {
        0 => b"PATCH 1",
        1 => b"! ",
        2 => b"chan",
        _ => b"CHAN",
    });
    for n in dice.range(1, 9).. {
        if out.len() >= length {
            break;
        }
        match body {
            0 => put(&mut out, format_args!(" {n}<{n}@H{n}")),
            _ => put(&mut out, format_args!(" {n}@{n}")),
        }
    }
    out.truncate(length);
    out
}

/// A few records of lengths around multiples of eight and around 80, with special characters in them, the last without a terminator at times.
fn lined(dice: &mut Dice) -> Vec<u8> {
    let mut out = Vec::new();
    for _ in 0..=dice.below(6) {
        let name: &[u8] = dice.pick(&[&b"CUE 1\n"[..], b"CUE 2\r\n", b"GROUP 1\r", b""]);
        out.extend_from_slice(name);
        let length = (8 * dice.range(1, 10) + dice.range(0, 2) - 1) as usize;
        let mut record = long_record(length, dice);
        for _ in 0..dice.below(4) {
            let at = dice.below(length);
            let special = dice.pick(&SPECIALS);
            record.splice(at..at + 1, special.iter().copied());
            record.truncate(length.max(1));
        }
        out.extend_from_slice(&record);
        let end: &[u8] = dice.pick(&[&b"\n"[..], b"\r\n", b"\n\r", b"\r", b"\n\n", b"\r\nX\n", b""]);
        out.extend_from_slice(end);
    }
    out
}

/// Cues and groups in some order or none, some given again, with CLEARs between them at times; up to more than the desk has room for.
pub fn crowd(limits: &Limits, dice: &mut Dice) -> Vec<u8> {
    let [channels, _, cues, groups, subs, cue_pages, group_pages, sub_pages, _] = limits.map(|limit| limit.clamp(1, 600));
    let most = dice.pick(&[20, cues, cues + groups + 9]) as usize;
    let widest = dice.pick(&[9, 99, 999]);
    let mut names: Vec<(u32, u32, u32, u32)> = Vec::new();
    for _ in 0..dice.below(most + 1) {
        let kind = dice.below(8) as u32;
        let pages = if kind < 5 { cue_pages } else { group_pages };
        let tenths = if dice.one_in(2) { 0 } else { dice.range(0, 9) };
        names.push((kind, dice.range(1, pages), dice.range(1, widest), tenths));
    }
    match dice.below(5) {
        0 => names.sort_unstable(),
        1 => names.sort_unstable_by(|a, b| b.cmp(a)),
        2 => {
            names.sort_unstable();
            for _ in 0..=dice.below(4) {
                let (i, j) = (dice.below(names.len().max(1)), dice.below(names.len().max(1)));
                if i.max(j) < names.len() {
                    names.swap(i, j);
                }
            }
        }
        _ => (),
    }
    let mut out = Vec::new();
    for i in 0..names.len() {
        let again = dice.one_in(12);
        let (kind, page, whole, tenths) = if again { names[dice.below(i + 1)] } else { names[i] };
        let name = if kind < 5 { "CUE" } else { "GROUP" };
        put(&mut out, format_args!("{name} {whole}.{tenths} {page}\n"));
        match dice.below(12) {
            0 => put(&mut out, format_args!("CHAN {}@{} {}@HFF\n", dice.range(1, channels), dice.range(0, 100), dice.range(1, channels))),
            1 => put(&mut out, format_args!("UP {}\nLINK {whole}\nFOLLOWON {}:1\n", dice.range(0, 999), dice.range(0, 99))),
            2 => put(&mut out, format_args!("SUB {} {}\nDOWN 1 {}\n", dice.range(1, subs), dice.range(1, sub_pages), dice.range(0, 99))),
            3 if dice.one_in(30) => put(&mut out, format_args!("CLEAR {} {page}\n", dice.pick(&["ALL", "CUES", "GROUPS"]))),
            _ => (),
        }
    }
    if !dice.one_in(4) {
        out.extend_from_slice(b"ENDDATA");
    }
    out.truncate(LONGEST);
    out
}

// Shows of other makers' desks, for the loads with translation.

/// Numbers that a foreign show gives its cues and links: those of a desk of ours, some of them written in another way, the ends of what §7.4
/// takes for a number and what lies past them, and what is none.
pub const FOREIGN: [&str; 41] = [
    "1", "2", "3", "5", "05", "5.0", "5.5", "005.5", "999", "999.9", "1000", "1000.0", "1000.5", "9999", "9999.0", "9999.9", "009999.9", "10000",
    "10000.0", "10000.5", "65541", "4294967301", "18446744073709551621", "0", "0.0", "00", "0.1", "2.55", "5.50", "5.", ".5", ".", "5..0", "5.0.0",
    "5.x", "x", "ACT1", "-5", "+5", "5:0", "$5",
];

/// A show whose cues and links have few numbers among them, so that links meet what cues bear, before or after, once or repeatedly; or one of
/// very many memories.
pub fn foreign(limits: &Limits, dice: &mut Dice) -> Vec<u8> {
    match dice.below(16) {
        0..=2 => return stream(limits, dice),
        3 => return numerous(limits, dice),
        _ => (),
    }
    let few: Vec<&str> = (0..=dice.below(9)).map(|_| dice.pick(&FOREIGN)).collect();
    let mut talk = Talk::new(limits, &few, dice);
    talk.foreign_show();
    let Talk { out, .. } = talk;
    damaged(out, dice)
}

/// So many short records of memories, cleared ahead of a full table or some time after, that their numbers go from page to page, and links
/// among them.
fn numerous(limits: &Limits, dice: &mut Dice) -> Vec<u8> {
    let [_, _, cues, groups, subs, cue_pages, group_pages, sub_pages, _] = limits.map(|limit| limit.clamp(1, 600));
    let (name, item, room, most) = match dice.below(4) {
        0..=1 => ("CUE", "CUES", cues, 999 * cue_pages),
        2 => ("GROUP", "GROUPS", groups, 999 * group_pages),
        _ => ("SUB", "SUBMASTERS", subs, subs * sub_pages),
    };
    let near = most + dice.range(0, 4);
    let count = dice.pick(&[998, 999, 1_000, 1_998, 1_999, most - 1, most, near]).min(9_999);
    // At times more than there is room for: what finds none has no number.
    let between = room + if dice.one_in(3) { dice.range(1, 9) } else { 0 };
    let widest = dice.pick(&[1, 9, 9_999]);
    let links = dice.pick(&[10, 100, 1_000]);
    let mut out = Vec::new();
    for i in 0..count {
        if i % between == 0 {
            put(&mut out, format_args!("CLEAR {item} 99\n"));
        }
        match dice.below(8) {
            0 => put(&mut out, format_args!("{name} 99999\n")),
            _ => put(&mut out, format_args!("{name} {}\n", dice.range(0, widest))),
        }
        if dice.one_in(links) || i + 2 > count {
            put(&mut out, format_args!("LINK {}\n", dice.range(0, widest)));
        }
    }
    out
}

struct Talk<'a> {
    limits: &'a Limits,
    /// The numbers that a foreign show has; none in another.
    foreign: &'a [&'a str],
    dice: &'a mut Dice,
    /// One value in so many is odd.
    faults: usize,
    /// One character in so many has some to ignore ahead of it.
    dirt: usize,
    out: Vec<u8>,
}

impl<'a> Talk<'a> {
    fn new(limits: &'a Limits, foreign: &'a [&'a str], dice: &'a mut Dice) -> Talk<'a> {
        let faults = dice.pick(&[4, 6, 12, 40, 1_000_000]);
        let dirt = dice.pick(&[3, 12, 60, 1_000_000, 1_000_000]);
        Talk { limits, foreign, dice, faults, dirt, out: Vec::new() }
    }

    fn odd(&mut self) -> bool {
        self.dice.one_in(self.faults)
    }

    fn put(&mut self, text: &[u8]) {
        self.out.extend_from_slice(text);
    }

    fn stream(&mut self) {
        if !self.dice.one_in(3) {
            self.record(b"IDENT", |talk| talk.field("3:0"));
        }
        for _ in 0..self.dice.below(40) {
            self.any_record();
        }
        if !self.dice.one_in(3) {
            self.record(b"ENDDATA", |_| ());
        }
        for _ in 0..self.dice.below(3) {
            self.any_record();
        }
    }

    /// Cues, links and CLEAR in the main, up to an end or none, and a few records behind it.
    fn foreign_show(&mut self) {
        for _ in 0..self.dice.below(60) {
            match self.dice.below(24) {
                0..=7 => self.record(b"CUE", |talk| {
                    talk.number();
                    talk.page(talk.limits[5]);
                }),
                8..=13 => self.record(b"LINK", |talk| talk.number()),
                14 => self.record(b"GROUP", |talk| talk.number()),
                15 => self.record(b"SUB", |talk| talk.number()),
                16 => {
                    let item = self.dice.pick(&["ALL", "CUES", "CUES", "GROUPS", "SUBMASTERS", "PATCH", "FOO", "$"]);
                    self.record(b"CLEAR", |talk| {
                        talk.field(item);
                        talk.number();
                    });
                }
                _ => self.any_record(),
            }
        }
        match self.dice.below(6) {
            0 => self.record(b"IDENT", |talk| talk.field("9:9")),
            1 => self.put(&[b'x'; 81]),
            2 => (),
            _ => self.record(b"ENDDATA", |_| ()),
        }
        for _ in 0..self.dice.below(3) {
            self.any_record();
        }
    }

    fn any_record(&mut self) {
        match self.dice.below(48) {
            0..=14 => self.record(b"CHAN", |talk| {
                for _ in 0..talk.dice.below(9) {
                    talk.integer(talk.limits[0]);
                    talk.level();
                }
            }),
            15..=18 => self.record(b"CUE", |talk| {
                talk.number();
                talk.page(talk.limits[5]);
            }),
            19..=21 => self.record(b"GROUP", |talk| {
                talk.number();
                talk.page(talk.limits[6]);
            }),
            22..=24 => self.record(b"SUB", |talk| {
                talk.integer(talk.limits[4]);
                talk.page(talk.limits[7]);
            }),
            25..=30 => {
                let name: &[u8] = self.dice.pick(&[&b"UP"[..], b"DOWN"]);
                self.record(name, |talk| {
                    talk.time();
                    if talk.dice.one_in(2) {
                        talk.time();
                    }
                });
            }
            31..=32 => self.record(b"FOLLOWON", |talk| talk.time()),
            33..=34 => self.record(b"LINK", |talk| talk.number()),
            35..=39 => self.record(b"PATCH", |talk| {
                talk.integer(talk.limits[8]);
                for _ in 0..talk.dice.below(5) {
                    talk.integer(talk.limits[0]);
                    talk.integer(talk.limits[1]);
                    talk.level();
                }
            }),
            40..=41 => self.record(b"CLEAR", |talk| {
                let items = ["ALL", "CUES", "GROUPS", "PATCH", "SUBMASTERS", "$LOOKS", "FOO", "cues", "Submasters", "SUBMASTERSX", "CUE", "$"];
                let item = talk.dice.pick(&items);
                if !talk.dice.one_in(12) {
                    talk.field(item);
                    let table = 5 + talk.dice.below(4);
                    talk.page(talk.limits[table]);
                }
            }),
            42 => {
                let faults = std::mem::replace(&mut self.faults, 3);
                self.record(b"IDENT", |talk| {
                    let odd = talk.odd();
                    let version =
                        talk.dice.pick(&["3", "3:", ":0", "3:0:0", "3.0", "2:0", "3:1", "", "03:00", "3:0x", "3:00000000000", "4294967299:0"]);
                    talk.field(if odd { version } else { "3:0" });
                });
                self.faults = faults;
            }
            43..=44 => {
                let names = [
                    "MANUFACTURER", "MANUFACTURED", "CONSOLE", "SET", "TEXT", "PART", "$LOOK", "$", "$$", "$$X", "$5", "$(", "MANUFACTU",
                    "MANUFACTUR(",
                ];
                let name = self.dice.pick(&names);
                self.record(name.as_bytes(), |talk| talk.field("CHAN 1 2"));
            }
            45 => {
                let names =
                    ["CUEX", "ENDDATAX", "ENDDAT", "C", "9", "(", "UPP", "FOLLOWONS", "LINKS", "CHANNEL", "3:0", "PATC", "GROUPS", "SUBMASTERS"];
                let name = self.dice.pick(&names);
                self.record(name.as_bytes(), |talk| talk.field("1"));
            }
            46 => {
                let text: &[u8] = self.dice.pick(&[&b""[..], b"!", b"! CUE 1", b" ", b"\t,/;<=>@", b" !\x80\x01", b"\x7f", b"\xff", b"\x00"]);
                self.put(text);
                self.end();
            }
            _ => {
                if self.dice.one_in(20) {
                    self.record(b"ENDDATA", |talk| talk.field("1"));
                }
            }
        }
    }

    fn record(&mut self, keyword: &[u8], fields: impl FnOnce(&mut Self)) {
        let from = self.out.len();
        if self.odd() {
            self.delimiter();
        }
        let case = self.dice.below(4);
        for (i, &b) in keyword.iter().enumerate() {
            self.out.push(match case {
                0 => b.to_ascii_lowercase(),
                1 if i > 0 => b.to_ascii_lowercase(),
                2 if self.dice.one_in(2) => b.to_ascii_lowercase(),
                _ => b,
            });
        }
        if self.odd() {
            match self.dice.below(3) {
                0 => drop(self.out.pop()),
                1 => self.out.push(b'A' + self.dice.below(26) as u8),
                _ => self.put(b"ABCDEFGHIJ"),
            }
        }
        fields(self);
        if self.odd() {
            let text = self.dice.pick(&["! a comment", "!", " ", "\t ", " extra 1 2", " !\u{7f}", "$"]);
            self.put(text.as_bytes());
        }
        if self.odd() {
            // A stray character somewhere in the record.
            let at = from + self.dice.below(self.out.len() - from + 1);
            let stray = match self.dice.below(4) {
                0 => 0x80 | self.dice.word() as u8,
                1 => self.dice.below(32) as u8,
                2 => self.dice.pick(b"!$H:.\x7f-(@"),
                _ => self.dice.word() as u8,
            };
            self.out.insert(at, stray);
        }
        self.soil(from);
        if self.odd() && self.odd() {
            // Around 80 characters.
            let length = from + 78 + self.dice.below(5);
            let filler = self.dice.pick(b" \x010!\xffx");
            while self.out.len() < length {
                self.out.push(filler);
            }
        }
        self.end();
    }

    /// Puts characters to ignore into the record that begins at a place, ahead of any other, and does not make it too long.
    fn soil(&mut self, from: usize) {
        for at in (from..=self.out.len()).rev() {
            if self.dice.one_in(self.dirt) && self.out.len() - from <= 77 {
                let some = self.dice.pick(&[&b"\x80"[..], b"\xff", b"\x01", b"\x7f", b"\x00\x1f", b"\xa0\x08\xc3"]);
                self.out.splice(at..at, some.iter().copied());
            }
        }
    }

    fn end(&mut self) {
        let end: &[u8] =
            if self.odd() { self.dice.pick(&[&b"\r"[..], b"\n", b"\n\r", b"\r\n\r", b"\r\r", b"\n\n", b"\n\r\r\n", b""]) } else { b"\r\n" };
        self.put(end);
    }

    fn delimiter(&mut self) {
        if self.odd() {
            for _ in 0..=self.dice.below(3) {
                let one = self.dice.pick(b"\t ,/;<=>@");
                self.out.push(one);
            }
        } else {
            let one = self.dice.pick(b" <@/\t");
            self.out.push(one);
        }
    }

    fn field(&mut self, text: &str) {
        self.delimiter();
        self.put(text.as_bytes());
    }

    fn integer(&mut self, most: u32) {
        if !self.odd() {
            let n = self.dice.range(1, most.max(1));
            return self.field(&n.to_string());
        }
        let n = self.dice.range(0, most.saturating_add(1));
        let text = match self.dice.below(8) {
            0 => format!("{n:06}"),
            1 => format!("{n}x"),
            2 => self.dice.pick(&["", "x", "-1", "+1", "1.0", ".", "$", "1:2", "0x1"]).to_string(),
            3 => (u32::MAX as u64 + 1 + n as u64).to_string(),
            4 => (u64::MAX as u128 + 1 + n as u128).to_string(),
            5 => self.dice.pick(&["99999999999999999999", "65537", "262144", "1000", "10000", "00000000000000000000000001", "000"]).to_string(),
            _ => n.to_string(),
        };
        self.field(&text);
    }

    fn page(&mut self, pages: u32) {
        if !self.dice.one_in(3) {
            self.integer(pages);
        }
    }

    fn number(&mut self) {
        if !self.foreign.is_empty() && !self.dice.one_in(8) {
            let text = self.dice.pick(self.foreign);
            return self.field(text);
        }
        if self.odd() {
            let odd = [
                "0", "0.0", "5.", ".5", "2.55", "2.50", "1000", "1000.5", "1000.55", "1000.", "1000x", "9999.9", "999.9", "999.10", "00001.5",
                "1..2", "1.x", "x.1", "4294967297", "4294967296.5", "", ".", "0.1", "000.1", "1.2.3",
            ];
            let text = self.dice.pick(&odd);
            return self.field(text);
        }
        let whole = if self.dice.one_in(8) { self.dice.range(1, 999) } else { self.dice.range(1, 7) };
        let text = if self.dice.one_in(3) { format!("{whole}.{}", self.dice.range(0, 9)) } else { whole.to_string() };
        self.field(&text);
    }

    fn level(&mut self) {
        if self.odd() {
            let odd = [
                "H", "Hello", "h0g", "H12345", "H9ABC", "H009F", "HABC", "HF", "hfff", "FF", "5H", "101", "999", "1000", "99999999999", "0999",
                "00001000", "4294967296", "x", "-5", "+5", "1.5", "50%", "H-1", "H+1", "H 1", "HG", "H:", "H/", "H`", "h@",
            ];
            let text = self.dice.pick(&odd);
            return self.field(text);
        }
        let text = match self.dice.below(3) {
            0 => self.dice.range(0, 100).to_string(),
            1 => format!("H{:02X}", self.dice.range(0, 255)),
            _ => format!("h{:x}", self.dice.range(0, 0xffff)),
        };
        self.field(&text);
    }

    fn time(&mut self) {
        if self.odd() {
            let odd = [
                "1:60", "60:1", "1:60:00", "1:2:3:4", ":3", "3:", "1::2", "", ".5", "5.", "5.55", "1.5:3", "1000", "1000:00", "1000:00:00",
                "999:59:59.9", "999:59", "999.9", "1:003", "00.5", "0:90", "59:59.9", "00999:00059", "999:60:00", "999:59:60", "999:999:999.9",
                "999:999:60", "999:100:05", "999:1000:00", "999:00:1000", "4294967296", "4294967297:1", "1:4294967297", "x", "1:x", "1:2:x", "1:2.x",
                "-1", "1:2:3.45", "0:0:0.0", "1:1000",
            ];
            let text = self.dice.pick(&odd);
            return self.field(text);
        }
        let text = match self.dice.below(7) {
            0 => self.dice.range(0, 999).to_string(),
            1 => format!("{}.{}", self.dice.range(0, 99), self.dice.range(0, 9)),
            2 => format!("{}:{:02}", self.dice.range(0, 999), self.dice.range(0, 59)),
            4 => format!("{}:{}", self.dice.range(0, 999), self.dice.range(0, 999)),
            5 => format!("{}:{}:{}.{}", self.dice.range(998, 999), self.dice.range(0, 999), self.dice.range(0, 999), self.dice.range(0, 9)),
            3 => format!("{}:{:02}:{:02}.{}", self.dice.range(0, 999), self.dice.range(0, 59), self.dice.range(0, 59), self.dice.range(0, 9)),
            _ => format!("{}:{}:{}", self.dice.range(0, 12), self.dice.range(0, 59), self.dice.range(0, 59)),
        };
        self.field(&text);
    }
}
