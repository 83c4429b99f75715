//! Times the proved library beside plain Rust, and its two loads beside the better plain Rust too.
//!
//!   bench                          every row
//!   bench only WORD..              the rows that have every WORD in their name or size
//!   bench once SIDE WORD..         one call of each such row on one side (ours, plain, better), for an instruction counter
//!   bench count CALL SIDE [TIMES]  one call (load, translate, write, find or none) on the largest desk, for an instruction counter; with
//!                                  TIMES as many calls, for a sampling profiler
//!
//! All sides get the same bytes in one process; they take turns, and the least time of many turns counts. Before each timed load the
//! store is put back, untimed, to what it was; outputs and report lists are warm and not cleared.

use std::hint::black_box;
use std::time::Duration;
use trials::streams::{full, repeated, show, Dice, HOUSE, LARGE};
use trials::{better, ours, plain, Limits, Refused, Totals, LONGEST};
use Side::{Better, Ours, Plain};

const SIZES: [usize; 5] = [1_024, 4_096, 16_384, 65_536, LONGEST];

/// Shows of a few hundred bytes.
const SMALL: [usize; 2] = [300, 700];

type Load = fn(&Limits, &mut [u8], &[u8], &mut [u64]) -> Result<Totals, Refused>;

/// The better one has loads of its own; its other calls are those of the plain one.
#[derive(Clone, Copy)]
enum Side {
    Ours,
    Plain,
    Better,
}

impl Side {
    fn named(word: &str) -> Option<Side> {
        match word {
            "ours" => Some(Ours),
            "plain" => Some(Plain),
            "better" => Some(Better),
            _ => None,
        }
    }

    fn load(self) -> Load {
        match self {
            Ours => ours::load,
            Plain => plain::load,
            Better => better::load,
        }
    }

    fn translate(self) -> Load {
        match self {
            Ours => ours::translate,
            Plain => plain::translate,
            Better => better::translate,
        }
    }

    fn write(self, limits: &Limits, store: &[u8], out: &mut [u8]) -> Result<usize, Refused> {
        match self {
            Ours => ours::write(limits, store, out),
            Plain | Better => plain::write(limits, store, out),
        }
    }

    fn find(self, limits: &Limits, store: &[u8], (page, whole, tenths): (u32, u32, u32)) -> Result<Option<usize>, Refused> {
        match self {
            Ours => ours::find(limits, store, page, whole, tenths),
            Plain | Better => plain::find(limits, store, page, whole, tenths),
        }
    }

    fn walk(self, limits: &Limits, store: &[u8]) -> Result<u64, Refused> {
        let mut slots = [0; 768];
        match self {
            Ours => {
                let count = ours::memories(limits, store, 0, &mut slots);
                walked(&slots, count, |slot, values| ours::head(limits, store, slot, values), |slot| ours::levels(limits, store, slot))
            }
            Plain | Better => {
                let count = plain::memories(limits, store, 0, &mut slots);
                walked(&slots, count, |slot, values| plain::head(limits, store, slot, values), |slot| plain::levels(limits, store, slot))
            }
        }
    }
}

/// As a program walks the cues: their slots, then of each the head and the levels. Comes to a sum over what was told.
fn walked(
    slots: &[u32],
    count: Result<Option<usize>, Refused>,
    head: impl Fn(u32, &mut [u32]) -> Result<bool, Refused>,
    levels: impl Fn(u32) -> Result<Option<usize>, Refused>,
) -> Result<u64, Refused> {
    let mut sum = 0;
    for &slot in &slots[..count?.unwrap_or(0)] {
        let mut values = [0; 16];
        head(slot, &mut values)?;
        sum += u64::from(values[2]) + u64::from(values[8]) + levels(slot)?.unwrap_or(0) as u64;
    }
    Ok(sum)
}

#[repr(C)]
struct Timespec {
    seconds: i64,
    nanoseconds: i64,
}

extern "C" {
    fn clock_gettime(clock: i32, now: *mut Timespec) -> i32;
}

/// The processor time of this thread, which other work on a busy machine does not lengthen. On 64-bit Linux.
fn now() -> Duration {
    const CLOCK_THREAD_CPUTIME_ID: i32 = 3;
    let mut now = Timespec { seconds: 0, nanoseconds: 0 };
    // SAFETY: `now` is live and has the layout of the system's struct.
    assert_eq!(unsafe { clock_gettime(CLOCK_THREAD_CPUTIME_ID, &mut now) }, 0);
    Duration::new(now.seconds as u64, now.nanoseconds as u32)
}

fn timed<T>(call: impl FnOnce() -> T) -> Duration {
    let begun = now();
    black_box(call());
    now() - begun
}

/// Runs the sides by turns; the least time of each in microseconds.
fn race<const N: usize>(sides: [Side; N], mut turn: impl FnMut(Side) -> Duration) -> [f64; N] {
    let mut least = [f64::MAX; N];
    let begun = now();
    let mut turns = 0;
    while turns < 5 || turns < 2_000 && now() - begun < Duration::from_millis(600) {
        for (side, least) in sides.into_iter().zip(&mut least) {
            *least = least.min(turn(side).as_nanos() as f64 / 1e3);
        }
        turns += 1;
    }
    least
}

/// The one call that is counted: `--toggle-collect=counted` collects in here alone.
#[inline(never)]
#[no_mangle]
pub fn counted(call: &mut dyn FnMut()) {
    call()
}

fn store_of(limits: &Limits) -> Vec<u8> {
    vec![0; plain::needed(limits).expect("a desk in range")]
}

fn loaded(limits: &Limits, stream: &[u8]) -> Vec<u8> {
    let mut store = store_of(limits);
    plain::load(limits, &mut store, stream, &mut []).expect("a load");
    store
}

/// Which rows are wanted, and whether they are raced or called once on one side.
struct Table {
    only: Vec<String>,
    once: Option<Side>,
}

impl Table {
    fn wants(&self, what: &str, bytes: usize) -> bool {
        let row = format!("{what} {bytes}");
        self.only.iter().all(|word| row.contains(word.as_str()))
    }

    fn head() {
        println!("{} (ratios: our time over theirs, below 1 ours is faster)", machine());
        println!(
            "{:<52}{:>9}{:>12}{:>9}{:>12}{:>12}{:>10}{:>10}",
            "", "bytes", "ours us", "ns/byte", "plain us", "better us", "to plain", "to better"
        );
    }

    fn line(what: &str, bytes: usize, ours: f64, plain: f64, better: Option<f64>) {
        // A refused call has no bytes to share its time among.
        let each = if bytes == 0 { "-".to_string() } else { format!("{:.2}", ours * 1e3 / bytes as f64) };
        let (time, ratio) = better.map_or(("-".to_string(), "-".to_string()), |time| (format!("{time:.1}"), format!("{:.2}", ours / time)));
        println!("{what:<52}{bytes:>9}{ours:>12.1}{each:>9}{plain:>12.1}{time:>12}{:>10.2}{ratio:>10}", ours / plain);
    }

    fn load(&self, what: &str, limits: &Limits, before: &[u8], stream: &[u8]) {
        self.read(&format!("load, {what}"), Side::load, limits, before, stream);
    }

    fn translate(&self, what: &str, limits: &Limits, before: &[u8], stream: &[u8]) {
        self.read(&format!("translate, {what}"), Side::translate, limits, before, stream);
    }

    fn read(&self, what: &str, load: fn(Side) -> Load, limits: &Limits, before: &[u8], stream: &[u8]) {
        if !self.wants(what, stream.len()) {
            return;
        }
        let mut store = before.to_vec();
        let mut reports = vec![0; 1_024];
        if let Some(side) = self.once {
            let load = load(side);
            counted(&mut || _ = black_box(load(limits, &mut store, stream, &mut reports)));
            return println!("{what}, {} bytes", stream.len());
        }
        let answer = load(Ours)(limits, &mut store, stream, &mut reports);
        for side in [Plain, Better] {
            let mut other = before.to_vec();
            let mut others = vec![0; 1_024];
            assert_eq!(answer, load(side)(limits, &mut other, stream, &mut others), "{what}");
            assert!(store == other && reports == others, "{what}");
        }
        let [ours, plain, better] = race([Ours, Plain, Better], |side| {
            store.copy_from_slice(before);
            let load = load(side);
            timed(|| load(limits, &mut store, stream, &mut reports))
        });
        Table::line(what, stream.len(), ours, plain, Some(better));
    }

    fn write(&self, what: &str, limits: &Limits, store: &[u8]) {
        let what = format!("write, {what}");
        let mut out = vec![0; LONGEST];
        let answer = plain::write(limits, store, &mut out);
        let length = answer.unwrap_or(0);
        if !self.wants(&what, length) {
            return;
        }
        if let Some(side) = self.once {
            counted(&mut || _ = black_box(side.write(limits, store, &mut out)));
            return println!("{what}, {length} bytes");
        }
        let mut other = vec![0; LONGEST];
        assert_eq!(ours::write(limits, store, &mut other), answer, "{what}");
        assert!(out == other, "{what}");
        let [ours, plain] = race([Ours, Plain], |side| timed(|| side.write(limits, store, &mut out)));
        Table::line(&what, length, ours, plain, None);
    }

    fn find(&self, what: &str, limits: &Limits, store: &[u8], cue: (u32, u32, u32)) {
        if !self.wants(what, store.len()) {
            return;
        }
        if let Some(side) = self.once {
            counted(&mut || _ = black_box(side.find(limits, store, black_box(cue))));
            return println!("{what}, {} bytes", store.len());
        }
        assert_eq!(ours::find(limits, store, cue.0, cue.1, cue.2), plain::find(limits, store, cue.0, cue.1, cue.2), "{what}");
        // Short calls: eight at a time.
        let [ours, plain] = race([Ours, Plain], |side| {
            timed(|| {
                for _ in 0..8 {
                    black_box(side.find(limits, store, black_box(cue))).ok();
                }
            }) / 8
        });
        Table::line(what, store.len(), ours, plain, None);
    }

    fn walk(&self, what: &str, limits: &Limits, store: &[u8]) {
        let what = format!("walk, {what}");
        if !self.wants(&what, store.len()) {
            return;
        }
        if let Some(side) = self.once {
            counted(&mut || _ = black_box(side.walk(limits, store)));
            return println!("{what}, {} bytes", store.len());
        }
        assert_eq!(Ours.walk(limits, store), Plain.walk(limits, store), "{what}");
        let [ours, plain] = race([Ours, Plain], |side| timed(|| side.walk(limits, store)));
        Table::line(&what, store.len(), ours, plain, None);
    }

    fn grown(&self, what: &str, limits: &Limits, stream: &[u8]) -> Vec<u8> {
        let store = loaded(limits, stream);
        let mut back = vec![0; LONGEST];
        let length = plain::write(limits, &store, &mut back).expect("a stream");
        assert!(back[..length] == *stream, "the show is not as a writer puts it");
        self.load(&format!("{what}, empty store"), limits, &store_of(limits), stream);
        self.write(what, limits, &store);
        store
    }

    fn growth(&self, name: &str, limits: &Limits) {
        // A small show lights the first few channels of a desk, or some of them.
        for (density, channels, sparse) in [("dense", 12, 1), ("sparse", 48, 16)] {
            for size in SMALL {
                let few = [channels, limits[1], limits[2], limits[3], limits[4], limits[5], limits[6], limits[7], limits[8]];
                self.grown(&format!("{name} desk, small {density} show"), limits, &show(&few, size, sparse, &mut Dice(size as u64)));
            }
        }
        for (density, sparse) in [("dense", 1), ("sparse", 16)] {
            for size in SIZES {
                let stream = show(limits, size, sparse, &mut Dice(size as u64));
                let store = self.grown(&format!("{name} desk, {density} show"), limits, &stream);
                if size == LONGEST {
                    self.load(&format!("{name} desk, {density} show, over itself"), limits, &store, &stream);
                }
            }
        }
    }

    fn records(&self, name: &str, limits: &Limits) {
        let taken = loaded(limits, &full(limits));
        let cues = limits[2];
        let last = format!("CUE {cues}\n");
        // Each as often as it fits: with no memory open, or after the desk's last cue.
        let rows: [(&str, bool, &[u8]); 9] = [
            ("its last cue again", false, last.as_bytes()),
            ("a cue without room", false, b"CUE 0.1\n"),
            ("short CHAN records", true, b"CHAN 9 9\n"),
            ("CHAN of no pairs", true, b"CHAN\n"),
            ("CLEAR ALL", false, b"CLEAR ALL\n"),
            ("a cue, CLEAR ALL", false, b"CUE 1\nCLEAR ALL\n"),
            ("PATCH", false, b"PATCH 1 1<1@HFF\n"),
            ("empty records", false, b"\n"),
            ("unknown keywords of one letter", false, b"X\n"),
        ];
        let more: [(&str, bool, &[u8]); 14] = [
            ("CHAN of eight pairs", true, b"CHAN 9@HFF 18@H8F 27@50 36@H10 45@7 54@HFF 63@H01 72@100\r\n"),
            ("CHAN in small letters", true, b"chan 9@hff 18@h8f\n"),
            ("CHAN, a trailing comment", true, b"CHAN 9@HFF 18@H8F ! the blue wash, stage left\n"),
            ("CHAN, a tab", true, b"CHAN\t9@HFF 18@H8F\n"),
            ("CHAN, a high byte", true, b"CHAN 9@HFF 18@H8F\xa0\n"),
            ("CHAN, a control character", true, b"CHAN 9@HFF\x01 18@H8F\n"),
            ("UP, two times", true, b"UP 3.5 1:30\n"),
            ("DOWN, one time", true, b"DOWN 12\n"),
            ("FOLLOWON", true, b"FOLLOWON 1:30.5\n"),
            ("LINK", true, b"LINK 101.5\n"),
            ("PATCH of four triples", false, b"PATCH 1 1<1@HFF 2<2@H80 3<3@50 4<4@100\n"),
            ("comments", false, b"! a comment of some length, as a plot has them\n"),
            ("TEXT, passed over", true, b"TEXT the blue wash, stage left\n"),
            ("unknown keywords of nine letters", false, b"KEYBOARDS 1 2\n"),
        ];
        for (size, rows) in [(16_384, &rows[..]), (16_384, &more), (LONGEST, &rows)] {
            for &(what, opened, again) in rows {
                let first = if opened { last.as_bytes() } else { b"" };
                self.load(&format!("{name}, full: {what}"), limits, &taken, &repeated(first, again, size));
            }
        }
        // About a thousand reports, of pairs and of whole records.
        let faulty = [last.as_bytes(), &b"CHAN 9@H0G 600@50 3x@10 4@1000 5@HFF\n".repeat(250)].concat();
        self.load(&format!("{name}, full: a thousand faulty pairs"), limits, &taken, &faulty);
        let dropped = [last.as_bytes(), &b"UP 1:1000\nLINK 0.0\nCUES\nSUB 1 9\n".repeat(250)].concat();
        self.load(&format!("{name}, full: a thousand dropped records"), limits, &taken, &dropped);
        self.write(&format!("{name}, full, no levels"), limits, &taken);
        let mut lit = taken.clone();
        let slots = (limits[2] + limits[3] + limits[4] * limits[7]) as usize;
        for slot in lit[..slots * (24 + limits[0] as usize)].chunks_exact_mut(24 + limits[0] as usize) {
            slot[24..].fill(0xff);
        }
        self.write(&format!("{name}, full, all at full (0 B: R5)"), limits, &lit);
    }

    /// Shows of another desk's numbers: as a writer puts them, with links to cues that there are and that there are not; and cues alone.
    fn translations(&self, name: &str, limits: &Limits) {
        let empty = store_of(limits);
        for (density, sparse) in [("dense", 1), ("sparse", 16)] {
            for size in [16_384, LONGEST] {
                let stream = show(limits, size, sparse, &mut Dice(size as u64));
                self.translate(&format!("{name} desk, {density} show, empty store"), limits, &empty, &stream);
                self.translate(&format!("{name} desk, {density} show, no links"), limits, &empty, &linkless(&stream));
            }
        }
        let cues = limits[2];
        let mut dice = Dice(7);
        let own: Vec<u8> = (1..=cues).flat_map(|n| format!("CUE {n}.5\nLINK {}.5\n", dice.range(1, cues)).into_bytes()).collect();
        self.translate(&format!("{name}: cues with a link each"), limits, &empty, &own);
        self.translate(&format!("{name}: cues with no links"), limits, &empty, &linkless(&own));
        // Every cue again and again, cleared after each round, as long as there are numbers.
        let again = [&linkless(&own), &b"CLEAR CUES\n"[..]].concat();
        let rounds = (999 * limits[5] / cues - 1) as usize;
        let over = repeated(b"", &again, (rounds * again.len()).min(LONGEST - own.len()));
        self.translate(&format!("{name}: cues over and over, then links"), limits, &empty, &[&over[..], &own].concat());
        let one = [&over[..], b"CUE 1\nLINK 1.5\n"].concat();
        self.translate(&format!("{name}: cues over and over, then one link"), limits, &empty, &one);
        self.translate(&format!("{name}: cues over and over, no links"), limits, &empty, &over);
    }

    fn form(&self, name: &str, limits: &Limits) {
        let empty = store_of(limits);
        let taken = loaded(limits, &full(limits));
        self.find(&format!("form, {name}: find 0.0, empty store"), limits, &empty, (0, 0, 0));
        self.find(&format!("form, {name}: find 0.0, full store"), limits, &taken, (0, 0, 0));
        self.find(&format!("look-up, {name}: last cue, full store"), limits, &taken, (1, limits[2], 0));
        self.walk(&format!("{name}: all cues, full store"), limits, &taken);
        let mut turned = b"CLEAR ALL\n".to_vec();
        let mut order: Vec<u32> = (1..=limits[2]).collect();
        let mut dice = Dice(7);
        for i in (1..order.len()).rev() {
            order.swap(i, dice.below(i + 1));
        }
        for n in order {
            turned.extend_from_slice(format!("CUE {n}\n").as_bytes());
        }
        let store = loaded(limits, &turned);
        self.find(&format!("form, {name}: find 0.0, cues in no order"), limits, &store, (0, 0, 0));
        self.walk(&format!("{name}: all cues, in no order"), limits, &store);
        self.load(&format!("{name}: cues in no order, empty store"), limits, &empty, &turned);
        self.write(&format!("{name}: cues in no order, no levels"), limits, &store);
    }

    fn print(&self) {
        if self.once.is_none() {
            Table::head();
        }
        for (name, limits) in [("house", &HOUSE), ("large", &LARGE)] {
            self.growth(name, limits);
            self.form(name, limits);
            self.records(name, limits);
            self.translations(name, limits);
        }
    }
}

/// A stream without its LINK records.
fn linkless(stream: &[u8]) -> Vec<u8> {
    stream.split_inclusive(|&b| b == b'\n').filter(|record| !record.starts_with(b"LINK")).flatten().copied().collect()
}

/// What `uname -m` says.
fn machine() -> String {
    let said = std::process::Command::new("uname").arg("-m").output();
    said.map_or("unknown".to_string(), |said| String::from_utf8_lossy(&said.stdout).trim().to_string())
}

fn count(call: &str, side: Side, times: usize) {
    let stream = show(&LARGE, LONGEST, 16, &mut Dice(1));
    let mut store = if matches!(call, "load" | "translate") { store_of(&LARGE) } else { loaded(&LARGE, &stream) };
    let mut reports = vec![0; 1_024];
    let mut out = vec![0; LONGEST];
    for _ in 0..times {
        counted(&mut || match call {
            "load" => _ = black_box(side.load()(&LARGE, &mut store, &stream, &mut reports)),
            "translate" => _ = black_box(side.translate()(&LARGE, &mut store, &stream, &mut reports)),
            "write" => _ = black_box(side.write(&LARGE, &store, &mut out)),
            "find" => _ = black_box(side.find(&LARGE, &store, (1, 1, 0))),
            _ => (),
        });
    }
    println!("the largest desk, a sparse show of {} bytes", stream.len());
}

fn main() {
    let words: Vec<String> = std::env::args().skip(1).collect();
    let words: Vec<&str> = words.iter().map(String::as_str).collect();
    let owned = |words: &[&str]| words.iter().map(|word| word.to_string()).collect();
    match words[..] {
        [] => return Table { only: vec![], once: None }.print(),
        ["only", ref only @ ..] => return Table { only: owned(only), once: None }.print(),
        ["once", side, ref only @ ..] => {
            if let Some(side) = Side::named(side) {
                return Table { only: owned(only), once: Some(side) }.print();
            }
        }
        ["count", call @ ("load" | "translate" | "write" | "find" | "none"), side, ref times @ ..] => {
            let times = times.first().map_or(Some(1), |times| times.parse().ok());
            if let (Some(side), Some(times)) = (Side::named(side), times) {
                return count(call, side, times);
            }
        }
        _ => (),
    }
    eprintln!("usage: bench [only WORD.. | once ours|plain|better WORD.. | count load|translate|write|find|none ours|plain|better [TIMES]]");
    std::process::exit(2);
}
