//! Puts the same random and damaged inputs through the proved library, plain Rust and the better plain Rust, and compares every answer and
//! every lent byte.
//!
//!   differ SEED COUNT      the swept edges, then random cases: at least COUNT calls on each side, drawn from SEED
//!   differ case SEED CASE  one case again
//!   differ prefixes DIR    every prefix of each file of DIR, read into an empty house small desk by both loads. Of a file above 20,000
//!                          bytes the first and last 2,000 prefixes and every 97th between
//!
//! At the first difference it prints the case, with a stream as short as was found, and ends with 1.

use std::collections::BTreeMap;
use std::fmt::Debug;
use std::process::exit;
use trials::streams::{crowd, desk, foreign, full, long_record, show_of, stream, Dice, FOREIGN, HOUSE, LARGE, SPECIALS};
use trials::{better, ours, plain, Limits, Refused, Report, Totals, LONGEST};

/// Bytes or words with a strip on either side that nobody may touch.
struct Lent<T> {
    room: Vec<T>,
}

const STRIP: usize = 24;

impl<T: Copy + PartialEq> Lent<T> {
    fn new(part: &[T], mark: T) -> Lent<T> {
        let mut room = vec![mark; STRIP];
        room.extend_from_slice(part);
        room.extend_from_slice(&[mark; STRIP]);
        Lent { room }
    }

    fn part(&mut self) -> &mut [T] {
        let end = self.room.len() - STRIP;
        &mut self.room[STRIP..end]
    }
}

/// What came of the same call on two sides, where it differs.
type Verdict = Result<(), String>;

/// `who` is compared with the plain one.
fn compare<A: PartialEq + Debug>(who: &str, one: &A, plain: &A) -> Verdict {
    if one == plain {
        Ok(())
    } else {
        Err(format!("{who} answers {one:?}, plain {plain:?}"))
    }
}

fn same<T: PartialEq, S: Debug>(who: &str, what: &str, one: &Lent<T>, plain: &Lent<T>, read: fn(&T) -> S) -> Verdict {
    if one.room == plain.room {
        return Ok(());
    }
    let at = one.room.iter().zip(&plain.room).position(|(a, b)| a != b).unwrap_or(0);
    let (i, length) = (at as isize - STRIP as isize, one.room.len() - 2 * STRIP);
    Err(format!("{what} at {i} of {length}: {who} {:?}, plain {:?}", read(&one.room[at]), read(&plain.room[at])))
}

fn same_bytes(who: &str, what: &str, one: &Lent<u8>, plain: &Lent<u8>) -> Verdict {
    same(who, what, one, plain, |&byte| byte)
}

const MARK: u8 = 0xa5;

type Load = fn(&Limits, &mut [u8], &[u8], &mut [u64]) -> Result<Totals, Refused>;

/// One of the two loads of §6.4, on each side.
struct Way {
    name: &'static str,
    plain: Load,
    others: [(&'static str, Load); 2],
}

const NORMAL: Way = Way { name: "load", plain: plain::load, others: [("ours", ours::load), ("better", better::load)] };
const TRANSLATED: Way = Way { name: "translate", plain: plain::translate, others: [("ours", ours::translate), ("better", better::translate)] };

/// What a load came to on the plain side, and whether the others agree.
struct Loaded {
    verdict: Verdict,
    store: Vec<u8>,
    reports: Vec<u64>,
    answer: Result<Totals, Refused>,
}

fn load(way: &Way, limits: &Limits, store: &[u8], stream: &[u8], reports: &[u64]) -> Loaded {
    let lent = || (Lent::new(store, MARK), Lent::new(reports, 0xabcd_ef01_2345_6789));
    let (mut b, mut q) = lent();
    let answer = (way.plain)(limits, b.part(), stream, q.part());
    let verdict = way.others.iter().try_for_each(|&(who, call)| {
        let (mut a, mut p) = lent();
        let other = call(limits, a.part(), stream, p.part());
        compare(who, &other, &answer)?;
        same(who, "reports", &p, &q, |&word| Report::of(word))?;
        same_bytes(who, "store", &a, &b)
    });
    Loaded { verdict, store: b.part().to_vec(), reports: q.part().to_vec(), answer }
}

fn write(limits: &Limits, store: &[u8], out: &[u8]) -> (Verdict, Vec<u8>, Result<usize, Refused>) {
    let (mut a, mut b) = (Lent::new(out, MARK), Lent::new(out, MARK));
    let x = ours::write(limits, store, a.part());
    let y = plain::write(limits, store, b.part());
    (compare("ours", &x, &y).and_then(|()| same_bytes("ours", "output", &a, &b)), b.part().to_vec(), y)
}

fn find(limits: &Limits, store: &[u8], page: u32, whole: u32, tenths: u32) -> Verdict {
    compare("ours", &ours::find(limits, store, page, whole, tenths), &plain::find(limits, store, page, whole, tenths))
}

fn empty(limits: &Limits, store: &[u8]) -> Verdict {
    let (mut a, mut b) = (Lent::new(store, MARK), Lent::new(store, MARK));
    let x = ours::empty(limits, a.part());
    let y = plain::empty(limits, b.part());
    compare("ours", &x, &y).and_then(|()| same_bytes("ours", "store", &a, &b))
}

/// A call that writes into one lent list, on both sides.
fn lending<T: Copy + PartialEq + Debug, A: PartialEq + Debug>(
    list: &[T],
    mark: T,
    ours: impl FnOnce(&mut [T]) -> A,
    plain: impl FnOnce(&mut [T]) -> A,
) -> (Verdict, A) {
    let (mut a, mut b) = (Lent::new(list, mark), Lent::new(list, mark));
    let (x, y) = (ours(a.part()), plain(b.part()));
    (compare("ours", &x, &y).and_then(|()| same("ours", "list", &a, &b, |&entry| entry)), y)
}

const WORD: u32 = 0xabcd_ef01;

fn shown(bytes: &[u8]) -> String {
    bytes.escape_ascii().to_string()
}

fn hex(bytes: &[u8]) -> String {
    if bytes.iter().all(|&b| b == 0) {
        return format!("{} zero bytes", bytes.len());
    }
    if bytes.len() > 9_999 {
        return format!("{} bytes", bytes.len());
    }
    bytes.iter().map(|b| format!("{b:02x}")).collect()
}

/// Cuts pieces out of a stream as long as the two sides still differ on it, for at most five seconds.
fn shortened(way: &Way, limits: &Limits, store: &[u8], stream: &[u8], reports: &[u64]) -> Vec<u8> {
    let begun = std::time::Instant::now();
    let mut best = stream.to_vec();
    let mut piece = best.len().div_ceil(2);
    while piece > 0 {
        let mut at = 0;
        while at < best.len() {
            if begun.elapsed().as_secs() >= 5 {
                return best;
            }
            let mut less = best.clone();
            less.drain(at..(at + piece).min(best.len()));
            if load(way, limits, store, &less, reports).verdict.is_err() {
                best = less;
            } else {
                at += piece;
            }
        }
        piece /= 2;
    }
    best
}

struct Case<'a> {
    seed: u64,
    /// None: the swept edges.
    number: Option<u64>,
    calls: u64,
    tally: &'a mut Tally,
}

/// What the run was made of, so that one can see that it reached every sort of answer.
#[derive(Default)]
struct Tally {
    calls: u64,
    done: u64,
    refused: BTreeMap<&'static str, u64>,
    records: u64,
    reports: u64,
    /// The stored reports that blame a field, by its column.
    columns: BTreeMap<u64, u64>,
    kept: u64,
    /// Times past 999:59:59.9 in what was written and read back.
    long_times: u64,
    translated: Translated,
    /// The calls that read a store or tell a text, by name.
    readers: BTreeMap<&'static str, u64>,
    /// Those of them that answered "not kept".
    not_kept: u64,
    /// Calls with a store of more than 100,000 bytes.
    large: u64,
}

/// What came of the loads with translation that were answered.
#[derive(Default)]
struct Translated {
    loads: u64,
    /// Links that cues got.
    linked: u64,
    /// Stored reports of a link to a number that no cue bore.
    lost: u64,
    /// Memories that were kept on page 2 or a later one.
    paged: u64,
    /// Stored reports of a cue or group without a number or room, and of a submaster without a number.
    beyond: u64,
}

impl Translated {
    fn note(&mut self, limits: &Limits, before: &[u8], after: &[u8], reports: impl Iterator<Item = Report>) {
        let shape = Shape::of(limits);
        self.loads += 1;
        for (before, after) in before.chunks_exact(shape.slot).zip(after.chunks_exact(shape.slot)).take(shape.slots()) {
            if before != after && after[0] >= 0x80 {
                self.linked += (after[2] >> 2 & 1) as u64;
                self.paged += (after[0] & 0x7f > 3) as u64;
            }
        }
        for report in reports {
            match report.condition {
                41 => self.lost += 1,
                21 | 22 | 44 => self.beyond += 1,
                _ => (),
            }
        }
    }
}

impl Tally {
    fn note<T>(&mut self, store: &[u8], answer: &Result<T, Refused>) {
        self.large += (store.len() > 100_000) as u64;
        match answer {
            Ok(_) => self.done += 1,
            Err(refused) => *self.refused.entry(refused.name()).or_default() += 1,
        }
    }

    fn note_reports(&mut self, totals: &Totals, list: &[u64]) {
        self.records += totals.records() as u64;
        self.reports += totals.reports as u64;
        for column in totals.stored(list).map(|report| report.column as u64).filter(|&column| column != 0) {
            *self.columns.entry(column).or_default() += 1;
        }
    }
}

impl Case<'_> {
    fn differs(&self, limits: &Limits, store: &[u8], call: &str, why: &str) -> ! {
        let seed = self.seed;
        println!("DIFFERENCE after {} calls: {call}\n  {why}\n  desk {limits:?}\n  store {}", self.tally.calls + self.calls, hex(store));
        println!("  again: {}", self.number.map_or(format!("differ {seed} 1"), |number| format!("differ case {seed} {number}")));
        exit(1)
    }

    fn load(&mut self, limits: &Limits, store: &[u8], stream: &[u8], reports: &[u64]) -> (Vec<u8>, Result<Totals, Refused>) {
        let loaded = self.loaded(&NORMAL, limits, store, stream, reports);
        (loaded.store, loaded.answer)
    }

    fn translate(&mut self, limits: &Limits, store: &[u8], stream: &[u8], reports: &[u64]) -> Vec<u8> {
        let loaded = self.loaded(&TRANSLATED, limits, store, stream, reports);
        if let Ok(totals) = &loaded.answer {
            self.tally.translated.note(limits, store, &loaded.store, totals.stored(&loaded.reports));
        }
        loaded.store
    }

    fn loaded(&mut self, way: &Way, limits: &Limits, store: &[u8], stream: &[u8], reports: &[u64]) -> Loaded {
        let loaded = load(way, limits, store, stream, reports);
        self.calls += 1;
        self.tally.note(store, &loaded.answer);
        if let Ok(totals) = &loaded.answer {
            self.tally.note_reports(totals, &loaded.reports);
        }
        if loaded.verdict.is_err() {
            let least = shortened(way, limits, store, stream, reports);
            let why = load(way, limits, store, &least, reports).verdict.expect_err("it differed before");
            self.differs(limits, store, &format!("{}, stream \"{}\", {} reports", way.name, shown(&least), reports.len()), &why);
        }
        loaded
    }

    fn write(&mut self, limits: &Limits, store: &[u8], out: &[u8]) -> (Vec<u8>, Result<usize, Refused>) {
        let (verdict, after, answer) = write(limits, store, out);
        self.calls += 1;
        self.tally.note(store, &answer);
        if let Err(why) = verdict {
            self.differs(limits, store, &format!("write, output of {}", out.len()), &why);
        }
        (after, answer)
    }

    fn find(&mut self, limits: &Limits, store: &[u8], page: u32, whole: u32, tenths: u32) {
        self.calls += 1;
        let answer = plain::find(limits, store, page, whole, tenths);
        self.tally.note(store, &answer);
        self.tally.kept += matches!(answer, Ok(Some(_))) as u64;
        if let Err(why) = find(limits, store, page, whole, tenths) {
            self.differs(limits, store, &format!("find {whole}.{tenths} page {page}"), &why);
        }
    }

    /// Of a call that reads a store; `asked` is what it was asked.
    fn read<A>(&mut self, limits: &Limits, store: &[u8], call: &'static str, asked: &[u32], (verdict, answer): (Verdict, Result<A, Refused>)) -> A
    where
        A: Copy + Default + PartialEq,
    {
        self.calls += 1;
        self.tally.note(store, &answer);
        *self.tally.readers.entry(call).or_default() += 1;
        self.tally.not_kept += answer.is_ok_and(|answer| answer == A::default()) as u64;
        if let Err(why) = verdict {
            self.differs(limits, store, &format!("{call} {asked:?}"), &why);
        }
        answer.unwrap_or_default()
    }

    fn memories(&mut self, limits: &Limits, store: &[u8], kind: u32, room: usize) -> Option<usize> {
        let list: Vec<u32> = (0..room as u32).map(|i| i * 7).collect();
        let ours = |slots: &mut [u32]| ours::memories(limits, store, kind, slots);
        let plain = |slots: &mut [u32]| plain::memories(limits, store, kind, slots);
        self.read(limits, store, "memories", &[kind, room as u32], lending(&list, WORD, ours, plain))
    }

    fn slot(&mut self, limits: &Limits, store: &[u8], slot: u32, room: usize) {
        let list = &[0x5a5a_5a5a; 20][..room];
        let ours = |values: &mut [u32]| ours::head(limits, store, slot, values);
        let plain = |values: &mut [u32]| plain::head(limits, store, slot, values);
        self.read(limits, store, "head", &[slot, room as u32], lending(list, WORD, ours, plain));
        let (ours, plain) = (ours::levels(limits, store, slot), plain::levels(limits, store, slot));
        self.read(limits, store, "levels", &[slot], (compare("ours", &ours, &plain), plain));
    }

    fn patch(&mut self, limits: &Limits, store: &[u8], page: u32, dimmer: u32, room: usize) {
        let list = &[0x5a5a_5a5a; 20][..room];
        let ours = |values: &mut [u32]| ours::patch(limits, store, page, dimmer, values);
        let plain = |values: &mut [u32]| plain::patch(limits, store, page, dimmer, values);
        self.read(limits, store, "patch", &[page, dimmer, room as u32], lending(list, WORD, ours, plain));
    }

    /// Of a call that has no store.
    fn told<A: PartialEq>(&mut self, call: &'static str, asked: &[u32], (verdict, _): (Verdict, A)) {
        self.calls += 1;
        *self.tally.readers.entry(call).or_default() += 1;
        if let Err(why) = verdict {
            self.differs(&[0; 9], &[], &format!("{call} {asked:?}"), &why);
        }
    }

    fn time_text(&mut self, tenths: u32, room: usize) {
        let answer = lending(&[9; 99][..room], MARK, |out| ours::time_text(tenths, out), |out| plain::time_text(tenths, out));
        self.told("time text", &[tenths, room as u32], answer);
    }

    fn condition(&mut self, condition: u32, room: usize) {
        let answer = lending(&[9; 99][..room], MARK, |out| ours::condition_text(condition, out), |out| plain::condition_text(condition, out));
        self.told("condition text", &[condition, room as u32], answer);
        let (ours, plain) = (ours::severity(condition), plain::severity(condition));
        self.told("severity", &[condition], (compare("ours", &ours, &plain), plain));
    }

    /// One of the readers, asked for what the desk has, nearly has or cannot have.
    fn reader(&mut self, limits: &Limits, store: &[u8], dice: &mut Dice) {
        let [_, dimmers, cues, groups, subs, .., sub_pages, patch_pages] = limits.map(|n| n % 1_000);
        let (any, other) = (dice.word() as u32, dice.word() as u32);
        match dice.below(3) {
            0 => {
                let kind = dice.pick(&[0, 0, 0, 1, 1, 2, 2, 3, any]);
                let room = dice.pick(&[0, 1, 2, 5, 30, 200, 768, 769]);
                self.memories(limits, store, kind, room);
            }
            1 => {
                let slots = cues + groups + subs * sub_pages;
                let near = dice.range(0, slots + 1);
                let slot = dice.pick(&[near, near, near, near, near, 1, slots, slots + 1, any]);
                self.slot(limits, store, slot, dice.pick(&[16, 16, 16, 16, 0, 1, 7, 15, 17, 20]));
            }
            _ => {
                let (page, dimmer) = (dice.range(1, patch_pages + 1), dice.range(0, dimmers + 1));
                let page = dice.pick(&[page, page, page, page, page, page, 0, any]);
                let dimmer = dice.pick(&[dimmer, dimmer, dimmer, dimmer, 1, dimmers, dimmers + 1, other]);
                self.patch(limits, store, page, dimmer, dice.pick(&[3, 3, 3, 3, 0, 1, 2, 4]));
            }
        }
    }

    /// Every memory of a store and every dimmer, as a program walks them.
    fn walk(&mut self, limits: &Limits, store: &[u8]) {
        for kind in 0..3 {
            let Some(count) = self.memories(limits, store, kind, 0) else { return };
            let mut slots = vec![0; count];
            if plain::memories(limits, store, kind, &mut slots).is_err() {
                return;
            }
            slots.iter().for_each(|&slot| self.slot(limits, store, slot, 16));
        }
        for page in 1..=limits[8] {
            (1..=limits[1]).for_each(|dimmer| self.patch(limits, store, page, dimmer, 3));
        }
    }

    /// A time at random, and a condition, with little room or enough.
    fn words(&mut self, dice: &mut Dice) {
        let tenths = dice.word() as u32 >> dice.below(32);
        self.time_text(tenths, dice.below(20));
        let any = dice.word() as u32;
        let condition =
            dice.pick(&[0, 21, 22, 41, 42, 43, 44, 51, 52, 91, 99, 100, 151, 152, 171, 172, 201, 203, 221, 231, 241, 701, 702, any, any >> 20]);
        self.condition(condition, dice.below(50));
    }

    fn run(&mut self) {
        let number = self.number.unwrap_or(0);
        let dice = &mut Dice(self.seed.wrapping_mul(0x2545_f491_4f6c_dd1d) ^ number.wrapping_mul(0x9e6c_63d0_876a_3f35));
        let limits = desk(dice);
        self.calls += 1;
        if let Err(why) = compare("ours", &ours::needed(&limits), &plain::needed(&limits)) {
            self.differs(&limits, &[], "needed", &why);
        }
        let needed = plain::needed(&limits).unwrap_or(dice.below(2_000));
        let mut store = vec![0; needed];
        // What is in it: nothing, a show, bytes at random, or a damaged show.
        let sort = dice.below(20);
        if sort == 0 {
            store.iter_mut().for_each(|b| *b = dice.word() as u8);
        } else if sort == 1 && plain::needed(&limits).is_ok() {
            // Every slot taken, every level at random.
            store = self.load(&limits, &store, &full(&limits), &[]).0;
            let (slot, slots) = (24 + limits[0] as usize, (limits[2] + limits[3] + limits[4] * limits[7]) as usize);
            for slot in store.chunks_exact_mut(slot).take(slots) {
                slot[24..].iter_mut().for_each(|b| *b = dice.word() as u8);
            }
        } else if sort > 5 {
            let before = if dice.one_in(3) { crowd(&limits, dice) } else { stream(&limits, dice) };
            store = self.load(&limits, &store, &before, &[]).0;
            if sort > 16 {
                for _ in 0..dice.pick(&[1, 1, 2, 4]) {
                    damage(&limits, &mut store, dice);
                }
            }
        }
        match dice.below(12) {
            0 => store.truncate(dice.below(store.len() + 1)),
            1 => drop(store.pop()),
            2..=4 => store.extend((0..dice.below(40)).map(|_| dice.word() as u8).collect::<Vec<_>>()),
            _ => (),
        }
        for _ in 0..dice.below(4) {
            let room = dice.pick(&[0, 1, 2, 5, 30, 300, 300, 300]);
            let reports: Vec<u64> = (0..room).map(|_| dice.word()).collect();
            store = if dice.one_in(2) {
                self.load(&limits, &store, &stream(&limits, dice), &reports).0
            } else {
                self.translate(&limits, &store, &foreign(&limits, dice), &reports)
            };
        }
        for _ in 0..dice.below(3) {
            let (page, whole, tenths) = self.name(&limits, &store, dice);
            self.find(&limits, &store, page, whole, tenths);
        }
        for _ in 0..dice.below(4) {
            self.reader(&limits, &store, dice);
        }
        if dice.one_in(100) {
            self.walk(&limits, &store);
        }
        if dice.one_in(4) {
            self.words(dice);
        }
        if dice.one_in(4) {
            self.spoil(&limits, &mut store, dice);
        }
        if dice.one_in(2) {
            let mut out = vec![0; 0];
            let (_, answer) = self.write(&limits, &store, &out);
            let length = match answer {
                Err(Refused::R6(n)) => n,
                _ => 0,
            };
            let room = match dice.below(5) {
                0 => length.saturating_sub(1),
                1 => dice.below(length + 1),
                2 => length + dice.below(60),
                3 if dice.one_in(100) => LONGEST + 1,
                _ => length,
            };
            out.extend((0..room).map(|_| dice.word() as u8));
            let (out, answer) = self.write(&limits, &store, &out);
            if let Ok(length) = answer {
                self.back(&limits, &store, &out[..length]);
            }
        }
        if dice.one_in(12) {
            self.calls += 1;
            if let Err(why) = empty(&limits, &store) {
                self.differs(&limits, &store, "empty", &why);
            }
        }
    }

    /// A store in good form has a thing or a few put wrong in it, or only changed, and put back again, a few times over.
    fn spoil(&mut self, limits: &Limits, store: &mut [u8], dice: &mut Dice) {
        if plain::find(limits, store, 0, 0, 0).is_err() {
            return;
        }
        let shape = Shape::of(limits);
        let (used, unused): (Vec<usize>, Vec<usize>) = (0..shape.slots()).partition(|i| store[i * shape.slot] >= 0x80);
        for _ in 0..=dice.below(8) {
            let many = dice.pick(&[1, 1, 1, 2, 3, 6]);
            let kept: Vec<(usize, Vec<u8>)> = (0..many).map(|_| shape.spoil(store, &used, &unused, dice)).collect();
            let (page, whole, tenths) = self.name(limits, store, dice);
            self.find(limits, store, page, whole, tenths);
            self.reader(limits, store, dice);
            match dice.below(8) {
                0 => drop(self.load(limits, store, b"CUE 1\nCHAN 1@50\nCLEAR PATCH\n", &[9; 4])),
                1 => drop(self.write(limits, store, &[9; 99])),
                2 => drop(self.translate(limits, store, b"CUE x\nLINK x\nCLEAR PATCH 9\n", &[9; 4])),
                _ => (),
            }
            for (from, bytes) in kept.iter().rev() {
                store[*from..from + bytes.len()].copy_from_slice(bytes);
            }
        }
    }

    /// A slot out of form, a slot that repeats another and a bad entry: each at every place of a small store, every two, and one of each sort.
    fn sweep_places(&mut self) {
        const DESK: Limits = [2, 3, 4, 3, 2, 2, 2, 2, 2];
        let shape = Shape::of(&DESK);
        let empty = vec![0; plain::needed(&DESK).expect("a desk in range")];
        let (good, _) = self.load(&DESK, &empty, b"CUE 1\nCUE 2 2\nCUE 3\nGROUP 1\nGROUP 2\nSUB 2\nSUB 1 2\nPATCH 1 1 2 50", &[]);
        // What is put into the store, and where. A bit that has to be 0 is the last of a head, and of an entry.
        let slots: Vec<(usize, Vec<u8>)> = (0..shape.slots()).map(|i| (i * shape.slot + 23, vec![good[i * shape.slot + 23] | 1])).collect();
        let entries: Vec<(usize, Vec<u8>)> = (0..shape.entries).map(|i| (shape.slots() * shape.slot + 3 * i, vec![0, 0, 1])).collect();
        let mut repeats = Vec::new();
        for kind in [0..shape.cues, shape.cues..shape.cues + shape.groups] {
            for (to, from) in kind.clone().flat_map(|to| kind.clone().map(move |from| (to, from))) {
                repeats.push((to * shape.slot, good[from * shape.slot..(from + 1) * shape.slot].to_vec()));
            }
        }
        let mut spoilt = |faults: &[&(usize, Vec<u8>)]| {
            let mut store = good.clone();
            for (from, bytes) in faults {
                store[*from..from + bytes.len()].copy_from_slice(bytes);
            }
            self.find(&DESK, &store, 1, 3, 0);
            self.memories(&DESK, &store, 0, 4);
            drop(self.load(&DESK, &store, b"CUE 1\nCHAN 1@50", &[9; 4]));
            drop(self.translate(&DESK, &store, b"CUE x\nLINK 1\nCUE 1", &[9; 4]));
            drop(self.write(&DESK, &store, &[9; 300]));
        };
        let all: Vec<_> = slots.iter().chain(&repeats).chain(&entries).collect();
        for one in &all {
            all.iter().for_each(|other| spoilt(&[one, other]));
        }
        for (slot, repeat) in slots.iter().flat_map(|slot| repeats.iter().map(move |repeat| (slot, repeat))) {
            entries.iter().for_each(|entry| spoilt(&[repeat, entry, slot]));
        }
    }

    /// Faulty records with what is ignored and what divides fields at every place of them, and pushed to the 80th character and past it.
    fn sweep_columns(&mut self) {
        const DESKS: [Limits; 2] = [[9, 9, 1, 1, 2, 2, 2, 2, 2], [9, 9, 1, 0, 0, 2, 2, 2, 2]];
        const FAULTY: [&[u8]; 40] = [
            b"CUE x 9", b"CUE 0", b"CUE 1000", b"CUE 1.55", b"CUE 1 9", b"CUE 1 x", b"CUE", b"CUE 2", b"GROUP x", b"GROUP 1 9", b"GROUP", b"GROUP 2",
            b"SUB x", b"SUB 9 9", b"SUB 1 9", b"SUB", b"UP 1:1000 x", b"UP 1 x", b"DOWN", b"FOLLOWON x", b"FOLLOWON", b"LINK 0", b"LINK",
            b"CHAN 1@H0G 2@9", b"CHAN x@1 0@1 10@1 1@FULL 9", b"CHAN 9", b"PATCH 9 1 1 1", b"PATCH", b"PATCH 1 x 1 1 1 x 1 1 1 x",
            b"PATCH 1 10 1 1 1 10 1 1", b"CLEAR FOO 9", b"CLEAR", b"CLEAR CUES 9", b"CLEAR ALL x", b"CLEAR PATCH 3", b"IDENT 4:0", b"IDENT",
            b"FOO 1", b"9 1", b"(! CUE",
        ];
        const PUT: [&[u8]; 9] = [b"\x80", b"\x01", b"\x7f\xff", b"\x00\x9f\x1f", b"\t", b" ", b"\t\x80 ", b"\x02,\x03", b"!"];
        for (limits, record) in DESKS.iter().flat_map(|desk| FAULTY.map(|record| (desk, record))) {
            let empty = vec![0; plain::needed(limits).expect("a desk in range")];
            let mut at = |place: usize, put: &[u8]| {
                // A group has neither times nor link, so that there the keyword is blamed.
                for first in [&b"CUE 1\n"[..], b"GROUP 1\n"] {
                    let stream = [first, &record[..place], put, &record[place..], b"\nCHAN 1 1"].concat();
                    drop(self.load(limits, &empty, &stream, &[7; 30]));
                }
            };
            for place in 0..=record.len() {
                PUT.iter().for_each(|put| at(place, put));
            }
            let behind = record.iter().position(|&b| b == b' ').unwrap_or(record.len());
            for length in 1..=82 - record.len() {
                for place in [0, behind, record.len()] {
                    [b' ', 0x80].into_iter().for_each(|filler| at(place, &vec![filler; length]));
                }
            }
        }
    }

    /// Times with parts at the ends of what a part can be, and of how many digits it has: loaded, written and read back. Then every short field.
    fn sweep_times(&mut self) {
        const DESK: Limits = [1, 1, 1, 0, 0, 1, 1, 1, 1];
        const PARTS: [u32; 11] = [0, 1, 9, 10, 59, 60, 99, 100, 998, 999, 1_000];
        let empty = vec![0; plain::needed(&DESK).expect("a desk in range")];
        for (hours, minutes) in PARTS.iter().flat_map(|hours| PARTS.map(|minutes| (hours, minutes))) {
            for (seconds, tenths) in PARTS.iter().flat_map(|seconds| ["", ".0", ".9"].map(|tenths| (seconds, tenths))) {
                let stream = format!("CUE 1\nUP {hours}:{minutes}:{seconds}{tenths}\nDOWN 1 {minutes}:{seconds}{tenths}\nFOLLOWON {seconds}{tenths}");
                let (store, _) = self.load(&DESK, &empty, stream.as_bytes(), &[7; 4]);
                let (out, answer) = self.write(&DESK, &store, &[9; 120]);
                self.back(&DESK, &store, &out[..answer.expect("there is room")]);
            }
        }
        // Every field of up to six characters that a time can have, and one that it cannot: as a fade, a delay and a FOLLOWON's time.
        let mut fields = vec![String::new()];
        for _ in 0..6 {
            let longer = fields.iter().flat_map(|field| ["0", "9", ":", ".", "x"].map(|c| format!("{field}{c}"))).collect();
            for field in std::mem::replace(&mut fields, longer) {
                let stream = format!("CUE 1\nUP {field}\nDOWN 9.9 {field}\nFOLLOWON {field}");
                drop(self.load(&DESK, &empty, stream.as_bytes(), &[7; 4]));
            }
        }
        for field in fields {
            drop(self.load(&DESK, &empty, format!("CUE 1\nUP {field} 0:9").as_bytes(), &[7; 4]));
        }
    }

    /// Every foreign number asked for by a LINK ahead of the cues that bear it, or another, and behind them, and the page of a CLEAR; with the
    /// cues kept or cleared, and an end of each sort, past which it is borne once more. Then links in every cue.
    fn sweep_links(&mut self) {
        const DESK: Limits = [2, 2, 4, 1, 1, 1, 1, 1, 2];
        const ENDS: [&str; 4] = ["", "ENDDATA", "IDENT", "IDENT 3:0 "];
        let empty = vec![0; plain::needed(&DESK).expect("a desk in range")];
        let (kept, _) = self.load(&DESK, &empty, b"CUE 2\nLINK 5\nCUE 4.5\nLINK 9\nPATCH 2 1 1 50", &[]);
        for (asked, borne) in FOREIGN.iter().flat_map(|asked| FOREIGN.map(|borne| (asked, borne))) {
            for (end, last) in ENDS.iter().enumerate() {
                // The last of them is a record of more than 80 characters.
                let last = if end == 3 { format!("{last:81}") } else { last.to_string() };
                let clear = if end == 2 { format!("CLEAR CUES {asked}\n") } else { String::new() };
                let cues = format!("CUE 7\nLINK {asked}\nCUE {borne} {asked}\nCHAN 1 5\n{clear}CUE {borne}\nUP 3\nLINK 7\nLINK {asked}\n");
                let before = if end % 2 == 0 { &kept } else { &empty };
                self.translate(&DESK, before, format!("{cues}{last}\nCUE {asked}").as_bytes(), &[7; 4]);
            }
        }
        // The largest table full, every cue with a link to the next, or the one before, and one of them to none.
        const FULL: Limits = [1, 1, 600, 1, 1, 1, 1, 1, 1];
        let empty = vec![0; plain::needed(&FULL).expect("a desk in range")];
        for step in [0, 2] {
            let stream: String = (1..=600).map(|n| format!("CUE {n}\nLINK {}\n", n + step - 1)).collect();
            self.translate(&FULL, &empty, stream.as_bytes(), &[7; 9]);
        }
    }

    /// Numbers at the end of each page and past the last one. A few memories at a time are kept, and then cleared, so that they find room;
    /// the last ones link to one another.
    fn sweep_pages(&mut self) {
        let repeated = |record: &str, clear: &str, room: usize, count: usize| {
            let mut out = String::new();
            for i in 0..count {
                if i % room == 0 {
                    out += clear;
                }
                out += record;
            }
            out
        };
        for pages in 1..=3 {
            let limits = [1, 1, 7, 3, 1, pages, pages, pages, 1];
            let empty = vec![0; plain::needed(&limits).expect("a desk in range")];
            for (page, past) in (1..=pages as usize).flat_map(|page| (0..4).map(move |past| (page, past))) {
                let count = 999 * page + past - 2;
                let cues = repeated("CUE 5\n", "CLEAR CUES\n", 7, count) + "LINK 5\nCUE 6\nLINK 5\nCUE 5\nLINK 6\n";
                self.translate(&limits, &empty, cues.as_bytes(), &[7; 9]);
                let groups = repeated("GROUP\n", "CLEAR GROUPS 9\n", 3, count) + "CHAN 1 5\nGROUP 5\nCHAN 1 6\n";
                self.translate(&limits, &empty, groups.as_bytes(), &[7; 9]);
            }
        }
        for (subs, pages) in (1..=4).flat_map(|subs| (1..=8).map(move |pages| (subs, pages))) {
            let limits = [1, 1, 1, 1, subs, 1, 1, pages, 1];
            let empty = vec![0; plain::needed(&limits).expect("a desk in range")];
            for count in 0..=(subs * pages) as usize + 1 {
                let stream = repeated("SUB x 99\n", "CLEAR SUBMASTERS\n", 5, count) + "CHAN 1 5\nSUB\nUP 3\n sub 0\nDOWN 1";
                self.translate(&limits, &empty, stream.as_bytes(), &[7; 9]);
            }
        }
        // As many CUEs as a stream can have ahead of a link; the last is the second one that finds room.
        const ONE: Limits = [1, 1, 1, 1, 1, 1, 1, 1, 1];
        let empty = vec![0; plain::needed(&ONE).expect("a desk in range")];
        let end = "CLEAR CUES\nCUE 7\nLINK 7";
        let stream = repeated("CUE\n", "", 1, (LONGEST - end.len()) / 4) + end;
        self.translate(&ONE, &empty, stream.as_bytes(), &[7; 9]);
        // The last number of the last page of all.
        const MANY: Limits = [1, 1, 600, 1, 1, 63, 1, 1, 1];
        let empty = vec![0; plain::needed(&MANY).expect("a desk in range")];
        for count in 999 * 63 - 2..=999 * 63 {
            let stream = repeated("CUE\n", "CLEAR CUES\n", 600, count) + "CUE 9\nLINK 9\nCUE\nLINK 9\n";
            self.translate(&MANY, &empty, stream.as_bytes(), &[7; 9]);
        }
    }

    /// A special character at every place of records around multiples of eight and around 80 characters, with little or much behind them.
    fn sweep_records(&mut self, dice: &mut Dice) {
        const DESK: Limits = [99, 9, 3, 2, 2, 2, 2, 2, 2];
        let empty = vec![0; plain::needed(&DESK).expect("a desk in range")];
        for length in (1..=10).flat_map(|n| 8 * n - 1..=8 * n + 1) {
            for place in 0..length {
                for special in SPECIALS {
                    let first: &[u8] = dice.pick(&[&b"CUE 1\n"[..], b"CUE 1\r\n", b"CUE 1\r\n\r\n"]);
                    let mut record = long_record(length, dice);
                    record.splice(place..place + 1, special.iter().copied());
                    let mut behind = dice.pick(&[&b"\n"[..], b"\r\n", b"\n\r"]).to_vec();
                    behind.extend_from_slice(&long_record(79, dice));
                    behind.extend_from_slice(b"\nENDDATA\nCHAN 1 1");
                    behind.truncate(dice.below(behind.len() + 1));
                    drop(self.load(&DESK, &empty, &[first, &record, &behind].concat(), &[7; 30]));
                }
            }
        }
    }

    /// A byte of an unused slot or patch entry, a level, and a patched dimmer at every place, on desks of many sizes.
    fn sweep_slots(&mut self, dice: &mut Dice) {
        for channels in (1..=70).chain([96, 127, 128, 129, 255, 256, 511, 512]) {
            let limits = [channels, channels, 1, 0, 0, 1, 1, 1, 1];
            let mut store = vec![0; plain::needed(&limits).expect("a desk in range")];
            for at in 0..store.len() {
                store[at] = 1 << dice.below(8);
                self.find(&limits, &store, 1, 1, 0);
                store[at] = 0;
            }
            let (mut store, _) = self.load(&limits, &store, b"CUE 1\nENDDATA", &[]);
            let (levels, patch) = (24, 24 + channels as usize);
            for at in 0..channels as usize {
                let other = levels + dice.below(channels as usize);
                store[other] = dice.word() as u8;
                store[levels + at] = dice.range(1, 255) as u8;
                set_bits(&mut store[patch + 3 * at..patch + 3 * at + 3], (0, 18), dice.range(1, channels) << 8);
                drop(self.write(&limits, &store, &[9; 99]));
                store[levels + at] = 0;
                store[other] = 0;
                store[patch + 3 * at..patch + 3 * at + 3].fill(0);
            }
        }
    }

    /// A full table in order, in the opposite order and in none is written, and every slot of it gets the name of another.
    fn sweep_names(&mut self, dice: &mut Dice) {
        const DESK: Limits = [1, 1, 600, 200, 0, 63, 63, 1, 1];
        const SLOT: usize = 25;
        let empty = vec![0; plain::needed(&DESK).expect("a desk in range")];
        for order in 0..3 {
            let mut names: Vec<u32> = (1..=600).collect();
            match order {
                0 => (),
                1 => names.reverse(),
                _ => (1..600).rev().for_each(|i| names.swap(i, dice.below(i + 1))),
            }
            let cues = names.iter().map(|n| format!("CUE {n}\n"));
            let groups = names.iter().filter(|n| **n <= 200).map(|n| format!("GROUP {n}\n"));
            let stream: String = cues.chain(groups).collect();
            let (mut store, _) = self.load(&DESK, &empty, stream.as_bytes(), &[]);
            drop(self.write(&DESK, &store, &[9; 20_000]));
            for (kind, room) in (0..4).flat_map(|kind| [0, 1, 199, 200, 201, 599, 600, 601].map(|room| (kind, room))) {
                self.memories(&DESK, &store, kind, room);
            }
            for place in 0..800 {
                let other = if place < 600 { dice.below(600) } else { 600 + dice.below(200) };
                let (at, other) = (place * SLOT, other * SLOT);
                let kept = [store[at], store[at + 1], store[at + 2]];
                store.copy_within(other..other + 3, at);
                self.find(&DESK, &store, 1, 1, 0);
                store[at..at + 3].copy_from_slice(&kept);
            }
        }
    }

    /// Every slot and dimmer of small desks and of one large in part, and those just past them, in bytes at random; then every bit of a head and
    /// of a patch entry by itself.
    fn sweep_readers(&mut self, dice: &mut Dice) {
        const DESKS: [Limits; 5] = [
            [1, 1, 1, 0, 0, 1, 1, 1, 1],
            [3, 5, 4, 3, 2, 2, 2, 3, 4],
            [8, 7, 5, 0, 9, 1, 1, 8, 2],
            [31, 512, 2, 200, 0, 63, 63, 8, 1],
            [512, 2, 3, 1, 96, 1, 1, 1, 4],
        ];
        for limits in &DESKS {
            let shape = Shape::of(limits);
            let mut store: Vec<u8> = (0..plain::needed(limits).expect("a desk in range")).map(|_| dice.word() as u8).collect();
            (0..=shape.slots() as u32 + 2).for_each(|slot| self.slot(limits, &store, slot, 16));
            for (page, dimmer) in (0..=limits[8] + 1).flat_map(|page| (0..=limits[1] + 1).map(move |dimmer| (page, dimmer))) {
                self.patch(limits, &store, page, dimmer, 3);
            }
            store.fill(0);
            let (slot, entry) = (dice.below(shape.slots()), dice.below(shape.entries));
            for bit in 0..192 {
                let at = slot * shape.slot + bit / 8;
                store[at] = 0x80 >> (bit % 8);
                self.slot(limits, &store, slot as u32 + 1, 16);
                store[at] = 0;
            }
            for bit in 0..24 {
                let at = shape.slots() * shape.slot + 3 * entry + bit / 8;
                store[at] = 0x80 >> (bit % 8);
                let (page, dimmer) = (entry as u32 / limits[1] + 1, entry as u32 % limits[1] + 1);
                self.patch(limits, &store, page, dimmer, 3);
                store[at] = 0;
            }
        }
    }

    /// Every level, and every condition and the edges of times with just enough room, less and more.
    fn sweep_words(&mut self) {
        for level in 0..=255 {
            let (ours, plain) = (ours::percent(level), plain::percent(level));
            self.told("percent", &[level.into()], (compare("ours", &ours, &plain), plain));
        }
        for condition in (0..=800).chain((10..32).map(|bit| 1 << bit)).chain([u32::MAX]) {
            let needed = plain::condition_text(condition, &mut [0; 99]).unwrap_or(0);
            for room in [0, needed.saturating_sub(1), needed, needed + 9] {
                self.condition(condition, room);
            }
        }
        for unit in [1, 10, 100, 600, 6_000, 36_000, 360_000, 3_600_000, 36_000_000, 360_000_000, 3_600_000_000] {
            for tenths in [unit - 1, unit, unit + 1, unit + 10, unit + 605] {
                (0..=20).for_each(|room| self.time_text(tenths, room));
            }
        }
        // Past 999:59:59.9, every tenth where the minutes or the seconds take one digit more, and the largest that is read.
        for tenths in [36_000_000, 36_024_000, 36_563_400, 36_564_000, 36_564_400, 36_573_399, 36_663_400, 37_563_400, 46_563_400, u32::MAX] {
            for near in tenths - 11..=tenths.saturating_add(11) {
                (0..=20).for_each(|room| self.time_text(near, room));
            }
        }
    }

    /// What was written is read back with no report, and written again gives the same bytes.
    fn back(&mut self, limits: &Limits, store: &[u8], text: &[u8]) {
        let (after, answer) = self.load(limits, store, text, &[]);
        let lines = text.iter().filter(|&&b| b == b'\n').count() as u32;
        self.tally.long_times += text.split(|b| b" \r".contains(b)).filter(|field| is_long_time(field)).count() as u64;
        if answer != Ok(Totals { obeyed: lines, ..Totals::default() }) {
            self.differs(limits, store, "load of what was written", &format!("answers {answer:?} to {lines} lines"));
        }
        let (again, answer) = self.write(limits, &after, &vec![0; text.len()]);
        if answer != Ok(text.len()) || again != text {
            self.differs(limits, store, "write of what was read back", &format!("{answer:?}"));
        }
    }

    /// One that is kept, near to one that is kept, or any.
    fn name(&self, limits: &Limits, store: &[u8], dice: &mut Dice) -> (u32, u32, u32) {
        let slot = 24 + limits[0] as usize % 1_000;
        let heads: Vec<&[u8]> = store.chunks_exact(slot).take(limits[2] as usize % 1_000).collect();
        let any = (dice.range(0, 65), dice.range(0, 1_001), dice.range(0, 11));
        if heads.is_empty() || dice.one_in(4) {
            return if dice.one_in(8) { (dice.word() as u32, dice.word() as u32, dice.word() as u32) } else { any };
        }
        let h = heads[dice.below(heads.len())];
        let word = u32::from_be_bytes([0, h[0], h[1], h[2]]) >> 3;
        let (mut page, mut whole, mut tenths) = (word >> 14 & 63, word >> 4 & 1_023, word & 15);
        match dice.below(10) {
            0 => page = any.0,
            1 => whole = any.1,
            2 => tenths = any.2,
            3 => tenths = tenths.wrapping_add(16),
            4 => page = page.wrapping_add(64),
            5 => whole = whole.wrapping_add(1_024),
            _ => (),
        }
        (page, whole, tenths)
    }
}

/// Where things stand in a store.
struct Shape {
    channels: u32,
    slot: usize,
    cues: usize,
    groups: usize,
    subs: usize,
    entries: usize,
}

impl Shape {
    fn of(limits: &Limits) -> Shape {
        let [channels, dimmers, cues, groups, subs, .., sub_pages, patch_pages] = *limits;
        let [cues, groups, subs, entries] = [cues, groups, subs * sub_pages, patch_pages * dimmers].map(|n| n as usize);
        Shape { channels, slot: 24 + channels as usize, cues, groups, subs, entries }
    }

    fn slots(&self) -> usize {
        self.cues + self.groups + self.subs
    }

    /// Changes a slot or a patch entry, and tells where, and what was there.
    fn spoil(&self, store: &mut [u8], used: &[usize], unused: &[usize], dice: &mut Dice) -> (usize, Vec<u8>) {
        let slot = self.slot;
        let sort = dice.below(8);
        let place = match sort {
            0..=2 if !used.is_empty() => dice.pick(used),
            3..=5 if !unused.is_empty() => dice.pick(unused),
            _ => dice.below(self.slots()),
        };
        let (from, to) = if sort == 7 {
            let any = dice.below(self.entries);
            let entry = dice.pick(&[0, self.entries - 1, any]);
            let from = self.slots() * slot + entry * 3;
            (from, from + 3)
        } else {
            (place * slot, (place + 1) * slot)
        };
        let kept = store[from..to].to_vec();
        match sort {
            // Another of its kind, or only the name of another; a name is 21 bits.
            0..=2 => {
                let kind = if place < self.cues { 0..self.cues } else { self.cues..self.slots() };
                let others: Vec<usize> = used.iter().copied().filter(|i| kind.contains(i)).collect();
                let other = if others.is_empty() || dice.one_in(4) { kind.start + dice.below(kind.len()) } else { dice.pick(&others) };
                let (other, length) = (other * slot, if dice.one_in(3) { slot } else { 2 });
                store.copy_within(other..other + length, from);
                if dice.one_in(2) {
                    store[from + 2] = store[from + 2] & 7 | store[other + 2] & 0xf8;
                }
            }
            3..=5 => store[from + dice.below(slot)] ^= 1 << dice.below(8),
            6 => {
                let (field, edges) = dice.pick(&EDGES);
                set_bits(&mut store[from..from + 24], field, dice.pick(edges));
                if dice.one_in(2) {
                    // A bit that has to be 0.
                    set_bits(&mut store[from..from + 24], (dice.range(169, 191) as usize, 1), 1);
                }
            }
            _ => spoil_entry(&mut store[from..to], self.channels, dice),
        }
        (from, kept)
    }
}

/// Is it a written time past 999:59:59.9? Its minutes are then 60 or more.
fn is_long_time(field: &[u8]) -> bool {
    field.strip_prefix(b"999:").is_some_and(|rest| rest[0] >= b'6' || rest[2] != b':')
}

/// A patch entry with a value at the end of its range, or just past it.
fn spoil_entry(entry: &mut [u8], channels: u32, dice: &mut Dice) {
    let field = dice.pick(&[(0, 10), (10, 8), (18, 6)]);
    set_bits(entry, field, dice.pick(&[0, 1, channels, channels + 1, 32, 255, 1_023]));
}

type Field = (usize, usize);

const FLAG: &[u32] = &[0, 1];
const WHOLE: &[u32] = &[0, 1, 999, 1_000, 1_023];
const TENTHS: &[u32] = &[0, 1, 9, 10, 15];
const TIME: &[u32] = &[0, 1, 35_999_999, 36_000_000, 36_024_050, 36_573_399, 36_573_400, (1 << 26) - 1];

/// The fields of a head as their first bit and width, with values at and past the ends of their ranges.
const EDGES: [(Field, &[u32]); 16] = [
    ((0, 1), FLAG),
    ((1, 6), &[0, 1, 2, 3, 4, 63]),
    ((7, 10), WHOLE),
    ((17, 4), TENTHS),
    ((21, 1), FLAG),
    ((22, 10), WHOLE),
    ((32, 4), TENTHS),
    ((36, 1), FLAG),
    ((37, 26), TIME),
    ((63, 26), TIME),
    ((89, 1), FLAG),
    ((90, 26), TIME),
    ((116, 26), TIME),
    ((142, 1), FLAG),
    ((143, 26), TIME),
    ((169, 23), &[0, 1, 1 << 22]),
];

/// Bits are counted from the most significant one of the first byte.
fn set_bits(bytes: &mut [u8], (at, width): Field, value: u32) {
    for i in 0..width {
        let bit = (value as u64) >> (width - 1 - i) & 1;
        let (byte, shift) = ((at + i) / 8, 7 - (at + i) % 8);
        bytes[byte] = bytes[byte] & !(1 << shift) | (bit as u8) << shift;
    }
}

/// A few bits turned over or bytes replaced, mostly in heads and patch entries; a value at the end of its range, or just past it; or a slot
/// copied over another.
fn damage(limits: &Limits, store: &mut [u8], dice: &mut Dice) {
    let slot = 24 + limits[0] as usize % 1_000;
    if store.is_empty() {
        return;
    }
    if dice.one_in(2) && plain::needed(limits).is_ok_and(|n| n <= store.len()) {
        let slots = (limits[2] + limits[3] + limits[4] * limits[7]) as usize;
        if dice.one_in(4) {
            let at = slots * slot + 3 * dice.below((limits[8] * limits[1]) as usize);
            return spoil_entry(&mut store[at..at + 3], limits[0], dice);
        }
        let at = dice.below(slots) * slot;
        for _ in 0..=dice.below(2) {
            let (field, edges) = dice.pick(&EDGES);
            let value = dice.pick(edges);
            set_bits(&mut store[at..at + 24], field, value);
        }
        return;
    }
    if dice.one_in(4) && store.len() > 2 * slot {
        let slots = store.len() / slot;
        let (from, to) = (dice.below(slots) * slot, dice.below(slots) * slot);
        store.copy_within(from..from + slot, to);
        return;
    }
    for _ in 0..=dice.below(3) {
        let mut at = dice.below(store.len());
        if !dice.one_in(4) {
            at = (at / slot * slot + dice.below(24)).min(store.len() - 1);
        }
        if dice.one_in(3) {
            store[at] = dice.word() as u8;
        } else {
            store[at] ^= 1 << dice.below(8);
        }
    }
}

/// What is gone through place by place, the same for every seed but for what stands around it.
fn edges(seed: u64, tally: &mut Tally) -> u64 {
    let mut case = Case { seed, number: None, calls: 0, tally };
    let dice = &mut Dice(seed);
    case.sweep_records(dice);
    case.sweep_slots(dice);
    case.sweep_names(dice);
    case.sweep_places();
    case.sweep_columns();
    case.sweep_times();
    case.sweep_links();
    case.sweep_pages();
    case.sweep_readers(dice);
    case.sweep_words();
    // The longest stream that may be written, and one byte more: ten bytes come from a submaster that a second load adds.
    let empty = vec![0; plain::needed(&LARGE).expect("the largest desk is in range")];
    for length in LONGEST - 1..=LONGEST + 1 {
        let (store, _) = case.load(&LARGE, &empty, &show_of(length - 10), &[1; 9]);
        let (store, _) = case.load(&LARGE, &store, b"SUB 95 8\nENDDATA", &[1; 9]);
        for room in [0, length - 1, length, length + 1] {
            let (_, answer) = case.write(&LARGE, &store, &vec![9; room]);
            let want = match room {
                _ if length > LONGEST => Err(Refused::R5),
                _ if room < length => Err(Refused::R6(length)),
                _ => Ok(length),
            };
            if answer != want {
                case.differs(&LARGE, &[], "write at the longest", &format!("{answer:?} for an output of {room}, not {want:?}"));
            }
        }
    }
    case.calls
}

fn random(seed: u64, count: u64) {
    let mut tally = Tally::default();
    let begun = std::time::Instant::now();
    tally.calls = edges(seed, &mut tally);
    let mut number = 0;
    while tally.calls < count {
        let mut case = Case { seed, number: Some(number), calls: 0, tally: &mut tally };
        case.run();
        let calls = case.calls;
        tally.calls += calls;
        number += 1;
    }
    let counts = |map: &BTreeMap<&str, u64>, gap| map.iter().map(|(name, count)| format!("{name} {count}")).collect::<Vec<_>>().join(gap);
    println!(
        "{} calls, edges and {number} cases from seed {seed}: no difference ({:.0} s); {} on large stores; answered {}, refused {}; {} records, \
         {} reports, {} stored ones blame {} columns; {} cues found; {} times past 999:59:59.9 written; {} loads with translation: \
         {} links followed, {} lost, {} memories past page 1, {} without number or room; readers: {}; {} of a slot, dimmer or kind that there \
         is not",
        tally.calls,
        begun.elapsed().as_secs_f64(),
        tally.large,
        tally.done,
        counts(&tally.refused, " "),
        tally.records,
        tally.reports,
        tally.columns.values().sum::<u64>(),
        tally.columns.len(),
        tally.kept,
        tally.long_times,
        tally.translated.loads,
        tally.translated.linked,
        tally.translated.lost,
        tally.translated.paged,
        tally.translated.beyond,
        counts(&tally.readers, ", "),
        tally.not_kept
    );
}

fn prefixes(folder: &str) -> std::io::Result<()> {
    let empty = vec![0; plain::needed(&HOUSE).expect("the house small desk is in range")];
    let mut files: Vec<_> = std::fs::read_dir(folder)?.collect::<Result<Vec<_>, _>>()?.into_iter().map(|entry| entry.path()).collect();
    files.retain(|path| path.extension().is_some_and(|end| end == "asc" || end == "in"));
    files.sort();
    let mut count = 0;
    for path in &files {
        let bytes = std::fs::read(path)?;
        let n = bytes.len();
        for k in (0..=n).filter(|k| n <= 20_000 || *k <= 2_000 || n - k <= 2_000 || k % 97 == 0) {
            for way in [NORMAL, TRANSLATED] {
                if let Err(why) = load(&way, &HOUSE, &empty, &bytes[..k], &[7; 50]).verdict {
                    println!("DIFFERENCE: {} of the first {k} bytes of {}\n  {why}", way.name, path.display());
                    exit(1);
                }
            }
            count += 1;
        }
    }
    println!("{count} prefixes of {} files: no difference", files.len());
    exit(if files.is_empty() { 1 } else { 0 })
}

fn main() {
    let words: Vec<String> = std::env::args().skip(1).collect();
    let number = |word: &str| word.parse::<u64>().ok();
    match &words.iter().map(String::as_str).collect::<Vec<_>>()[..] {
        ["prefixes", folder] => {
            if let Err(why) = prefixes(folder) {
                eprintln!("differ: {folder}: {why}");
                exit(2);
            }
        }
        ["case", seed, case] if number(seed).is_some() && number(case).is_some() => {
            let mut tally = Tally::default();
            Case { seed: number(seed).unwrap_or(0), number: number(case), calls: 0, tally: &mut tally }.run();
            println!("no difference");
        }
        [seed, count] if number(seed).is_some() && number(count).is_some() => random(number(seed).unwrap_or(0), number(count).unwrap_or(0)),
        _ => {
            eprintln!("usage: differ SEED COUNT | differ case SEED CASE | differ prefixes DIR");
            exit(2);
        }
    }
}
