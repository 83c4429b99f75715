//! cue_sheet [--translate] FILE [nine limits]: loads a show file into an empty desk and prints a cue sheet for the prep bench.
//!
//! The desk is the house small desk unless its nine limits are given, in the order of `Desk`. With `--translate` the load is the one with
//! translation, which numbers all memories anew. First come the reports, each with the record as received and a mark under the field that
//! is blamed, then the cues by page and number, then what is kept and the tallies. Exit status 0 where there is a sheet, 1 where the file
//! cannot be read, a call is turned away or the sheet cannot be written, 2 where the arguments are wrong. examples/cue_sheet.c prints the
//! same.
use sphairune::{condition_text, percent, severity, time_text, Desk, Fade, Memory, Number, Refused, Report, Totals, MOST_STREAM};
use std::env;
use std::fs::File;
use std::io::{self, ErrorKind, Read, Write};
use std::process::ExitCode;

/// The longest record that the standard allows; of a longer one the sheet shows this much.
const MOST_CHARACTERS: usize = 80;

/// Channels on one line of the sheet.
const PER_LINE: usize = 5;

/// Digits alone, and no more than 32 bits: whether the desk has such a limit is for the library to say.
fn limit(word: &str) -> Option<u32> {
    if word.bytes().all(|c| c.is_ascii_digit()) {
        word.parse().ok()
    } else {
        None
    }
}

fn desk(words: &[String]) -> Option<Desk> {
    if words.is_empty() {
        return Some(Desk::HOUSE);
    }
    let limits: Option<Vec<u32>> = words.iter().map(|word| limit(word)).collect();
    Some(Desk::of(limits?.try_into().ok()?))
}

/// The whole file, or one byte more than the longest stream, which the load then turns away.
fn read_file(file: &str) -> io::Result<Vec<u8>> {
    let mut stream = Vec::new();
    File::open(file)?.take(MOST_STREAM as u64 + 1).read_to_end(&mut stream)?;
    Ok(stream)
}

/// The records of a stream, as received: past CR, LF, CR LF or LF CR, the longest that stands there.
fn records(mut rest: &[u8]) -> Vec<&[u8]> {
    let mut records = Vec::new();
    while !rest.is_empty() {
        let end = rest.iter().position(|c| b"\r\n".contains(c)).unwrap_or(rest.len());
        records.push(&rest[..end]);
        rest = match &rest[end..] {
            [b'\r', b'\n', after @ ..] | [b'\n', b'\r', after @ ..] | [_, after @ ..] | after => after,
        };
    }
    records
}

/// A tab as a space, other characters that do not print in hexadecimal.
fn received(record: &[u8]) -> String {
    let mut text = String::new();
    for &c in record.iter().take(MOST_CHARACTERS) {
        match c {
            b'\t' => text.push(' '),
            0x20..=0x7e => text.push(char::from(c)),
            _ => text += &format!("\\x{c:02X}"),
        }
    }
    text + if MOST_CHARACTERS < record.len() { "..." } else { "" }
}

/// A condition as the standard prints it: number, severity, text.
fn condition(number: u32) -> String {
    format!("{number:04}-{} {}", severity(number), condition_text(number))
}

/// Two are of no record: 100 is of the end of the stream, and with translation, where a CUE's own number is not looked at, 41 is of a link.
fn report_lines(reports: &[Report], stream: &[u8], translated: bool) -> String {
    if reports.is_empty() {
        return "REPORTS none\n".into();
    }
    let records = records(stream);
    let mut text = format!("REPORTS {}\n", reports.len());
    for r in reports {
        let line = format!("  {:10} {:43}", format!("({:05}:{})", r.record, r.column), condition(r.condition));
        text += &match r.condition {
            100 => line + "\n",
            41 if translated => line + "  a LINK asks for a number that no CUE has\n",
            _ => marked(line + "  ", records[r.record as usize - 1], r.column as usize),
        };
    }
    text
}

/// A line, the record behind it, and on a line of its own a mark under the character in a column, if there is one.
fn marked(line: String, record: &[u8], column: usize) -> String {
    let mark = match column {
        0 => String::new(),
        _ => " ".repeat(line.len() + received(&record[..column - 1]).len()) + "^\n",
    };
    line + &received(record) + "\n" + &mark
}

fn time(tenths: Option<u32>) -> String {
    match tenths {
        Some(t) => format!(" {:>11}", time_text(t)),
        None => format!(" {:>11}", "-"),
    }
}

fn fade(fade: Option<Fade>) -> String {
    time(fade.map(|f| f.fade)) + &time(fade.map(|f| f.delay).filter(|&delay| delay != 0))
}

/// Whole numbers under one another.
fn number(n: Number) -> String {
    match n.tenths {
        0 => format!("{:3}", n.whole),
        tenths => format!("{:3}.{tenths}", n.whole),
    }
}

fn level_lines(levels: &[u8]) -> String {
    let mut lit = Vec::new();
    for (channel, &level) in (1..).zip(levels) {
        if level != 0 {
            lit.push(format!("{channel:3}@H{level:02X} {:3}%", percent(level)));
        }
    }
    if lit.is_empty() {
        return "        blackout\n".into();
    }
    lit.chunks(PER_LINE).map(|line| format!("        {}\n", line.join("  "))).collect()
}

fn cue_line(m: &Memory) -> String {
    let link = m.link.map_or("  -".into(), number);
    format!("  {:5} {:4}{}{}{}  {link}\n", number(m.number), m.page, fade(m.up), fade(m.down), time(m.followon))
}

fn cue_lines(desk: Desk, store: &[u8]) -> Result<String, Refused> {
    let cues = desk.cues(store)?;
    let count = cues.len();
    if count == 0 {
        return Ok("CUES none\n".into());
    }
    let mut text = format!("CUES {count}\n");
    text += "  cue   page     up fade       delay   down fade       delay    followon  link\n";
    for m in cues {
        text += &cue_line(&m);
        text += &level_lines(m.levels);
    }
    Ok(text)
}

fn kept_line(desk: Desk, store: &[u8]) -> Result<String, Refused> {
    let (cues, groups) = (desk.cues(store)?.len(), desk.groups(store)?.len());
    let (submasters, patched) = (desk.submasters(store)?.len(), desk.patch(store)?.count());
    Ok(format!("KEPT cues {cues}, groups {groups}, submasters {submasters}, patched dimmers {patched}\n"))
}

fn desk_line(desk: Desk) -> String {
    let [channels, dimmers, cues, groups, submasters, of_cues, of_groups, of_submasters, of_patch] = desk.limits();
    format!("DESK channels {channels}, dimmers {dimmers}, cues {cues}, groups {groups}, submasters {submasters}; ")
        + &format!("pages of cues {of_cues}, groups {of_groups}, submasters {of_submasters}, patch {of_patch}\n")
}

fn total_lines(t: Totals) -> String {
    let tallies = format!("blank {}, obeyed {}, passed {}, dropped {}", t.blank, t.obeyed, t.passed, t.dropped);
    format!("RECORDS {}: {tallies}\nCLOSING {}\n", t.records(), condition(t.closing))
}

fn sheet(file: &str, desk: Desk, stream: &[u8], translated: bool) -> Result<String, Refused> {
    let mut store = vec![0; desk.needed()?];
    let mut list = vec![0; stream.len() + 1]; // one more than the bytes: such a list never fills
    desk.empty(&mut store)?;
    let load = if translated { Desk::translate } else { Desk::load };
    let totals = load(desk, &mut store, stream, &mut list)?;
    let reports: Vec<Report> = totals.stored(&list).collect();
    let how = if translated { ", loaded with translation: all memories are numbered anew" } else { "" };
    let mut text = format!("CUE SHEET {file}{how}\n{}\n", desk_line(desk));
    text += &format!("{}\n{}\n", report_lines(&reports, stream, translated), cue_lines(desk, &store)?);
    Ok(text + &kept_line(desk, &store)? + &total_lines(totals))
}

/// Prints the sheet, or says in words why there is none.
fn run(file: &str, desk: Desk, translated: bool) -> Result<(), String> {
    let stream = read_file(file).map_err(|e| match e.kind() {
        ErrorKind::NotFound => "no such file".to_string(),
        _ => "cannot be read".to_string(),
    })?;
    let sheet = sheet(file, desk, &stream, translated).map_err(|refused| format!("refused, {}: {refused}", refused.name()))?;
    let mut out = io::stdout();
    out.write_all(sheet.as_bytes()).and_then(|()| out.flush()).map_err(|_| "the sheet cannot be written".to_string())
}

fn main() -> ExitCode {
    let mut words: Vec<String> = env::args().skip(1).collect();
    let translated = words.first().is_some_and(|word| word == "--translate");
    words.drain(..usize::from(translated));
    let Some((file, desk)) = words.split_first().and_then(|(file, limits)| Some((file, desk(limits)?))) else {
        let limits = "CHANNELS DIMMERS CUES GROUPS SUBMASTERS CUE-PAGES GROUP-PAGES SUBMASTER-PAGES PATCH-PAGES";
        eprintln!("usage: cue_sheet [--translate] FILE [{limits}]");
        return ExitCode::from(2);
    };
    match run(file, desk, translated) {
        Ok(()) => ExitCode::SUCCESS,
        Err(why) => {
            eprintln!("cue_sheet: {file}: {why}");
            ExitCode::FAILURE
        }
    }
}
