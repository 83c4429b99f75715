//! The plain reader made faster with what was learnt on the proved one, and still plain: a record's end and whether it has rare characters
//! are found in one pass over chunks, an empty record is out at once, CHAN and PATCH are told by their letters, a number or level is read in
//! the scan that finds its field's end, and its column is asked for only where it is wrong. Desk, store, form, the other keywords and the
//! writer are those of `plain`.

use crate::{Limits, Refused, Totals};
use shared::{is_control, is_delimiter, Condition, Fault, Field, Fields, Kept, Load, Outcome};
use shared::{COLUMNS, ENTRY, HEAD, LONGEST_RECORD};

/// `plain` once more: the two are compiled apart, so that what is shared here makes the first neither faster nor slower.
#[allow(dead_code)]
#[path = "plain.rs"]
mod shared;

/// As `plain::load`.
pub fn load(limits: &Limits, store: &mut [u8], stream: &[u8], reports: &mut [u64]) -> Result<Totals, Refused> {
    Ok(read(Load::begin(limits, store, stream, reports)?, stream))
}

/// As `plain::translate`.
pub fn translate(limits: &Limits, store: &mut [u8], stream: &[u8], reports: &mut [u64]) -> Result<Totals, Refused> {
    Ok(read(Load::begin(limits, store, stream, reports)?.translating()?, stream))
}

fn read(mut load: Load, stream: &[u8]) -> Totals {
    let mut rest = stream;
    while !rest.is_empty() {
        load.log.record += 1;
        if is_end(rest[0]) {
            load.totals.blank += 1;
            rest = next(rest);
            continue;
        }
        let outcome;
        (outcome, rest) = record(&mut load, rest);
        if load.count(outcome) {
            return load.end(true);
        }
    }
    load.end(false)
}

const CHUNK: usize = 8;

fn is_end(b: u8) -> bool {
    b == b'\r' || b == b'\n'
}

/// May be ignored, or ends the text or the record. A tab is rare enough to count as one.
fn is_rare(b: u8) -> bool {
    b < b' ' || b == b'!' || b >= 0x7f
}

/// How many characters there are ahead of the first that is one of these.
fn ahead_of(these: impl Fn(u8) -> bool, text: &[u8]) -> usize {
    // No early exit within a chunk, so that it goes at once.
    let chunk = text.chunks_exact(CHUNK).position(|chunk| chunk.iter().fold(false, |any, &b| any | these(b)));
    let from = chunk.unwrap_or(text.len() / CHUNK) * CHUNK;
    from + text[from..].iter().position(|&b| these(b)).unwrap_or(text.len() - from)
}

/// Obeys the first record of what is left of a stream, and tells what is left then.
fn record<'a>(load: &mut Load, stream: &'a [u8]) -> (Outcome, &'a [u8]) {
    let plain = ahead_of(is_rare, stream);
    let end = match stream.get(plain) {
        None | Some(b'\r' | b'\n') => plain,
        _ => plain + ahead_of(is_end, &stream[plain..]),
    };
    let (record, rest) = stream.split_at(end);
    let outcome = if end > LONGEST_RECORD {
        Outcome::Dropped(Condition::TooLong.alone())
    } else if end == plain {
        obey(load, record, &COLUMNS[..end])
    } else {
        squeezed(load, record, plain)
    };
    (outcome, next(rest))
}

/// What is left behind a terminator, if there is one.
fn next(stream: &[u8]) -> &[u8] {
    match stream {
        [b'\r', b'\n', rest @ ..] | [b'\n', b'\r', rest @ ..] | [_, rest @ ..] => rest,
        [] => stream,
    }
}

/// A record whose first rare character is at a place.
fn squeezed(load: &mut Load, record: &[u8], rare: usize) -> Outcome {
    let rest = &record[rare..];
    let high = rest.iter().fold(false, |any, &b| any | (b >= 0x80));
    let control = rest.iter().fold(false, |any, &b| any | is_control(b));
    let text = &record[..rare + rest.iter().position(|&b| b == b'!').unwrap_or(rest.len())];
    if high {
        load.log.report(Condition::HighBit.alone());
    }
    if control {
        load.log.report(Condition::NonPrinting.alone());
    }
    if !high && !control {
        return obey(load, text, &COLUMNS[..text.len()]);
    }
    let kept = Kept::of(text);
    obey(load, kept.text(), kept.columns())
}

/// There is a column for each character of the text.
fn obey(load: &mut Load, text: &[u8], columns: &[u8]) -> Outcome {
    let text = first_field(text);
    let outcome = match text {
        [] => return Outcome::Blank,
        [b'C', b'H', b'A', b'N', rest @ ..] if ends(rest) => {
            let first = Field { text, column: column(text, columns) };
            load.secondary(first, |_| true, |load, slot| Ok(chan(load, slot, rest, columns)))
        }
        [b'P', b'A', b'T', b'C', b'H', rest @ ..] if ends(rest) => patch(load, rest, columns),
        _ => {
            let rest = behind(text);
            let first = Field { text: &text[..text.len() - rest.len()], column: column(text, columns) };
            load.obey(first, Fields { text: rest, columns: &columns[columns.len() - rest.len()..] })
        }
    };
    outcome.unwrap_or_else(Outcome::Dropped)
}

/// Of the field that a text begins with, by how much of the record it is the rest of; 0 where nothing is left.
fn column(text: &[u8], columns: &[u8]) -> u8 {
    columns.get(columns.len() - text.len()).copied().unwrap_or(0)
}

fn chan(load: &mut Load, slot: usize, text: &[u8], columns: &[u8]) {
    let channels = load.desk.channels;
    let from = slot * load.desk.slot() + HEAD;
    let levels = &mut load.store[from..from + channels];
    let mut rest = first_field(text);
    while !rest.is_empty() {
        let (channel, after) = place(rest, channels, Condition::Channel);
        let second = first_field(after);
        let (level, after) = level(second);
        match (channel, level) {
            (Ok(channel), Ok(level)) => levels[channel - 1] = level,
            (Err(condition), _) => load.log.report(Fault { condition, column: column(rest, columns) }),
            (_, Err(condition)) => load.log.report(Fault { condition, column: column(second, columns) }),
        }
        rest = first_field(after);
    }
}

fn patch(load: &mut Load, text: &[u8], columns: &[u8]) -> Result<Outcome, Fault> {
    let desk = load.desk;
    let text = first_field(text);
    let (page, after) = place(text, desk.patch_pages, Condition::PatchPage);
    let page = page.map_err(|_| Fault { condition: Condition::PatchPage, column: column(text, columns) })?;
    let from = desk.slots() * desk.slot() + (page - 1) * desk.dimmers * ENTRY;
    let mut rest = first_field(after);
    while !rest.is_empty() {
        let (channel, after) = place(rest, desk.channels, Condition::Channel);
        let second = first_field(after);
        let (dimmer, after) = place(second, desk.dimmers, Condition::Dimmer);
        let third = first_field(after);
        let (level, after) = level(third);
        match (channel, dimmer, level) {
            (Ok(channel), Ok(dimmer), Ok(level)) => {
                let word = (channel as u32) << 14 | (level as u32) << 6;
                let at = from + (dimmer - 1) * ENTRY;
                load.store[at..at + ENTRY].copy_from_slice(&word.to_be_bytes()[1..]);
            }
            (Err(condition), ..) => load.log.report(Fault { condition, column: column(rest, columns) }),
            (_, Err(condition), _) => load.log.report(Fault { condition, column: column(second, columns) }),
            (.., Err(condition)) => load.log.report(Fault { condition, column: column(third, columns) }),
        }
        rest = first_field(after);
    }
    Ok(Outcome::Obeyed)
}

// Fields: each reader is handed a text that begins with its field, and hands back what stands behind it.

/// The text without the delimiters at its front.
fn first_field(mut text: &[u8]) -> &[u8] {
    while let [b, rest @ ..] = text {
        if !is_delimiter(*b) {
            break;
        }
        text = rest;
    }
    text
}

/// Whether a field ends here.
fn ends(text: &[u8]) -> bool {
    text.first().is_none_or(|&b| is_delimiter(b))
}

/// What stands behind the field that goes on here.
fn behind(text: &[u8]) -> &[u8] {
    &text[text.iter().position(|&b| is_delimiter(b)).unwrap_or(text.len())..]
}

/// The digits at the front, a long number cut at what is too large for every use.
fn digits(mut text: &[u8]) -> (u32, &[u8]) {
    let mut value = 0;
    while let [b @ b'0'..=b'9', rest @ ..] = text {
        value = (value * 10 + (b - b'0') as u32).min(100_000);
        text = rest;
    }
    (value, text)
}

/// A channel, dimmer or page.
fn place(text: &[u8], most: usize, out_of_range: Condition) -> (Result<usize, Condition>, &[u8]) {
    let (n, rest) = digits(text);
    if rest.len() == text.len() || !ends(rest) {
        return (Err(Condition::BadInteger), behind(rest));
    }
    let n = n as usize;
    (if n == 0 || n > most { Err(out_of_range) } else { Ok(n) }, rest)
}

fn level(text: &[u8]) -> (Result<u8, Condition>, &[u8]) {
    if let [b'H' | b'h', digits @ ..] = text {
        return hexadecimal(digits);
    }
    let (percent, rest) = digits(text);
    if rest.len() == text.len() || percent > 999 || !ends(rest) {
        return (Err(Condition::BadLevel), behind(rest));
    }
    (Ok(((percent.min(100) * 255 + 50) / 100) as u8), rest)
}

/// One or two digits are the level; of three or four the last two are discarded.
fn hexadecimal(digits: &[u8]) -> (Result<u8, Condition>, &[u8]) {
    let mut value = 0u32;
    let mut rest = digits;
    while let [b, after @ ..] = rest {
        let Some(digit) = (*b as char).to_digit(16) else { break };
        value = value << 4 | digit;
        rest = after;
    }
    match digits.len() - rest.len() {
        1 | 2 if ends(rest) => (Ok(value as u8), rest),
        3 | 4 if ends(rest) => (Ok((value >> 8) as u8), rest),
        _ => (Err(Condition::BadHexadecimal), behind(rest)),
    }
}
