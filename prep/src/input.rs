//! Show files, as they are read: whole, or not at all, with a word on what to do.
use crate::output;
use crate::show::{Load, Show};
use crate::status::Trouble;
use sphairune::{Desk, Refused, MOST_STREAM};
use std::ffi::OsStr;
use std::fs::File;
use std::io::{self, ErrorKind, IsTerminal, Read};

/// Loads a file, or standard input for `-`, into an emptied desk.
pub fn show(file: &OsStr, desk: Desk, load: Load) -> Result<Show, Trouble> {
    let stream = stream(file).map_err(|why| Trouble::Failed(format!("{}: {why}", name(file))))?;
    loaded(name(file), desk, load, stream)
}

/// Loads a stream that was read before.
pub fn loaded(name: String, desk: Desk, load: Load, stream: Vec<u8>) -> Result<Show, Trouble> {
    let advice = |r: Refused| if r == Refused::R7 { "; name a desk that has them with --desk" } else { "" };
    let refused = |r: Refused| Trouble::Failed(format!("{name}: not loaded, {}: {r}{}", r.name(), advice(r)));
    Show::load(name.clone(), desk, load, stream).map_err(refused)
}

/// A file as messages and sheets name it.
pub fn name(file: &OsStr) -> String {
    match file.to_str() {
        Some("-") => "standard input".into(),
        _ => printable(&file.to_string_lossy()),
    }
}

/// A text that cannot move the cursor or begin a line.
pub fn printable(text: &str) -> String {
    text.chars().map(|c| if c.is_control() { '?' } else { c }).collect()
}

fn stream(file: &OsStr) -> Result<Vec<u8>, String> {
    let stream = if file == "-" { standard_input()? } else { self::file(file)? };
    match wide(&stream) {
        Some(text) => Err(format!("this is {text} text, not ASCII; convert it first, as by: {}", conversion(text, file))),
        None => Ok(stream),
    }
}

fn standard_input() -> Result<Vec<u8>, String> {
    let input = io::stdin();
    if input.is_terminal() {
        output::tell("reading standard input; end it with Ctrl-D on a line of its own");
    }
    whole(input.lock())
}

/// The bytes of a file, or why there are none.
pub fn file(path: &OsStr) -> Result<Vec<u8>, String> {
    whole(File::open(path).map_err(|e| unreadable(&e))?)
}

/// At most as many bytes as the longest stream has.
fn whole(from: impl Read) -> Result<Vec<u8>, String> {
    let mut bytes = Vec::new();
    from.take(MOST_STREAM as u64 + 1).read_to_end(&mut bytes).map_err(|e| unreadable(&e))?;
    if MOST_STREAM < bytes.len() {
        return Err(
            "longer than 262,143 bytes, the most that a show stream may have; is it a show file? If so, write it from its desk in parts"
                .into(),
        );
    }
    Ok(bytes)
}

/// Why nothing can be read, and what to do.
pub fn unreadable(e: &io::Error) -> String {
    match e.kind() {
        ErrorKind::NotFound | ErrorKind::NotADirectory => "no such file; look at its name and folder".into(),
        ErrorKind::PermissionDenied => "may not be read; ask for the right to read it, or for a copy".into(),
        ErrorKind::IsADirectory => "a folder, where a file is needed; name a file in it, or try prep check on the folder".into(),
        _ => format!("cannot be read: {e}"),
    }
}

/// The byte order mark of UTF-8. The load ignores it and reports 0701 for the first record.
pub fn has_byte_order_mark(stream: &[u8]) -> bool {
    stream.starts_with(b"\xEF\xBB\xBF")
}

/// A text with two or four bytes a character, by its byte order mark or by its zeros: what it is called.
fn wide(stream: &[u8]) -> Option<&'static str> {
    const MARKS: [(&[u8], &str); 4] =
        [(b"\xFF\xFE\0\0", "UTF-32"), (b"\0\0\xFE\xFF", "UTF-32"), (b"\xFF\xFE", "UTF-16"), (b"\xFE\xFF", "UTF-16")];
    let marked = MARKS.iter().find(|(mark, _)| stream.starts_with(mark)).map(|(_, text)| *text);
    marked.or_else(|| without_mark(stream))
}

/// ASCII as UTF-16 has a zero in every second place. Three of four are enough, since a comment may hold other letters.
fn without_mark(stream: &[u8]) -> Option<&'static str> {
    let pairs = stream.len() / 2;
    let most = |low: usize| {
        let letters = stream.chunks_exact(2).filter(|pair| pair[low] != 0 && pair[1 - low] == 0).count();
        4 <= pairs && 3 * pairs <= 4 * letters
    };
    match (most(0), most(1)) {
        (true, _) => Some("UTF-16LE"),
        (_, true) => Some("UTF-16BE"),
        _ => None,
    }
}

fn conversion(text: &str, file: &OsStr) -> String {
    let from = if file == "-" { String::new() } else { format!(" {}", name(file)) };
    format!("iconv -f {text} -t ASCII//TRANSLIT{from} >plain.asc")
}
