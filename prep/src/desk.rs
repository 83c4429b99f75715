//! The desk that a show is loaded into, as the user names it: `house`, `largest`, nine numbers, or a file with named limits.
use crate::input;
use sphairune::Desk;
use std::ffi::OsStr;

/// One of a desk's nine limits, with its range (paper 01, "The size of a desk").
pub struct Limit {
    pub name: &'static str,
    pub least: u32,
    pub most: u32,
}

const fn limit(name: &'static str, least: u32, most: u32) -> Limit {
    Limit { name, least, most }
}

/// In the order of [`Desk::limits`].
pub const LIMITS: [Limit; 9] = [
    limit("channels", 1, 512),
    limit("dimmers", 1, 512),
    limit("cues", 1, 600),
    limit("groups", 0, 200),
    limit("submasters", 0, 96),
    limit("cue pages", 1, 63),
    limit("group pages", 1, 63),
    limit("submaster pages", 1, 8),
    limit("patch pages", 1, 4),
];

/// The desk that every other one fits into.
pub fn largest() -> Desk {
    Desk::of(LIMITS.map(|limit| limit.most))
}

/// `channels 96, dimmers 192, ..`.
pub fn described(desk: Desk) -> String {
    LIMITS.iter().zip(desk.limits()).map(|(limit, value)| format!("{} {value}", limit.name)).collect::<Vec<_>>().join(", ")
}

/// A desk by the word behind `--desk`; or why it is none, in words that follow that word and a colon.
pub fn desk(word: &OsStr) -> Result<Desk, String> {
    match word.to_str() {
        Some("house") => Ok(Desk::HOUSE),
        Some("largest") => Ok(largest()),
        Some(text) if is_numbers(text) => nine(text),
        _ => in_file(word),
    }
}

/// Digits, with commas or space between.
fn is_numbers(text: &str) -> bool {
    text.contains(|c: char| c.is_ascii_digit()) && text.chars().all(|c| c.is_ascii_digit() || c == ',' || c.is_whitespace())
}

/// The nine limits in their order.
fn nine(text: &str) -> Result<Desk, String> {
    let words: Vec<&str> = text.split(|c: char| c == ',' || c.is_whitespace()).filter(|word| !word.is_empty()).collect();
    let words: [&str; 9] = words.try_into().map_err(|words: Vec<&str>| {
        let order = LIMITS.map(|limit| limit.name).join(", ");
        format!("a desk has nine limits, and here are {}; give in one word, with commas: {order}", words.len())
    })?;
    let mut limits = [0; 9];
    for ((value, limit), word) in limits.iter_mut().zip(&LIMITS).zip(words) {
        *value = in_range(limit, word)?;
    }
    Ok(Desk::of(limits))
}

fn in_range(limit: &Limit, word: &str) -> Result<u32, String> {
    if word.is_empty() || !word.bytes().all(|c| c.is_ascii_digit()) {
        return Err(format!("{} needs a number of {} to {}, not '{word}'", limit.name, limit.least, limit.most));
    }
    let value = word.parse().ok().filter(|value| (limit.least..=limit.most).contains(value));
    value.ok_or_else(|| format!("{} {word} is out of range; it is {} to {}", limit.name, limit.least, limit.most))
}

/// A file of nine bare numbers, or of lines with a limit's name and its number. `#` begins a comment.
fn in_file(path: &OsStr) -> Result<Desk, String> {
    let bytes = input::file(path).map_err(|why| format!("{why}; a desk is house, largest, nine numbers with commas, or a file"))?;
    let text = String::from_utf8_lossy(&bytes);
    let lines: Vec<&str> = text.lines().map(|line| line.split('#').next().unwrap_or("").trim()).collect();
    let joined = lines.join(" ");
    if is_numbers(&joined) {
        nine(&joined)
    } else {
        named(&lines)
    }
}

fn named(lines: &[&str]) -> Result<Desk, String> {
    let mut limits = [None; 9];
    for (number, line) in (1..).zip(lines).filter(|(_, line)| !line.is_empty()) {
        let (place, value) = line_of(line).map_err(|why| format!("line {number}: {why}"))?;
        if limits[place].replace(value).is_some() {
            return Err(format!("line {number}: {} is given twice", LIMITS[place].name));
        }
    }
    match limits.iter().position(Option::is_none) {
        Some(place) => Err(format!("no line for {0}; add one as '{0} {1}'", LIMITS[place].name, Desk::HOUSE.limits()[place])),
        None => Ok(Desk::of(limits.map(Option::unwrap_or_default))),
    }
}

/// Which limit a line has, and its value.
fn line_of(line: &str) -> Result<(usize, u32), String> {
    let mut words: Vec<&str> = line.split_whitespace().collect();
    let whole = words.join(" ");
    let value = if LIMITS.iter().any(|limit| limit.name == whole) { "" } else { words.pop().unwrap_or("") };
    let name = words.join(" ");
    let place = LIMITS.iter().position(|limit| limit.name == name).ok_or_else(|| {
        let names = LIMITS.map(|limit| limit.name).join(", ");
        format!("'{}' is no limit and its number; the limits are {names}", input::printable(line))
    })?;
    Ok((place, in_range(&LIMITS[place], value)?))
}

#[cfg(test)]
mod tests {
    use super::*;

    /// The ranges here are the library's: each edge is a desk, and one step past it is none.
    #[test]
    fn ranges_are_the_library_s() {
        for (place, limit) in LIMITS.iter().enumerate() {
            let answer = |value| {
                let mut limits = Desk::HOUSE.limits();
                limits[place] = value;
                Desk::of(limits).needed().is_ok()
            };
            assert_eq!([answer(limit.least), answer(limit.most), answer(limit.most + 1)], [true, true, false], "{}", limit.name);
            assert_eq!(limit.least == 0, answer(0), "{}", limit.name);
        }
    }

    #[test]
    fn desks_by_name_and_by_numbers() {
        let of = |word: &str| desk(OsStr::new(word));
        assert_eq!(of("house"), Ok(Desk::HOUSE));
        assert_eq!(of("largest").map(|d| d.needed()), Ok(Ok(846_592)));
        assert_eq!(of("96,192,200,40,24,2,1,2,1"), Ok(Desk::HOUSE));
        assert_eq!(of("096 192, 200 40 24 2 1 2 1 "), Ok(Desk::HOUSE));
    }

    #[test]
    fn desk_files() {
        let of = |text: &str| named(&text.lines().collect::<Vec<_>>());
        let all =
            "channels 96\ndimmers 192\ncues 200\ngroups 40\nsubmasters 24\ncue pages 2\ngroup pages 1\nsubmaster  pages\t2\npatch pages 1";
        let told = |text: &str| of(text).expect_err("no desk");
        assert_eq!(of(all), Ok(Desk::HOUSE));
        assert_eq!(told(&all.replace("cues 200", "cues 601")), "line 3: cues 601 is out of range; it is 1 to 600");
        assert_eq!(told(&all.replace("cues 200", "cues")), "line 3: cues needs a number of 1 to 600, not ''");
        assert_eq!(told(&all.replace("cues 200", "cues -1")), "line 3: cues needs a number of 1 to 600, not '-1'");
        assert_eq!(told(&all.replace("cues 200", "dimmers 2")), "line 3: dimmers is given twice");
        assert_eq!(told(&all.replace("cue pages 2", "")), "no line for cue pages; add one as 'cue pages 2'");
        assert!(told("cue pages\n").starts_with("line 1: cue pages needs a number of 1 to 63"));
        assert!(told("chanels 96").starts_with("line 1: 'chanels 96' is no limit and its number; the limits are channels, dimmers"));
    }
}
