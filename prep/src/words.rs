//! Short texts that several commands print.
use crate::anew::{lost, shared, tenths, Anew, Lost};
use crate::desk::LIMITS;
use crate::input;
use crate::passed::Passed;
use crate::records::{self, MOST_CHARACTERS};
use crate::show::Show;
use sphairune::{condition_text, percent, severity, time_text, Memory, Number};

/// `1 cue`, `2 cues`.
pub fn counted(count: usize, thing: &str) -> String {
    format!("{count} {thing}{}", if count == 1 { "" } else { "s" })
}

/// A condition as the standard prints it: number, severity, text.
pub fn condition(number: u32) -> String {
    format!("{number:04}-{} {}", severity(number), condition_text(number))
}

/// `HFF 100%`.
pub fn level(level: u8) -> String {
    format!("H{level:02X} {}%", percent(level))
}

/// Whole numbers under one another.
pub fn number(n: Number) -> String {
    format!("{:>1$}", n.to_string(), if n.tenths == 0 { 3 } else { 5 })
}

/// A record for the eye: a tab as a space, other characters that do not print in hexadecimal, and no more of it than a record may have.
pub fn received(record: &[u8]) -> String {
    let mut text = String::new();
    for &c in record.iter().take(MOST_CHARACTERS) {
        match c {
            b'\t' => text.push(' '),
            0x20..=0x7e => text.push(char::from(c)),
            _ => text += &format!("\\x{c:02X}"),
        }
    }
    text + if MOST_CHARACTERS < record.len() { "..." } else { "" }
}

/// What a desk keeps of a show.
pub fn kept(show: &Show) -> String {
    let [cues, groups, submasters] = [show.cues(), show.groups(), show.submasters()].map(|kept| kept.len());
    let memories = [counted(cues, "cue"), counted(groups, "group"), counted(submasters, "submaster")].join(", ");
    format!("{memories}, {}", counted(show.patch().len(), "patched dimmer"))
}

/// How many records stand behind the one that ended the load, and which that was. 0091 and 0099 are the errors that stop a load.
pub fn unread(show: &Show) -> Option<String> {
    let last = show.totals.records() as usize;
    let behind = records::records(&show.stream).len() - last;
    let end = match show.totals.closing {
        91 | 99 => "at which the load stopped",
        _ => "ENDDATA",
    };
    (behind != 0).then(|| format!("{behind} behind record {last}, {end}"))
}

/// A show in a line: its name, what is kept of it, and what is not.
pub fn summary(show: &Show) -> String {
    [vec![format!("{}: {}", show.name, kept(show))], losses(show)].concat().join("; ")
}

/// All that is not kept of a show, in short; empty where nothing is lost. With translation the numbers are not kept.
pub fn losses(show: &Show) -> Vec<String> {
    let numbers = show.is_translated().then(|| "numbered anew".to_string());
    let reports = counted(show.reports.len(), "report");
    let reports = (!show.reports.is_empty()).then(|| format!("{reports}, closing {}", condition(show.totals.closing)));
    let unread = unread(show).map(|behind| format!("not read: {behind}"));
    [numbers, reports, lost_links(show), passed_over(show), unread].into_iter().flatten().chain(notes(show)).collect()
}

/// How many links were lost.
fn lost_links(show: &Show) -> Option<String> {
    let count = lost(show).len();
    (count != 0).then(|| format!("{} lost, which ask for no CUE's number", counted(count, "link")))
}

/// `was 10.25 page 9`: what a memory that was numbered anew was before.
pub fn was(anew: &Anew) -> String {
    match anew.was.as_str() {
        "" => "had no number".into(),
        was => format!("was {was}"),
    }
}

/// Why a link was lost. Where a CUE may well have what it asks for, that is no number which links follow.
pub fn why_lost(lost: &Lost) -> String {
    match lost.asked.as_str() {
        "" => "the LINK asks for no cue".into(),
        asked if tenths(asked).is_some() => format!("the LINK asks for {asked}, and no CUE has this number"),
        asked => format!("the LINK asks for {asked}, and links follow numbers of 0 to 9999.9 alone, with one digit behind the point"),
    }
}

/// Names are what an operator misses first.
fn passed_over(show: &Show) -> Option<String> {
    let names = if has_names(&show.passed()) { ", names (TEXT) among them" } else { "" };
    (show.totals.passed != 0).then(|| format!("{} passed over{names}", counted(show.totals.passed as usize, "record")))
}

pub fn has_names(passed: &[Passed]) -> bool {
    passed.iter().any(|p| p.keyword == "TEXT")
}

/// What lies behind many reports at once, and what to do.
pub fn notes(show: &Show) -> Vec<String> {
    let mark = "the file begins with the byte order mark of UTF-8, three characters that are ignored (0701); save it without one";
    let mark = input::has_byte_order_mark(&show.stream).then(|| mark.to_string());
    mark.into_iter().chain(channels_asked(show)).chain(cues_refused(show)).chain(shared_numbers(show)).collect()
}

/// Where cues were refused that a load with translation takes. It needs a desk that has groups and submasters.
pub fn cues_refused(show: &Show) -> Option<String> {
    let count = show.cues_refused();
    let possible = show.desk.groups != 0 && show.desk.submasters != 0;
    let were = if count == 1 { "was" } else { "were" };
    let told = || format!("{} {were} not taken for number or page: try --translate, which numbers all anew", counted(count, "cue"));
    (count != 0 && possible).then(told)
}

/// Where a link may lead to another cue than was meant.
pub fn shared_numbers(show: &Show) -> impl Iterator<Item = String> {
    shared(show).into_iter().map(|s| format!("{} cues have the number {}: a LINK to it leads to the last, {}", s.count, s.number, s.last))
}

/// Where the show has channels that the desk lacks: how many it asks for.
fn channels_asked(show: &Show) -> Option<String> {
    let (asked, has, most) = (show.channels_asked()?, show.desk.channels, LIMITS[0].most);
    let asks = format!("the show asks for channel {asked}, and this desk has {has}");
    Some(if asked <= most {
        format!("{asks}: try --desk largest, or a desk with {asked} channels")
    } else if asked < u32::MAX {
        format!("{asks}; no desk has more than {most}")
    } else {
        format!("the show asks for a channel of very many digits, and this desk has {has}; no desk has more than {most}")
    })
}

/// How many characters the longest of the memories' times has, 0 where they have none.
pub fn longest_time(memories: &[Memory]) -> usize {
    let fades = memories.iter().flat_map(|m| [m.up, m.down]).flatten().flat_map(|f| [f.fade, f.delay]);
    let times = fades.chain(memories.iter().filter_map(|m| m.followon));
    times.map(|tenths| time_text(tenths).len()).max().unwrap_or(0)
}
