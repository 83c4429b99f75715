//! The stream's side of the page: the reports, what was passed over, and the records as received with the reports beside them.
use super::text::{condition, counted, escaped, grouped, range, received};
use crate::anew::{self, Lost};
use crate::show::Show;
use crate::words::{cues_refused, was, why_lost};
use sphairune::{severity, Report};
use std::collections::BTreeMap;

/// The most channels that a desk can have.
const MOST_CHANNELS: u32 = 512;

/// From this many reports on, they may first be told by condition.
const MANY_REPORTS: usize = 8;

/// The most records with reports that are listed ahead of the show; the others stand in the stream.
const MOST_REPORTED: usize = 500;

/// A stream of more records is folded up at first.
const MANY_RECORDS: usize = 400;

/// The most lines of a stream that are listed: a browser has to open the page.
const MOST_LINES: usize = 20_000;

/// Empty records that follow one another, from this many on, are one line.
const MANY_EMPTY: usize = 3;

/// What was dropped, and why.
pub fn reports(show: &Show) -> String {
    let heading = "aria-labelledby=\"reports-title\">\n<h2 id=\"reports-title\">What was dropped, and why</h2>\n";
    if show.reports.is_empty() {
        return format!("<section id=\"reports\" class=\"none\" {heading}<p>Nothing: there is no report.</p>\n</section>\n");
    }
    let (records, reported) = (show.records(), by_record(show));
    let mut text = format!("<section id=\"reports\" {heading}{}{}{}", channels(show), refused(show), by_condition(show));
    text += "<table class=\"lines\">\n<thead><tr><th scope=\"col\">record</th><th scope=\"col\">as received</th>";
    text += "<th scope=\"col\">condition</th></tr></thead>\n<tbody>\n";
    text.extend(reported.iter().take(MOST_REPORTED).map(|own| match show.is_of_the_end(&own[0]) {
        true => end_row(show, own),
        false => report_row(own, &records),
    }));
    text += "</tbody>\n</table>\n";
    if MOST_REPORTED < reported.len() {
        let more = counted(reported.len() - MOST_REPORTED, "more record");
        text += &format!("<p class=\"more\">There are reports of {more}: see them beside the <a href=\"#stream\">stream</a>.</p>\n");
    }
    text + "</section>\n"
}

/// The reports of each record together; those of the stream's end are by themselves.
fn by_record(show: &Show) -> Vec<&[Report]> {
    let of = |r: &Report| (r.record, show.is_of_the_end(r));
    show.reports.chunk_by(|a, b| of(a) == of(b)).collect()
}

/// Where a load with translation would help.
fn refused(show: &Show) -> String {
    cues_refused(show).map_or(String::new(), |told| format!("<p class=\"advice\">{}.</p>\n", escaped(&told)))
}

/// Where a larger desk would help.
fn channels(show: &Show) -> String {
    let Some(asked) = show.channels_asked() else { return String::new() };
    let has = counted(show.desk.channels as usize, "channel");
    let advice = match asked {
        ..=MOST_CHANNELS => {
            format!("The show asks for channel {asked}, and this desk has {has}: try a larger one with <code>--desk</code>.")
        }
        _ => format!("The show asks for channels above {MOST_CHANNELS}, which no desk has; this one has {has}."),
    };
    format!("<p class=\"advice\">{advice}</p>\n")
}

/// Where conditions come again and again.
fn by_condition(show: &Show) -> String {
    let mut counts: BTreeMap<u32, usize> = BTreeMap::new();
    for report in &show.reports {
        *counts.entry(report.condition).or_default() += 1;
    }
    if show.reports.len() < MANY_REPORTS.max(3 * counts.len()) {
        return String::new();
    }
    let items = counts.into_iter().map(|(number, count)| format!("<li><b>{}</b> {}</li>\n", grouped(count), condition(number)));
    format!("<ul class=\"counts\" aria-label=\"Reports by condition\">\n{}</ul>\n", items.collect::<String>())
}

fn report_row(own: &[Report], records: &[&[u8]]) -> String {
    let (n, class, told) = (own[0].record as usize, worst(own), told(own));
    let text = received(records[n - 1], &columns(own));
    let name = record_name(n);
    format!("<tr class=\"{class}\"><th scope=\"row\">{name}</th><td class=\"received\">{text}</td><td>{told}</td></tr>\n")
}

/// What is told when the load ends: the links that were lost, each with its LINK, and that there was no ENDDATA.
fn end_row(show: &Show, own: &[Report]) -> String {
    let (others, lost): (Vec<Report>, Vec<Report>) = own.iter().partition(|r| !show.is_lost_link(r));
    let mut links = anew::lost(show).into_iter();
    let lost = lost.iter().map(|r| {
        let link = links.next().map_or(String::new(), |lost| of_link(&lost));
        format!("<div class=\"report\">{}{link}</div>", condition(r.condition))
    });
    let told = lost.collect::<String>() + &told(&others);
    format!("<tr class=\"{}\"><th scope=\"row\">end</th><td></td><td>{told}</td></tr>\n", worst(own))
}

fn of_link(lost: &Lost) -> String {
    let Lost { record, cue, .. } = lost;
    let place = format!(
        "record {}, in <a href=\"#cue-{page}-{number}\">cue {number}</a>",
        record_name(*record),
        page = cue.page,
        number = cue.number
    );
    format!("<span class=\"link\">{place}, {}: {}</span>", escaped(&was(cue)), escaped(&why_lost(lost)))
}

/// Leads to a record in the stream, where it is listed there.
fn record_name(n: usize) -> String {
    match n {
        ..=MOST_LINES => format!("<a href=\"#record-{n}\">{n}</a>"),
        _ => n.to_string(),
    }
}

fn columns(own: &[Report]) -> Vec<u32> {
    own.iter().map(|r| r.column).collect()
}

/// `error` where one of the reports is one.
fn worst(own: &[Report]) -> &'static str {
    match own.iter().any(|r| severity(r.condition) == 'E') {
        true => "error",
        false => "warning",
    }
}

/// The conditions of a record, each with its columns. Column 0 is none: what is blamed is missing, or is no field.
fn told(own: &[Report]) -> String {
    let mut conditions: Vec<(u32, Vec<u32>)> = Vec::new();
    for r in own {
        let place = conditions.iter().position(|(condition, columns)| *condition == r.condition && columns[0] != 0 && r.column != 0);
        match place {
            Some(place) => conditions[place].1.push(r.column),
            None => conditions.push((r.condition, vec![r.column])),
        }
    }
    conditions.iter().map(|(number, columns)| format!("<div class=\"report\">{}{}</div>", condition(*number), at(columns))).collect()
}

fn at(columns: &[u32]) -> String {
    let list: Vec<String> = columns.iter().map(u32::to_string).collect();
    match columns {
        [0] => String::new(),
        [_] => format!(" <small>column {}</small>", list[0]),
        _ => format!(" <small>columns {}</small>", list.join(", ")),
    }
}

/// What was passed over, by keyword.
pub fn passed(show: &Show) -> String {
    let heading = "<section id=\"passed\" aria-labelledby=\"passed-title\">\n<h2 id=\"passed-title\">What was passed over</h2>\n";
    let passed = show.passed();
    if passed.is_empty() {
        return format!("{heading}<p>Nothing: every record was of a kind that is read.</p>\n</section>\n");
    }
    let mut text = heading.to_string();
    if passed.iter().any(|p| p.keyword == "TEXT") {
        text += "<p class=\"advice\">Cue names are among it: TEXT is passed over, and <strong>no name of a cue, group or submaster ";
        text += "is kept</strong>.</p>\n";
    }
    text += "<table class=\"passed\">\n<thead><tr><th scope=\"col\">keyword</th><th scope=\"col\">records</th></tr></thead>\n<tbody>\n";
    for p in passed {
        text += &format!("<tr><th scope=\"row\">{}</th><td>{}</td></tr>\n", escaped(&p.keyword), grouped(p.count as usize));
    }
    text + "</tbody>\n</table>\n</section>\n"
}

/// The records as received.
pub fn stream(show: &Show) -> String {
    let records = show.records();
    let heading = "<section id=\"stream\" aria-labelledby=\"stream-title\">\n<h2 id=\"stream-title\">The stream as received</h2>\n";
    if records.is_empty() {
        return format!("{heading}<p>The stream has no record.</p>\n</section>\n");
    }
    let open = if records.len() <= MANY_RECORDS { " open" } else { "" };
    let count = format!("{}, {}", counted(records.len(), "record"), counted(show.stream.len(), "byte"));
    let mut text = format!("{heading}<details{open}>\n<summary>{count}</summary>\n<table class=\"lines\">\n<thead><tr>");
    text += "<th scope=\"col\">record</th><th scope=\"col\">as received</th><th scope=\"col\">reports</th></tr></thead>\n<tbody>\n";
    text += &lines(show, &records);
    text + "</tbody>\n</table>\n</details>\n" + &unread_line(show) + "</section>\n"
}

fn lines(show: &Show, records: &[&[u8]]) -> String {
    let reported = by_record(show);
    let (mut text, mut next, mut at, mut room) = (String::new(), reported.iter().peekable(), 0, MOST_LINES);
    while at < records.len() && 0 < room {
        let n = at + 1;
        let empty = records[at..].iter().take_while(|record| record.is_empty()).count();
        if MANY_EMPTY <= empty {
            let numbers = range(n, at + empty);
            text += &format!("<tr class=\"empty\"><th scope=\"row\">{numbers}</th><td>{}</td></tr>\n", counted(empty, "empty record"));
            at += empty;
        } else {
            text += &match next.next_if(|own| own[0].record as usize == n && !show.is_of_the_end(&own[0])) {
                Some(own) => reported_line(n, records[at], own),
                None => line(n, records[at]),
            };
            at = n;
        }
        room -= 1;
    }
    if at < records.len() {
        let (more, listed) = (grouped(records.len() - at), "<code>prep sheet</code> lists their reports");
        return text
            + &format!("<tr class=\"empty\"><th scope=\"row\">\u{2026}</th><td>{more} more are in the file itself; {listed}.</td></tr>\n");
    }
    text.extend(next.map(|own| end_row(show, own)));
    text
}

fn line(n: usize, record: &[u8]) -> String {
    format!("<tr id=\"record-{n}\"><th scope=\"row\">{n}</th><td class=\"received\">{}</td></tr>\n", received(record, &[]))
}

fn reported_line(n: usize, record: &[u8], own: &[Report]) -> String {
    let (class, text) = (worst(own), received(record, &columns(own)));
    format!(
        "<tr id=\"record-{n}\" class=\"{class}\"><th scope=\"row\">{n}</th><td class=\"received\">{text}</td><td>{}</td></tr>\n",
        told(own)
    )
}

/// How many bytes stand behind the record that ended the load.
pub fn unread(show: &Show) -> usize {
    let Some(last) = show.records().pop() else { return 0 };
    let end = last.as_ptr() as usize - show.stream.as_ptr() as usize + last.len();
    match &show.stream[end..] {
        [b'\r', b'\n', rest @ ..] | [b'\n', b'\r', rest @ ..] | [_, rest @ ..] | rest => rest.len(),
    }
}

fn unread_line(show: &Show) -> String {
    match unread(show) {
        0 => String::new(),
        behind => {
            let (bytes, last) = (counted(behind, "byte"), grouped(show.totals.records() as usize));
            format!("<p class=\"more\">Not read: {bytes} behind record {last}, where the load ended.</p>\n")
        }
    }
}
