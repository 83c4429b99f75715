//! A loaded show as one html page that holds all it shows: style and script stand in it, named by their digests in a policy that forbids
//! everything else, so that the page fetches nothing and nothing of a stream can run. The tables are there without scripts.
mod digest;
mod memories;
mod patch;
mod plot;
mod stream;
mod text;
mod times;

use crate::show::Show;
use crate::words::shared_numbers;
use memories::{CUES, GROUPS, SUBMASTERS};
use sphairune::{Desk, Memory, Patched, Totals};
use text::{condition, counted, escaped, grouped};

const STYLE: &str = include_str!("page/style.css");
const SCRIPT: &str = include_str!("page/script.js");

/// What the desk keeps of a show.
struct Kept<'a> {
    cues: Vec<Memory<'a>>,
    groups: Vec<Memory<'a>>,
    submasters: Vec<Memory<'a>>,
    patch: Vec<Patched>,
}

pub fn page(show: &Show) -> String {
    let anew = show.anew();
    let kept = Kept { cues: show.cues(), groups: show.groups(), submasters: show.submasters(), patch: show.patch() };
    [
        beginning(show),
        head(show, &kept),
        contents(show, &kept),
        "<main>\n".into(),
        stream::reports(show),
        stream::passed(show),
        memories::section(&CUES, &kept.cues, &anew),
        plot::section(&kept.cues),
        memories::section(&GROUPS, &kept.groups, &anew),
        memories::section(&SUBMASTERS, &kept.submasters, &anew),
        patch::section(show.desk, &kept),
        stream::stream(show),
        "</main>\n".into(),
        ending(show),
    ]
    .concat()
}

fn beginning(show: &Show) -> String {
    let policy = format!("default-src 'none'; style-src '{}'; script-src '{}'", digest::named(STYLE), digest::named(SCRIPT));
    format!(
        "<!doctype html>\n<html lang=\"en\">\n<head>\n<meta charset=\"utf-8\">\n\
         <meta http-equiv=\"Content-Security-Policy\" content=\"{policy}; base-uri 'none'; form-action 'none'\">\n\
         <meta name=\"viewport\" content=\"width=device-width, initial-scale=1\">\n\
         <meta name=\"color-scheme\" content=\"light dark\">\n\
         <title>{}</title>\n<style>{STYLE}</style>\n</head>\n<body>\n",
        escaped(&show.name)
    )
}

fn ending(show: &Show) -> String {
    let made = format!(
        "Made by prep of {}, {}. The page holds all it shows and fetches nothing.",
        escaped(&show.name),
        counted(show.stream.len(), "byte")
    );
    format!("<footer><p>{made}</p></footer>\n<script>{SCRIPT}</script>\n</body>\n</html>\n")
}

fn head(show: &Show, kept: &Kept) -> String {
    let (class, outcome, meaning) = outcome(show);
    let closing = format!("closing number {}", condition(show.totals.closing));
    format!("<header>\n<h1>{}</h1>\n<p class=\"desk\">{}</p>\n", name(&show.name), desk(show.desk))
        + &format!("<div class=\"outcome {class}\"><p><strong>{outcome}</strong> {meaning}</p><p class=\"closing\">{closing}</p></div>\n")
        + &translated(show)
        + "<div class=\"glance\">\n"
        + &room(show.desk, kept)
        + &records(show.totals)
        + "</div>\n</header>\n"
}

/// That the numbers are not those of the stream, and where a link may lead elsewhere than was meant.
fn translated(show: &Show) -> String {
    if !show.is_translated() {
        return String::new();
    }
    let anew = "Cues, groups and submasters are numbered anew, 1, 2, 3; beside each number stands what it was, by its own record.";
    let shared = shared_numbers(show).map(|told| format!("<p class=\"advice\">{}.</p>\n", escaped(&told)));
    format!("<p class=\"advice translated\"><strong>Loaded with translation.</strong> {anew}</p>\n") + &shared.collect::<String>()
}

/// The folder, if any, set apart.
fn name(name: &str) -> String {
    match name.rfind('/') {
        Some(at) => format!("<small>{}</small>{}", escaped(&name[..=at]), escaped(&name[at + 1..])),
        None => escaped(name),
    }
}

/// The closing number in plain words: how it looks, what came of the load, and what that means.
fn outcome(show: &Show) -> (&'static str, String, &'static str) {
    let Totals { passed, closing, .. } = show.totals;
    let unread = stream::unread(show) != 0;
    let with_reports = format!("Loaded with {}.", counted(show.reports.len(), "report"));
    match closing {
        0 if unread => ("clean", "Loaded with no report.".into(), "What stands behind ENDDATA was not read."),
        0 if passed == 0 => ("clean", "Loaded with no report.".into(), "Nothing was dropped or passed over."),
        0 => ("clean", "Loaded with no report.".into(), "Nothing was dropped; see below what was passed over."),
        91 | 99 => {
            let stopped = format!("The load stopped at record {}.", show.totals.records());
            ("error", stopped, "What was read before it is kept; the rest of the stream was not read.")
        }
        100 => ("error", with_reports, "The stream has no ENDDATA: the end of the show may be missing."),
        _ => ("warning", with_reports, "What they blame was dropped or ignored; the rest is kept."),
    }
}

fn desk(desk: Desk) -> String {
    let pages = |count: u32| counted(count as usize, "page");
    let of = |count: u32, thing: &str| counted(count as usize, thing);
    let named = if desk == Desk::HOUSE { "The house small desk: " } else { "A desk with " };
    let mut has = vec![of(desk.channels, "channel"), of(desk.dimmers, "dimmer"), of(desk.cues, "cue") + " on " + &pages(desk.cue_pages)];
    has.push(if desk.groups == 0 { "no groups".into() } else { of(desk.groups, "group") + " on " + &pages(desk.group_pages) });
    let submasters = || of(desk.submasters, "submaster") + " on " + &pages(desk.submaster_pages);
    has.push(if desk.submasters == 0 { "no submasters".into() } else { submasters() });
    format!("{named}{}, {}", has.join(", "), of(desk.patch_pages, "patch page"))
}

/// What the desk keeps, and how much it has room for.
fn room(desk: Desk, kept: &Kept) -> String {
    let figures = [
        figure("cues", kept.cues.len(), Some(desk.cues)),
        figure("groups", kept.groups.len(), Some(desk.groups)),
        figure("submasters", kept.submasters.len(), Some(desk.submasters * desk.submaster_pages)),
        figure("patched dimmers", kept.patch.len(), Some(desk.dimmers * desk.patch_pages)),
    ];
    format!("<dl class=\"figures\" id=\"kept\" aria-label=\"Kept\">\n{}</dl>\n", figures.concat())
}

fn records(t: Totals) -> String {
    let figures = [
        figure("records read", t.records() as usize, None),
        figure("obeyed", t.obeyed as usize, None),
        figure("blank", t.blank as usize, None),
        figure("passed over", t.passed as usize, None),
        figure("dropped", t.dropped as usize, None),
    ];
    format!("<dl class=\"figures records\" id=\"tallies\" aria-label=\"Records\">\n{}</dl>\n", figures.concat())
}

fn figure(name: &str, count: usize, room: Option<u32>) -> String {
    let class = if count == 0 { " class=\"none\"" } else { "" };
    let room = room.map_or(String::new(), |room| format!(" <small>of {}</small>", grouped(room as usize)));
    format!("<div{class}><dt>{name}</dt><dd>{}{room}</dd></div>\n", grouped(count))
}

/// The ways to the sections, and the search box, which the script shows.
fn contents(show: &Show, kept: &Kept) -> String {
    let sections = [
        ("reports", "Reports", show.reports.len()),
        ("passed", "Passed over", show.totals.passed as usize),
        ("cues", "Cues", kept.cues.len()),
        ("plot", "Levels", 0),
        ("groups", "Groups", kept.groups.len()),
        ("submasters", "Submasters", kept.submasters.len()),
        ("patch", "Patch", kept.patch.len()),
        ("stream", "Stream", show.totals.records() as usize),
    ];
    let mut text = String::from("<nav aria-label=\"Sections\">\n<ul>\n");
    for (id, name, count) in sections {
        let count = if count == 0 { String::new() } else { format!(" <small>{}</small>", grouped(count)) };
        text += &format!("<li><a href=\"#{id}\">{name}{count}</a></li>\n");
    }
    text += "</ul>\n<label class=\"hexadecimal\"><input type=\"checkbox\" id=\"hexadecimal\"> hexadecimal levels</label>\n";
    text += "<div role=\"search\" id=\"finder\" hidden><label for=\"search\" class=\"unseen\">Search</label>";
    text += "<input type=\"search\" id=\"search\" placeholder=\"channel 33, cue 4.5, any text\" autocomplete=\"off\" spellcheck=\"false\">";
    text + "</div>\n</nav>\n<p id=\"found\" role=\"status\"></p>\n"
}

#[cfg(test)]
mod tests;
