//! The sheet for the prep bench: what was dropped and why, what was passed over, and all that is kept.
use crate::anew::{self, Lost};
use crate::desk;
use crate::kind::Kind;
use crate::show::Show;
use crate::words::{condition, has_names, kept, longest_time, notes, number, received, unread, was, why_lost};
use sphairune::{percent, time_text, Fade, Memory, Patched, Report};

/// Levels on one line of the sheet.
const LEVELS_A_LINE: usize = 5;

/// Dimmers on one line of the sheet.
const DIMMERS_A_LINE: usize = 4;

pub fn sheet(show: &Show) -> String {
    let head = format!("SHEET {}\nDESK {}\n{}", show.name, desk::described(show.desk), translated(show));
    let parts = [head, reports(show), passed(show), patch(show), memories(show, Kind::Cue), memories(show, Kind::Group)];
    parts.join("\n") + "\n" + &memories(show, Kind::Submaster) + "\n" + &totals(show)
}

fn translated(show: &Show) -> &'static str {
    match show.is_translated() {
        true => "TRANSLATED cues, groups and submasters are numbered anew, 1, 2, 3; \"was\" is what their records have\n",
        false => "",
    }
}

fn reports(show: &Show) -> String {
    let mut text = match show.reports.len() {
        0 => "REPORTS none\n".to_string(),
        count => format!("REPORTS {count}\n"),
    };
    let records = show.records();
    let mut lost = anew::lost(show).into_iter();
    for report in &show.reports {
        text += &format!("  ({:05}:{}) {}\n", report.record, report.column, condition(report.condition));
        if show.is_lost_link(report) {
            text += &lost.next().map_or(String::new(), |lost| of_link(&lost, &records));
        } else if !show.is_of_the_end(report) {
            text += &marked(report, &records);
        }
    }
    text + &notes(show).iter().map(|note| format!("  NOTE {note}\n")).collect::<String>()
}

/// The LINK of a link that was lost, where it stands, and why.
fn of_link(lost: &Lost, records: &[&[u8]]) -> String {
    let cue = format!("cue {} page {} ({})", lost.cue.number, lost.cue.page, was(&lost.cue));
    let why = why_lost(lost);
    format!("      {}\n      of record {}, in {cue}:\n      {why}\n", received(records[lost.record - 1]), lost.record)
}

/// The record that is blamed, and a mark under the character in the column, if there is one.
fn marked(report: &Report, records: &[&[u8]]) -> String {
    let (record, column) = (records[report.record as usize - 1], report.column as usize);
    let mark = match column {
        0 => String::new(),
        _ => format!("      {:1$}^\n", "", received(&record[..column - 1]).len()),
    };
    format!("      {}\n{mark}", received(record))
}

fn passed(show: &Show) -> String {
    let passed = show.passed();
    if passed.is_empty() {
        return "PASSED OVER none\n".into();
    }
    let mut text = format!("PASSED OVER {}\n", show.totals.passed);
    for p in &passed {
        text += &format!("  {:5}  {}\n", p.count, p.keyword);
    }
    if has_names(&passed) {
        text += "  NOTE the names of cues are among it (TEXT): they are not kept\n";
    }
    text
}

fn patch(show: &Show) -> String {
    let patch = show.patch();
    if patch.is_empty() {
        return "PATCH none\n".into();
    }
    let mut text = format!("PATCH {}\n", patch.len());
    for page in patch.chunk_by(|a, b| a.page == b.page) {
        text += &format!("  page {}, dimmer: channel@level\n", page[0].page);
        for line in page.chunks(DIMMERS_A_LINE) {
            text += &format!("    {}\n", line.iter().map(patched).collect::<Vec<_>>().join("   "));
        }
    }
    text
}

fn patched(p: &Patched) -> String {
    format!("{:3}: {}", p.dimmer, at_level(p.channel, p.level))
}

/// A channel and its level, in a column.
fn at_level(channel: u32, level: u8) -> String {
    format!("{channel:3}@H{level:02X} {:3}%", percent(level))
}

fn memories(show: &Show, kind: Kind) -> String {
    let memories = kind.kept(show);
    let title = format!("{}S", kind.name().to_uppercase());
    if memories.is_empty() {
        return format!("{title} none\n");
    }
    let anew = show.anew();
    // `999:59:59.9`, which leaves a line of 80 characters, or a longer one that is among them. With translation it is a heading, which
    // leaves as long a line for what most memories were.
    let wide = longest_time(&memories).max(if show.is_translated() { 9 } else { 11 });
    let headings = headings(kind, wide);
    let mut text = format!("{title} {}\n{headings}{}\n", memories.len(), if show.is_translated() { "  was" } else { "" });
    for m in &memories {
        let line = format!("  {:1$}  {2:4}{3}", number(m.number), width(kind), m.page, values(kind, m, wide));
        text += &match anew::of(&anew, kind, m).map(|anew| anew.was.as_str()) {
            Some(was) => format!("{line:0$}  {1}\n", headings.len(), if was.is_empty() { "-" } else { was }),
            None => line + "\n",
        };
        text += &levels(m.levels);
    }
    text
}

fn headings(kind: Kind, wide: usize) -> String {
    let times = ["up fade", "delay", "down fade", "delay"].map(|name| format!(" {name:>wide$}")).concat();
    let times = match kind {
        Kind::Cue => format!("{times} {:>wide$}  link", "followon"),
        Kind::Group => String::new(),
        Kind::Submaster => times,
    };
    format!("  {:1$}  page{times}", kind.name(), width(kind))
}

/// Of the column of numbers: `999.9`, or the kind's name above it.
fn width(kind: Kind) -> usize {
    kind.name().len().max(5)
}

/// The values that a memory of this kind can have besides its levels.
fn values(kind: Kind, m: &Memory, wide: usize) -> String {
    let times = fade(m.up, wide) + &fade(m.down, wide);
    match kind {
        Kind::Cue => times + &time(m.followon, wide) + "  " + m.link.map_or("  -".into(), number).as_str(),
        Kind::Group => String::new(),
        Kind::Submaster => times,
    }
}

fn fade(fade: Option<Fade>, wide: usize) -> String {
    time(fade.map(|f| f.fade), wide) + &time(fade.map(|f| f.delay).filter(|&delay| delay != 0), wide)
}

fn time(tenths: Option<u32>, wide: usize) -> String {
    match tenths {
        Some(tenths) => format!(" {:>wide$}", time_text(tenths)),
        None => format!(" {:>wide$}", "-"),
    }
}

fn levels(levels: &[u8]) -> String {
    let lit: Vec<String> = lit(levels).map(|(channel, value)| at_level(channel, value)).collect();
    if lit.is_empty() {
        return "        blackout\n".into();
    }
    lit.chunks(LEVELS_A_LINE).map(|line| format!("        {}\n", line.join("  "))).collect()
}

/// The channels above zero, with their levels.
pub fn lit(levels: &[u8]) -> impl Iterator<Item = (u32, u8)> + '_ {
    (1..).zip(levels.iter().copied()).filter(|&(_, level)| level != 0)
}

fn totals(show: &Show) -> String {
    let t = show.totals;
    let tallies = format!("blank {}, obeyed {}, passed over {}, dropped {}", t.blank, t.obeyed, t.passed, t.dropped);
    let unread = unread(show).map_or(String::new(), |behind| format!("NOT READ {behind}\n"));
    format!("KEPT {}\nRECORDS {}: {tallies}\n{unread}CLOSING {}\n", kept(show), t.records(), condition(t.closing))
}
