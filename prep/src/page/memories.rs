//! Cues, groups and submasters as tables: a row a memory, its times as text and drawn, its link, its levels.
use super::text::{counted, escaped, range};
use super::times::{self, Scale};
use crate::anew::{self, Anew};
use crate::kind;
use crate::words::{longest_time, was};
use sphairune::{percent, time_text, Fade, Memory, Number};

/// What a table is of, and what goes with it.
pub struct Kind {
    pub kind: kind::Kind,
    pub one: &'static str,
    pub title: &'static str,
    pub id: &'static str,
    /// Groups have no times.
    pub timed: bool,
    /// Cues alone follow on, and link.
    pub linked: bool,
}

pub const CUES: Kind = Kind { kind: kind::Kind::Cue, one: "cue", title: "Cues", id: "cues", timed: true, linked: true };
pub const GROUPS: Kind = Kind { kind: kind::Kind::Group, one: "group", title: "Groups", id: "groups", timed: false, linked: false };
pub const SUBMASTERS: Kind =
    Kind { kind: kind::Kind::Submaster, one: "submaster", title: "Submasters", id: "submasters", timed: true, linked: false };

/// The levels of a longer table are laid out only as they come into sight.
const LONG: usize = 100;

/// Past so many characters a time needs wider columns.
const LONG_TIME: usize = 9;

/// A section with the memories of a kind, by page and number, and with what they were where they are numbered anew.
pub fn section(kind: &Kind, memories: &[Memory], anew: &[Anew]) -> String {
    let Kind { title, id, .. } = kind;
    let heading = format!("<section id=\"{id}\" aria-labelledby=\"{id}-title\">\n<h2 id=\"{id}-title\">{title}</h2>\n");
    let body = match memories {
        [] => format!("<p>No {} is kept.</p>\n", kind.one),
        _ => legend(kind) + &table(kind, memories, anew),
    };
    heading + &body + "</section>\n"
}

fn legend(kind: &Kind) -> String {
    let levels = "Levels as channel@percent.";
    let times = "Times as seconds, m:s or h:m:s; a dash is a time that was not given.";
    match kind.timed {
        true => format!("<p class=\"legend\">{times} {levels} {}</p>\n", times::key(kind.linked)),
        false => format!("<p class=\"legend\">{levels}</p>\n"),
    }
}

fn table(kind: &Kind, memories: &[Memory], anew: &[Anew]) -> String {
    let scale = Scale::of(memories);
    let long = if LONG < memories.len() { " long" } else { "" };
    let wide = if LONG_TIME < longest_time(memories) { " wide" } else { "" };
    let renamed = if anew.is_empty() { "" } else { " anew" };
    let mut text = format!("<table class=\"memories {}{long}{wide}{renamed}\">\n{}", kind.id, columns(kind, &scale));
    let on_page_1_alone = memories.iter().all(|m| m.page == 1);
    for page in memories.chunk_by(|a, b| a.page == b.page) {
        text += "<tbody>\n";
        if !on_page_1_alone {
            text += &page_row(kind, page);
        }
        text.extend(page.iter().map(|memory| row(kind, memory, page, &scale, anew::of(anew, kind.kind, memory))));
        text += "</tbody>\n";
    }
    text + "</table>\n"
}

fn page_row(kind: &Kind, page: &[Memory]) -> String {
    let columns = 2 + if kind.timed { 3 } else { 0 } + if kind.linked { 2 } else { 0 };
    let name = format!("Page {} <small>{}</small>", page[0].page, counted(page.len(), kind.one));
    format!("<tr class=\"page\"><th scope=\"rowgroup\" colspan=\"{columns}\">{name}</th></tr>\n")
}

fn columns(kind: &Kind, scale: &Scale) -> String {
    let column = |class: &str, name: &str| format!("<th scope=\"col\" class=\"{class}\">{name}</th>");
    let mut text = format!("<thead><tr>{}", column("name", kind.one));
    if kind.timed {
        text += &(column("time", "up") + &column("time", "down"));
    }
    if kind.linked {
        text += &column("time", "follow-on");
    }
    if kind.timed {
        text += &column("drawn", &format!("<span class=\"unseen\">times drawn</span>{}", scale.axis(kind.id)));
    }
    if kind.linked {
        text += &column("link", "link");
    }
    text + &column("levels", "levels") + "</tr></thead>\n"
}

fn row(kind: &Kind, memory: &Memory, page: &[Memory], scale: &Scale, anew: Option<&Anew>) -> String {
    let (name, number) = (anchor(kind, memory.page, memory.number), memory.number);
    let before = anew.map_or(String::new(), |anew| format!(" <small class=\"was\">{}</small>", escaped(&was(anew))));
    let mut text = format!("<tr class=\"memory\" id=\"{name}\"><th scope=\"row\" class=\"name\">{number}{before}</th>");
    if kind.timed {
        text += &(fade(memory.up) + &fade(memory.down));
    }
    if kind.linked {
        text += &format!("<td class=\"time\">{}</td>", time(memory.followon));
    }
    if kind.timed {
        text += &format!("<td class=\"drawn\">{}</td>", scale.drawn(kind.id, memory));
    }
    if kind.linked {
        text += &format!("<td class=\"link\">{}</td>", link(kind, memory, page));
    }
    text + &format!("<td class=\"levels\"><div>{}</div></td></tr>\n", levels(memory.levels))
}

/// Where a memory's row is on the page.
fn anchor(kind: &Kind, page: u32, number: Number) -> String {
    format!("{}-{page}-{number}", kind.one)
}

fn time(tenths: Option<u32>) -> String {
    tenths.map_or("\u{2013}".into(), |t| time_text(t).to_string())
}

fn fade(fade: Option<Fade>) -> String {
    let delay = fade.map_or(0, |f| f.delay);
    let waits = if delay == 0 { String::new() } else { format!(" <small>delay {}</small>", time_text(delay)) };
    format!("<td class=\"time\">{}{waits}</td>", time(fade.map(|f| f.fade)))
}

/// A link leads to the cue of that number on the cue's own page, and a load does not look whether there is one.
fn link(kind: &Kind, memory: &Memory, page: &[Memory]) -> String {
    match memory.link {
        None => "\u{2013}".into(),
        Some(target) if page.iter().any(|m| m.number == target) => {
            format!("<a href=\"#{}\">{} {target}</a>", anchor(kind, memory.page, target), kind.one)
        }
        Some(target) => format!("{} {target} <small class=\"lost\">is not kept</small>", kind.one),
    }
}

/// The channels that are lit, in runs of one level: the percentage, and as its title the level itself, which the page shows when asked.
fn levels(levels: &[u8]) -> String {
    let mut runs = Vec::new();
    let mut channel = 1;
    for run in levels.chunk_by(|a, b| a == b) {
        if run[0] != 0 {
            let channels = range(channel, channel + run.len() - 1);
            runs.push(format!("{channels}@<b title=\"H{:02X}\">{}</b>", run[0], percent(run[0])));
        }
        channel += run.len();
    }
    if runs.is_empty() {
        return "<em>blackout</em>".into();
    }
    runs.join(" ")
}

#[cfg(test)]
mod tests {
    use super::*;

    fn cue(whole: u32, link: Option<u32>) -> Memory<'static> {
        let number = |whole| Number { whole, tenths: 0 };
        let up = Some(Fade { fade: 900, delay: 100 });
        Memory { slot: 1, page: 1, number: number(whole), link: link.map(number), up, down: None, followon: Some(5), levels: &[0xff, 0] }
    }

    #[test]
    fn levels_in_runs() {
        let lit = levels(&[0xff, 0xff, 0, 0x80, 0x80, 0x80, 0x99]);
        assert_eq!(lit, "1–\u{2060}2@<b title=\"HFF\">100</b> 4–\u{2060}6@<b title=\"H80\">50</b> 7@<b title=\"H99\">60</b>");
        assert_eq!(levels(&[0, 0, 0]), "<em>blackout</em>");
    }

    #[test]
    fn links_lead_to_what_is_kept() {
        let page = [cue(1, Some(2)), cue(2, Some(7)), cue(3, None)];
        assert_eq!(link(&CUES, &page[0], &page), "<a href=\"#cue-1-2\">cue 2</a>");
        assert_eq!(link(&CUES, &page[1], &page), "cue 7 <small class=\"lost\">is not kept</small>");
        assert_eq!(link(&CUES, &page[2], &page), "–");
    }

    #[test]
    fn a_row_a_memory_and_a_body_a_page() {
        let mut cues = [cue(1, None), cue(2, None), cue(1, None)];
        assert_eq!(section(&CUES, &cues, &[]).matches("<tbody>").count(), 1);
        cues[2].page = 2;
        let text = section(&CUES, &cues, &[]);
        assert_eq!((text.matches("class=\"memory\"").count(), text.matches("<tbody>").count()), (3, 2));
        assert!(text.contains("id=\"cue-2-1\"") && text.contains("Page 2 <small>1 cue</small>"));
        let times = ["1:30 <small>delay 10</small>", "–", "0.5"].map(|time| format!("<td class=\"time\">{time}</td>"));
        assert!(text.contains(&times.concat()));
        assert!(section(&GROUPS, &[], &[]).contains("No group is kept."));
    }
}
