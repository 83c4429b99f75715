//! Demand 3 put to use: the same show on a small desk and on a larger one, what the small one lacks, and what is sure.
//!
//! That the sure things hold is proved of the library; here the two loads are compared all the same, so that what is printed is what is
//! there.
use crate::compare::{changes, dimmer, dimmers, memories, patched};
use crate::desk;
use crate::kind::Kind;
use crate::sheet::lit;
use crate::show::Show;
use crate::words::{counted, kept, level};
use sphairune::{Desk, Memory, Patched};

pub fn rehearse(small: &Show, large: &Show) -> String {
    let mut lines = Lines::default();
    for kind in Kind::ALL {
        for pair in memories(kind, small, large) {
            lines.memory(kind, pair, small);
        }
    }
    for pair in dimmers(small, large) {
        lines.dimmer(pair, small.desk);
    }
    let head = format!("REHEARSE {}\nSMALL {}\nLARGE {}\n", small.name, side(small), side(large));
    let room = format!("ROOM\n  small: {}\n  large: {}\n", room(small), room(large));
    let different = if lines.different.is_empty() { String::new() } else { section("DIFFERENT ON THE SMALL", &lines.different) + "\n" };
    format!("{head}\n{room}\n{}\n{different}{}", section("LACKING ON THE SMALL", &lines.lacking), sure(small, large))
}

fn side(show: &Show) -> String {
    format!("{}\n      {}; {}", desk::described(show.desk), kept(show), counted(show.reports.len(), "report"))
}

fn section(title: &str, lines: &[String]) -> String {
    match lines.len() {
        0 => format!("{title} nothing\n"),
        count => format!("{title} {count}\n{}", lines.concat()),
    }
}

/// How often a desk had no room, which 0021 and 0022 tell.
fn without_room(show: &Show, condition: u32) -> usize {
    show.reports.iter().filter(|r| r.condition == condition).count()
}

fn had_room(show: &Show) -> bool {
    without_room(show, 21) + without_room(show, 22) == 0
}

fn room(show: &Show) -> String {
    if had_room(show) {
        return "had room for all that it was given".into();
    }
    let (cues, groups) = (without_room(show, 21), without_room(show, 22));
    format!("ran out of room, for cues {} (0021), for groups {} (0022)", times(cues), times(groups))
}

fn times(count: usize) -> String {
    match count {
        0 => "never".into(),
        1 => "once".into(),
        _ => format!("{count} times"),
    }
}

/// What the small desk lacks of the large one's show, and what it has that the large one has not, or not so.
#[derive(Default)]
struct Lines {
    lacking: Vec<String>,
    different: Vec<String>,
}

impl Lines {
    fn memory(&mut self, kind: Kind, pair: (Option<Memory>, Option<Memory>), small: &Show) {
        match pair {
            (None, Some(l)) => self.lacking.push(format!("  {}: {}\n", kind.named(&l), why(kind, &l, small))),
            (Some(s), None) => self.different.push(format!("  {}: kept by the small desk alone\n", kind.named(&s))),
            (Some(s), Some(l)) => self.both(kind, &s, &l),
            (None, None) => {}
        }
    }

    /// Levels of channels that the small desk lacks, and whatever else is not alike.
    fn both(&mut self, kind: Kind, s: &Memory, l: &Memory) {
        let most = s.levels.len();
        let above = &l.levels[most..];
        if above.iter().any(|&level| level != 0) {
            let above: Vec<String> = lit(above).map(|(channel, value)| format!("{}@{}", channel as usize + most, level(value))).collect();
            self.lacking.push(format!("  {}: channels above {most}: {}\n", kind.named(l), above.join(", ")));
        }
        let differing = changes(s, l);
        if !differing.is_empty() {
            self.different.push(format!("  {}, small -> large\n{differing}", kind.named(l)));
        }
    }

    fn dimmer(&mut self, pair: (Option<Patched>, Option<Patched>), small: Desk) {
        match pair {
            (s, Some(l)) if s != Some(l) => {
                let instead = s.map_or(String::new(), |s| format!("; there it is {}", patched(Some(s))));
                self.lacking.push(format!("  {}: {}, but {}{instead}\n", dimmer(&l), patched(Some(l)), why_not_patched(&l, small)));
            }
            (Some(s), None) => self.different.push(format!("  {}: {} on the small desk alone\n", dimmer(&s), patched(Some(s)))),
            _ => {}
        }
    }
}

/// Why the small desk does not keep a memory that the large one keeps: its limits first, then room.
fn why(kind: Kind, m: &Memory, small: &Show) -> String {
    let d = small.desk;
    let (has, pages, full) = match kind {
        Kind::Cue => (d.cues, d.cue_pages, 21),
        Kind::Group => (d.groups, d.group_pages, 22),
        Kind::Submaster => (d.submasters, d.submaster_pages, 0),
    };
    let name = kind.name();
    if has == 0 {
        format!("the small desk has no {name}s")
    } else if pages < m.page {
        format!("the small desk has {name} pages up to {pages}")
    } else if kind == Kind::Submaster && has < m.number.whole {
        format!("the small desk has {name}s up to {has}")
    } else if without_room(small, full) != 0 {
        format!("no room; the small desk takes {}", counted(has as usize, name))
    } else {
        "within the small desk's limits, and not kept there".into()
    }
}

fn why_not_patched(p: &Patched, small: Desk) -> String {
    if small.patch_pages < p.page {
        format!("the small desk has patch pages up to {}", small.patch_pages)
    } else if small.dimmers < p.dimmer {
        format!("the small desk has dimmers up to {}", small.dimmers)
    } else if small.channels < p.channel {
        format!("the small desk has channels up to {}", small.channels)
    } else {
        "not so on the small desk".into()
    }
}

/// Demand 3 in plain words, as far as what it asks for holds.
fn sure(small: &Show, large: &Show) -> String {
    let channels = small.desk.channels;
    let mut text = String::from("SURE\n");
    if had_room(large) {
        text += "  The large desk had room, so every cue, group and submaster of the small desk is on the large one,\n";
        text += &format!("  with the same times, link and levels on channels 1 to {channels}.\n");
        if had_room(small) {
            text += "  The small desk had room too, so it keeps every memory of the large one that lies within its limits.\n";
        } else {
            text += "  The small desk ran out of room, so it may lack memories that lie within its limits.\n";
        }
    } else {
        text += "  The large desk ran out of room, so nothing is sure of the memories: what is above is what is there.\n";
    }
    if channels == large.desk.channels {
        text += "  Both desks have as many channels, so every dimmer of the small desk is patched as on the large one.\n";
    } else {
        text += "  The large desk has more channels, so a dimmer of the small desk may be patched in another way there:\n  each that is stands above.\n";
    }
    text
}
