//! The patch by dimmer, a grid a page, and the channels that are lit with no dimmer to them.
use super::text::{counted, grouped, range};
use super::Kept;
use sphairune::{percent, Desk, Patched};

const LEGEND: &str = "Each cell has the dimmer, the level at which it follows its channel, and in bold the channel.";

/// A longer page is laid out only as it comes into sight.
const LONG: usize = 200;

/// Unpatched dimmers that follow one another, from this many on, are one cell.
const MANY_UNPATCHED: u32 = 6;

pub fn section(desk: Desk, kept: &Kept) -> String {
    let heading = "<section id=\"patch\" aria-labelledby=\"patch-title\">\n<h2 id=\"patch-title\">Patch by dimmer</h2>\n";
    let mut text = format!("{heading}<p class=\"legend\">{LEGEND} {}</p>\n", in_the_dark(desk, kept));
    for page in 1..=desk.patch_pages {
        text += &grid(desk, page, &kept.patch);
    }
    text + "</section>\n"
}

/// A level on a channel that no dimmer follows lights nothing: the bench wants to know before the crew does.
fn in_the_dark(desk: Desk, kept: &Kept) -> String {
    let mut dark = vec![false; desk.channels as usize];
    for memory in kept.cues.iter().chain(&kept.groups).chain(&kept.submasters) {
        for (dark, &level) in dark.iter_mut().zip(memory.levels) {
            *dark |= level != 0;
        }
    }
    for patched in &kept.patch {
        dark[patched.channel as usize - 1] = false;
    }
    match ranges(&dark) {
        none if none.is_empty() => "Every channel that is lit in a cue, group or submaster has a dimmer.".into(),
        channels => {
            format!("Lit in a cue, group or submaster, but patched to no dimmer: <strong>channel {}</strong>.", channels.join(", "))
        }
    }
}

/// The channels, from 1, that are true.
fn ranges(channels: &[bool]) -> Vec<String> {
    let (mut ranges, mut channel) = (Vec::new(), 1);
    for run in channels.chunk_by(|a, b| a == b) {
        if run[0] {
            ranges.push(range(channel, channel + run.len() - 1));
        }
        channel += run.len();
    }
    ranges
}

fn grid(desk: Desk, page: u32, patch: &[Patched]) -> String {
    let patched: Vec<&Patched> = patch.iter().filter(|p| p.page == page).collect();
    let of = counted(desk.dimmers as usize, "dimmer");
    let heading = format!("<h3 id=\"patch-{page}\">Page {page} <small>{} of {of} patched</small></h3>\n", grouped(patched.len()));
    if patched.is_empty() {
        return heading + "<p>No dimmer is patched on this page.</p>\n";
    }
    let long = if LONG < patched.len() { " long" } else { "" };
    let mut text = format!("{heading}<ol class=\"dimmers{long}\" aria-labelledby=\"patch-{page}\">\n");
    let mut next = 1;
    for p in patched {
        text += &(unpatched(page, next, p.dimmer) + &cell(p));
        next = p.dimmer + 1;
    }
    text + &unpatched(page, next, desk.dimmers + 1) + "</ol>\n"
}

/// Dimmers from one up to another that is not among them: a cell each, or one for all where they are many.
fn unpatched(page: u32, from: u32, to: u32) -> String {
    let cell = |from: u32, to: u32, class: &str| {
        let name = range(from as usize, to as usize);
        format!("<li id=\"dimmer-{page}-{from}\" class=\"unpatched{class}\"><b>{name}</b><em>unpatched</em></li>\n")
    };
    match to - from {
        0 => String::new(),
        1..MANY_UNPATCHED => (from..to).map(|dimmer| cell(dimmer, dimmer, "")).collect(),
        _ => cell(from, to - 1, " many"),
    }
}

fn cell(p: &Patched) -> String {
    let Patched { page, dimmer, channel, level } = *p;
    let percent = percent(level);
    let class = if level == 0xff { "" } else { " class=\"trimmed\"" };
    format!("<li id=\"dimmer-{page}-{dimmer}\"{class} aria-label=\"dimmer {dimmer}, channel {channel} at {percent}%\">")
        + &format!("<b>{dimmer}</b><i title=\"H{level:02X}\">{percent}%</i><span>{channel}</span></li>\n")
}

#[cfg(test)]
mod tests {
    use super::*;
    use crate::show::{Load, Show};

    fn of(stream: &str) -> String {
        let desk = Desk { patch_pages: 2, ..Desk::HOUSE };
        let show = Show::load("a.asc".into(), desk, Load::Normal, stream.into()).unwrap();
        let kept = Kept { cues: show.cues(), groups: show.groups(), submasters: show.submasters(), patch: show.patch() };
        section(desk, &kept)
    }

    #[test]
    fn every_dimmer_of_a_page_that_is_used() {
        let text = of("PATCH 1 21<41@90 21<45@90 5<191@HFF\nCUE 1\nCHAN 21@50\n");
        assert_eq!((text.matches("<span>").count(), text.matches("<em>unpatched").count()), (3, 1 + 3 + 1 + 1));
        for cell in ["<b>1–\u{2060}40</b>", "<b>42</b>", "<b>43</b>", "<b>44</b>", "<b>46–\u{2060}190</b>", "<b>192</b>"] {
            assert!(text.contains(&format!("{cell}<em>unpatched</em>")), "{cell}");
        }
        assert!(text.contains("aria-label=\"dimmer 41, channel 21 at 90%\"><b>41</b><i title=\"HE6\">90%</i><span>21</span></li>"));
        assert!(text.contains("Page 2 <small>0 of 192 dimmers patched</small></h3>\n<p>No dimmer is patched on this page."));
        assert!(text.contains("Every channel that is lit"));
    }

    #[test]
    fn channels_with_no_dimmer() {
        let text = of("PATCH 2 2<1@HFF\nSUB 1\nCHAN 1@50 2@50 4@50\nGROUP 1\nCHAN 5@50\n");
        assert!(text.contains("<strong>channel 1, 4–\u{2060}5</strong>"));
    }
}
