//! Times as drawings, all of a table on one scale: an up fade as a slope that rises, a down fade as one that falls below it, a line for the
//! delay ahead of it, an upright stroke where the follow-on comes.
use sphairune::{time_text, Fade, Memory};

const WIDTH: f64 = 230.0;
const HEIGHT: u32 = 24;

/// Ticks that may stand on a scale, in seconds.
const TICKS: [u32; 13] = [1, 2, 5, 10, 20, 60, 120, 300, 900, 3_600, 18_000, 86_400, 864_000];

/// Room that a tick's text needs at least.
const TICK_ROOM: f64 = 30.0;

/// So much of it to each side of the tick: by its characters, with a gap.
fn beside(text: &str) -> f64 {
    (6.2 * text.len() as f64 + 8.0).max(TICK_ROOM) / 2.0
}

/// Half a second is to be seen beside ten minutes, so that a place grows as the logarithm of its time.
pub struct Scale {
    longest: u32,
}

impl Scale {
    pub fn of(memories: &[Memory]) -> Scale {
        let end = |fade: Option<Fade>| fade.map_or(0, |f| f.delay + f.fade);
        let ends = memories.iter().map(|m| end(m.up).max(end(m.down)).max(m.followon.unwrap_or(0)));
        Scale { longest: ends.max().unwrap_or(0).max(50) }
    }

    fn place(&self, tenths: u32) -> f64 {
        let grown = |t: u32| (1.0 + f64::from(t) / 10.0).ln();
        (grown(tenths) / grown(self.longest) * (WIDTH - 4.0) * 10.0).round() / 10.0
    }

    /// The scale itself, and the lines that every row shows behind its times.
    pub fn axis(&self, id: &str) -> String {
        let (mut lines, mut texts, mut free) = (String::from("M.5 0V24"), String::from("<text x=\"0\" y=\"14\">0</text>"), TICK_ROOM / 2.0);
        for tenths in TICKS.map(|seconds| seconds * 10) {
            let (place, text) = (self.place(tenths), time_text(tenths));
            let half = beside(&text);
            if free + half <= place && place <= WIDTH - half {
                lines += &format!("M{place} 0V24");
                texts += &format!("<text class=\"tick\" x=\"{place}\" y=\"14\">{text}</text>");
                free = place + half;
            }
        }
        let lines = format!("<defs><path id=\"scale-{id}\" class=\"scale\" d=\"{lines}\"/></defs>");
        drawing(&format!("{lines}{texts}"))
    }

    /// A memory's times; nothing where it has none.
    pub fn drawn(&self, id: &str, memory: &Memory) -> String {
        if memory.up.is_none() && memory.down.is_none() && memory.followon.is_none() {
            return String::new();
        }
        let up = memory.up.map_or(String::new(), |f| self.slope(f, "up", 1));
        let down = memory.down.map_or(String::new(), |f| self.slope(f, "down", 13));
        let follows = memory.followon.map_or(String::new(), |t| {
            let place = self.place(t);
            format!("<path class=\"follow\" d=\"M{place} 0V24\"/><path class=\"flag\" d=\"M{place} 0h5l-5 5z\"/>")
        });
        drawing(&format!("<use href=\"#scale-{id}\"/>{up}{down}{follows}"))
    }

    /// In a lane of ten, `top` its upper edge.
    fn slope(&self, fade: Fade, class: &str, top: u32) -> String {
        let (from, to) = (self.place(fade.delay), self.place(fade.delay + fade.fade));
        let (middle, bottom) = (top + 9, top + 10);
        let wait = if fade.delay == 0 { String::new() } else { format!("<path class=\"wait\" d=\"M0 {middle}H{from}\"/>") };
        let shape = match class {
            _ if fade.fade == 0 => format!("M{from} {top}h2.5V{bottom}h-2.5z"),
            "up" => format!("M{from} {bottom}H{to}V{top}z"),
            _ => format!("M{from} {top}V{bottom}H{to}z"),
        };
        format!("{wait}<path class=\"{class}\" d=\"{shape}\"/>")
    }
}

/// What the shapes mean.
pub fn key(follows: bool) -> String {
    let shapes = "<path class=\"wait\" d=\"M0 10H10\"/><path class=\"up\" d=\"M10 11H30V1z\"/><path class=\"wait\" d=\"M0 22H6\"/>\
                  <path class=\"down\" d=\"M6 13V23H26z\"/>";
    let (flag, words) = match follows {
        true => ("<path class=\"follow\" d=\"M36 0V24\"/><path class=\"flag\" d=\"M36 0h5l-5 5z\"/>", ", a flag for the follow-on"),
        false => ("", ""),
    };
    let drawing =
        format!("<svg class=\"times\" width=\"42\" height=\"24\" viewBox=\"0 0 42 24\" aria-hidden=\"true\">{shapes}{flag}</svg>");
    format!("<span class=\"key drawing\">{drawing} up above, down below, dots for a delay{words}</span>")
}

/// The same is beside it as text, so that a drawing is for the eye alone.
fn drawing(inside: &str) -> String {
    format!(
        "<svg class=\"times\" width=\"{WIDTH}\" height=\"{HEIGHT}\" viewBox=\"0 0 {WIDTH} {HEIGHT}\" aria-hidden=\"true\">{inside}</svg>"
    )
}

#[cfg(test)]
mod tests {
    use super::*;
    use sphairune::Number;

    fn cue(up: Option<Fade>, down: Option<Fade>, followon: Option<u32>) -> Memory<'static> {
        Memory { slot: 1, page: 1, number: Number { whole: 1, tenths: 0 }, link: None, up, down, followon, levels: &[] }
    }

    #[test]
    fn shapes_end_where_their_times_do() {
        let cues = [cue(Some(Fade { fade: 900, delay: 100 }), Some(Fade { fade: 0, delay: 0 }), Some(1000))];
        let scale = Scale::of(&cues);
        let (from, to) = (scale.place(100), scale.place(1000));
        assert!(0.0 < from && from < to && to == WIDTH - 4.0);
        let text = scale.drawn("cues", &cues[0]);
        assert!(text.contains(&format!("<path class=\"wait\" d=\"M0 10H{from}\"/><path class=\"up\" d=\"M{from} 11H{to}V1z\"/>")));
        assert!(text.contains("<path class=\"down\" d=\"M0 13h2.5V23h-2.5z\"/>"));
        assert!(text.contains(&format!("<path class=\"follow\" d=\"M{to} 0V24\"/>")));
        assert_eq!(scale.drawn("cues", &cue(None, None, None)), "");
    }

    #[test]
    fn ticks_have_room_at_every_length() {
        for longest in [0, 1, 50, 1_000, 36_000, 35_999_999, 36_573_399, 73_146_798] {
            let scale = Scale::of(&[cue(None, Some(Fade { fade: longest / 2, delay: longest - longest / 2 }), None)]);
            let axis = scale.axis("cues");
            let ticks = axis
                .split("class=\"tick\" x=\"")
                .skip(1)
                .map(|t| (&t[..t.find('"').unwrap()], &t[t.find('>').unwrap() + 1..t.find('<').unwrap()]));
            let ends: Vec<(f64, f64)> =
                ticks.map(|(at, text)| (at.parse().unwrap(), beside(text))).map(|(at, half): (f64, f64)| (at - half, at + half)).collect();
            assert!(!ends.is_empty() && ends.windows(2).all(|two| two[0].1 <= two[1].0), "{longest}: {ends:?}");
        }
    }
}
