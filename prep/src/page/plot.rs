//! The plot of levels, cues downwards and channels across, as one drawing: a path for each level, so that a show of 600 cues is a few
//! hundred elements. The script adds a readout to it; without scripts it is all there.
use super::text::counted;
use sphairune::{percent, Memory};
use std::collections::BTreeMap;

/// The room that the plot is fitted into, as far as its cells can be told apart.
const ROOM: usize = 1180;

/// Room for the names of the cues on the left, and for the channels above.
const LEFT: usize = 64;
const TOP: usize = 22;

/// Cells of these sizes have their percentage written in them.
const TEXT_WIDTH: usize = 24;
const TEXT_HEIGHT: usize = 18;

/// How the cells lie.
struct Grid {
    rows: usize,
    columns: usize,
    width: usize,
    height: usize,
}

impl Grid {
    fn of(cues: &[Memory]) -> Grid {
        let lit = |m: &Memory| m.levels.iter().rposition(|&level| level != 0).map_or(0, |last| last + 1);
        let columns = cues.iter().map(lit).max().unwrap_or(0).max(1);
        let height = match cues.len() {
            0..=60 => TEXT_HEIGHT,
            61..=120 => 10,
            121..=300 => 6,
            _ => 3,
        };
        Grid { rows: cues.len(), columns, width: (ROOM / columns).clamp(2, 30), height }
    }

    fn has_texts(&self) -> bool {
        TEXT_WIDTH <= self.width && TEXT_HEIGHT <= self.height
    }
}

pub fn section(cues: &[Memory]) -> String {
    let heading = "<section id=\"plot\" aria-labelledby=\"plot-title\">\n<h2 id=\"plot-title\">Levels, cues by channels</h2>\n";
    let body = match cues {
        [] => "<p>No cue is kept.</p>\n".into(),
        _ => figure(cues),
    };
    format!("{heading}{body}</section>\n")
}

fn figure(cues: &[Memory]) -> String {
    let grid = Grid::of(cues);
    let Grid { rows, columns, width, height } = grid;
    let (wide, high) = (LEFT + columns * width + 8, TOP + rows * height + 8);
    let of = format!("{} by {}", counted(rows, "cue"), counted(columns, "channel"));
    let label = format!("Plot of levels, {of}; the table of cues has the same as text");
    format!("<p class=\"legend\">{of}, up to the highest that is lit. {}</p>\n<figure class=\"plot\">\n", ramp())
        + "<output id=\"readout\" for=\"levels\"></output>\n<div class=\"scroll\">\n"
        + &format!(
            "<svg id=\"levels\" width=\"{wide}\" height=\"{high}\" viewBox=\"0 0 {wide} {high}\" role=\"img\" aria-label=\"{label}\" "
        )
        + &format!("data-left=\"{LEFT}\" data-top=\"{TOP}\" data-width=\"{width}\" data-height=\"{height}\" ")
        + &format!("data-rows=\"{rows}\" data-columns=\"{columns}\">\n")
        + &channel_names(&grid)
        + &cue_names(&grid, cues)
        + &cells(&grid, cues)
        + &percentages(&grid, cues)
        + "</svg>\n</div>\n</figure>\n"
}

/// What the shades mean.
fn ramp() -> String {
    let mut text = String::from("<span class=\"key\">0 <svg class=\"ramp\" width=\"120\" height=\"12\" aria-hidden=\"true\">");
    for step in 0..20 {
        text += &format!("<rect x=\"{}\" width=\"6\" height=\"12\" fill-opacity=\"{}\"/>", step * 6, shade((step * 255 / 19) as u8));
    }
    text + "</svg> 100%</span>"
}

/// How much of the lamp's colour a cell has: even the lowest level is to be seen.
fn shade(level: u8) -> String {
    match level {
        0 => "0".into(),
        level => format!("{:.3}", 0.14 + 0.86 * f64::from(level) / 255.0),
    }
}

/// The least step of a list at which names of `least` in size have room.
fn step(size: usize, least: usize) -> usize {
    [1, 2, 5, 10, 20, 50, 100].into_iter().find(|step| least <= step * size).unwrap_or(200)
}

fn channel_names(grid: &Grid) -> String {
    let step = step(grid.width, 24);
    let channels = (1..=grid.columns).filter(|&channel| channel % step == 0 || channel == 1 && step != 2);
    let name = |channel| {
        let middle = LEFT * 2 + (2 * channel - 1) * grid.width;
        format!("<text class=\"channel\" x=\"{}\" y=\"{}\">{channel}</text>\n", middle as f64 / 2.0, TOP - 7)
    };
    channels.map(name).collect()
}

/// With the page where there is more than one, and always at the first cue of a page.
fn cue_names(grid: &Grid, cues: &[Memory]) -> String {
    let step = step(grid.height, 12);
    let paged = cues.iter().any(|m| m.page != 1);
    let (mut text, mut next, mut page) = (String::new(), 0, 0);
    for (row, cue) in cues.iter().enumerate() {
        if cue.page != page && 0 < row {
            text += &format!("<path class=\"page\" d=\"M0 {y}H{LEFT}\"/>\n", y = TOP + row * grid.height);
        }
        if next <= row {
            let name = if paged { format!("{}/{}", cue.page, cue.number) } else { cue.number.to_string() };
            let baseline = TOP + row * grid.height + grid.height / 2 + 4;
            text += &format!("<text class=\"cue\" x=\"{}\" y=\"{baseline}\">{name}</text>\n", LEFT - 8);
            next = row + step;
        }
        page = cue.page;
    }
    text
}

/// One path for each level, of runs along the channels, a cell being one by one. Large cells are kept apart by lines.
fn cells(grid: &Grid, cues: &[Memory]) -> String {
    let Grid { rows, columns, width, height } = *grid;
    let mut paths: BTreeMap<u8, String> = BTreeMap::new();
    for (row, cue) in cues.iter().enumerate() {
        let mut channel = 0;
        for run in cue.levels.chunk_by(|a, b| a == b) {
            if run[0] != 0 {
                *paths.entry(run[0]).or_default() += &format!("M{channel} {row}h{n}v1h-{n}z", n = run.len());
            }
            channel += run.len();
        }
    }
    let mut text = format!("<g transform=\"translate({LEFT} {TOP}) scale({width} {height})\" shape-rendering=\"crispEdges\">\n");
    text += &format!("<rect class=\"dark\" width=\"{columns}\" height=\"{rows}\"/>\n");
    for (level, path) in paths {
        text += &format!("<path fill-opacity=\"{}\" d=\"{path}\"/>\n", shade(level));
    }
    text + &apart(grid) + "</g>\n"
}

fn apart(grid: &Grid) -> String {
    let mut lines = String::new();
    if 10 <= grid.width {
        lines.extend((1..grid.columns).map(|column| format!("M{column} 0V{}", grid.rows)));
    }
    if 10 <= grid.height {
        lines.extend((1..grid.rows).map(|row| format!("M0 {row}H{}", grid.columns)));
    }
    format!("<path class=\"apart\" d=\"{lines}\"/>\n")
}

fn percentages(grid: &Grid, cues: &[Memory]) -> String {
    if !grid.has_texts() {
        return String::new();
    }
    let mut text = String::from("<g class=\"percent\">\n");
    for (row, cue) in cues.iter().enumerate() {
        for (column, &level) in cue.levels.iter().enumerate().filter(|(_, &level)| level != 0) {
            let class = if level < 0x70 { " class=\"low\"" } else { "" };
            let (x, y) = (LEFT * 2 + (2 * column + 1) * grid.width, TOP + row * grid.height + 13);
            text += &format!("<text{class} x=\"{}\" y=\"{y}\">{}</text>\n", x as f64 / 2.0, percent(level));
        }
    }
    text + "</g>\n"
}

#[cfg(test)]
mod tests {
    use super::*;
    use sphairune::Number;

    fn cues(levels: &[Vec<u8>]) -> Vec<Memory<'_>> {
        let number = |whole| Number { whole, tenths: 0 };
        let cue =
            |(whole, levels)| Memory { slot: 1, page: 1, number: number(whole), link: None, up: None, down: None, followon: None, levels };
        (1..).zip(levels.iter().map(|l| &l[..])).map(cue).collect()
    }

    #[test]
    fn a_path_a_level_and_a_run_a_piece() {
        let levels = [vec![0xff, 0xff, 0, 0x80, 0], vec![0x80, 0xff, 0xff, 0xff, 0]];
        let text = figure(&cues(&levels));
        assert!(text.contains("<path fill-opacity=\"0.572\" d=\"M3 0h1v1h-1zM0 1h1v1h-1z\"/>"));
        assert!(text.contains("<path fill-opacity=\"1.000\" d=\"M0 0h2v1h-2zM1 1h3v1h-3z\"/>"));
        assert!(text.contains("data-rows=\"2\" data-columns=\"4\""));
        assert_eq!((text.matches(">100</text>").count(), text.matches(">50</text>").count()), (5, 2));
    }

    #[test]
    fn the_largest_show_is_few_elements() {
        let levels: Vec<Vec<u8>> = (0..600).map(|cue| (0..512).map(|channel| (cue * 7 + channel * 3) as u8).collect()).collect();
        let text = figure(&cues(&levels));
        assert!(text.matches('<').count() < 800, "{} elements", text.matches('<').count());
        assert!(text.contains("width=\"1096\" height=\"1830\""));
    }
}
