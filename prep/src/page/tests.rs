//! The page as a whole, of the sample shows and of hostile ones.
use super::*;
use crate::show::Load;
use std::fs;

fn sample(name: &str, desk: Desk) -> Show {
    loaded(name, desk, Load::Normal)
}

fn loaded(name: &str, desk: Desk, load: Load) -> Show {
    let path = format!("{}/../examples/{name}.asc", env!("CARGO_MANIFEST_DIR"));
    let stream = fs::read(&path).unwrap_or_else(|e| panic!("{path}: {e}"));
    Show::load(format!("{name}.asc"), desk, load, stream).unwrap()
}

fn of(stream: &[u8]) -> String {
    page(&Show::load("a.asc".into(), Desk::HOUSE, Load::Normal, stream.to_vec()).unwrap())
}

fn samples() -> Vec<Show> {
    let small = Desk::of([12, 12, 3, 1, 6, 1, 1, 1, 1]);
    let bare = Desk::of([6, 6, 10, 0, 0, 1, 1, 1, 1]);
    let mut shows: Vec<Show> =
        ["worked", "house", "foreign", "faults", "noise", "long_record", "other_version"].map(|name| sample(name, Desk::HOUSE)).into();
    shows.extend([sample("small_desk", small), sample("bare_desk", bare), sample("house", Desk::LARGEST), sample("times", Desk::HOUSE)]);
    shows.extend(["renumbered", "faults", "house"].map(|name| loaded(name, Desk::HOUSE, Load::Translated)));
    shows
}

/// Between an element's beginning and the end of its section.
fn part<'a>(text: &'a str, id: &str) -> &'a str {
    let from = text.find(&format!("<section id=\"{id}\"")).expect("the section is there");
    &text[from..from + text[from..].find("</section>").unwrap()]
}

/// The row of a table, from what begins it.
fn row<'a>(text: &'a str, begins: &str) -> &'a str {
    let from = text.find(begins).unwrap_or_else(|| panic!("no {begins}"));
    &text[from..from + text[from..].find("</tr>").unwrap()]
}

/// Beside its record in the stream, and ahead of the show; with its column, where it has one.
#[test]
fn every_report_is_shown_twice() {
    for show in samples() {
        let text = page(&show);
        for report in &show.reports {
            let (listed, beside) = match show.is_of_the_end(report) {
                true => (">end<".to_string(), ">end<".to_string()),
                false => (format!("#record-{}\"", report.record), format!("id=\"record-{}\"", report.record)),
            };
            for row in [row(part(&text, "reports"), &listed), row(part(&text, "stream"), &beside)] {
                let told = &row[row.find(&condition(report.condition)).expect("the condition is in its row")..];
                let columns = &told[..told.find("</div>").unwrap()];
                let listed = columns.split(|c: char| !c.is_ascii_digit()).any(|n| n == report.column.to_string());
                assert!(report.column == 0 || listed, "{report:?} of {} is in {row}", show.name);
            }
        }
        let marks = show.reports.iter().filter(|r| r.column > 0).count();
        assert_eq!(part(&text, "reports").matches("<mark>").count(), marks, "{}", show.name);
        assert_eq!(part(&text, "stream").matches("<mark>").count(), marks, "{}", show.name);
    }
}

/// A show for a larger desk: thousands of channels out of range still make a page that opens.
#[test]
fn reports_by_the_thousand() {
    let mut stream = String::from("CUE 1\n");
    for _ in 0..3000 {
        stream += "CHAN 101@50 102@50 103@50 104@50\n";
    }
    let text = of(stream.as_bytes());
    assert!(text.contains("<b>12,000</b> <span class=\"number\">0201-W</span>") && text.contains("asks for channel 104"));
    assert_eq!(part(&text, "reports").matches("<tr class=\"warning\">").count() + 1, 501);
    assert!(text.contains("There are reports of 2,501 more records"));
    assert_eq!(part(&text, "stream").matches("<small>columns 6, 13, 20, 27</small>").count(), 3000);
    let text = of("X\n".repeat(131_000).as_bytes());
    assert!(text.len() < 6_000_000 && text.contains("111,000 more are in the file itself"), "{} bytes", text.len());
}

#[test]
fn what_is_not_read_is_told() {
    let text = of(b"CUE 1\r\nENDDATA\r\nCUE 2\r\n");
    assert!(text.contains("Not read: 7 bytes behind record 2,") && text.contains("What stands behind ENDDATA was not read."));
    assert!(of(b"IDENT 2:0\nCUE 1\nENDDATA\n").contains("Not read: 14 bytes behind record 1,"));
    for whole in [&b"CUE 1\nENDDATA\n"[..], b"CUE 1\r\nENDDATA\r\n", b"CUE 1\nENDDATA", b"CUE 1\n"] {
        assert!(!of(whole).contains("ot read"));
    }
}

#[test]
fn every_memory_record_and_dimmer_is_shown() {
    for show in samples() {
        let text = page(&show);
        for (id, count) in [("cues", show.cues().len()), ("groups", show.groups().len()), ("submasters", show.submasters().len())] {
            assert_eq!(part(&text, id).matches("<tr class=\"memory\"").count(), count, "{id} of {}", show.name);
        }
        assert_eq!(part(&text, "patch").matches("<span>").count(), show.patch().len(), "{}", show.name);
        let lines = part(&text, "stream").matches("<tr id=\"record-").count();
        assert_eq!(lines, show.totals.records() as usize, "{}", show.name);
        for cue in show.cues() {
            assert!(text.contains(&format!("id=\"cue-{}-{}\"", cue.page, cue.number)), "{}", show.name);
        }
    }
}

#[test]
fn counts_at_a_glance() {
    let text = page(&sample("house", Desk::HOUSE));
    for figure in ["<dt>cues</dt><dd>10 <small>of 200", "<dt>groups</dt><dd>2 <small>of 40", "<dt>submasters</dt><dd>4 <small>of 48"] {
        assert!(text.contains(figure), "{figure}");
    }
    assert!(text.contains("<dt>patched dimmers</dt><dd>21 <small>of 192"));
    let text = page(&sample("worked", Desk::HOUSE));
    for figure in ["records read</dt><dd>9<", "obeyed</dt><dd>6<", "blank</dt><dd>1<", "passed over</dt><dd>1<", "dropped</dt><dd>1<"] {
        assert!(text.contains(figure), "{figure}");
    }
}

#[test]
fn the_outcome_in_words() {
    let words = |show: &Show| outcome(show).1;
    let shows = samples();
    assert_eq!(words(&shows[0]), "Loaded with 2 reports.");
    assert_eq!(words(&shows[1]), "Loaded with no report.");
    assert_eq!(words(&shows[3]), "Loaded with 16 reports.");
    assert_eq!(words(&shows[5]), format!("The load stopped at record {}.", shows[5].totals.records()));
    assert!(page(&shows[0]).contains("closing number <span class=\"number\">0043-W</span> Page out of range"));
}

#[test]
fn cue_names_are_said_to_be_lost() {
    assert!(page(&sample("foreign", Desk::HOUSE)).contains("Cue names are among it"));
    assert!(!page(&sample("house", Desk::HOUSE)).contains("Cue names are among it"));
}

#[test]
fn what_was_numbered_anew() {
    let text = page(&loaded("renumbered", Desk::HOUSE, Load::Translated));
    assert!(text.contains("<strong>Loaded with translation.</strong>"));
    for (id, was) in [("cue-1-2", "was 1000 page 9"), ("cue-1-4", "was 10.25"), ("cue-1-8", "had no number"), ("group-1-2", "was front")] {
        assert!(row(&text, &format!("id=\"{id}\"")).contains(&format!("<small class=\"was\">{was}</small>")), "{id}");
    }
    assert!(text.contains("2 cues have the number 1003: a LINK to it leads to the last, cue 7 page 1."));
    let end = row(part(&text, "reports"), ">end<");
    assert_eq!(end.matches("0041-W").count(), 2);
    assert!(end.contains(
        "<a href=\"#record-23\">23</a>, in <a href=\"#cue-1-4\">cue 4</a>, was 10.25: the LINK asks for 99, and no CUE has this number"
    ));
    let normal = page(&sample("renumbered", Desk::HOUSE));
    assert!(!normal.contains("translation.") && normal.contains("8 cues were not taken for number or page: try --translate"));
}

#[test]
fn links_lead_somewhere() {
    for show in samples() {
        let text = page(&show);
        for rest in text.split("href=\"#").skip(1) {
            let target = &rest[..rest.find('"').unwrap()];
            assert_eq!(text.matches(&format!("id=\"{target}\"")).count(), 1, "{target} of {}", show.name);
        }
    }
}

/// However hostile the stream and its name are, the page has the elements that it makes itself and no others.
#[test]
fn a_stream_of_scripts_does_no_harm() {
    let script = "<script>alert(1)</script><img src=x onerror=alert(2)>";
    let stream = format!("{script}\nCUE 1 ! {script}\nCHAN {script} ' onload=\"x\"\n${script}\nTEXT </code></table></main>{script}\n");
    for load in [Load::Normal, Load::Translated] {
        let stream = format!("{stream}CUE {script}\nLINK {script}\n");
        let show = Show::load(format!("{script}\"'.asc"), Desk::HOUSE, load, stream.into()).unwrap();
        let text = page(&show);
        assert_eq!((text.matches("<script").count(), text.matches("<img").count(), text.matches("</main>").count()), (1, 0, 1));
        assert!(text.contains("&lt;script&gt;alert(1)&lt;/script&gt;"));
    }
    let mut every = Vec::from(*b"CUE 1\n");
    for c in 0..=255 {
        every.extend([c, b'\n']);
    }
    let text = of(&every);
    assert!(!text.contains(['\0', '\r', '\u{7f}']) && text.contains("<u>\\x00</u>") && text.contains("<u>\\xFF</u>"));
}

#[test]
fn nothing_is_fetched() {
    for show in samples() {
        let text = page(&show);
        assert!(text.contains("content=\"default-src 'none'; style-src 'sha256-"));
        for word in ["http:", "https:", " src=", "@import", "url(", " style=\"", "<link"] {
            assert!(!text.contains(word), "{word} in the page of {}", show.name);
        }
    }
}

#[test]
fn shows_of_nothing() {
    let text = of(b"");
    assert!(text.contains("The stream has no record.") && text.contains("No cue is kept.") && text.contains("No dimmer is patched"));
    assert!(part(&text, "reports").contains("0100-E"));
    let text = of(&[b'\n'; 5000]);
    assert!(part(&text, "stream").contains("<th scope=\"row\">1–\u{2060}5000</th><td>5,000 empty records</td>"));
}
