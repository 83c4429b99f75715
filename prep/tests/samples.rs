//! Every sample of examples/, with exact outputs. Where an output is to change, look at the new one line by line, then put it in
//! tests/expected.
mod common;

use common::{line, prep, repository, Folder, Ran};
use std::fs;

/// The samples by name, each with the desk that it is for.
fn samples() -> Vec<(String, String)> {
    let entries = fs::read_dir(repository().join("examples")).expect("the samples");
    let names = entries.map(|e| e.expect("a sample").file_name().into_string().expect("a name in letters"));
    let mut samples: Vec<String> = names.filter_map(|name| name.strip_suffix(".asc").map(str::to_string)).collect();
    samples.sort();
    let desk = |name: &str| match format!("examples/{name}.limits") {
        limits if repository().join(&limits).is_file() => limits,
        _ => "house".into(),
    };
    samples.into_iter().map(|name| (desk(&name), name)).map(|(desk, name)| (name, desk)).collect()
}

fn expected(name: &str) -> String {
    let path = format!("{}/tests/expected/{name}", env!("CARGO_MANIFEST_DIR"));
    fs::read_to_string(&path).unwrap_or_else(|e| panic!("{path}: {e}"))
}

/// What the samples' pages of docs/LIBRARY.md say: no report on these.
const CLEAN: [&str; 2] = ["foreign", "house"];

fn status(name: &str) -> i32 {
    i32::from(!CLEAN.contains(&name))
}

#[test]
fn a_sheet_of_each() {
    assert!(samples().len() >= 9);
    for (name, desk) in samples() {
        let ran = prep(&["sheet", &format!("examples/{name}.asc"), "--desk", &desk]);
        assert_eq!(ran.out, expected(&format!("{name}.sheet")), "{name}");
        assert_eq!((ran.status, ran.err.as_str()), (status(&name), ""), "{name}");
    }
}

/// Reports and closing number are those of the C example's sheet.
#[test]
fn a_sheet_has_the_reports_of_the_examples() {
    for (name, desk) in samples() {
        let ran = prep(&["sheet", &format!("examples/{name}.asc"), "--desk", &desk]);
        let theirs = fs::read_to_string(repository().join(format!("examples/{name}.sheet"))).expect("the example's sheet");
        assert_eq!(told(&ran.out), told(&theirs), "{name}");
    }
}

/// The reports of a sheet, and its closing number.
fn told(sheet: &str) -> Vec<String> {
    let words = |line: &str| line.split_whitespace().take(2).collect::<Vec<_>>().join(" ");
    sheet.lines().filter(|line| line.starts_with("  (") || line.starts_with("CLOSING")).map(words).collect()
}

#[test]
fn each_cleaned() {
    let folder = Folder::new("cleaned");
    for (name, desk) in samples() {
        let file = format!("examples/{name}.asc");
        let out = folder.path(&format!("{name}.asc"));
        let ran = prep(&["clean", &file, "-o", &out, "--desk", &desk]);
        let stream = fs::read_to_string(&out).expect("a clean stream");
        assert_eq!(stream, expected(&format!("{name}.clean")).replace('\n', "\r\n"), "{name}");
        assert_eq!((ran.status, ran.out.as_str(), ran.err.is_empty()), (status(&name), "", name == "house"), "{name}");

        let again = prep(&["sheet", &out, "--desk", &desk]);
        assert_eq!(again.status, 0, "{name}: {}", again.out);
        let same = prep(&["compare", &file, &out, "--desk", &desk]);
        assert!(same.status == 0 && same.out.ends_with("\nSAME the desk keeps the same of both\n"), "{name}: {}", same.out);
    }
}

/// Those that have a sheet with translation among the examples.
fn translated() -> Vec<(String, String)> {
    let has_sheet = |(name, _): &(String, String)| repository().join(format!("examples/{name}.translated")).is_file();
    samples().into_iter().filter(has_sheet).collect()
}

/// As above: the sheet, the reports of the C example's sheet, the clean stream and that it is the same show.
#[test]
fn each_translated() {
    let folder = Folder::new("translated");
    assert!(!translated().is_empty());
    for (name, desk) in translated() {
        let (file, out) = (format!("examples/{name}.asc"), folder.path(&format!("{name}.asc")));
        let sheet = prep(&["sheet", &file, "--desk", &desk, "--translate"]);
        sheet.only_prints(1, &expected(&format!("{name}.translated.sheet")));
        let theirs = fs::read_to_string(repository().join(format!("examples/{name}.translated"))).expect("the example's sheet");
        assert_eq!(told(&sheet.out), told(&theirs), "{name}");

        let ran = prep(&["clean", &file, "-o", &out, "--desk", &desk, "--translate"]);
        let stream = fs::read_to_string(&out).expect("a clean stream");
        assert_eq!(stream, expected(&format!("{name}.translated.clean")).replace('\n', "\r\n"), "{name}");
        assert_eq!((ran.status, ran.out.as_str()), (1, ""), "{name}");
        assert_eq!(prep(&["sheet", &out, "--desk", &desk]).status, 0, "{name}");
        let same = prep(&["compare", &file, &out, "--desk", &desk, "--translate"]);
        assert!(same.status == 0 && same.out.ends_with("\nSAME the desk keeps the same of both\n"), "{name}: {}", same.out);
    }
}

#[test]
fn what_cleaning_says_of_numbers() {
    let message = "prep: examples/renumbered.asc: written; numbered anew; 2 reports, closing 0041-W Invalid cue or group number; \
                   2 links lost, which ask for no CUE's number; 4 records passed over, names (TEXT) among them; \
                   2 cues have the number 1003: a LINK to it leads to the last, cue 7 page 1; prep sheet --translate tells more\n";
    assert_eq!(line("clean examples/renumbered.asc --translate -o -").err, message);
    let message = "prep: examples/house.asc: written; numbered anew; prep sheet --translate tells more\n";
    assert_eq!(line("clean examples/house.asc --translate -o -").err, message);
}

#[test]
fn what_cleaning_says_is_lost() {
    let ran = line("clean examples/worked.asc -o -");
    let stream = "IDENT 3:0\r\nCLEAR ALL\r\nPATCH 1 1<5@HFF\r\nCUE 2.5 1\r\nUP 3\r\nCHAN 1@HFF 2@H8F\r\nENDDATA\r\n";
    let message =
        "prep: examples/worked.asc: written; 2 reports, closing 0043-W Page out of range; 1 record passed over; prep sheet tells more\n";
    assert_eq!(ran, Ran { status: 1, out: stream.into(), err: message.into() });
    let message = "prep: examples/other_version.asc: written; 1 report, closing 0099-E Ident mismatch prohibits processing; \
                   not read: 3 behind record 2, at which the load stopped; prep sheet tells more\n";
    let stream = "IDENT 3:0\r\nCLEAR ALL\r\nENDDATA\r\n";
    assert_eq!(line("clean examples/other_version.asc -o -"), Ran { status: 1, out: stream.into(), err: message.into() });
    let message = "prep: examples/foreign.asc: written; 13 records passed over, names (TEXT) among them; prep sheet tells more\n";
    let ran = line("clean examples/foreign.asc -o -");
    assert_eq!((ran.status, ran.err.as_str()), (0, message));
}

#[test]
fn all_checked() {
    line("check examples").only_prints(1, &expected("examples.check"));
    line("check examples --translate").only_prints(1, &expected("examples.translated.check"));
    let one = "reports     examples/bare_desk.asc: 2 cues, 0 groups, 0 submasters, 0 patched dimmers; 2 reports, \
               closing 0052-W Submasters not supported; 2 records passed over\n1 file: 0 clean, 1 with reports, 0 not loaded\n";
    line("check examples/bare_desk.asc --desk examples/bare_desk.limits").only_prints(1, one);
}

#[test]
fn compared() {
    line("compare examples/house.asc examples/foreign.asc").only_prints(1, &expected("house-foreign.compare"));
    line("compare examples/small_desk.asc examples/small_desk.asc").only_prints(0, &expected("same.compare"));
}

#[test]
fn rehearsed() {
    let house = "rehearse examples/house.asc --small";
    line(&format!("{house} 12,30,4,1,2,1,1,1,1 --large house")).only_prints(1, &expected("house.rehearse"));
    line(&format!("{house} house --large largest")).only_prints(0, &expected("house-fits.rehearse"));
    line("rehearse examples/bare_desk.asc --small examples/bare_desk.limits --large house").only_prints(1, &expected("bare_desk.rehearse"));
}

/// The desk of examples/house.desk is the house small desk.
#[test]
fn the_desk_in_a_file() {
    assert_eq!(line("sheet examples/house.asc --desk examples/house.desk"), line("sheet examples/house.asc"));
}
