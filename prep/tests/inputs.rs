//! What is read: damaged streams, other encodings, the longest stream, and files that cannot be read.
mod common;

use common::{large_show, line, prep, prep_fed, Dice, Folder, HOUSE};
use std::fs;
use std::os::unix::fs::PermissionsExt;
use std::time::{Duration, Instant};

/// A sheet of nothing kept, but for its reports and the three lines of totals.
fn bare_sheet(reports: &str, totals: &str) -> String {
    format!(
        "SHEET standard input\nDESK {HOUSE}\n\n{reports}\nPASSED OVER none\n\nPATCH none\n\nCUES none\n\nGROUPS none\n\nSUBMASTERS none\n\n\
         KEPT 0 cues, 0 groups, 0 submasters, 0 patched dimmers\n{totals}"
    )
}

#[track_caller]
fn sheet_of(stream: &[u8], reports: &str, totals: &str) {
    prep_fed(&["sheet", "-"], stream).only_prints(1, &bare_sheet(reports, totals));
}

#[test]
fn an_empty_stream() {
    let totals = "RECORDS 0: blank 0, obeyed 0, passed over 0, dropped 0\nCLOSING 0100-E Data stream terminated without ENDDATA\n";
    sheet_of(b"", "REPORTS 1\n  (00000:0) 0100-E Data stream terminated without ENDDATA\n", totals);
}

#[test]
fn zeros() {
    let record = "\\x00".repeat(80);
    let reports = format!(
        "REPORTS 2\n  (00001:0) 0702-W Ignored non-printing character\n      {record}\n  (00001:0) 0100-E Data stream terminated without ENDDATA\n"
    );
    let totals = "RECORDS 1: blank 1, obeyed 0, passed over 0, dropped 0\nCLOSING 0100-E Data stream terminated without ENDDATA\n";
    sheet_of(&[0; 80], &reports, totals);

    let reports = format!("REPORTS 1\n  (00001:0) 0091-E Encountered record longer than 80 characters\n      {record}...\n");
    let totals = "RECORDS 1: blank 0, obeyed 0, passed over 0, dropped 1\nCLOSING 0091-E Encountered record longer than 80 characters\n";
    sheet_of(&[0; 81], &reports, totals);
}

#[test]
fn a_byte_order_mark_of_utf_8() {
    let reports = "REPORTS 1\n  (00001:0) 0701-W Ignored character with high-bit set\n      \\xEF\\xBB\\xBFIDENT 3:0\n  NOTE the file begins with the \
                   byte order mark of UTF-8, three characters that are ignored (0701); save it without one\n";
    let totals = "RECORDS 2: blank 0, obeyed 2, passed over 0, dropped 0\nCLOSING 0701-W Ignored character with high-bit set\n";
    sheet_of(b"\xEF\xBB\xBFIDENT 3:0\nENDDATA\n", reports, totals);
    let line = "reports     standard input: 0 cues, 0 groups, 0 submasters, 0 patched dimmers; 1 report, closing 0701-W Ignored character \
                with high-bit set; the file begins with the byte order mark of UTF-8, three characters that are ignored (0701); save it \
                without one\n1 file: 0 clean, 1 with reports, 0 not loaded\n";
    prep_fed(&["check", "-"], b"\xEF\xBB\xBFIDENT 3:0\nENDDATA\n").only_prints(1, line);
}

#[test]
fn texts_of_two_and_four_bytes_a_character() {
    let folder = Folder::new("wide");
    let text = "IDENT 3:0\r\nCUE 1\r\n! caf\u{e9}\r\nENDDATA\r\n";
    let little: Vec<u8> = text.encode_utf16().flat_map(u16::to_le_bytes).collect();
    let big: Vec<u8> = text.encode_utf16().flat_map(u16::to_be_bytes).collect();
    let told = |bytes: &[u8], called: &str, by: &str| {
        let file = folder.file("wide.asc", bytes);
        let why = format!("this is {called} text, not ASCII; convert it first, as by: iconv -f {by} -t ASCII//TRANSLIT");
        prep(&["sheet", &file]).only_says(2, &format!("prep: {file}: {why} {file} >plain.asc\n"));
        prep_fed(&["clean", "-", "-o", "-"], bytes).only_says(2, &format!("prep: standard input: {why} >plain.asc\n"));
    };
    told(&[b"\xFF\xFE".as_slice(), &little].concat(), "UTF-16", "UTF-16");
    told(&[b"\xFE\xFF".as_slice(), &big].concat(), "UTF-16", "UTF-16");
    told(&little, "UTF-16LE", "UTF-16LE");
    told(&big, "UTF-16BE", "UTF-16BE");
    told(b"\xFF\xFE\0\0I\0\0\0", "UTF-32", "UTF-32");
    told(b"\0\0\xFE\xFF\0\0\0I", "UTF-32", "UTF-32");
}

#[test]
fn the_longest_stream_and_one_byte_more() {
    let folder = Folder::new("longest");
    let mut stream = b"IDENT 3:0\n".to_vec();
    stream.resize(262_143, b'\n');
    stream.splice(262_135.., *b"ENDDATA\n");
    assert_eq!(stream.len(), 262_143);
    let file = folder.file("longest.asc", &stream);
    let clean =
        format!("clean       {file}: 0 cues, 0 groups, 0 submasters, 0 patched dimmers\n1 file: 1 clean, 0 with reports, 0 not loaded\n");
    prep(&["check", &file]).only_prints(0, &clean);

    stream.push(b'\n');
    let why = "longer than 262,143 bytes, the most that a show stream may have; is it a show file? If so, write it from its desk in parts";
    let file = folder.file("too long.asc", &stream);
    prep(&["sheet", &file]).only_says(2, &format!("prep: {file}: {why}\n"));
    prep_fed(&["sheet", "-"], &stream).only_says(2, &format!("prep: standard input: {why}\n"));
    line("sheet /dev/zero").only_says(2, &format!("prep: /dev/zero: {why}\n"));
}

/// A desk with no groups, or with no submasters: the file is not at fault, and another desk helps.
#[test]
fn desks_that_cannot_number_anew() {
    let why = "not loaded, R7: the desk has no groups, or no submasters, and a load with translation needs both; \
               name a desk that has them with --desk";
    for desk in ["6,6,10,0,0,1,1,1,1", "6,6,10,1,0,1,1,1,1", "6,6,10,0,1,1,1,1,1"] {
        let house = "examples/house.asc";
        prep(&["sheet", house, "--translate", "--desk", desk]).only_says(2, &format!("prep: {house}: {why}\n"));
        let line = format!("not loaded  {house}: {why}\n1 file: 0 clean, 0 with reports, 1 not loaded\n");
        prep(&["check", house, "--translate", "--desk", desk]).only_prints(2, &line);
    }
}

/// A load that ends with a CUE that is accepted, and with a link that is lost: 0041 is under the number of that record.
#[test]
fn a_lost_link_is_not_of_the_last_record() {
    let ran = prep_fed(&["sheet", "-", "--translate"], b"CUE 5\nLINK 7\nCUE 70");
    let reports =
        "REPORTS 2\n  (00003:0) 0041-W Invalid cue or group number\n      LINK 7\n      of record 2, in cue 1 page 1 (was 5):\n      \
                   the LINK asks for 7, and no CUE has this number\n  (00003:0) 0100-E Data stream terminated without ENDDATA\n\n";
    assert!(ran.out.contains(reports), "{}", ran.out);
    assert!(ran.out.contains("    2       1         -         -         -         -         -    -   70\n"), "{}", ran.out);
}

#[test]
fn cues_that_translation_would_take() {
    let notes = |words: &[&str], stream: &[u8]| {
        let ran = prep_fed(&[&["sheet", "-"], words].concat(), stream);
        ran.out.lines().filter_map(|line| line.strip_prefix("  NOTE ")).collect::<Vec<_>>().join("\n")
    };
    let stream = b"CUE 1000\nCUE 5 9\nGROUP 5 9\nCUE 6\nLINK 1000\nENDDATA\n";
    assert_eq!(notes(&[], stream), "2 cues were not taken for number or page: try --translate, which numbers all anew");
    assert_eq!(notes(&[], b"CUE x\n"), "1 cue was not taken for number or page: try --translate, which numbers all anew");
    assert_eq!(notes(&["--translate"], stream), "");
    assert_eq!(notes(&["--desk", "6,6,10,0,0,1,1,1,1"], stream), "");
}

/// Samples with bytes changed, lost and put in: prep always ends by itself, and what it cleans is what it keeps.
#[test]
fn damaged_streams() {
    let folder = Folder::new("damaged");
    let samples = ["foreign", "faults", "house", "noise", "worked"]
        .map(|name| fs::read(common::repository().join(format!("examples/{name}.asc"))).expect("a sample"));
    for seed in 0..100 {
        let mut dice = Dice::new(seed);
        let mut stream = samples[dice.roll(samples.len())].clone();
        for _ in 0..=dice.roll(12) {
            let at = dice.roll(stream.len());
            match dice.roll(3) {
                0 => stream[at] = dice.roll(256) as u8,
                1 => drop(stream.remove(at)),
                _ => stream.insert(at, b"\0\r\n!$ @HCUE9"[dice.roll(12)]),
            }
        }
        same_when_cleaned(&folder, &stream, seed);
    }
}

#[test]
fn random_bytes() {
    let folder = Folder::new("random");
    for seed in 0..40 {
        let mut dice = Dice::new(seed);
        let length = dice.roll(3000);
        let stream: Vec<u8> = (0..length).map(|_| if dice.roll(20) == 0 { b'\n' } else { dice.roll(256) as u8 }).collect();
        same_when_cleaned(&folder, &stream, seed);
    }
}

fn same_when_cleaned(folder: &Folder, stream: &[u8], seed: u64) {
    let (file, out) = (folder.file("show.asc", stream), folder.path("clean.asc"));
    let sheet = prep(&["sheet", &file]);
    let counts: Vec<&str> = sheet.out.lines().filter(|line| line.starts_with("REPORTS ")).collect();
    assert_eq!((sheet.status, sheet.err.as_str(), counts.len()), (i32::from(counts != ["REPORTS none"]), "", 1), "seed {seed}");
    assert!(!sheet.out.contains("  other\n"), "seed {seed}");
    assert_eq!(prep(&["clean", &file, "-o", &out, "--force"]).status, sheet.status, "seed {seed}");
    assert_eq!(prep(&["compare", &file, &out]).status, 0, "seed {seed}");
    assert_eq!(prep(&["sheet", &out]).status, 0, "seed {seed}");
    let translated = prep(&["clean", &file, "-o", &out, "--force", "--translate"]);
    assert!(translated.status <= 1 && translated.err.contains("; numbered anew; "), "seed {seed}: {}", translated.err);
    assert_eq!(prep(&["compare", &file, &out, "--translate"]).status, 0, "seed {seed}");
}

#[test]
fn channels_that_no_desk_has() {
    let notes = |stream: &[u8]| {
        let ran = prep_fed(&["sheet", "-"], stream);
        ran.out.lines().filter_map(|line| line.strip_prefix("  NOTE ")).collect::<Vec<_>>().join("\n")
    };
    let asks = |channel: u32| format!("the show asks for channel {channel}, and this desk has 96");
    assert_eq!(notes(b"CUE 1\nCHAN 120@50 97@50\n"), asks(120) + ": try --desk largest, or a desk with 120 channels");
    assert_eq!(notes(b"CUE 1\nCHAN 512@50\n"), asks(512) + ": try --desk largest, or a desk with 512 channels");
    assert_eq!(notes(b"CUE 1\nCHAN 513@50\n"), asks(513) + "; no desk has more than 512");
    assert_eq!(
        notes(b"CUE 1\nCHAN 99999999999@50\n"),
        "the show asks for a channel of very many digits, and this desk has 96; no desk has more than 512"
    );
    assert_eq!(notes(b"CUE 1\nCHAN 0@50\n"), "");
}

#[test]
fn names_that_were_passed_over() {
    let ran = prep_fed(&["sheet", "-"], b"CUE 1\ntext Storm\nENDDATA\nCUE 2\n");
    assert!(
        ran.out.contains("\nPASSED OVER 1\n      1  TEXT\n  NOTE the names of cues are among it (TEXT): they are not kept\n\n"),
        "{}",
        ran.out
    );
    assert!(ran.out.contains("\nNOT READ 1 behind record 3, ENDDATA\n"), "{}", ran.out);
}

#[test]
fn standard_input_in_a_file_s_place() {
    let house = fs::read(common::repository().join("examples/house.asc")).expect("a sample");
    let same = prep_fed(&["compare", "-", "examples/house.asc"], &house);
    assert_eq!((same.status, same.err.as_str()), (0, ""));
    assert!(same.out.starts_with("COMPARE\n  A standard input: 10 cues"), "{}", same.out);
    let fits = prep_fed(&["rehearse", "-", "--small=house", "--large=largest"], &house);
    assert_eq!(
        fits.out,
        line("rehearse examples/house.asc --small house --large largest").out.replace("examples/house.asc", "standard input")
    );
}

#[test]
fn files_that_cannot_be_read() {
    line("sheet nowhere.asc").only_says(2, "prep: nowhere.asc: no such file; look at its name and folder\n");
    line("sheet examples/house.asc/x").only_says(2, "prep: examples/house.asc/x: no such file; look at its name and folder\n");
    line("compare examples/house.asc nowhere").only_says(2, "prep: nowhere: no such file; look at its name and folder\n");
    let folder = "a folder, where a file is needed; name a file in it, or try prep check on the folder";
    line("sheet examples").only_says(2, &format!("prep: examples: {folder}\n"));
    line("clean examples -o -").only_says(2, &format!("prep: examples: {folder}\n"));
    line("page examples -o -").only_says(2, &format!("prep: examples: {folder}\n"));
    line("rehearse examples --small house --large house").only_says(2, &format!("prep: examples: {folder}\n"));
    line("sheet /proc/self/mem").only_says(2, "prep: /proc/self/mem: cannot be read: Input/output error (os error 5)\n");
}

/// The rest are done, and the worst is the status.
#[test]
fn one_of_several_cannot_be_read() {
    let ran = line("sheet examples/worked.asc nowhere.asc examples/house.asc");
    assert_eq!((ran.status, ran.err.as_str()), (2, "prep: nowhere.asc: no such file; look at its name and folder\n"));
    assert_eq!(ran.out, line("sheet examples/worked.asc").out + "\n" + &line("sheet examples/house.asc").out);
}

/// Some users may read every file; then there is nothing to see here.
#[test]
fn a_file_that_may_not_be_read() {
    let folder = Folder::new("locked");
    let file = folder.file("locked.asc", b"ENDDATA\n");
    fs::set_permissions(&file, fs::Permissions::from_mode(0o000)).expect("a locked file");
    let ran = prep(&["sheet", &file]);
    match fs::read(&file) {
        Ok(_) => assert_eq!(ran.status, 0),
        Err(_) => ran.only_says(2, &format!("prep: {file}: may not be read; ask for the right to read it, or for a copy\n")),
    }
}

#[test]
fn folders_are_walked() {
    let folder = Folder::new("walked");
    for (name, stream) in [("b.asc", "ENDDATA\n"), ("a.ASC", "CUE 1\nENDDATA\n"), ("notes.txt", "ENDDATA\n"), ("c\n.asc", "")] {
        folder.file(name, stream.as_bytes());
    }
    fs::create_dir(folder.path("below")).expect("a folder below");
    folder.file("below/d.asc", b"GROUP 1\nENDDATA\n");
    std::os::unix::fs::symlink(folder.path(""), folder.path("below/around")).expect("a link to the folder");
    let at = folder.path("");
    let at = at.trim_end_matches('/');
    let kept =
        |cues: u32, groups: &str| format!("{cues} cue{}, {groups}, 0 submasters, 0 patched dimmers", if cues == 1 { "" } else { "s" });
    let none = kept(0, "0 groups");
    let c = format!("reports     {at}/c?.asc: {none}; 1 report, closing 0100-E Data stream terminated without ENDDATA\n");
    let lines = [
        format!("clean       {at}/a.ASC: {}\n", kept(1, "0 groups")),
        format!("clean       {at}/b.asc: {none}\n"),
        format!("clean       {at}/below/d.asc: {}\n", kept(0, "1 group")),
        c,
    ];
    prep(&["check", at]).only_prints(1, &(lines.concat() + "4 files: 3 clean, 1 with reports, 0 not loaded\n"));
    let notes = format!("clean       {at}/notes.txt: {none}\n");
    prep(&["check", "--all", at]).only_prints(1, &(lines.concat() + &notes + "5 files: 4 clean, 1 with reports, 0 not loaded\n"));
}

#[test]
fn nothing_to_check() {
    let folder = Folder::new("nothing");
    let at = folder.path("");
    let failed = |why: &str| format!("not loaded  {at}: {why}\n1 file: 0 clean, 0 with reports, 1 not loaded\n");
    prep(&["check", &at]).only_prints(2, &failed("no file ending in .asc in this folder; --all takes every file"));
    prep(&["check", &at, "--all"]).only_prints(2, &failed("no file in this folder"));
    let missing = "clean       examples/house.asc: 10 cues, 2 groups, 4 submasters, 21 patched dimmers\n\
                   not loaded  nowhere: no such file; look at its name and folder\n2 files: 1 clean, 0 with reports, 1 not loaded\n";
    line("check examples/house.asc nowhere").only_prints(2, missing);
}

/// A large show is no reason to wait, even on a busy machine.
#[test]
fn six_hundred_cues() {
    let folder = Folder::new("large");
    let file = folder.file("large.asc", &large_show());
    let began = Instant::now();
    let sheet = prep(&["sheet", &file, "--desk", "largest"]);
    assert_eq!((sheet.status, sheet.err.as_str()), (0, ""));
    assert!(sheet.out.contains("\nKEPT 600 cues, 0 groups, 0 submasters, 512 patched dimmers\n"));
    assert_eq!(prep(&["compare", &file, &file, "--desk", "largest"]).status, 0);
    assert!(began.elapsed() < Duration::from_secs(10), "{:?}", began.elapsed());
}
