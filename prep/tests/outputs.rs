//! What is written: files that are whole or not there, and every failed write told.
mod common;

use common::{command, large_show, line, prep, Folder, Ran};
use std::fs::{self, File};
use std::os::unix::fs::{symlink, PermissionsExt};
use std::process::{Command, Stdio};

const FULL: &str = "no room is left there; make some, and try again";

/// Every command that prints, and what it prints on.
#[test]
fn a_full_standard_output() {
    let house = "examples/house.asc";
    let lines = [
        format!("sheet {house}"),
        format!("page {house} -o -"),
        format!("clean {house} -o -"),
        "check examples".to_string(),
        format!("compare {house} {house}"),
        format!("rehearse {house} --small house --large largest"),
        "--help".to_string(),
        "sheet --help".to_string(),
        "--version".to_string(),
    ];
    for line in lines {
        let full = File::options().write(true).open("/dev/full").expect("a full disk");
        let words: Vec<&str> = line.split(' ').collect();
        let ran = Ran::of(command(&words).stdout(full).output().expect("prep runs"));
        assert_eq!((ran.status, ran.err), (2, format!("prep: standard output: {FULL}\n")), "{line}");
    }
}

/// As in `prep sheet large.asc | true`: the other end of the pipe is gone before all is written.
#[test]
fn a_closed_standard_output() {
    let folder = Folder::new("closed");
    let file = folder.file("large.asc", &large_show());
    let (sheet, clean) = (["sheet", &file, "--desk", "largest"], ["clean", &file, "-o", "-", "--desk", "largest"]);
    for words in [sheet.as_slice(), &clean] {
        let mut child = command(words).stdout(Stdio::piped()).stderr(Stdio::piped()).spawn().expect("prep runs");
        drop(child.stdout.take());
        let ran = Ran::of(child.wait_with_output().expect("prep ends"));
        ran.only_says(2, "prep: standard output: closed before all was written\n");
    }
}

/// Where the message itself cannot be written, the status tells.
#[test]
fn a_full_standard_error() {
    let full = || File::options().write(true).open("/dev/full").expect("a full disk");
    let status = |line: &str| {
        let words: Vec<&str> = line.split(' ').collect();
        command(&words).stdout(Stdio::null()).stderr(full()).status().expect("prep runs").code()
    };
    assert_eq!(status("sheet nowhere"), Some(2));
    assert_eq!(status("sheet"), Some(64));
    assert_eq!(status("clean examples/worked.asc -o -"), Some(1));
}

#[test]
fn a_full_device() {
    for command in ["clean", "page"] {
        for force in ["", " --force"] {
            line(&format!("{command} examples/house.asc -o /dev/full{force}")).only_says(2, &format!("prep: /dev/full: {FULL}\n"));
        }
    }
    line("clean examples/house.asc -o /dev/null --force").only_prints(0, "");
    assert!(!fs::metadata("/dev/null").expect("the null device").is_file());
}

#[test]
fn a_file_is_replaced_only_when_told() {
    let folder = Folder::new("force");
    for name in ["clean", "page"] {
        let out = folder.file("out", b"of old");
        let ran = prep(&[name, "examples/house.asc", "-o", &out]);
        ran.only_says(2, &format!("prep: {out}: is there already, and nothing was written; --force replaces it\n"));
        assert_eq!(fs::read(&out).expect("the old file"), b"of old");
        prep(&[name, "examples/house.asc", "-o", &out, "--force"]).only_prints(0, "");
        assert_ne!(fs::read(&out).expect("the new file"), b"of old");
        assert_eq!(folder.names(), ["out"]);
    }
}

/// The rights of the old file stay, a link still leads to it, and a show may be cleaned in its own place.
#[test]
fn what_a_replaced_file_keeps() {
    let folder = Folder::new("kept");
    let show = fs::read(common::repository().join("examples/worked.asc")).expect("a sample");
    let (file, link) = (folder.file("show.asc", &show), folder.path("link.asc"));
    fs::set_permissions(&file, fs::Permissions::from_mode(0o640)).expect("its rights");
    symlink("show.asc", &link).expect("a link");
    assert_eq!(prep(&["clean", &link, "-o", &link, "--force"]).status, 1);
    assert!(fs::read(&file).expect("the show").starts_with(b"IDENT 3:0\r\nCLEAR ALL\r\n"));
    assert_eq!(fs::metadata(&file).expect("the show").permissions().mode() & 0o777, 0o640);
    assert!(fs::symlink_metadata(&link).expect("the link").is_symlink());
    assert_eq!(folder.names(), ["link.asc", "show.asc"]);
}

#[test]
fn places_that_cannot_be_written() {
    let folder = Folder::new("places");
    let (at, below) = (folder.path("."), folder.path("nowhere/out"));
    let clean = |out: &str| prep(&["clean", "examples/house.asc", "-o", out]);
    clean(&at).only_says(2, &format!("prep: {at}: a folder, where a file is to be written; name a file in it\n"));
    clean(&below).only_says(2, &format!("prep: {below}: no such folder; make it first, or name another place\n"));
    let under = "examples/house.asc/out";
    clean(under).only_says(2, &format!("prep: {under}: no such folder; make it first, or name another place\n"));
    assert_eq!(folder.names(), [""; 0]);
    let link = folder.path("link");
    symlink("nowhere", &link).expect("a link");
    clean(&link).only_says(2, &format!("prep: {link}: a link that leads nowhere; name the file itself\n"));
    assert_eq!(folder.names(), ["link"]);
}

#[test]
fn nothing_is_written_of_what_was_not_loaded() {
    let folder = Folder::new("not loaded");
    let out = folder.path("out");
    prep(&["clean", "nowhere.asc", "-o", &out]).only_says(2, "prep: nowhere.asc: no such file; look at its name and folder\n");
    assert_eq!(folder.names(), [""; 0]);
}

/// The disk is full in the middle of the file: neither a part of it nor the file beside stays, and the old one is whole.
#[test]
fn no_half_written_file() {
    let folder = Folder::new("half");
    let limited = |out: &str, force: &str| {
        let script = format!("trap '' XFSZ; ulimit -f 1; exec \"$0\" clean examples/house.asc -o \"$1\" {force}");
        let mut shell = Command::new("sh");
        shell.args(["-c", &script, env!("CARGO_BIN_EXE_prep"), out]).current_dir(common::repository());
        Ran::of(shell.output().expect("a shell"))
    };
    let out = folder.path("out.asc");
    limited(&out, "").only_says(2, &format!("prep: {out}: cannot be written: File too large (os error 27)\n"));
    assert_eq!(folder.names(), [""; 0]);
    folder.file("out.asc", b"of old");
    assert_eq!(limited(&out, "--force").status, 2);
    assert_eq!((folder.names(), fs::read(&out).expect("the old file")), (vec!["out.asc".to_string()], b"of old".to_vec()));
}

/// R5: a desk can keep a show that is too long to write.
#[test]
fn a_show_too_long_to_write() {
    let folder = Folder::new("too long");
    let mut stream = String::new();
    for cue in 1..=75 {
        stream += &format!("CUE {cue}\n");
        for channels in (1..=512).collect::<Vec<u32>>().chunks(10) {
            stream += &format!("CHAN {}\n", channels.iter().map(|channel| format!("{channel}/9")).collect::<Vec<_>>().join(" "));
        }
    }
    let (file, out) = (folder.file("long.asc", (stream + "ENDDATA\n").as_bytes()), folder.path("out.asc"));
    let why = "not written, R5: the written stream would be longer than 262143 bytes; split the show into two files, and clean each";
    prep(&["clean", &file, "-o", &out, "--desk", "largest"]).only_says(2, &format!("prep: {file}: {why}\n"));
    assert_eq!(folder.names(), ["long.asc"]);
    assert_eq!(prep(&["sheet", &file, "--desk", "largest"]).status, 0);
}
