//! Wrong use: each case with its exact message, and status 64. And what is asked for: help and version.
mod common;

use common::{line, prep, Folder};

#[track_caller]
fn wrong(words: &str, message: &str) {
    line(words).only_says(64, &format!("prep: {message}\n"));
}

#[test]
fn commands() {
    let ran = prep(&[] as &[&str]);
    assert_eq!((ran.status, ran.out.as_str()), (64, ""));
    assert!(ran.err.starts_with("prep: no command\n\nprep: show files"), "{}", ran.err);
    wrong("tidy x", "no command is called 'tidy'; the commands are sheet, page, clean, check, compare, rehearse (prep --help)");
    wrong("-", "no command is called '-'; the commands are sheet, page, clean, check, compare, rehearse (prep --help)");
    wrong("--tidy", "no command is called '--tidy'; the commands are sheet, page, clean, check, compare, rehearse (prep --help)");
}

#[test]
fn files() {
    wrong("sheet", "sheet: no FILE (prep sheet --help)");
    wrong("check --all", "check: no FILE or FOLDER (prep check --help)");
    wrong("clean -o x", "clean: no FILE (prep clean --help)");
    wrong("clean a b -o x", "clean: one FILE at a time, and here are 2 (prep clean --help)");
    wrong("page a b c -o x", "page: one FILE at a time, and here are 3 (prep page --help)");
    wrong("compare a", "compare: two FILEs are compared, and here are 1 (prep compare --help)");
    wrong("compare a b c", "compare: two FILEs are compared, and here are 3 (prep compare --help)");
    wrong("compare - -", "compare: standard input (-) can be read only once (prep compare --help)");
    wrong("sheet - x -", "sheet: standard input (-) can be read only once (prep sheet --help)");
    wrong("rehearse --small house --large largest", "rehearse: no FILE (prep rehearse --help)");
}

#[test]
fn options() {
    wrong("sheet x --all", "sheet: no option '--all' (prep sheet --help)");
    wrong("clean x --force=1 -o y", "clean: no option '--force=1' (prep clean --help)");
    wrong("clean x", "clean: no -o OUT (prep clean --help)");
    wrong("clean x -o", "clean: -o needs a word behind it (prep clean --help)");
    wrong("clean x -o --force", "clean: -o needs a word behind it (prep clean --help)");
    wrong("page x", "page: no -o OUT (prep page --help)");
    wrong("clean x -o y -o z", "clean: -o is given twice (prep clean --help)");
    wrong("sheet x --desk house --desk=house", "sheet: --desk is given twice (prep sheet --help)");
    wrong("check x --all --all", "check: --all is given twice (prep check --help)");
    wrong("sheet x --translate --translate", "sheet: --translate is given twice (prep sheet --help)");
    wrong("sheet x --translate=yes", "sheet: no option '--translate=yes' (prep sheet --help)");
    wrong("rehearse x --large house", "rehearse: no --small DESK (prep rehearse --help)");
    wrong("rehearse x --small house", "rehearse: no --large DESK (prep rehearse --help)");
    wrong("rehearse x --desk house", "rehearse: no option '--desk' (prep rehearse --help)");
}

/// What is sure of two desks is of the normal load: it is said what to do in its stead.
#[test]
fn no_rehearsal_with_translation() {
    let why = "rehearse: no --translate, since what is sure of two desks is not sure of numbers made anew; write the show numbered anew, \
               prep clean FILE --translate -o OUT, and rehearse OUT (prep rehearse --help)";
    wrong("rehearse x --small house --large largest --translate", why);
    wrong("rehearse --translate", why);
}

#[test]
fn desks_out_of_range() {
    let range = |desk: &str, why: &str| wrong(&format!("sheet x --desk {desk}"), &format!("--desk {desk}: {why}"));
    range("0,192,200,40,24,2,1,2,1", "channels 0 is out of range; it is 1 to 512");
    range("96,513,200,40,24,2,1,2,1", "dimmers 513 is out of range; it is 1 to 512");
    range("96,192,601,40,24,2,1,2,1", "cues 601 is out of range; it is 1 to 600");
    range("96,192,200,201,24,2,1,2,1", "groups 201 is out of range; it is 0 to 200");
    range("96,192,200,40,97,2,1,2,1", "submasters 97 is out of range; it is 0 to 96");
    range("96,192,200,40,24,64,1,2,1", "cue pages 64 is out of range; it is 1 to 63");
    range("96,192,200,40,24,2,0,2,1", "group pages 0 is out of range; it is 1 to 63");
    range("96,192,200,40,24,2,1,9,1", "submaster pages 9 is out of range; it is 1 to 8");
    range("96,192,200,40,24,2,1,2,99999999999", "patch pages 99999999999 is out of range; it is 1 to 4");
    let order = "channels, dimmers, cues, groups, submasters, cue pages, group pages, submaster pages, patch pages";
    range("96", &format!("a desk has nine limits, and here are 1; give in one word, with commas: {order}"));
    range("1,1,1,1,1,1,1,1,1,1", &format!("a desk has nine limits, and here are 10; give in one word, with commas: {order}"));
}

#[test]
fn desks_in_files() {
    const DESK: &str = "a desk is house, largest, nine numbers with commas, or a file";
    wrong("sheet x --desk nowhere", &format!("--desk nowhere: no such file; look at its name and folder; {DESK}"));
    let folder = "a folder, where a file is needed; name a file in it, or try prep check on the folder";
    wrong("check x --desk examples", &format!("--desk examples: {folder}; {DESK}"));
    let limits = "channels, dimmers, cues, groups, submasters, cue pages, group pages, submaster pages, patch pages";
    let why = format!("line 1: 'ident 3:0' is no limit and its number; the limits are {limits}");
    wrong("clean x -o y --desk examples/worked.asc", &format!("--desk examples/worked.asc: {why}"));
    let folder = Folder::new("desks");
    let told = |text: &str, why: &str| {
        let file = folder.file("a.desk", text.as_bytes());
        prep(&["sheet", "x", "--desk", &file]).only_says(64, &format!("prep: --desk {file}: {why}\n"));
    };
    told("", "no line for channels; add one as 'channels 96'");
    told("channels 513 # too many\n", "line 1: channels 513 is out of range; it is 1 to 512");
    told(
        "# all but one\nchannels 1\ndimmers 1\ncues 1\ngroups 0\nsubmasters 0\ncue pages 1\ngroup pages 1\npatch pages 1\n",
        "no line for submaster pages; add one as 'submaster pages 2'",
    );
    told("channels 96\n\nchannels 96\n", "line 3: channels is given twice");
}

#[test]
fn desks_the_wrong_way_round() {
    let bound = "rehearse: the small desk must be smaller or equal in every limit; it has";
    wrong("rehearse x --small 97,192,200,40,24,2,1,2,1 --large house", &format!("{bound} channels 97 above 96 (prep rehearse --help)"));
    let small = "1,1,1,41,1,1,1,1,2";
    wrong(
        &format!("rehearse x --small {small} --large house"),
        &format!("{bound} groups 41 above 40, patch pages 2 above 1 (prep rehearse --help)"),
    );
}

#[test]
fn help_and_version() {
    line("--version").only_prints(0, concat!("prep ", env!("CARGO_PKG_VERSION"), "\n"));
    let whole = line("--help");
    assert_eq!((whole.status, whole.err.as_str()), (0, ""));
    for command in ["sheet", "page", "clean", "check", "compare", "rehearse"] {
        assert!(whole.out.contains(&format!("\n  {command} ")), "{command}");
        let ran = line(&format!("{command} --help"));
        assert_eq!((ran.status, ran.err.as_str()), (0, ""), "{command}");
        assert!(ran.out.starts_with(&format!("usage: prep {command} ")), "{}", ran.out);
        assert!(ran.out.contains(&format!("\nexample: prep {command} examples")), "{}", ran.out);
        assert!(ran.out.contains("\nexit status: ") && ran.out.contains("\nDESK is one of\n"), "{}", ran.out);
        assert_eq!(ran, line(&format!("{command} x y z -h")));
        assert_eq!(ran, line(&format!("help {command}")));
    }
    assert_eq!(whole, line("-h"));
    assert_eq!(whole, line("help"));
}

/// The example in each help is a command that works.
#[test]
fn examples_of_the_help_work() {
    let folder = Folder::new("help");
    for command in ["sheet", "page", "clean", "check", "compare", "rehearse"] {
        let help = line(&format!("{command} --help")).out;
        let example = help.lines().find_map(|line| line.strip_prefix("example: prep ")).expect("an example");
        let words: Vec<String> = example
            .split(' ')
            .map(|word| match word {
                "house.html" | "clean.asc" => folder.path(word),
                _ => word.to_string(),
            })
            .collect();
        let ran = prep(&words);
        assert!(ran.status <= 1, "{example}: {}", ran.err);
    }
    assert_eq!(folder.names(), ["clean.asc", "house.html"]);
}
