//! Runs the built prep and says how it ended.
#![allow(dead_code)] // each test program uses a part of this
use std::ffi::OsStr;
use std::fs;
use std::io::Write;
use std::path::{Path, PathBuf};
use std::process::{self, Command, Output, Stdio};

/// The house small desk and the largest, as sheets name them.
pub const HOUSE: &str =
    "channels 96, dimmers 192, cues 200, groups 40, submasters 24, cue pages 2, group pages 1, submaster pages 2, patch pages 1";

/// How a run ended.
#[derive(Debug, PartialEq, Eq)]
pub struct Ran {
    pub status: i32,
    pub out: String,
    pub err: String,
}

impl Ran {
    pub fn of(output: Output) -> Ran {
        let text = |bytes| String::from_utf8(bytes).expect("prep prints text");
        Ran { status: output.status.code().expect("prep ends by itself"), out: text(output.stdout), err: text(output.stderr) }
    }

    /// Ended with this status, with nothing on standard output and just this on standard error.
    #[track_caller]
    pub fn only_says(&self, status: i32, message: &str) {
        assert_eq!((self.status, self.out.as_str(), self.err.as_str()), (status, "", message));
    }

    /// Ended with this status, with just this on standard output.
    #[track_caller]
    pub fn only_prints(&self, status: i32, text: &str) {
        assert_eq!((self.status, self.out.as_str(), self.err.as_str()), (status, text, ""));
    }
}

/// The folder of the repository, in which every run begins.
pub fn repository() -> PathBuf {
    Path::new(env!("CARGO_MANIFEST_DIR")).join("..")
}

pub fn command(words: &[impl AsRef<OsStr>]) -> Command {
    let mut command = Command::new(env!("CARGO_BIN_EXE_prep"));
    command.args(words).current_dir(repository()).stdin(Stdio::null());
    command
}

pub fn prep(words: &[impl AsRef<OsStr>]) -> Ran {
    Ran::of(command(words).output().expect("prep runs"))
}

/// The words of a command line, none of them with a space in it.
pub fn line(line: &str) -> Ran {
    prep(&line.split(' ').collect::<Vec<_>>())
}

/// With this on standard input.
pub fn prep_fed(words: &[&str], input: &[u8]) -> Ran {
    let mut command = command(words);
    let mut child = command.stdin(Stdio::piped()).stdout(Stdio::piped()).stderr(Stdio::piped()).spawn().expect("prep runs");
    let mut to = child.stdin.take().expect("a pipe");
    let input = input.to_vec();
    let feeder = std::thread::spawn(move || to.write_all(&input));
    let ran = Ran::of(child.wait_with_output().expect("prep ends"));
    // A stream that is too long is not read to its end, and then the pipe breaks: what prep says of it is looked at, not this.
    let _ = feeder.join();
    ran
}

/// A folder of its own for each test, which goes with it.
pub struct Folder(PathBuf);

impl Folder {
    pub fn new(name: &str) -> Folder {
        let path = std::env::temp_dir().join(format!("prep {name} {}", process::id()));
        fs::create_dir_all(&path).expect("a folder for the test");
        Folder(path)
    }

    pub fn path(&self, name: &str) -> String {
        self.0.join(name).to_str().expect("a name in letters").to_string()
    }

    pub fn file(&self, name: &str, bytes: &[u8]) -> String {
        fs::write(self.0.join(name), bytes).expect("a file for the test");
        self.path(name)
    }

    /// What lies in it.
    pub fn names(&self) -> Vec<String> {
        let entries = fs::read_dir(&self.0).expect("the folder of the test");
        let mut names: Vec<String> = entries.map(|e| e.expect("an entry").file_name().into_string().expect("letters")).collect();
        names.sort();
        names
    }
}

impl Drop for Folder {
    fn drop(&mut self) {
        let _ = fs::remove_dir_all(&self.0);
    }
}

/// Numbers that look random and are the same in every run.
pub struct Dice(u64);

impl Dice {
    pub fn new(seed: u64) -> Dice {
        Dice(seed.wrapping_mul(0x9e37_79b9_7f4a_7c15) | 1)
    }

    /// Below `most`.
    pub fn roll(&mut self, most: usize) -> usize {
        self.0 ^= self.0 << 13;
        self.0 ^= self.0 >> 7;
        self.0 ^= self.0 << 17;
        (self.0 >> 11) as usize % most
    }
}

/// 600 cues on a desk of 512 channels, each with times and 32 levels; and with all channels patched.
pub fn large_show() -> Vec<u8> {
    let mut dice = Dice::new(1);
    let mut text = String::from("IDENT 3:0\r\nCLEAR ALL\r\n");
    for dimmer in 1..=512 {
        text += &format!("PATCH 1 {dimmer}<{dimmer}@HFF\r\n");
    }
    for cue in 1..=600 {
        text += &format!("CUE {cue}\r\nUP 3\r\nDOWN 5 1\r\n");
        for part in 0..4 {
            let pairs: Vec<String> =
                (0..8).map(|i| format!("{}@H{:02X}", part * 128 + i * 16 + dice.roll(16) + 1, dice.roll(255) + 1)).collect();
            text += &format!("CHAN {}\r\n", pairs.join(" "));
        }
    }
    (text + "ENDDATA\r\n").into_bytes()
}
