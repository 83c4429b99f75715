//! Many show files at once: a line a file.
use crate::input;
use crate::output;
use crate::show::{Load, Show};
use crate::status::{self, Trouble};
use crate::words::{self, counted};
use sphairune::Desk;
use std::ffi::{OsStr, OsString};
use std::fs;
use std::io::{self, IsTerminal, Write};
use std::path::{Path, PathBuf};

/// From so many files on, a terminal is shown how far it is.
const MANY: usize = 12;

/// Prints a line for each file, then how they came out; the worst of them is the status.
pub fn check(desk: Desk, load: Load, places: &[OsString], all: bool) -> Result<u8, Trouble> {
    let mut files = Vec::new();
    for place in places {
        find(place, all, &mut files);
    }
    let mut progress = Progress::new(files.len());
    let mut tally = [0; 3];
    for file in &files {
        progress.step();
        let (line, status) = outcome(file, desk, load);
        progress.clear();
        output::print(line.as_bytes())?;
        tally[usize::from(status)] += 1;
    }
    output::print(summary(tally).as_bytes())?;
    Ok(worst(tally))
}

fn summary([clean, reports, failed]: [usize; 3]) -> String {
    format!("{}: {clean} clean, {reports} with reports, {failed} not loaded\n", counted(clean + reports + failed, "file"))
}

fn worst(tally: [usize; 3]) -> u8 {
    [status::FAILED, status::REPORTS].into_iter().find(|&status| tally[usize::from(status)] != 0).unwrap_or(status::CLEAN)
}

/// A file to load, or a place with none and why.
enum Found {
    File(OsString),
    Nothing(String),
}

/// A file is taken as it is; of a folder the show files in it and below it, by name.
fn find(place: &OsStr, all: bool, files: &mut Vec<Found>) {
    if !Path::new(place).is_dir() {
        files.push(Found::File(place.to_os_string()));
        return;
    }
    let before = files.len();
    walk(Path::new(place), all, files);
    if files.len() == before {
        let none = if all { "no file in this folder" } else { "no file ending in .asc in this folder; --all takes every file" };
        files.push(Found::Nothing(format!("{}: {none}", input::name(place))));
    }
}

fn walk(folder: &Path, all: bool, files: &mut Vec<Found>) {
    let entries = match fs::read_dir(folder).and_then(|entries| entries.collect::<io::Result<Vec<_>>>()) {
        Ok(entries) => entries,
        Err(e) => return files.push(Found::Nothing(format!("{}: {}", input::name(folder.as_os_str()), input::unreadable(&e)))),
    };
    let mut paths: Vec<PathBuf> = entries.iter().map(|entry| entry.path()).collect();
    paths.sort();
    for path in paths {
        if path.is_dir() && !path.is_symlink() {
            walk(&path, all, files);
        } else if path.is_file() && (all || is_show(&path)) {
            files.push(Found::File(path.into_os_string()));
        }
    }
}

fn is_show(path: &Path) -> bool {
    path.extension().is_some_and(|ending| ending.eq_ignore_ascii_case("asc"))
}

/// The line of a file, and its status.
fn outcome(file: &Found, desk: Desk, load: Load) -> (String, u8) {
    let loaded = match file {
        Found::File(file) => input::show(file, desk, load).map_err(|trouble| trouble.to_string()),
        Found::Nothing(why) => Err(why.clone()),
    };
    match loaded {
        Ok(show) => (format!("{}\n", loaded_line(&show)), status::of_reports(show.reports.len())),
        Err(why) => (format!("not loaded  {why}\n"), status::FAILED),
    }
}

fn loaded_line(show: &Show) -> String {
    let outcome = if show.reports.is_empty() { "clean  " } else { "reports" };
    format!("{outcome}     {}", words::summary(show))
}

/// A line on a terminal that says how far it is, and goes before anything else is printed.
struct Progress {
    shown: bool,
    done: usize,
    count: usize,
}

impl Progress {
    fn new(count: usize) -> Progress {
        Progress { shown: MANY <= count && io::stderr().is_terminal(), done: 0, count }
    }

    fn step(&mut self) {
        self.done += 1;
        self.put(&format!("\r{} of {}", self.done, self.count));
    }

    fn clear(&self) {
        self.put("\r\x1b[K");
    }

    /// Where a terminal cannot be written, nothing is lost.
    fn put(&self, text: &str) {
        if self.shown {
            let _ = io::stderr().write_all(text.as_bytes());
        }
    }
}
