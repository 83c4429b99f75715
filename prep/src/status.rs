//! How a run ends: its exit status, and what went wrong in words.
use std::fmt;

/// Loaded or written with no report; compared and the same.
pub const CLEAN: u8 = 0;
/// Loaded with reports; compared and not the same.
pub const REPORTS: u8 = 1;
/// Not loaded or not written.
pub const FAILED: u8 = 2;
/// Wrong use.
pub const WRONG_USE: u8 = 64;

/// Why a command could not be done: a sentence that names the file or the word at fault and says what to do.
#[derive(Debug)]
pub enum Trouble {
    Use(String),
    Failed(String),
}

impl Trouble {
    pub fn status(&self) -> u8 {
        match self {
            Trouble::Use(_) => WRONG_USE,
            Trouble::Failed(_) => FAILED,
        }
    }
}

impl fmt::Display for Trouble {
    fn fmt(&self, f: &mut fmt::Formatter<'_>) -> fmt::Result {
        match self {
            Trouble::Use(why) | Trouble::Failed(why) => f.write_str(why),
        }
    }
}

/// Of a load: whether anything was reported.
pub fn of_reports(count: usize) -> u8 {
    match count {
        0 => CLEAN,
        _ => REPORTS,
    }
}
