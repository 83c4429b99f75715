//! What the user asks for: the commands, their options and their help.
use crate::desk;
use crate::input;
use crate::show::Load;
use crate::status::Trouble;
use sphairune::Desk;
use std::ffi::{OsStr, OsString};

/// A command with all that it needs.
pub enum Order {
    /// A text that was asked for: help, or the version.
    Say(String),
    Sheet {
        desk: Desk,
        load: Load,
        files: Vec<OsString>,
    },
    Page {
        desk: Desk,
        load: Load,
        file: OsString,
        out: OsString,
        force: bool,
    },
    Clean {
        desk: Desk,
        load: Load,
        file: OsString,
        out: OsString,
        force: bool,
    },
    Check {
        desk: Desk,
        load: Load,
        places: Vec<OsString>,
        all: bool,
    },
    Compare {
        desk: Desk,
        load: Load,
        a: OsString,
        b: OsString,
    },
    Rehearse {
        file: OsString,
        small: Desk,
        large: Desk,
    },
}

/// A command: its options, first those followed by a word, its help, and how its words become an order.
struct Command {
    name: &'static str,
    with_word: &'static [&'static str],
    alone: &'static [&'static str],
    help: &'static str,
    order: fn(Given) -> Result<Order, Trouble>,
}

/// Loads are with translation.
const TRANSLATE: &str = "--translate";

const COMMANDS: [Command; 6] = [
    Command { name: "sheet", with_word: &["--desk"], alone: &[TRANSLATE], help: include_str!("help/sheet.txt"), order: Given::sheet },
    Command {
        name: "page",
        with_word: &["--desk", "-o"],
        alone: &["--force", TRANSLATE],
        help: include_str!("help/page.txt"),
        order: Given::page,
    },
    Command {
        name: "clean",
        with_word: &["--desk", "-o"],
        alone: &["--force", TRANSLATE],
        help: include_str!("help/clean.txt"),
        order: Given::clean,
    },
    Command {
        name: "check",
        with_word: &["--desk"],
        alone: &["--all", TRANSLATE],
        help: include_str!("help/check.txt"),
        order: Given::check,
    },
    Command { name: "compare", with_word: &["--desk"], alone: &[TRANSLATE], help: include_str!("help/compare.txt"), order: Given::compare },
    Command {
        name: "rehearse",
        with_word: &["--small", "--large"],
        alone: &[TRANSLATE], // to say what to do in its stead
        help: include_str!("help/rehearse.txt"),
        order: Given::rehearse,
    },
];

const HELP: &str = include_str!("help/prep.txt");
const DESKS: &str = include_str!("help/desks.txt");

/// The words behind `prep`, understood.
pub fn order(words: Vec<OsString>) -> Result<Order, Trouble> {
    let mut words = words.into_iter();
    let Some(first) = words.next() else {
        return Err(Trouble::Use(format!("no command\n\n{HELP}")));
    };
    let rest: Vec<OsString> = words.collect();
    match first.to_str() {
        Some("--help" | "-h") => Ok(Order::Say(HELP.into())),
        Some("help") => help(&rest),
        Some("--version" | "-V") => Ok(Order::Say(format!("prep {}\n", env!("CARGO_PKG_VERSION")))),
        _ => of_command(command(&first)?, rest),
    }
}

/// A word as messages quote it.
fn shown(word: &OsStr) -> String {
    input::printable(&word.to_string_lossy())
}

fn command(word: &OsStr) -> Result<&'static Command, Trouble> {
    COMMANDS.iter().find(|command| word == command.name).ok_or_else(|| {
        let names = COMMANDS.map(|command| command.name).join(", ");
        Trouble::Use(format!("no command is called '{}'; the commands are {names} (prep --help)", shown(word)))
    })
}

/// `prep help`, `prep help COMMAND`.
fn help(rest: &[OsString]) -> Result<Order, Trouble> {
    match rest.first() {
        Some(word) => Ok(Order::Say(help_of(command(word)?))),
        None => Ok(Order::Say(HELP.into())),
    }
}

fn help_of(command: &Command) -> String {
    format!("{}\n{DESKS}", command.help)
}

fn of_command(command: &'static Command, words: Vec<OsString>) -> Result<Order, Trouble> {
    let mut given = Given { command, files: Vec::new(), options: Vec::new() };
    match given.take_all(words)? {
        Wish::Help => Ok(Order::Say(help_of(command))),
        Wish::Work => (command.order)(given),
    }
}

enum Wish {
    Help,
    Work,
}

/// The words behind a command, sorted into files and options.
struct Given {
    command: &'static Command,
    files: Vec<OsString>,
    options: Vec<(&'static str, OsString)>,
}

impl Given {
    fn wrong(&self, why: String) -> Trouble {
        Trouble::Use(format!("{0}: {why} (prep {0} --help)", self.command.name))
    }

    fn take_all(&mut self, words: Vec<OsString>) -> Result<Wish, Trouble> {
        let mut words = words.into_iter();
        while let Some(word) = words.next() {
            match word.to_str() {
                Some("--help" | "-h") => return Ok(Wish::Help),
                Some("--") => {
                    self.files.extend(words);
                    break;
                }
                Some(option) if option.starts_with('-') && option != "-" => self.take(option, &mut words)?,
                _ => self.files.push(word),
            }
        }
        Ok(Wish::Work)
    }

    /// `--desk house`, `--desk=house`, `--force`.
    fn take(&mut self, option: &str, words: &mut impl Iterator<Item = OsString>) -> Result<(), Trouble> {
        let (name, joined) = match option.split_once('=') {
            Some((name, word)) => (name, Some(OsString::from(word))),
            None => (option, None),
        };
        let known = |list: &'static [&'static str]| list.iter().find(|known| **known == name).copied();
        if let Some(alone) = known(self.command.alone).filter(|_| joined.is_none()) {
            return self.set(alone, OsString::new());
        }
        let name = known(self.command.with_word).ok_or_else(|| self.wrong(format!("no option '{}'", input::printable(option))))?;
        let next = || words.next().filter(|word| word == "-" || !word.to_string_lossy().starts_with('-'));
        let word = joined.or_else(next).ok_or_else(|| self.wrong(format!("{name} needs a word behind it")))?;
        self.set(name, word)
    }

    fn set(&mut self, name: &'static str, word: OsString) -> Result<(), Trouble> {
        if self.has(name) {
            return Err(self.wrong(format!("{name} is given twice")));
        }
        self.options.push((name, word));
        Ok(())
    }

    fn has(&self, name: &str) -> bool {
        self.word(name).is_some()
    }

    fn word(&self, name: &str) -> Option<&OsString> {
        self.options.iter().find(|(option, _)| *option == name).map(|(_, word)| word)
    }

    fn needed(&self, name: &str, what: &str) -> Result<OsString, Trouble> {
        self.word(name).cloned().ok_or_else(|| self.wrong(format!("no {name} {what}")))
    }

    /// The house small desk unless another one is given.
    fn desk(&self, name: &str) -> Result<Desk, Trouble> {
        match self.word(name) {
            Some(word) => desk::desk(word).map_err(|why| Trouble::Use(format!("{name} {}: {why}", shown(word)))),
            None => Ok(Desk::HOUSE),
        }
    }

    fn load(&self) -> Load {
        match self.has(TRANSLATE) {
            true => Load::Translated,
            false => Load::Normal,
        }
    }

    /// Standard input can be read once.
    fn some_files(&self, what: &str) -> Result<Vec<OsString>, Trouble> {
        if self.files.is_empty() {
            return Err(self.wrong(format!("no {what}")));
        }
        if self.files.iter().filter(|file| *file == "-").count() > 1 {
            return Err(self.wrong("standard input (-) can be read only once".into()));
        }
        Ok(self.files.clone())
    }

    fn one_file(&self) -> Result<OsString, Trouble> {
        match self.files.as_slice() {
            [file] => Ok(file.clone()),
            [] => Err(self.wrong("no FILE".into())),
            files => Err(self.wrong(format!("one FILE at a time, and here are {}", files.len()))),
        }
    }

    fn sheet(self) -> Result<Order, Trouble> {
        Ok(Order::Sheet { desk: self.desk("--desk")?, load: self.load(), files: self.some_files("FILE")? })
    }

    fn page(self) -> Result<Order, Trouble> {
        let (file, out) = (self.one_file()?, self.needed("-o", "OUT")?);
        Ok(Order::Page { desk: self.desk("--desk")?, load: self.load(), file, out, force: self.has("--force") })
    }

    fn clean(self) -> Result<Order, Trouble> {
        let (file, out) = (self.one_file()?, self.needed("-o", "OUT")?);
        Ok(Order::Clean { desk: self.desk("--desk")?, load: self.load(), file, out, force: self.has("--force") })
    }

    fn check(self) -> Result<Order, Trouble> {
        let places = self.some_files("FILE or FOLDER")?;
        Ok(Order::Check { desk: self.desk("--desk")?, load: self.load(), all: self.has("--all"), places })
    }

    fn compare(self) -> Result<Order, Trouble> {
        let desk = self.desk("--desk")?;
        match self.some_files("FILE")?.as_slice() {
            [a, b] => Ok(Order::Compare { desk, load: self.load(), a: a.clone(), b: b.clone() }),
            files => Err(self.wrong(format!("two FILEs are compared, and here are {}", files.len()))),
        }
    }

    /// Demand 3 is of the normal load alone.
    fn rehearse(self) -> Result<Order, Trouble> {
        if self.has(TRANSLATE) {
            let instead = "write the show numbered anew, prep clean FILE --translate -o OUT, and rehearse OUT";
            return Err(self.wrong(format!("no {TRANSLATE}, since what is sure of two desks is not sure of numbers made anew; {instead}")));
        }
        let file = self.one_file()?;
        self.needed("--small", "DESK")?;
        self.needed("--large", "DESK")?;
        let (small, large) = (self.desk("--small")?, self.desk("--large")?);
        match larger(small, large) {
            Some(over) => Err(self.wrong(format!("the small desk must be smaller or equal in every limit; it has {over}"))),
            None => Ok(Order::Rehearse { file, small, large }),
        }
    }
}

/// The limits in which the small desk is the larger; demand 3 speaks of two desks with none.
fn larger(small: Desk, large: Desk) -> Option<String> {
    let pairs = small.limits().into_iter().zip(large.limits());
    let over = desk::LIMITS.iter().zip(pairs).filter(|(_, (s, l))| s > l);
    let over: Vec<String> = over.map(|(limit, (s, l))| format!("{} {s} above {l}", limit.name)).collect();
    (!over.is_empty()).then(|| over.join(", "))
}
