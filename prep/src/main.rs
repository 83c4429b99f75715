//! prep: show files (USITT ASCII 3.0) at the prep bench. `prep --help` tells what it does.
mod anew;
mod arguments;
mod check;
mod clean;
mod compare;
mod desk;
mod input;
mod kind;
mod output;
mod page;
mod passed;
mod records;
mod rehearse;
mod sheet;
mod show;
mod status;
mod words;

use arguments::Order;
use show::{Load, Show};
use sphairune::Desk;
use status::Trouble;
use std::env;
use std::ffi::{OsStr, OsString};
use std::process::ExitCode;

/// Does what was asked, and says how it ended.
fn run(words: Vec<OsString>) -> Result<u8, Trouble> {
    match arguments::order(words)? {
        Order::Say(text) => output::print(text.as_bytes()).map(|()| status::CLEAN),
        Order::Sheet { desk, load, files } => sheets(desk, load, &files),
        Order::Page { desk, load, file, out, force } => page(&input::show(&file, desk, load)?, &out, force),
        Order::Clean { desk, load, file, out, force } => clean(&input::show(&file, desk, load)?, &out, force),
        Order::Check { desk, load, places, all } => check::check(desk, load, &places, all),
        Order::Compare { desk, load, a, b } => compare(&input::show(&a, desk, load)?, &input::show(&b, desk, load)?),
        Order::Rehearse { file, small, large } => rehearse(&file, small, large),
    }
}

/// One sheet after the other. A file that cannot be loaded is told, and the next one taken.
fn sheets(desk: Desk, load: Load, files: &[OsString]) -> Result<u8, Trouble> {
    let mut worst = status::CLEAN;
    let mut between = "";
    for file in files {
        match input::show(file, desk, load) {
            Ok(show) => {
                output::print(format!("{between}{}", sheet::sheet(&show)).as_bytes())?;
                between = "\n";
                worst = worst.max(status::of_reports(show.reports.len()));
            }
            Err(trouble) => {
                output::tell(&trouble.to_string());
                worst = worst.max(trouble.status());
            }
        }
    }
    Ok(worst)
}

fn page(show: &Show, out: &OsStr, force: bool) -> Result<u8, Trouble> {
    output::put(out, page::page(show).as_bytes(), force)?;
    Ok(status::of_reports(show.reports.len()))
}

fn clean(show: &Show, out: &OsStr, force: bool) -> Result<u8, Trouble> {
    output::put(out, &clean::clean(show)?, force)?;
    if let Some(warning) = clean::warning(show) {
        output::tell(&warning);
    }
    Ok(status::of_reports(show.reports.len()))
}

fn compare(a: &Show, b: &Show) -> Result<u8, Trouble> {
    let (text, differ) = compare::compare(a, b);
    output::print(text.as_bytes())?;
    Ok(if differ { status::REPORTS } else { status::CLEAN })
}

/// The stream is read once, since standard input cannot be read again.
fn rehearse(file: &OsStr, small: Desk, large: Desk) -> Result<u8, Trouble> {
    let small = input::show(file, small, Load::Normal)?;
    let large = input::loaded(small.name.clone(), large, Load::Normal, small.stream.clone())?;
    output::print(rehearse::rehearse(&small, &large).as_bytes())?;
    Ok(status::of_reports(small.reports.len() + large.reports.len()))
}

fn main() -> ExitCode {
    let status = run(env::args_os().skip(1).collect()).unwrap_or_else(|trouble| {
        output::tell(&trouble.to_string());
        trouble.status()
    });
    ExitCode::from(status)
}
