//! All that is written, every write looked at: standard output, and files that are whole or not there.
use crate::input;
use crate::status::Trouble;
use std::ffi::{OsStr, OsString};
use std::fs::{self, File, Metadata, OpenOptions};
use std::io::{self, ErrorKind, Write};
use std::path::{Path, PathBuf};
use std::process;

/// Puts a text on standard output.
pub fn print(text: &[u8]) -> Result<(), Trouble> {
    let mut out = io::stdout().lock();
    out.write_all(text).and_then(|()| out.flush()).map_err(|e| Trouble::Failed(format!("standard output: {}", unwritable(&e))))
}

/// Says a line on standard error. Where even that cannot be written, the exit status still tells.
pub fn tell(message: &str) {
    let _ = writeln!(io::stderr(), "prep: {message}");
}

/// Puts bytes into the file that the user named, or on standard output for `-`. A file is written beside and renamed, so that it is never
/// there by half; one that is there already is replaced only with `force`.
pub fn put(out: &OsStr, bytes: &[u8], force: bool) -> Result<(), Trouble> {
    if out == "-" {
        return print(bytes);
    }
    let failed = |why: String| Trouble::Failed(format!("{}: {why}", input::name(out)));
    let there = fs::metadata(out).or_else(|_| fs::symlink_metadata(out)).ok();
    match &there {
        Some(found) if found.is_dir() => Err(failed("a folder, where a file is to be written; name a file in it".into())),
        Some(found) if found.is_symlink() => Err(failed("a link that leads nowhere; name the file itself".into())),
        Some(found) if !found.is_file() => through(out, bytes).map_err(|e| failed(unwritable(&e))),
        Some(_) if !force => Err(failed("is there already, and nothing was written; --force replaces it".into())),
        _ => replace(out, bytes, there.as_ref()).map_err(|e| failed(unwritable(&e))),
    }
}

/// A device or a pipe has no content to replace: it is written as it is.
fn through(out: &OsStr, bytes: &[u8]) -> io::Result<()> {
    OpenOptions::new().write(true).open(out)?.write_all(bytes)
}

/// Where the name is a link, the file that it leads to is replaced.
fn replace(out: &OsStr, bytes: &[u8], there: Option<&Metadata>) -> io::Result<()> {
    let target = if there.is_some() { fs::canonicalize(out)? } else { PathBuf::from(out) };
    let beside = beside(&target);
    let file = File::create_new(&beside)?;
    let written = fill(file, bytes, there).and_then(|()| fs::rename(&beside, &target));
    if written.is_err() {
        // What went wrong is told by the first failure; a second one here adds nothing.
        let _ = fs::remove_file(&beside);
    }
    written
}

/// In the same folder, so that renaming moves no bytes; the dot keeps it out of listings while it is written.
fn beside(target: &Path) -> PathBuf {
    let mut name = OsString::from(".");
    name.push(target.file_name().unwrap_or_default());
    name.push(format!(".prep-{}", process::id()));
    target.with_file_name(name)
}

/// With the rights of the file that it is to replace.
fn fill(mut file: File, bytes: &[u8], like: Option<&Metadata>) -> io::Result<()> {
    if let Some(old) = like {
        file.set_permissions(old.permissions())?;
    }
    file.write_all(bytes)?;
    file.sync_all()
}

/// Why nothing can be written, and what to do.
fn unwritable(e: &io::Error) -> String {
    match e.kind() {
        ErrorKind::NotFound | ErrorKind::NotADirectory => "no such folder; make it first, or name another place".into(),
        ErrorKind::PermissionDenied | ErrorKind::ReadOnlyFilesystem => "may not be written; name a place where you may write".into(),
        ErrorKind::StorageFull | ErrorKind::QuotaExceeded => "no room is left there; make some, and try again".into(),
        ErrorKind::BrokenPipe => "closed before all was written".into(),
        _ => format!("cannot be written: {e}"),
    }
}
