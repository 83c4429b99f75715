//! The show as one clean stream.
use crate::show::Show;
use crate::status::Trouble;
use crate::words::losses;
use sphairune::{Refused, MOST_STREAM};

/// What the desk keeps, as the written stream.
pub fn clean(show: &Show) -> Result<Vec<u8>, Trouble> {
    let mut out = vec![0; MOST_STREAM];
    let length = show.desk.write(&show.store, &mut out).map_err(|refused| refusal(show, refused))?;
    out.truncate(length);
    Ok(out)
}

/// What is lost is not in the clean stream, and so it is said that there was something.
pub fn warning(show: &Show) -> Option<String> {
    let losses = losses(show);
    let sheet = if show.is_translated() { "prep sheet --translate" } else { "prep sheet" };
    (!losses.is_empty()).then(|| format!("{}: written; {}; {sheet} tells more", show.name, losses.join("; ")))
}

fn refusal(show: &Show, refused: Refused) -> Trouble {
    let what = match refused {
        Refused::R5 => "; split the show into two files, and clean each",
        _ => "",
    };
    Trouble::Failed(format!("{}: not written, {}: {refused}{what}", show.name, refused.name()))
}
