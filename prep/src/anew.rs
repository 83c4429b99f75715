//! What a load with translation made of the numbers. The library does not tell it; it follows from paper 02, C-13: the k-th CUE, GROUP or SUB
//! that is accepted gets the k-th number of its kind, and a cue has the last LINK of its records, if some CUE has the number that this asks for.
use crate::kind::Kind;
use crate::passed::refused;
use crate::records::{self, is_keyword};
use crate::show::Show;
use sphairune::{Memory, Number};
use std::collections::BTreeMap;

/// Cues and groups of a page; of submasters there are as many as the desk has.
const A_PAGE: u32 = 999;

/// A memory that was numbered anew.
pub struct Anew {
    pub kind: Kind,
    pub page: u32,
    pub number: Number,
    /// The number that its record has, as given, and the page if it has one; empty where it has no number.
    pub was: String,
    /// Its last LINK, followed or not.
    link: Option<Asked>,
}

/// A LINK that was obeyed.
#[derive(Clone)]
struct Asked {
    /// From 1.
    record: usize,
    /// As given; empty where it is missing.
    number: String,
}

/// A number that several cues have and a LINK asks for.
pub struct Shared {
    /// As the LINK has it.
    pub number: String,
    pub count: usize,
    /// The last of them, which the LINK leads to.
    pub last: String,
}

/// A link that no cue's number answers: it is not kept, and the library reports it when the load ends.
pub struct Lost {
    /// The LINK, from 1.
    pub record: usize,
    /// What it asks for, as given; empty where that is missing.
    pub asked: String,
    /// The cue that it stands in.
    pub cue: Anew,
}

impl Anew {
    fn names(&self, kind: Kind, m: &Memory) -> bool {
        (self.kind, self.page, self.number) == (kind, m.page, m.number)
    }
}

/// The one of these that a memory is; `None` where it is not found.
pub fn of<'a>(anew: &'a [Anew], kind: Kind, m: &Memory) -> Option<&'a Anew> {
    anew.iter().find(|a| a.names(kind, m))
}

/// All memories that were accepted, in the order of the stream; those that a CLEAR removed are among them.
pub fn anew(show: &Show) -> Vec<Anew> {
    let mut anew: Vec<Anew> = Vec::new();
    let mut open = false;
    for (record, (text, refused)) in (1..).zip(show.records().into_iter().zip(refused(show))) {
        let fields = records::fields(text);
        let Some(keyword) = fields.first() else { continue };
        let field = |place: usize| fields.get(place).cloned().unwrap_or_default();
        if let Some(kind) = primary(keyword) {
            open = !refused;
            if open {
                anew.push(next(show, &anew, kind, was_named(&field(1), &field(2))));
            }
        } else if keyword.starts_with('$') && !keyword.starts_with("$$") {
            open = false;
        } else if open && !refused && is_keyword(keyword, "LINK") {
            anew.last_mut().expect("a memory is open").link = Some(Asked { record, number: field(1) });
        }
    }
    anew
}

/// Which links were lost, by cue. The cues that are kept without a link, and have a LINK among their records.
pub fn lost(show: &Show) -> Vec<Lost> {
    let unlinked: Vec<Memory> = show.cues().into_iter().filter(|m| m.link.is_none()).collect();
    let is_unlinked = |a: &Anew| unlinked.iter().any(|m| a.names(Kind::Cue, m));
    let lost = show.anew().into_iter().filter(is_unlinked);
    lost.filter_map(|cue| cue.link.clone().map(|link| Lost { record: link.record, asked: link.number, cue })).collect()
}

/// The numbers that are asked for and that several CUEs have, each once: which of these cues was meant cannot be known.
pub fn shared(show: &Show) -> Vec<Shared> {
    let anew = show.anew();
    let mut bearers: BTreeMap<u32, Vec<&Anew>> = BTreeMap::new();
    for cue in anew.iter().filter(|a| a.kind == Kind::Cue) {
        // A page stands behind the number.
        let number = cue.was.split(' ').next().and_then(tenths);
        bearers.entry(number.unwrap_or(u32::MAX)).or_default().push(cue);
    }
    let mut shared = Vec::new();
    for asked in anew.iter().filter_map(|a| a.link.as_ref()) {
        match tenths(&asked.number).and_then(|number| bearers.remove(&number)).as_deref() {
            Some(cues @ [_, .., last]) => {
                let last = format!("cue {} page {}", last.number, last.page);
                shared.push(Shared { number: asked.number.clone(), count: cues.len(), last });
            }
            _ => {}
        }
    }
    shared
}

fn primary(keyword: &str) -> Option<Kind> {
    let names = [("CUE", Kind::Cue), ("GROUP", Kind::Group), ("SUB", Kind::Submaster)];
    names.into_iter().find(|(name, _)| is_keyword(keyword, name)).map(|(_, kind)| kind)
}

/// The next number of its kind, behind those that were given out.
fn next(show: &Show, before: &[Anew], kind: Kind, was: String) -> Anew {
    let a_page = if kind == Kind::Submaster { show.desk.submasters } else { A_PAGE };
    let (page, whole) = match before.iter().rev().find(|a| a.kind == kind) {
        None => (1, 1),
        Some(last) if last.number.whole < a_page => (last.page, last.number.whole + 1),
        Some(last) => (last.page + 1, 1),
    };
    Anew { kind, page, number: Number { whole, tenths: 0 }, was, link: None }
}

fn was_named(number: &str, page: &str) -> String {
    match page {
        "" => number.into(),
        _ => format!("{number} page {page}"),
    }
}

/// A number that a CUE can have and a LINK ask for, in tenths: up to 9999, with at most one digit behind the point.
pub fn tenths(text: &str) -> Option<u32> {
    let digits = |text: &str| !text.is_empty() && text.bytes().all(|c| c.is_ascii_digit());
    let (whole, tenth) = text.split_once('.').unwrap_or((text, "0"));
    let sound = digits(whole) && whole.trim_start_matches('0').len() <= 4 && digits(tenth) && tenth.len() == 1;
    format!("{whole}{tenth}").parse().ok().filter(|_| sound)
}

#[cfg(test)]
mod tests {
    use super::*;
    use crate::show::Load;
    use sphairune::Desk;
    use std::fs;

    fn show(desk: Desk, stream: &[u8]) -> Show {
        Show::load("test".into(), desk, Load::Translated, stream.to_vec()).unwrap()
    }

    fn told(desk: Desk, stream: &str) -> Vec<String> {
        let anew = show(desk, stream.as_bytes()).anew();
        anew.iter().map(|a| format!("{} {} page {} was {}", a.kind.name(), a.number, a.page, a.was)).collect()
    }

    /// A record that was refused has no number, one with ignored characters has; submasters go on to page 2.
    #[test]
    fn what_each_was() {
        let desk = Desk::of([4, 4, 3, 1, 2, 1, 1, 2, 1]);
        let stream = "cue\t1000,9\nSUB 77\nGROUP\nGROUP 2\n$SUB 5\nSUB\x01 x\nCUE 10.\x0225 ! 3\nSUB 1\nCUES 5\nENDDATA\nCUE 6\n";
        let expected = [
            "cue 1 page 1 was 1000 page 9",
            "submaster 1 page 1 was 77",
            "group 1 page 1 was ",
            "submaster 2 page 1 was x",
            "cue 2 page 1 was 10.25",
            "submaster 1 page 2 was 1",
        ];
        assert_eq!(told(desk, stream), expected);
        assert_eq!(told(Desk::HOUSE, &"CUE 1\nCLEAR ALL\n".repeat(1000))[998..], ["cue 999 page 1 was 1", "cue 1 page 2 was 1"]);
    }

    /// The last LINK of a cue stands; one behind a `$` record or in a group is not the cue's.
    #[test]
    fn links_that_are_lost() {
        let stream = b"CUE 1\nLINK 2\nLINK 7\nCUE 2\nLINK 8\nLINK 1\nCUE 3\n$x\nLINK 9\nCUE 4\nCLEAR CUES\nLINK 9\nCUE 5\nlink\nGROUP 1\nLINK 9\nCUE 6\nLINK 9";
        let show = show(Desk::HOUSE, stream);
        let lost: Vec<_> = lost(&show).into_iter().map(|l| (l.record, l.asked, l.cue.number.whole)).collect();
        assert_eq!(lost, [(14, String::new(), 5), (18, "9".into(), 6)]);
    }

    #[test]
    fn numbers_that_a_link_can_ask_for() {
        assert_eq!(["0", "5", "05", "5.0", "0.5", "9999.9"].map(tenths), [0, 50, 50, 50, 5, 99_999].map(Some));
        assert_eq!(tenths(&("0".repeat(70) + "9999")), Some(99_990));
        assert!(["", ".", "5.", ".5", "10.25", "10000", "storm", "-1", "1.x"].iter().all(|text| tenths(text).is_none()));
    }

    #[test]
    fn numbers_that_several_cues_have() {
        let stream = b"CUE 5\nCUE 05 2\nCUE 6\nCUE 6\nCUE 7\nLINK 5.0\nCUE 8\nLINK 7\nLINK 5\nCUE x\nCUE x\nLINK x\n";
        let told: Vec<_> = shared(&show(Desk::HOUSE, stream)).into_iter().map(|s| (s.number, s.count, s.last)).collect();
        assert_eq!(told, [("5.0".to_string(), 2, "cue 2 page 1".to_string())]);
    }

    /// On every sample and on every stream of the fuzzer's corpus: each kept memory is one of these, all of these are kept where nothing was
    /// cleared, and there are as many lost links as the library reports.
    #[test]
    fn as_many_as_the_library_has() {
        for folder in ["../examples", "../tests/fuzz/corpus"] {
            for entry in fs::read_dir(folder).unwrap() {
                let stream = fs::read(entry.unwrap().path()).unwrap();
                for desk in [Desk::HOUSE, Desk::of([1, 1, 1, 1, 1, 1, 1, 1, 1]), Desk::LARGEST] {
                    let show = show(desk, &stream);
                    let anew = show.anew();
                    for kind in Kind::ALL {
                        assert!(kind.kept(&show).iter().all(|m| of(&anew, kind, m).is_some()));
                        let clears = String::from_utf8_lossy(&stream).to_ascii_uppercase().contains("CLEAR");
                        assert!(clears || kind.kept(&show).len() == anew.iter().filter(|a| a.kind == kind).count());
                    }
                    assert_eq!(lost(&show).len(), show.reports.iter().filter(|r| show.is_lost_link(r)).count());
                }
            }
        }
    }
}
