//! What was passed over, by keyword. The library tells only how many records; which they were follows from paper 01, "Keywords and
//! conditions": five standard keywords and every `$` one are passed over, and the secondaries behind a memory that was not taken are
//! skipped.
use crate::records::{self, MOST_CHARACTERS};
use crate::show::Show;
use std::cmp::Reverse;
use std::collections::HashMap;

/// Records passed over or skipped with no report: their keyword as the standard writes it, or as given where it begins with `$`, and how
/// many.
#[derive(Debug, PartialEq, Eq)]
pub struct Passed {
    pub keyword: String,
    pub count: u32,
}

const PASSED_OVER: [&str; 5] = ["MANUFACTURER", "CONSOLE", "SET", "TEXT", "PART"];
const PRIMARIES: [&str; 3] = ["CUE", "GROUP", "SUB"];
const SECONDARIES: [&str; 5] = ["CHAN", "UP", "DOWN", "FOLLOWON", "LINK"];

/// Behind which primary secondaries are skipped.
type Skip = Option<String>;

/// Of the records read; the most frequent come first, those of one count in the order of the stream. What the library counted and is not
/// found here stands under "other".
pub fn passed(show: &Show) -> Vec<Passed> {
    let mut skip = None;
    let mut keywords = Vec::new();
    for (record, refused) in show.records().into_iter().zip(refused(show)) {
        keywords.extend(step(record, refused, &mut skip));
    }
    settle(counted(keywords), show.totals.passed)
}

/// Of each record read, whether something of it was dropped. 0701 and 0702 drop nothing.
pub fn refused(show: &Show) -> Vec<bool> {
    let mut refused = vec![false; show.totals.records() as usize];
    for report in show.reports.iter().filter(|r| !matches!(r.condition, 701 | 702) && !show.is_of_the_end(r)) {
        refused[report.record as usize - 1] = true;
    }
    refused
}

/// What a record is counted under, where it is passed over.
fn step(record: &[u8], refused: bool, skip: &mut Skip) -> Option<String> {
    if MOST_CHARACTERS < record.len() {
        return None;
    }
    let given = records::keyword(record)?;
    if given.starts_with('$') {
        if !given.starts_with("$$") {
            *skip = Some(given.clone());
        }
        return Some(given);
    }
    let among = |names: &'static [&'static str]| names.iter().find(|name| records::is_keyword(&given, name)).copied();
    if among(&PRIMARIES).is_some() {
        *skip = refused.then(|| "a memory that was not taken".to_string());
        return None;
    }
    let skipped = among(&SECONDARIES).zip(skip.as_ref()).map(|(name, behind)| format!("{name}, skipped behind {behind}"));
    skipped.or_else(|| among(&PASSED_OVER).map(str::to_string))
}

/// Each keyword once, as it was first given.
fn counted(keywords: Vec<String>) -> Vec<Passed> {
    let mut found: Vec<Passed> = Vec::new();
    let mut places = HashMap::new();
    for keyword in keywords {
        let place = *places.entry(keyword.to_ascii_uppercase()).or_insert(found.len());
        match found.get_mut(place) {
            Some(passed) => passed.count += 1,
            None => found.push(Passed { keyword, count: 1 }),
        }
    }
    found
}

/// The counts sum to what the library counted: where more was found than that, none of it can be relied on.
fn settle(mut found: Vec<Passed>, total: u32) -> Vec<Passed> {
    let sum: u32 = found.iter().map(|p| p.count).sum();
    if total < sum {
        found.clear();
    }
    found.sort_by_key(|p| Reverse(p.count));
    let other = total - found.iter().map(|p| p.count).sum::<u32>();
    if other != 0 {
        found.push(Passed { keyword: "other".into(), count: other });
    }
    found
}

#[cfg(test)]
mod tests {
    use super::*;
    use crate::show::Load;
    use sphairune::Desk;

    fn told(stream: &[u8]) -> Vec<(String, u32)> {
        let show = Show::load("test".into(), Desk::HOUSE, Load::Normal, stream.to_vec()).unwrap();
        show.passed().into_iter().map(|p| (p.keyword, p.count)).collect()
    }

    fn listed(list: &[(&str, u32)]) -> Vec<(String, u32)> {
        list.iter().map(|&(keyword, count)| (keyword.to_string(), count)).collect()
    }

    #[test]
    fn the_five_that_are_passed_over() {
        let stream = b"manufactured x\nCONSOLE y\nSet 3\nTEXT a\nCUE 1\ntext b\nPA\x80RT 1\nTEXTS\nMANUFACTU z\nENDDATA\nTEXT c\n";
        assert_eq!(told(stream), listed(&[("TEXT", 2), ("MANUFACTURER", 1), ("CONSOLE", 1), ("SET", 1), ("PART", 1)]));
    }

    #[test]
    fn a_single_dollar_begins_what_is_skipped() {
        let stream = b"CUE 1\n$$note\nCHAN 1@50\n$Effect 4\nCHAN 1@50\nCLEAR PATCH\nup 3\n$$NOTE\nLINK 2\nCUE 2\nUP 3\n$effect\nENDDATA\n";
        let expected = [
            ("$$note", 2),
            ("$Effect", 2),
            ("CHAN, skipped behind $Effect", 1),
            ("UP, skipped behind $Effect", 1),
            ("LINK, skipped behind $Effect", 1),
        ];
        assert_eq!(told(stream), listed(&expected));
    }

    #[test]
    fn a_refused_memory_is_not_taken_and_one_with_ignored_characters_is() {
        let stream = b"CUE 0\nCHAN 1@50\nTEXT a\nCUE\x01 2\nCHAN 1@50\nGROUP 1 9\nCHAN 1@50\nENDDATA\n";
        assert_eq!(told(stream), listed(&[("CHAN, skipped behind a memory that was not taken", 2), ("TEXT", 1)]));
    }

    #[test]
    fn what_is_not_found_is_other() {
        let one = || vec![Passed { keyword: "TEXT".into(), count: 1 }];
        assert_eq!(settle(one(), 1), one());
        assert_eq!(settle(one(), 3)[1], Passed { keyword: "other".into(), count: 2 });
        assert_eq!(settle(one(), 0), []);
    }

    /// On every sample and on every stream of the fuzzer's corpus nothing is left over, on small desks and on the largest, with translation
    /// and without.
    #[test]
    fn the_counts_sum_to_what_the_library_passed_over() {
        let mut tried = 0;
        for folder in ["../examples", "../tests/fuzz/corpus"] {
            for entry in std::fs::read_dir(folder).unwrap() {
                let stream = std::fs::read(entry.unwrap().path()).unwrap();
                let bare = Desk::of([1, 1, 1, 0, 0, 1, 1, 1, 1]);
                let small = Desk::of([1, 1, 1, 1, 1, 1, 1, 1, 1]);
                let normal = [Desk::HOUSE, bare, Desk::LARGEST].map(|desk| (desk, Load::Normal));
                let translated = [Desk::HOUSE, small, Desk::LARGEST].map(|desk| (desk, Load::Translated));
                for (desk, load) in normal.into_iter().chain(translated) {
                    let show = Show::load("test".into(), desk, load, stream.clone()).unwrap();
                    let passed = show.passed();
                    assert!(passed.iter().all(|p| p.keyword != "other"), "{passed:?}");
                    assert_eq!(passed.iter().map(|p| p.count).sum::<u32>(), show.totals.passed);
                    tried += 1;
                }
            }
        }
        assert!(tried > 120, "{tried} loads alone");
    }
}
