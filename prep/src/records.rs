//! The records of a stream as received, and the keyword of one, by paper 01, "Records (§5)".

/// The longest record that is read, in characters.
pub const MOST_CHARACTERS: usize = 80;

/// The records of a stream: each ends with CR, LF, CR LF or LF CR, the longest that stands there; the last may lack its end.
pub fn records(mut rest: &[u8]) -> Vec<&[u8]> {
    let mut records = Vec::new();
    while !rest.is_empty() {
        let end = rest.iter().position(|c| b"\r\n".contains(c)).unwrap_or(rest.len());
        records.push(&rest[..end]);
        rest = match &rest[end..] {
            [b'\r', b'\n', after @ ..] | [b'\n', b'\r', after @ ..] | [_, after @ ..] | after => after,
        };
    }
    records
}

fn is_delimiter(c: u8) -> bool {
    b"\t ,/;<=>@".contains(&c)
}

/// Control characters but the tab, and those with the high bit set: the load reports them and reads on as if they were not there.
fn is_ignored(c: u8) -> bool {
    !(matches!(c, b'\t' | 0x20..=0x7e))
}

/// The field that begins at the front of `characters`, without ignored ones; a `!` ends the record.
pub fn field(characters: &[u8]) -> String {
    let kept = characters.iter().copied().filter(|&c| !is_ignored(c));
    kept.take_while(|&c| c != b'!' && !is_delimiter(c)).map(char::from).collect()
}

/// A record's fields, as given, its keyword first.
pub fn fields(record: &[u8]) -> Vec<String> {
    let kept = record.iter().copied().filter(|&c| !is_ignored(c)).take_while(|&c| c != b'!').collect::<Vec<u8>>();
    let words = kept.split(|&c| is_delimiter(c)).filter(|word| !word.is_empty());
    words.map(|word| word.iter().copied().map(char::from).collect()).collect()
}

/// Keywords compare by this many characters.
const COMPARED: usize = 10;

/// Whether a keyword as given is the standard's.
pub fn is_keyword(given: &str, name: &str) -> bool {
    let compared = |word: &str| word.chars().take(COMPARED).collect::<String>();
    compared(given).eq_ignore_ascii_case(&compared(name))
}

/// A record's first field, as given; `None` where it has none.
pub fn keyword(record: &[u8]) -> Option<String> {
    let first = record.iter().position(|&c| !is_ignored(c) && !is_delimiter(c))?;
    Some(field(&record[first..])).filter(|word| !word.is_empty())
}

#[cfg(test)]
mod tests {
    use super::*;

    #[test]
    fn terminators_are_taken_from_the_left() {
        let of = |stream: &'static [u8]| records(stream).iter().map(|r| String::from_utf8_lossy(r).into_owned()).collect::<Vec<_>>();
        assert_eq!(of(b"a\rb\nc\r\nd\n\re"), ["a", "b", "c", "d", "e"]);
        assert_eq!(of(b"a\r\n\rb"), ["a", "", "b"]);
        assert_eq!(of(b"a\n\r\r\nb\n"), ["a", "", "b"]);
        assert_eq!(of(b""), [""; 0]);
        assert_eq!(of(b"\n"), [""]);
    }

    #[test]
    fn a_keyword_stands_behind_what_is_ignored_and_ends_at_a_delimiter() {
        assert_eq!(keyword(b"\x00\x00GR\xCFOUP 1").as_deref(), Some("GROUP"));
        assert_eq!(keyword(b"\t ,Cue=5").as_deref(), Some("Cue"));
        assert_eq!(keyword(b"$$my stuff").as_deref(), Some("$$my"));
        assert_eq!(keyword(b"TEXT! a comment").as_deref(), Some("TEXT"));
        assert_eq!([keyword(b""), keyword(b" \t\x80"), keyword(b" ! CUE 1"), keyword(b"\x7f!")], [None, None, None, None]);
    }

    #[test]
    fn fields_are_cut_at_delimiters() {
        assert_eq!(fields(b"\t cue\x01 10.\x8025<9 ! 3"), ["cue", "10.25", "9"]);
        assert_eq!(fields(b" ,;! CUE 1"), [""; 0]);
    }
}
