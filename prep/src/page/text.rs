//! Text for the page: what comes from the stream or from the user is escaped here and nowhere else.
use sphairune::{condition_text, severity};

/// The longest record that the standard allows; of a longer one the page shows this much.
const MOST_CHARACTERS: usize = 80;

/// A text of the user's, as the name of a file.
pub fn escaped(text: &str) -> String {
    text.chars().map(|c| escape(c).unwrap_or_else(|| c.to_string())).collect()
}

fn escape(c: char) -> Option<String> {
    let name = match c {
        '<' => "&lt;",
        '>' => "&gt;",
        '&' => "&amp;",
        '"' => "&quot;",
        '\'' => "&#39;",
        c if c.is_control() => return Some(format!("\\x{:02X}", u32::from(c))),
        _ => return None,
    };
    Some(name.to_string())
}

/// A record as received: a comment is set apart, the characters in these columns (from 1) are marked, and those that do not print stand in
/// hexadecimal.
pub fn received(record: &[u8], columns: &[u32]) -> String {
    let shown = &record[..record.len().min(MOST_CHARACTERS)];
    let comment = shown.iter().position(|&c| c == b'!').unwrap_or(shown.len());
    let mut text = pieces(&shown[..comment], 1, columns);
    if comment < shown.len() {
        text += &format!("<i>{}</i>", pieces(&shown[comment..], comment as u32 + 1, columns));
    }
    if shown.len() < record.len() {
        text += &format!("<em> and so on, {} characters</em>", grouped(record.len()));
    }
    text
}

/// Characters from a column on.
fn pieces(characters: &[u8], from: u32, columns: &[u32]) -> String {
    let (mut text, mut in_hexadecimal) = (String::new(), false);
    for (column, &c) in (from..).zip(characters) {
        let (marked, prints) = (columns.contains(&column), matches!(c, b'\t' | 0x20..=0x7e));
        if in_hexadecimal && (prints || marked) {
            text += "</u>";
            in_hexadecimal = false;
        }
        let character = character(c);
        if marked {
            text += &format!("<mark>{character}</mark>");
            continue;
        }
        if !prints && !in_hexadecimal {
            text += "<u>";
            in_hexadecimal = true;
        }
        text += &character;
    }
    text + if in_hexadecimal { "</u>" } else { "" }
}

fn character(c: u8) -> String {
    match c {
        b'\t' => "\t".into(),
        0x20..=0x7e => escape(char::from(c)).unwrap_or_else(|| char::from(c).to_string()),
        _ => format!("\\x{c:02X}"),
    }
}

/// A condition as the standard prints it: number, severity, text.
pub fn condition(number: u32) -> String {
    format!("<span class=\"number\">{number:04}-{}</span> {}", severity(number), condition_text(number))
}

/// `1 cue`, `2 cues`, `1,200 cues`.
pub fn counted(count: usize, thing: &str) -> String {
    format!("{} {thing}{}", grouped(count), if count == 1 { "" } else { "s" })
}

/// With a comma between thousands.
pub fn grouped(count: usize) -> String {
    let digits = count.to_string();
    let mut text = String::new();
    for (place, digit) in digits.char_indices() {
        if place > 0 && (digits.len() - place) % 3 == 0 {
            text.push(',');
        }
        text.push(digit);
    }
    text
}

/// `4`, or `4–6` with a joiner that keeps it in one line.
pub fn range(from: usize, to: usize) -> String {
    if from == to {
        from.to_string()
    } else {
        format!("{from}\u{2013}\u{2060}{to}")
    }
}

#[cfg(test)]
mod tests {
    use super::*;

    #[test]
    fn nothing_of_a_stream_is_markup() {
        assert_eq!(escaped("a<b>&\"c'\n.asc"), "a&lt;b&gt;&amp;&quot;c&#39;\\x0A.asc");
        assert_eq!(received(b"<script>alert('&')</script>", &[]), "&lt;script&gt;alert(&#39;&amp;&#39;)&lt;/script&gt;");
        assert_eq!(received(b"CHAN 1<5", &[7]), "CHAN 1<mark>&lt;</mark>5");
        for c in 0..=255 {
            let shown = received(&[c], &[]);
            let inside = shown.trim_start_matches("<u>").trim_start_matches("<i>").trim_end_matches("</u>").trim_end_matches("</i>");
            assert!(!inside.contains(['<', '>', '"', '\0', '\n', '\r']), "{c:02X} is shown as {shown}");
        }
    }

    #[test]
    fn records_as_received() {
        assert_eq!(received(b"CHAN 2=h8f 3@h0g 1/hff", &[14]), "CHAN 2=h8f 3@<mark>h</mark>0g 1/hff");
        assert_eq!(received(b"UP 3 ! caf\xe9\x07, late", &[]), "UP 3 <i>! caf<u>\\xE9\\x07</u>, late</i>");
        assert_eq!(received(b"\x80\x81\x82", &[2]), "<u>\\x80</u><mark>\\x81</mark><u>\\x82</u>");
        assert_eq!(received(b"", &[]), "");
        let long = received(&[b'A'; 1081], &[]);
        assert_eq!(long, "A".repeat(80) + "<em> and so on, 1,081 characters</em>");
    }

    #[test]
    fn counts_in_words() {
        assert_eq!(
            (counted(1, "cue"), counted(0, "cue"), counted(262_143, "byte")),
            ("1 cue".into(), "0 cues".into(), "262,143 bytes".into())
        );
        assert_eq!((range(4, 4), range(4, 6)), ("4".into(), "4–\u{2060}6".into()));
    }
}
