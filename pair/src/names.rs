//! File names as text that cannot be mistaken for anything else, and the figure numbers in them.

use std::collections::HashMap;
use std::ffi::OsStr;
use std::fmt::Write;
use std::os::unix::ffi::OsStrExt;
use std::path::Path;

/// A name on one line without tabs: control characters, backslashes and bytes that are no UTF-8 are written as escapes.
pub fn shown(name: &OsStr) -> String {
    let mut text = String::new();
    for chunk in name.as_bytes().utf8_chunks() {
        for c in chunk.valid().chars() {
            if c == '\\' || c.is_control() {
                text.extend(c.escape_default());
            } else {
                text.push(c);
            }
        }
        for byte in chunk.invalid() {
            let _ = write!(text, "\\x{byte:02x}");
        }
    }
    text
}

/// Text for HTML, also within quotes.
pub fn html(text: &str) -> String {
    let mut escaped = String::new();
    for c in text.chars() {
        match c {
            '&' => escaped.push_str("&amp;"),
            '<' => escaped.push_str("&lt;"),
            '>' => escaped.push_str("&gt;"),
            '"' => escaped.push_str("&quot;"),
            '\'' => escaped.push_str("&#39;"),
            other => escaped.push(other),
        }
    }
    escaped
}

/// The decimal number that the stem of a name is or ends in, 1 to 4,294,967,295.
fn number_in(name: &OsStr) -> Option<u32> {
    let stem = Path::new(name).file_stem()?.as_bytes();
    let digits = stem.iter().rev().take_while(|byte| byte.is_ascii_digit()).count();
    let number = std::str::from_utf8(&stem[stem.len() - digits..]).ok()?.parse().ok()?;
    (number > 0).then_some(number)
}

/// A figure number for each name: the one in it where no other name has that, else the lowest that no name has, in the order of the names.
pub fn figure_numbers<'a>(names: impl Iterator<Item = &'a OsStr>) -> Vec<u32> {
    let own: Vec<Option<u32>> = names.map(number_in).collect();
    let mut uses: HashMap<u32, usize> = HashMap::new();
    for &number in own.iter().flatten() {
        *uses.entry(number).or_default() += 1;
    }
    let mut free = (1..=u32::MAX).filter(|number| !uses.contains_key(number));
    // A folder has fewer names than there are numbers.
    own.into_iter().map(|number| number.filter(|number| uses[number] == 1).or_else(|| free.next()).unwrap_or_default()).collect()
}

#[cfg(test)]
mod tests {
    use super::*;

    #[test]
    fn escapes() {
        assert_eq!(shown(OsStr::new("Straße 7.png")), "Straße 7.png");
        assert_eq!(shown(OsStr::new("a\tb\nc\\d")), "a\\tb\\nc\\\\d");
        assert_eq!(shown(OsStr::from_bytes(b"a\xffb")), "a\\xffb");
        assert_eq!(html("<a href=\"x\">'&'"), "&lt;a href=&quot;x&quot;&gt;&#39;&amp;&#39;");
    }

    #[test]
    fn numbers_of_names() {
        let number = |name: &str| number_in(OsStr::new(name));
        assert_eq!((number("12"), number("fig-007.png"), number("v1.2.png"), number("4294967295.jpg")), (Some(12), Some(7), Some(2), Some(u32::MAX)));
        assert_eq!((number("0.png"), number("7a.png"), number("4294967296"), number("a.7"), number("")), (None, None, None, None, None));
        assert_eq!(number_in(OsStr::from_bytes(b"\xff9.png")), Some(9));

        let numbers = |names: &[&'static str]| figure_numbers(names.iter().map(OsStr::new));
        assert_eq!(numbers(&["a", "b1.png", "b3.png", "c"]), [2, 1, 3, 4]);
        // A number that two names have is nobody's.
        assert_eq!(numbers(&["1.jpg", "1.png", "2"]), [3, 4, 2]);
        assert_eq!(numbers(&[]), [0; 0]);
    }
}
