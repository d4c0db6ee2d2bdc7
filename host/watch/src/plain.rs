//! Texts of others as they can be printed: nothing in them that a terminal or a page would obey.

use std::ffi::OsStr;

/// True for what controls a terminal, ends a line, or turns the direction of writing.
pub fn is_obeyed(letter: char) -> bool {
    let turns = matches!(letter, '\u{61c}' | '\u{200e}' | '\u{200f}' | '\u{202a}'..='\u{202e}');
    let sets_apart = matches!(letter, '\u{2066}'..='\u{2069}');
    letter.is_control() || is_other_break(letter) || turns || sets_apart
}

/// True for what some programs take as the end of a line, and others as a blank.
pub fn is_other_break(letter: char) -> bool {
    matches!(letter, '\u{b}' | '\u{c}' | '\u{1c}'..='\u{1e}' | '\u{85}' | '\u{2028}' | '\u{2029}')
}

/// A file's name or another word of the arguments, with such letters as their numbers.
pub fn plain(word: &OsStr) -> String {
    let mut plain = String::new();
    for letter in word.to_string_lossy().chars() {
        match is_obeyed(letter) {
            true => plain.extend(letter.escape_unicode()),
            false => plain.push(letter),
        }
    }
    plain
}

#[cfg(test)]
mod tests {
    use super::plain;
    use std::ffi::OsStr;
    use std::os::unix::ffi::OsStrExt;

    #[test]
    fn what_would_be_obeyed_is_told_by_number() {
        assert_eq!(plain(OsStr::new("a day/grün.txt")), "a day/grün.txt");
        assert_eq!(plain(OsStr::new("\u{1b}[2J\n")), "\\u{1b}[2J\\u{a}");
        assert_eq!(plain(OsStr::new("a\u{202e}b\u{2028}")), "a\\u{202e}b\\u{2028}");
        assert_eq!(plain(OsStr::from_bytes(b"gr\xfcn")), "gr\u{fffd}n");
    }
}
