//! Escaped texts.

use crate::engine;
use std::sync::OnceLock;

/// Returns the pattern that matches this text and nothing else: a backslash stands before each special character.
///
/// ```
/// assert_eq!(r"1\+1", regex_bites::escape("1+1"));
/// ```
pub fn escape(pattern: &str) -> String {
    let special = special();
    let is_special = |byte: &u8| special[usize::from(*byte)];
    let count = pattern.bytes().filter(is_special).count();
    let mut escaped = String::with_capacity(pattern.len() + count);
    let mut copied = 0;
    if count > 0 {
        for (offset, _) in pattern
            .bytes()
            .enumerate()
            .filter(|(_, byte)| is_special(byte))
        {
            escaped.push_str(&pattern[copied..offset]);
            escaped.push('\\');
            copied = offset;
        }
    }
    escaped.push_str(&pattern[copied..]);
    escaped
}

/// Returns which bytes are special characters. It asks the engine once, for all of ASCII. No other character is special, so no
/// other byte of a text is.
fn special() -> &'static [bool; 256] {
    static SPECIAL: OnceLock<[bool; 256]> = OnceLock::new();
    SPECIAL.get_or_init(|| {
        let ascii: String = (0..128).map(char::from).collect();
        let mut special = [false; 256];
        let mut bytes = engine::escape(&ascii).into_bytes().into_iter();
        while let Some(byte) = bytes.next() {
            if byte == b'\\' {
                let marked = bytes.next().expect("a character after each backslash");
                special[usize::from(marked)] = true;
            }
        }
        special
    })
}

#[cfg(test)]
mod tests {
    use super::escape;
    use crate::engine;

    /// The engine's own texts: each character, alone and between others, and texts of several.
    #[test]
    fn texts_are_escaped_as_the_engine_does() {
        for character in (0..0x3000).filter_map(char::from_u32) {
            for text in [character.to_string(), format!("é{character}.{character}a")] {
                assert_eq!(escape(&text), engine::escape(&text));
            }
        }
        for text in ["", "☃", "a.b-c", r"\\+\*?()|[]{}^$#&-~", "1+1=(2)? [☃]"] {
            assert_eq!(escape(text), engine::escape(text));
        }
    }
}
