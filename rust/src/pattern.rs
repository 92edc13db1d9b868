//! The text of a pattern.

use std::str;

/// How many bytes are short.
const SHORT: usize = 30;

/// The text of a pattern, which the engine doesn't give back. A short one takes no memory of its own, since making a regex of it
/// would take notably longer with one.
pub(crate) enum Pattern {
    Short { bytes: [u8; SHORT], len: u8 },
    Long(Box<str>),
}

impl Pattern {
    pub(crate) fn new(text: &str) -> Pattern {
        match u8::try_from(text.len()) {
            Ok(len) if text.len() <= SHORT => {
                let mut bytes = [0; SHORT];
                bytes[..text.len()].copy_from_slice(text.as_bytes());
                Pattern::Short { bytes, len }
            }
            _ => Pattern::Long(text.into()),
        }
    }

    pub(crate) fn as_str(&self) -> &str {
        match self {
            Pattern::Short { bytes, len } => {
                str::from_utf8(&bytes[..usize::from(*len)]).expect("the bytes of a text")
            }
            Pattern::Long(text) => text,
        }
    }
}

#[cfg(test)]
mod tests {
    use super::Pattern;

    #[test]
    fn texts_of_all_lengths_stay() {
        for len in (0..40).chain(250..260) {
            let text = "é".repeat(len / 2) + &"a".repeat(len % 2);
            assert_eq!((text.len(), Pattern::new(&text).as_str()), (len, &text[..]));
        }
    }
}
