use crate::engine::{self, Settings};
use std::fmt;

/// Why a pattern was refused.
///
/// [`Display`](fmt::Display) writes the engine's message, or names the switch of the builder that is not supported.
///
/// ```
/// let error = regex_bites::Regex::new("a(b").unwrap_err();
/// assert_eq!("found open group without closing ')'", error.to_string());
/// ```
///
/// [`Debug`](fmt::Debug) writes the pattern too, with a caret below the place that the message is about, as Rust's `regex` does.
/// Errors are equal if their messages and the numbers of their patterns are.
#[derive(Clone)]
pub struct Error {
    reason: Reason,
    /// The number of the pattern of a set.
    pattern: Option<usize>,
    refused: Option<Refused>,
}

/// The pattern that a message is about, and how it was read.
#[derive(Clone)]
struct Refused {
    pattern: Box<str>,
    settings: Settings,
}

#[derive(Clone, Eq, PartialEq)]
enum Reason {
    /// The engine's number of the message.
    Refused(u32),
    Switch(Switch),
}

/// A switch of the builder that the engine doesn't have, and what it would matter for.
#[derive(Clone, Copy, Debug, Eq, PartialEq)]
pub(crate) enum Switch {
    Octal,
    UnicodeOfDot,
    UnicodeOfNegatedClass,
    UnicodeOfByteEscape,
}

impl Switch {
    fn message(self) -> &'static str {
        match self {
            Switch::Octal => "RegexBuilder::octal(true) is not supported",
            Switch::UnicodeOfDot => {
                "RegexBuilder::unicode(false) is not supported for a pattern with a dot"
            }
            Switch::UnicodeOfNegatedClass => {
                "RegexBuilder::unicode(false) is not supported for a pattern with a negated class"
            }
            Switch::UnicodeOfByteEscape => {
                "RegexBuilder::unicode(false) is not supported for a pattern with a byte escape above \\x7F"
            }
        }
    }
}

impl Error {
    pub(crate) fn new(code: u32) -> Error {
        let reason = Reason::Refused(code);
        Error {
            reason,
            pattern: None,
            refused: None,
        }
    }

    /// The error of the pattern of a set with this number.
    pub(crate) fn of_pattern(code: u32, pattern: usize) -> Error {
        Error::new(code).in_set(pattern)
    }

    pub(crate) fn in_set(self, pattern: usize) -> Error {
        Error {
            pattern: Some(pattern),
            ..self
        }
    }

    pub(crate) fn of_switch(switch: Switch) -> Error {
        let reason = Reason::Switch(switch);
        Error {
            reason,
            pattern: None,
            refused: None,
        }
    }

    /// The same error, about this pattern. Where the message is about is found when someone asks.
    pub(crate) fn about(self, pattern: &str, settings: Settings) -> Error {
        let refused = Some(Refused {
            pattern: pattern.into(),
            settings,
        });
        Error { refused, ..self }
    }

    /// Returns the number of bytes of the pattern before the place that the message is about. Returns None if it is about no place:
    /// if the pattern is too large or too tall, or if a switch of the builder is not supported. Returns None too if memory ran out.
    ///
    /// It reads the pattern once more. Neither the original crate regex-bites nor Rust's `regex` has such a call.
    ///
    /// ```
    /// let error = regex_bites::Regex::new("a(b|*)").unwrap_err();
    /// assert_eq!(Some(4), error.offset());
    /// ```
    pub fn offset(&self) -> Option<usize> {
        self.refused.as_ref()?.offset()
    }

    /// Returns the number of the pattern that is refused, if it is one of a set. Patterns are numbered from 0 on. If memory ran out, the
    /// number says nothing. Neither the original crate regex-bites nor Rust's `regex` has such a call.
    ///
    /// ```
    /// let error = regex_bites::RegexSet::new(["a", "(b"]).unwrap_err();
    /// assert_eq!(Some(1), error.pattern_index());
    /// ```
    pub fn pattern_index(&self) -> Option<usize> {
        self.pattern
    }

    fn message(&self) -> &'static str {
        match self.reason {
            Reason::Refused(code) => engine::message(code),
            Reason::Switch(switch) => switch.message(),
        }
    }
}

impl fmt::Display for Error {
    fn fmt(&self, f: &mut fmt::Formatter<'_>) -> fmt::Result {
        f.write_str(self.message())
    }
}

impl fmt::Debug for Error {
    fn fmt(&self, f: &mut fmt::Formatter<'_>) -> fmt::Result {
        let refused = self.refused.as_ref();
        let Some((refused, offset)) = refused.and_then(|own| Some((own, own.offset()?))) else {
            return f
                .debug_struct("Error")
                .field("msg", &self.message())
                .finish();
        };
        let rule = "~".repeat(79);
        writeln!(f, "Syntax(\n{rule}\nregex parse error:")?;
        refused.write_pattern(offset, f)?;
        write!(f, "error: {}\n{rule}\n)", self.message())
    }
}

impl Refused {
    fn offset(&self) -> Option<usize> {
        engine::error_at(&self.pattern, self.settings)
    }

    /// Writes the lines of the pattern, and a caret below the place.
    fn write_pattern(&self, offset: usize, f: &mut fmt::Formatter<'_>) -> fmt::Result {
        let before = &self.pattern[..offset];
        let line = before.matches('\n').count();
        let column = before.chars().rev().take_while(|c| *c != '\n').count();
        for (number, text) in self.pattern.split('\n').enumerate() {
            writeln!(f, "    {text}")?;
            if number == line {
                writeln!(f, "    {}^", " ".repeat(column))?;
            }
        }
        Ok(())
    }
}

impl PartialEq for Error {
    fn eq(&self, other: &Error) -> bool {
        (&self.reason, self.pattern) == (&other.reason, other.pattern)
    }
}

impl Eq for Error {}

impl std::error::Error for Error {}
