//! What `RegexBuilder::unicode(false)` would change in a pattern.
//!
//! The classes `\w`, `\d` and `\s`, word boundaries and the flag `i` are ASCII in any case. So the switch would change only what
//! could match a single byte of a character: a dot, a negated class, and a byte escape such as `\xFF`.

use crate::error::{Error, Switch};

/// Refuses a pattern that the switch would change. The engine accepted the pattern, with the flag `x` from its start or without.
pub(crate) fn check(pattern: &str, skips_space: bool) -> Result<(), Error> {
    match first_change(pattern, skips_space) {
        Some(switch) => Err(Error::of_switch(switch)),
        None => Ok(()),
    }
}

/// Returns the first part that the switch would change, if the pattern has one.
fn first_change(pattern: &str, skips_space: bool) -> Option<Switch> {
    let mut reader = Reader {
        rest: pattern,
        skips_space,
        outside: Vec::new(),
    };
    while let Some(first) = reader.next() {
        let found = reader.read(first);
        if found.is_some() {
            return found;
        }
    }
    None
}

/// A pattern, read from left to right.
struct Reader<'p> {
    rest: &'p str,
    /// The flag `x`.
    skips_space: bool,
    /// What that flag is outside of each open group.
    outside: Vec<bool>,
}

impl Reader<'_> {
    /// Reads what this character begins.
    fn read(&mut self, first: char) -> Option<Switch> {
        match first {
            '.' => Some(Switch::UnicodeOfDot),
            '\\' => self.escape(),
            '[' => self.class(),
            '(' => {
                self.open_group();
                None
            }
            ')' => {
                self.skips_space = self.outside.pop().unwrap_or(self.skips_space);
                None
            }
            _ => None,
        }
    }

    /// Returns the next character.
    fn next_plain(&mut self) -> Option<char> {
        let mut characters = self.rest.chars();
        let next = characters.next();
        self.rest = characters.as_str();
        next
    }

    /// Returns the next character that the flag `x` doesn't skip.
    fn next(&mut self) -> Option<char> {
        self.skip_space();
        self.next_plain()
    }

    /// Skips white space and comments, if the flag `x` does.
    fn skip_space(&mut self) {
        while self.skips_space {
            self.rest = self.rest.trim_start();
            let Some(comment) = self.rest.strip_prefix('#') else {
                return;
            };
            self.rest = behind(comment, '\n');
        }
    }

    /// Reads what comes after a backslash, as far as it decides.
    fn escape(&mut self) -> Option<Switch> {
        match self.next_plain()? {
            'D' | 'S' | 'W' => Some(Switch::UnicodeOfNegatedClass),
            'x' => matches!(self.next()?, '8'..='9' | 'a'..='f' | 'A'..='F')
                .then_some(Switch::UnicodeOfByteEscape),
            _ => None,
        }
    }

    /// Reads what comes after an opening bracket, up to the closing one.
    fn class(&mut self) -> Option<Switch> {
        let mut item = self.next()?;
        if item == '^' {
            return Some(Switch::UnicodeOfNegatedClass);
        }
        // A closing bracket that comes first is an item.
        if item == ']' {
            item = self.next()?;
        }
        while item != ']' {
            let found = match item {
                '\\' => self.escape(),
                '[' => self.posix_class(),
                _ => None,
            };
            if found.is_some() {
                return found;
            }
            item = self.next()?;
        }
        None
    }

    /// Reads what comes after the bracket of a class such as `[:alpha:]`. There is no other bracket within a class.
    fn posix_class(&mut self) -> Option<Switch> {
        let is_negated = self.rest.starts_with(":^");
        self.rest = behind(self.rest, ']');
        is_negated.then_some(Switch::UnicodeOfNegatedClass)
    }

    /// Reads what comes after an opening parenthesis: a name, or flags. Those of `(?x)` hold up to the end of the group around it.
    fn open_group(&mut self) {
        let outside = self.skips_space;
        self.outside.push(outside);
        self.skip_space();
        let Some(rest) = self.rest.strip_prefix('?') else {
            return;
        };
        if rest.starts_with('<') || rest.starts_with("P<") {
            self.rest = behind(rest, '>');
            return;
        }
        let flags = rest.split([':', ')']).next().unwrap_or(rest);
        let (on, off) = flags.split_once('-').unwrap_or((flags, ""));
        self.skips_space = (outside || on.contains('x')) && !off.contains('x');
        self.rest = &rest[flags.len()..];
        if self.rest.starts_with(')') {
            // There is no group, so what is outside of it is forgotten.
            self.outside.pop();
            self.next_plain();
        }
    }
}

/// Returns the text after the first of these characters, or none if there is no such character.
fn behind(text: &str, end: char) -> &str {
    text.split_once(end).map_or("", |(_, rest)| rest)
}

#[cfg(test)]
mod tests {
    use super::first_change;
    use crate::error::Switch;

    fn found(pattern: &str) -> Option<Switch> {
        assert!(crate::Regex::new(pattern).is_ok(), "{pattern}");
        first_change(pattern, false)
    }

    #[test]
    fn what_matches_bytes_is_found() {
        for pattern in [".", "a.", r"\\.", "(a|.)", "[.].", "(?s-u:.)", r"\x{FF}."] {
            assert_eq!(found(pattern), Some(Switch::UnicodeOfDot), "{pattern}");
        }
        for pattern in [
            r"\W",
            r"\\\D",
            "[^a]",
            r"[a\S]",
            "[[:^alpha:]]",
            "[][:alpha:]a[:^alpha:]]",
        ] {
            assert_eq!(
                found(pattern),
                Some(Switch::UnicodeOfNegatedClass),
                "{pattern}"
            );
        }
        for pattern in [r"\xFF", r"\x80", r"[a-\xe9]", r"\xC3\xA9"] {
            assert_eq!(
                found(pattern),
                Some(Switch::UnicodeOfByteEscape),
                "{pattern}"
            );
        }
    }

    #[test]
    fn all_else_is_left() {
        let patterns = [
            "",
            "a+",
            "é[é☃]",
            r"\.",
            r"\[^a]",
            "[.]",
            "[]^.]",
            "[-^.]",
            "[a^]",
            "[[:alpha:].]",
            r"[\].]",
            r"\x7F",
            r"\x{FF}",
            r"\u00FF",
            r"\\xFF",
            r"\w\d\s\b",
            "(?<a.b>x)",
            "(?P<a.b>x)",
            "(?i:a)",
            "(?-u:a)",
            r"\b{start-half}",
            "a{2,3}?",
            "(a|b)",
        ];
        for pattern in patterns {
            assert_eq!(found(pattern), None, "{pattern}");
        }
    }

    /// White space and comments count for nothing where the flag `x` holds, and only there.
    #[test]
    fn the_flag_x_skips_comments() {
        for pattern in [
            "(?x)a # .",
            "(?x: # .\n)",
            "((?x)a # . ) \\W\n)",
            "(?x)[a # .\n]",
            "(?x)( ?<a.b>a)",
            "(?ix) # [^a]",
        ] {
            assert_eq!(found(pattern), None, "{pattern}");
        }
        for pattern in [
            "# .",
            "(?x) # \n.",
            "(?x:)# .",
            "((?x))# .",
            "(?x)(?-x)# .",
            "(?x)(?-x:# .)",
            "(?x)a\\ .",
            "(?x)\\#.",
        ] {
            assert_eq!(found(pattern), Some(Switch::UnicodeOfDot), "{pattern}");
        }
        assert_eq!(found("(?x)[ ^a]"), Some(Switch::UnicodeOfNegatedClass));
        assert_eq!(
            found("(?x)\\x # a\n F F"),
            Some(Switch::UnicodeOfByteEscape)
        );
        assert_eq!(first_change("a # .", true), None);
        assert_eq!(first_change("(?-x)# .", true), Some(Switch::UnicodeOfDot));
    }
}
