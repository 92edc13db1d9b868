//! The builder for texts and the one for bytes, which differ only in the regex that they build.

/// Defines `RegexBuilder` for the type `Regex` of the module.
macro_rules! regex_builder {
    () => {
        /// Builds a regex of a pattern with flags and limits.
        ///
        /// ```
        /// let mut builder = regex_bites::RegexBuilder::new("holmes");
        /// let regex = builder.case_insensitive(true).build().unwrap();
        /// assert!(regex.is_match("Sherlock Holmes"));
        /// ```
        #[derive(Clone, Debug)]
        pub struct RegexBuilder {
            pattern: String,
            settings: Settings,
            octal: bool,
            unicode: bool,
        }

        impl Regex {
            fn of(pattern: &str, settings: Settings) -> Result<Regex, Error> {
                let engine = Engine::new(pattern, settings)?;
                Ok(Regex { engine })
            }

            /// Returns how large the table is that searches use, or `None` before they have made one, and if there is none.
            ///
            /// ```
            /// let regex = regex_bites::Regex::new("a+").unwrap();
            /// assert_eq!(None, regex.table_size());
            /// assert_eq!(1000, regex.find_iter(&"a ".repeat(1000)).count());
            /// assert!(regex.table_size().is_some_and(|table| table.is_whole));
            /// ```
            pub fn table_size(&self) -> Option<TableSize> {
                self.engine.program().table_size()
            }
        }

        impl RegexBuilder {
            /// Returns a builder for the pattern with no flag set and with the default limits.
            ///
            /// ```
            /// let regex = regex_bites::RegexBuilder::new("a+").build().unwrap();
            /// assert!(regex.is_match("caat"));
            /// ```
            pub fn new(pattern: &str) -> RegexBuilder {
                RegexBuilder {
                    pattern: pattern.to_string(),
                    settings: Settings::default(),
                    octal: false,
                    unicode: true,
                }
            }

            /// Compiles the pattern. The error says why it is refused.
            ///
            /// ```
            /// let error = regex_bites::RegexBuilder::new("a(").build().unwrap_err();
            /// assert_eq!("found open group without closing ')'", error.to_string());
            /// ```
            pub fn build(&self) -> Result<Regex, Error> {
                // First, since the engine takes an octal escape for a back reference.
                if self.octal {
                    return Err(Error::of_switch(crate::error::Switch::Octal));
                }
                let regex = Regex::of(&self.pattern, self.settings)?;
                if !self.unicode {
                    let skips_space = self.settings.has(sys::IGNORE_WHITESPACE);
                    crate::unicode::check(&self.pattern, skips_space)?;
                }
                Ok(regex)
            }

            /// Sets the flag `i`: ASCII letters match in both cases.
            ///
            /// ```
            /// let mut builder = regex_bites::RegexBuilder::new("abc");
            /// let regex = builder.case_insensitive(true).build().unwrap();
            /// assert!(regex.is_match("aBC"));
            /// ```
            pub fn case_insensitive(&mut self, yes: bool) -> &mut RegexBuilder {
                self.set(sys::CASE_INSENSITIVE, yes)
            }

            /// Sets the flag `m`: `^` and `$` hold at the ends of lines too.
            ///
            /// ```
            /// let mut builder = regex_bites::RegexBuilder::new("^b$");
            /// let regex = builder.multi_line(true).build().unwrap();
            /// assert!(regex.is_match("a\nb\nc"));
            /// ```
            pub fn multi_line(&mut self, yes: bool) -> &mut RegexBuilder {
                self.set(sys::MULTI_LINE, yes)
            }

            /// Sets the flag `s`: `.` matches the ends of lines too.
            ///
            /// ```
            /// let mut builder = regex_bites::RegexBuilder::new("a.b");
            /// let regex = builder.dot_matches_new_line(true).build().unwrap();
            /// assert!(regex.is_match("a\nb"));
            /// ```
            pub fn dot_matches_new_line(&mut self, yes: bool) -> &mut RegexBuilder {
                self.set(sys::DOT_MATCHES_NEW_LINE, yes)
            }

            /// Sets the flag `R`: CR, LF and CR LF end a line.
            ///
            /// ```
            /// let mut builder = regex_bites::RegexBuilder::new("(?m)^b$");
            /// let regex = builder.crlf(true).build().unwrap();
            /// assert!(regex.is_match("a\r\nb\r\n"));
            /// ```
            pub fn crlf(&mut self, yes: bool) -> &mut RegexBuilder {
                self.set(sys::CRLF, yes)
            }

            /// Sets the flag `U`: `x*` prefers fewer repetitions and `x*?` prefers more.
            ///
            /// ```
            /// let mut builder = regex_bites::RegexBuilder::new("a+");
            /// let regex = builder.swap_greed(true).build().unwrap();
            /// assert_eq!(1, regex.find("aaa").unwrap().len());
            /// ```
            pub fn swap_greed(&mut self, yes: bool) -> &mut RegexBuilder {
                self.set(sys::SWAP_GREED, yes)
            }

            /// Sets the flag `x`: white space and comments in the pattern are skipped.
            ///
            /// ```
            /// let mut builder = regex_bites::RegexBuilder::new("a b # two letters");
            /// let regex = builder.ignore_whitespace(true).build().unwrap();
            /// assert!(regex.is_match("ab"));
            /// ```
            pub fn ignore_whitespace(&mut self, yes: bool) -> &mut RegexBuilder {
                self.set(sys::IGNORE_WHITESPACE, yes)
            }

            /// Sets the limit on the size of the compiled pattern, roughly in bytes. The default is 10485760.
            ///
            /// ```
            /// let mut builder = regex_bites::RegexBuilder::new("[a-z]{1000}");
            /// assert!(builder.build().is_ok());
            /// assert!(builder.size_limit(1000).build().is_err());
            /// ```
            pub fn size_limit(&mut self, limit: usize) -> &mut RegexBuilder {
                self.settings.set_size_limit(limit);
                self
            }

            /// Sets the limit on how deep the pattern is nested. The default is 50.
            ///
            /// ```
            /// let mut builder = regex_bites::RegexBuilder::new("((a))");
            /// assert!(builder.build().is_ok());
            /// assert!(builder.nest_limit(1).build().is_err());
            /// ```
            pub fn nest_limit(&mut self, limit: u32) -> &mut RegexBuilder {
                self.settings.set_nest_limit(limit);
                self
            }

            /// Sets the limit on the bytes of the table that searches make once they have read some hundred bytes. Searches at one
            /// offset make another one, within the same limit. The default is 1048576, which ordinary patterns stay far below. With
            /// 0 no table is made, and searches look for no literal first. The limit changes the time that searches take, and never
            /// what they return.
            ///
            /// ```
            /// let mut builder = regex_bites::RegexBuilder::new("a+");
            /// let regex = builder.dfa_size_limit(0).build().unwrap();
            /// assert_eq!(1000, regex.find_iter(&"a ".repeat(1000)).count());
            /// assert_eq!(None, regex.table_size());
            /// ```
            pub fn dfa_size_limit(&mut self, limit: usize) -> &mut RegexBuilder {
                self.settings.set_dfa_size_limit(limit);
                self
            }

            /// Is for programs that were written for Rust's `regex`, where `true` makes `\141` an `a`. Here there are no such
            /// escapes, so after `octal(true)` the regex is not built. The error names the switch.
            ///
            /// ```
            /// let mut builder = regex_bites::RegexBuilder::new("a+");
            /// assert!(builder.octal(false).build().is_ok());
            /// let error = builder.octal(true).build().unwrap_err();
            /// assert_eq!("RegexBuilder::octal(true) is not supported", error.to_string());
            /// ```
            pub fn octal(&mut self, yes: bool) -> &mut RegexBuilder {
                self.octal = yes;
                self
            }

            /// Is for programs that were written for Rust's `regex`. `true`, the default, changes nothing: `\w`, `\d`, `\s`, `\b` and
            /// the flag `i` are ASCII all the same.
            ///
            /// With `false` a pattern is refused if the switch would change what it matches: if it has a dot, a negated class such as
            /// `[^a]` or `\W`, or an escape from `\x80` to `\xFF`. The error names the switch. The flag `u` in a pattern changes nothing.
            ///
            /// ```
            /// let build = |pattern| regex_bites::RegexBuilder::new(pattern).unicode(false).build();
            /// assert!(build(r"(\w+)=(\d+)").is_ok());
            /// let error = build("a.b").unwrap_err();
            /// assert!(error.to_string().starts_with("RegexBuilder::unicode(false) is not supported"));
            /// ```
            pub fn unicode(&mut self, yes: bool) -> &mut RegexBuilder {
                self.unicode = yes;
                self
            }

            /// Sets whether searches return the longest match instead of the preferred one. The original crate regex-bites has no such
            /// switch.
            ///
            /// ```
            /// let mut builder = regex_bites::RegexBuilder::new("a|ab");
            /// let regex = builder.leftmost_longest(true).build().unwrap();
            /// assert_eq!(2, regex.find("ab").unwrap().len());
            /// ```
            pub fn leftmost_longest(&mut self, yes: bool) -> &mut RegexBuilder {
                self.set(sys::LEFTMOST_LONGEST, yes)
            }

            /// Sets whether groups that the pattern repeats 0 times keep their numbers and names. The original crate regex-bites has no
            /// such switch.
            ///
            /// ```
            /// let mut builder = regex_bites::RegexBuilder::new("(a)(b){0}");
            /// let regex = builder.keep_dropped_groups(true).build().unwrap();
            /// assert_eq!(3, regex.captures_len());
            /// ```
            pub fn keep_dropped_groups(&mut self, yes: bool) -> &mut RegexBuilder {
                self.set(sys::KEEP_DROPPED_GROUPS, yes)
            }

            fn set(&mut self, flag: u32, yes: bool) -> &mut RegexBuilder {
                self.settings.set(flag, yes);
                self
            }
        }
    };
}

pub(crate) use regex_builder;
