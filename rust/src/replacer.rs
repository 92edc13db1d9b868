//! What matches are replaced by. The versions for texts and for bytes differ only in their types.

/// Defines the replacers of matches, in a module below that of `Captures`. The arguments are the type of a text, the type that
/// owns one, the method that appends a text to it, and the documentation of [`NoExpand`].
macro_rules! replacer {
    ($text:ty, $owned:ty, $append:ident, $(#[$page:meta])*) => {
        use super::Captures;
        use crate::replacer::templates;
        use std::borrow::Cow;

        /// The replacement of a match: a template, a literal, or what a closure returns for the match's groups.
        pub trait Replacer {
            /// Appends the replacement of the match to `dst`.
            ///
            /// ```
            /// use regex_bites::{Captures, Regex, Replacer};
            ///
            /// struct Numbers(usize);
            ///
            /// impl Replacer for Numbers {
            ///     fn replace_append(&mut self, _: &Captures<'_>, dst: &mut String) {
            ///         self.0 += 1;
            ///         dst.push_str(&self.0.to_string());
            ///     }
            /// }
            ///
            /// assert_eq!("1-2", Regex::new("[a-z]+").unwrap().replace_all("one-two", Numbers(0)));
            /// ```
            fn replace_append(&mut self, caps: &Captures<'_>, dst: &mut $owned);

            /// Returns the replacement of every match, if it is the same for all. Then nothing else is called.
            ///
            /// ```
            /// use regex_bites::Replacer;
            ///
            /// assert_eq!(Some("text".into()), "text".no_expansion());
            /// assert_eq!(None, "$1".no_expansion());
            /// ```
            fn no_expansion<'r>(&'r mut self) -> Option<Cow<'r, $text>> {
                None
            }

            /// Returns the template of every replacement, if there is one. Then the engine replaces all matches in one call.
            /// What the template stands for must be what [`Replacer::replace_append`] appends.
            #[doc(hidden)]
            fn __regex_bites_template<'r>(&'r mut self) -> Option<Cow<'r, $text>> {
                None
            }

            /// Returns a replacer that borrows this one, so that it can be used again.
            ///
            /// ```
            /// use regex_bites::{Captures, Regex, Replacer};
            ///
            /// let letter = Regex::new("[a-z]").unwrap();
            /// let mut count = 0;
            /// let mut number = |_: &Captures<'_>| {
            ///     count += 1;
            ///     count.to_string()
            /// };
            /// assert_eq!("1-2", letter.replace_all("a-b", number.by_ref()));
            /// assert_eq!("3", letter.replace_all("c", number));
            /// ```
            fn by_ref<'r>(&'r mut self) -> ReplacerRef<'r, Self> {
                ReplacerRef(self)
            }
        }

        templates! {
            $text, $owned;
            ['a] &'a $text;
            ['a] &'a $owned;
            [] $owned;
            ['a] Cow<'a, $text>;
            ['a] &'a Cow<'a, $text>;
        }

        /// Replaces each match by what the closure returns for its groups. That text is not a template.
        impl<F, T> Replacer for F
        where
            F: FnMut(&Captures<'_>) -> T,
            T: AsRef<$text>,
        {
            fn replace_append(&mut self, caps: &Captures<'_>, dst: &mut $owned) {
                dst.$append(self(caps).as_ref());
            }
        }

        /// A replacer that is borrowed, as [`Replacer::by_ref`] returns it.
        #[derive(Debug)]
        pub struct ReplacerRef<'a, R: ?Sized>(&'a mut R);

        impl<R: Replacer + ?Sized> Replacer for ReplacerRef<'_, R> {
            fn replace_append(&mut self, caps: &Captures<'_>, dst: &mut $owned) {
                self.0.replace_append(caps, dst);
            }

            fn no_expansion(&mut self) -> Option<Cow<'_, $text>> {
                self.0.no_expansion()
            }

            fn __regex_bites_template(&mut self) -> Option<Cow<'_, $text>> {
                self.0.__regex_bites_template()
            }
        }

        $(#[$page])*
        #[derive(Clone, Debug)]
        pub struct NoExpand<'t>(pub &'t $text);

        impl Replacer for NoExpand<'_> {
            fn replace_append(&mut self, _: &Captures<'_>, dst: &mut $owned) {
                dst.$append(self.0);
            }

            fn no_expansion(&mut self) -> Option<Cow<'_, $text>> {
                Some(Cow::Borrowed(self.0))
            }
        }
    };
}

/// Makes each type a replacer that is a template. A template without `$` is a literal.
macro_rules! templates {
    ($text:ty, $owned:ty; $([$($generics:tt)*] $type:ty;)*) => {
        $(
            /// A template.
            impl<$($generics)*> Replacer for $type {
                fn replace_append(&mut self, caps: &Captures<'_>, dst: &mut $owned) {
                    caps.expand(&self[..], dst);
                }

                fn no_expansion(&mut self) -> Option<Cow<'_, $text>> {
                    let template: &$text = &self[..];
                    let bytes: &[u8] = template.as_ref();
                    (!bytes.contains(&b'$')).then_some(Cow::Borrowed(template))
                }

                fn __regex_bites_template(&mut self) -> Option<Cow<'_, $text>> {
                    Some(Cow::Borrowed(&self[..]))
                }
            }
        )*
    };
}

pub(crate) use {replacer, templates};
