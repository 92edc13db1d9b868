//! The crate's answers to a row, over bytes and over texts, in each way to ask it.

use crate::row::{escaped, Row};
use std::borrow::Cow;

/// The greatest size limit that `least_size` tries.
const GREATEST_SIZE: usize = 67_108_864;

/// Returns the answers over bytes.
pub fn over_bytes(row: &Row, pattern: &str) -> Vec<String> {
    bytes::answers(row, pattern, &row.haystack, &row.template)
}

/// Returns the answers over texts, if haystack and template are texts and the search does not begin within a character.
pub fn over_texts(row: &Row, pattern: &str) -> Option<Vec<String>> {
    let haystack = std::str::from_utf8(&row.haystack).ok()?;
    let template = std::str::from_utf8(&row.template).ok()?;
    let begins = row.call == "splitn" || row.call.starts_with("replace");
    let at_border = begins || row.number > haystack.len() || haystack.is_char_boundary(row.number);
    at_border.then(|| texts::answers(row, pattern, haystack, template))
}

fn span(start: usize, end: usize) -> String {
    format!("{start}..{end}")
}

/// Returns all of them with this separator, or `none`.
fn joined(parts: Vec<String>, by: &str) -> String {
    if parts.is_empty() {
        return "none".into();
    }
    parts.join(by)
}

/// Returns the message of an error, with its offset if that is not the one of the row.
fn refused(row: &Row, error: &regex_bites::Error) -> String {
    let offset = error.offset().map(|offset| offset.to_string());
    let wanted = row
        .offset
        .clone()
        .filter(|wanted| wanted.parse::<usize>().is_ok());
    match &row.offset {
        Some(_) if offset != wanted => format!("err: {error}, at {offset:?}"),
        _ => format!("err: {error}"),
    }
}

fn new(bytes: &[u8]) -> String {
    format!("new:{}", escaped(bytes))
}

macro_rules! surface {
    ($module:ident = $($path:ident)::+, $text:ty, $owned:ty) => {
        mod $module {
            use super::*;
            use $($path)::+::*;

            pub fn answers(row: &Row, pattern: &str, haystack: &$text, template: &$text) -> Vec<String> {
                if row.call == "escape" {
                    return vec![new(regex_bites::escape(pattern).as_bytes())];
                }
                if row.call == "least_size" {
                    return vec![least_size(row, pattern)];
                }
                match builder(row, pattern).build() {
                    Err(error) => vec![refused(row, &error)],
                    Ok(regex) => asked(row, &regex, haystack, template),
                }
            }

            fn builder(row: &Row, pattern: &str) -> RegexBuilder {
                let mut builder = RegexBuilder::new(pattern);
                for flag in row.flags.chars() {
                    match flag {
                        'i' => builder.case_insensitive(true),
                        'm' => builder.multi_line(true),
                        's' => builder.dot_matches_new_line(true),
                        'R' => builder.crlf(true),
                        'U' => builder.swap_greed(true),
                        'x' => builder.ignore_whitespace(true),
                        'L' => builder.leftmost_longest(true),
                        'K' => builder.keep_dropped_groups(true),
                        _ => panic!("{}: no flag {flag}", row.place),
                    };
                }
                row.size_limit.map(|limit| builder.size_limit(limit));
                row.nest_limit.map(|limit| builder.nest_limit(limit));
                builder
            }

            /// Returns the expected size, if it builds and the next smaller one does not; else says what is wrong.
            fn least_size(row: &Row, pattern: &str) -> String {
                let least = row.wanted.parse().unwrap_or(GREATEST_SIZE + 1);
                let mut builder = builder(row, pattern);
                if let Err(error) = builder.size_limit(least).build() {
                    return match row.wanted.as_str() {
                        "above" => "above, but also refused there".into(),
                        _ => format!("err: {error}"),
                    };
                }
                match builder.size_limit(least - 1).build() {
                    Ok(_) => "less".into(),
                    Err(_) => row.wanted.clone(),
                }
            }

            fn asked(row: &Row, regex: &Regex, haystack: &$text, template: &$text) -> Vec<String> {
                match row.call.as_str() {
                    "message" => vec!["accepted".into()],
                    "build" => vec![build(regex)],
                    "is" => vec![regex.is_match_at(haystack, row.number).to_string()],
                    "shortest" => shortest(regex, haystack, row.number),
                    "find_at" => find(regex, haystack, row.number),
                    "captures_at" | "captures_read" => captures(regex, haystack, row.number),
                    "is_anchored" => vec![regex.find_anchored_at(haystack, row.number).is_some().to_string()],
                    "find_anchored" => vec![shown(regex.find_anchored_at(haystack, row.number))],
                    "captures_anchored" => vec![shown_groups(regex.captures_anchored_at(haystack, row.number))],
                    "is_full" => vec![regex.is_full_match(haystack).to_string()],
                    "find_iter" => find_iter(regex, haystack),
                    "captures_iter" => captures_iter(regex, haystack),
                    "split" => vec![pieces(haystack, regex.split(haystack))],
                    "splitn" => vec![pieces(haystack, regex.splitn(haystack, row.number))],
                    "replace" | "replace_owned" => replace(regex, haystack, row.number, template),
                    "replace_lit" => replace_lit(regex, haystack, row.number, template),
                    "replace_count" | "replace_served" => vec![replace_count(regex, haystack, row.number)],
                    "expand" => vec![expand(regex, haystack, template)],
                    "group" => vec![group(regex, haystack, template)],
                    "extract" => vec![extract(regex, haystack)],
                    call => panic!("{}: no call {call}", row.place),
                }
            }

            fn build(regex: &Regex) -> String {
                let least = regex.static_captures_len().map_or("-".into(), |len| len.to_string());
                let names = regex.capture_names().map(|name| escaped(name.unwrap_or("-").as_bytes()));
                let names: Vec<_> = names.collect();
                assert_eq!(names.len(), regex.capture_names().len());
                format!("ok {} {least} {}", regex.captures_len(), names.join(","))
            }

            fn shortest(regex: &Regex, haystack: &$text, start: usize) -> Vec<String> {
                let end = regex.shortest_match_at(haystack, start);
                assert_eq!(end.is_some(), regex.is_match_at(haystack, start));
                if start == 0 {
                    assert_eq!(end, regex.shortest_match(haystack));
                    assert_eq!(end.is_some(), regex.is_match(haystack));
                }
                vec![end.map_or("none".into(), |end| end.to_string())]
            }

            fn shown(found: Option<Match<'_>>) -> String {
                found.map_or("none".into(), |found| span(found.start(), found.end()))
            }

            fn find(regex: &Regex, haystack: &$text, start: usize) -> Vec<String> {
                let mut locations = regex.capture_locations();
                let found = regex.find_at(haystack, start);
                let first = found.map_or(start, |found| found.start());
                let mut answers = vec![
                    shown(found),
                    shown(regex.find_anchored_at(haystack, first)),
                    shown(regex.captures_read_at(&mut locations, haystack, start)),
                ];
                if start == 0 {
                    let whole = found.map(|found| found.range()) == Some(0..haystack.len());
                    assert!(regex.is_full_match(haystack) >= whole);
                    assert!(regex.is_full_match(haystack) <= (first == 0 && found.is_some()));
                    answers.push(shown(regex.find(haystack)));
                    answers.push(shown(regex.captures_read(&mut locations, haystack)));
                }
                answers
            }

            fn groups(captures: &Captures<'_>) -> String {
                let groups = captures.iter().map(|group| match group {
                    Some(part) => span(part.start(), part.end()),
                    None => "-".into(),
                });
                joined(groups.collect(), " ")
            }

            fn places(locations: &CaptureLocations) -> String {
                let groups = (0..locations.len()).map(|group| match locations.get(group) {
                    Some((start, end)) => span(start, end),
                    None => "-".into(),
                });
                joined(groups.collect(), " ")
            }

            fn shown_groups(found: Option<Captures<'_>>) -> String {
                found.map_or("none".into(), |found| groups(&found))
            }

            fn captures(regex: &Regex, haystack: &$text, start: usize) -> Vec<String> {
                let mut locations = regex.capture_locations();
                let found = regex.captures_read_at(&mut locations, haystack, start);
                let first = found.map_or(start, |found| found.start());
                let mut answers = vec![
                    found.map_or("none".into(), |_| places(&locations)),
                    shown_groups(regex.captures_at(haystack, start)),
                    shown_groups(regex.captures_anchored_at(haystack, first)),
                ];
                if start == 0 {
                    answers.push(shown_groups(regex.captures(haystack)));
                }
                answers
            }

            fn find_iter(regex: &Regex, haystack: &$text) -> Vec<String> {
                let found: Vec<_> = regex.find_iter(haystack).collect();
                assert_eq!(found.len(), regex.find_iter(haystack).count());
                let groups = regex.captures_iter(haystack).map(|captures| captures.get(0));
                vec![
                    joined(found.into_iter().map(|found| shown(Some(found))).collect(), " "),
                    joined(groups.map(shown).collect(), " "),
                ]
            }

            fn captures_iter(regex: &Regex, haystack: &$text) -> Vec<String> {
                let mut all = regex.captures_iter(haystack);
                let found = all.by_ref().map(|captures| groups(&captures)).collect();
                assert!(all.next().is_none());
                vec![joined(found, "; ")]
            }

            fn pieces<'h>(haystack: &$text, pieces: impl Iterator<Item = &'h $text>) -> String {
                let place = |piece: &$text| {
                    let start = piece.as_ptr() as usize - haystack.as_ptr() as usize;
                    span(start, start + piece.len())
                };
                joined(pieces.map(place).collect(), " ")
            }

            fn replaced(answer: Cow<'_, $text>) -> String {
                match answer {
                    Cow::Borrowed(_) => "same".into(),
                    Cow::Owned(text) => new(text.as_ref()),
                }
            }

            fn expanded(captures: &Captures<'_>, template: &$text) -> $owned {
                let mut text = <$owned>::new();
                captures.expand(template, &mut text);
                text
            }

            fn replace(regex: &Regex, haystack: &$text, limit: usize, template: &$text) -> Vec<String> {
                let owned: $owned = template.to_owned();
                let copied: Cow<'_, $text> = Cow::Borrowed(template);
                let by_closure = |captures: &Captures<'_>| expanded(captures, template);
                let mut answers = vec![
                    replaced(regex.replacen(haystack, limit, template)),
                    replaced(regex.replacen(haystack, limit, &owned)),
                    replaced(regex.replacen(haystack, limit, &copied)),
                    replaced(regex.replacen(haystack, limit, copied.clone())),
                    replaced(regex.replacen(haystack, limit, { template }.by_ref())),
                    replaced(regex.replacen(haystack, limit, owned)),
                    replaced(regex.replacen(haystack, limit, by_closure)),
                ];
                match limit {
                    0 => answers.push(replaced(regex.replace_all(haystack, template))),
                    1 => answers.push(replaced(regex.replace(haystack, template))),
                    _ => {}
                }
                answers
            }

            fn replace_lit(regex: &Regex, haystack: &$text, limit: usize, text: &$text) -> Vec<String> {
                vec![
                    replaced(regex.replacen(haystack, limit, NoExpand(text))),
                    replaced(regex.replacen(haystack, limit, NoExpand(text).by_ref())),
                    replaced(regex.replacen(haystack, limit, |_: &Captures<'_>| text)),
                ]
            }

            fn replace_count(regex: &Regex, haystack: &$text, limit: usize) -> String {
                let mut count = 0;
                replaced(regex.replacen(haystack, limit, |_: &Captures<'_>| {
                    count += 1;
                    count.to_string()
                }))
            }

            fn expand(regex: &Regex, haystack: &$text, template: &$text) -> String {
                match regex.captures(haystack) {
                    Some(captures) => new(expanded(&captures, template).as_ref()),
                    None => "same".into(),
                }
            }

            fn group(regex: &Regex, haystack: &$text, word: &$text) -> String {
                let Some(captures) = regex.captures(haystack) else {
                    return "none".into();
                };
                let word = std::str::from_utf8(word.as_ref()).expect("a number or a name");
                let found = match word.parse() {
                    Ok(number) => captures.get(number),
                    Err(_) => captures.name(word),
                };
                found.map_or("-".into(), |found| span(found.start(), found.end()))
            }

            fn extract(regex: &Regex, haystack: &$text) -> String {
                let Some(captures) = regex.captures(haystack) else {
                    return "none".into();
                };
                let groups = regex.static_captures_len().expect("a row with a static number");
                match groups - 1 {
                    0 => quoted(captures.extract::<0>()),
                    1 => quoted(captures.extract::<1>()),
                    2 => quoted(captures.extract::<2>()),
                    3 => quoted(captures.extract::<3>()),
                    _ => panic!("a row with so many groups"),
                }
            }

            fn quoted<const N: usize>((whole, groups): (&$text, [&$text; N])) -> String {
                let quote = |part: &$text| format!("\"{}\"", escaped(part.as_ref()));
                joined(std::iter::once(whole).chain(groups).map(quote).collect(), " ")
            }
        }
    };
}

surface!(bytes = regex_bites::bytes, [u8], Vec<u8>);
surface!(texts = regex_bites, str, String);
