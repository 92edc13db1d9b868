//! Writes the lines in which a pattern matches: `lines [-c] [-i] [-l] [-n] [-o] [-q] [-v] PATTERN [FILE..]`, as the
//! program `lines` of this repository does.

use regex_bites::bytes::{Regex, RegexBuilder};
use std::fs::File;
use std::io::{self, BufRead, BufReader, ErrorKind, Write};
use std::process::ExitCode;

const USAGE: &str = "usage: lines [-c] [-i] [-l] [-n] [-o] [-q] [-v] PATTERN [FILE..]";
const STANDARD_INPUT: &str = "(standard input)";

struct Filter<'w> {
    regex: Regex,
    flags: &'w str,
    named: bool,
}

impl Filter<'_> {
    fn has(&self, flag: char) -> bool {
        self.flags.contains(flag)
    }

    fn label(&self, name: &str, number: Option<u64>) -> String {
        let name = if self.named {
            format!("{name}:")
        } else {
            String::new()
        };
        match number {
            Some(number) if self.has('n') => format!("{name}{number}:"),
            _ => name,
        }
    }

    // Returns whether a line of the input is selected.
    fn search(
        &self,
        name: &str,
        mut input: impl BufRead,
        out: &mut impl Write,
    ) -> io::Result<bool> {
        let (mut line, mut number, mut selected) = (Vec::new(), 0, 0);
        while input.read_until(b'\n', &mut line)? > 0 {
            number += 1;
            let text = line.strip_suffix(b"\n").unwrap_or(&line);
            if self.regex.is_match(text) != self.has('v') {
                selected += 1;
                if self.has('q') || self.has('l') {
                    break;
                }
                self.show(&self.label(name, Some(number)), text, out)?;
            }
            line.clear();
        }
        match selected {
            _ if self.has('q') => {}
            0 if self.has('l') => {}
            _ if self.has('l') => writeln!(out, "{name}")?,
            _ if self.has('c') => writeln!(out, "{}{selected}", self.label(name, None))?,
            _ => {}
        }
        Ok(selected > 0)
    }

    fn show(&self, label: &str, text: &[u8], out: &mut impl Write) -> io::Result<()> {
        if self.has('c') {
            return Ok(());
        }
        if !self.has('o') {
            return out.write_all(&[label.as_bytes(), text, b"\n"].concat());
        }
        for found in self.regex.find_iter(text).filter(|found| !found.is_empty()) {
            out.write_all(&[label.as_bytes(), found.as_bytes(), b"\n"].concat())?;
        }
        Ok(())
    }

    // Returns the status. A file that can't be read is reported, and the others are searched nevertheless.
    fn search_files(&self, files: &[String], out: &mut impl Write) -> io::Result<u8> {
        let mut status = 1;
        for name in files {
            let searched = match name.as_str() {
                "-" => self.search(STANDARD_INPUT, io::stdin().lock(), out),
                _ => File::open(name).and_then(|file| self.search(name, BufReader::new(file), out)),
            };
            match searched {
                Ok(true) if self.has('q') => return Ok(0),
                Ok(true) if status == 1 => status = 0,
                Ok(_) => {}
                Err(error) if error.kind() == ErrorKind::BrokenPipe => return Err(error),
                Err(error) => {
                    eprintln!("lines: cannot read {name}: {error}");
                    status = 2;
                }
            }
        }
        Ok(status)
    }
}

fn run(flags: &str, pattern: &str, files: &[String]) -> Result<u8, Box<dyn std::error::Error>> {
    let regex = RegexBuilder::new(pattern)
        .case_insensitive(flags.contains('i'))
        .build()?;
    let filter = Filter {
        regex,
        flags,
        named: files.len() > 1,
    };
    let mut out = io::BufWriter::new(io::stdout().lock());
    let status = if files.is_empty() {
        let any = filter.search(STANDARD_INPUT, io::stdin().lock(), &mut out)?;
        u8::from(!any)
    } else {
        filter.search_files(files, &mut out)?
    };
    out.flush()?;
    Ok(status)
}

fn main() -> ExitCode {
    let words: Vec<String> = std::env::args().skip(1).collect();
    let is_flags = |word: &&String| word.len() > 1 && word.starts_with('-') && *word != "--";
    let count = words.iter().take_while(is_flags).count();
    let (flags, rest) = words.split_at(count);
    let flags = flags.concat().replace('-', "");
    // The word `--` ends the flags.
    let rest = match rest {
        [word, rest @ ..] if word == "--" => rest,
        _ => rest,
    };
    let [pattern, files @ ..] = rest else {
        eprintln!("{USAGE}");
        return ExitCode::from(2);
    };
    if flags.contains(|letter| !"cilnoqv".contains(letter)) {
        eprintln!("{USAGE}");
        return ExitCode::from(2);
    }
    match run(&flags, pattern, files) {
        Ok(status) => ExitCode::from(status),
        Err(error) if is_closed(error.as_ref()) => ExitCode::SUCCESS,
        Err(error) => {
            eprintln!("lines: {error}");
            ExitCode::from(2)
        }
    }
}

// Returns whether nobody reads the output any more.
fn is_closed(error: &(dyn std::error::Error + 'static)) -> bool {
    error
        .downcast_ref::<io::Error>()
        .is_some_and(|error| error.kind() == ErrorKind::BrokenPipe)
}
