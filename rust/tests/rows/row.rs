//! Rows of tables.

use std::fmt::Write;
use std::fs;
use std::path::Path;

pub struct Row {
    /// The table and the line.
    pub place: String,
    pub call: String,
    pub flags: String,
    pub size_limit: Option<usize>,
    pub nest_limit: Option<u32>,
    pub pattern: Vec<u8>,
    pub haystack: Vec<u8>,
    /// A start or a limit.
    pub number: usize,
    pub template: Vec<u8>,
    pub wanted: String,
    /// Where a row says that a refusal stands: an offset, or `none` or `-` for none.
    pub offset: Option<String>,
}

/// Returns all rows of a table.
pub fn read(path: &Path) -> Vec<Row> {
    let table = fs::read_to_string(path).expect("a table can be read");
    let name = path
        .file_name()
        .expect("a table has a name")
        .to_string_lossy()
        .into_owned();
    let lines = table.lines().enumerate();
    let rows = lines.filter(|(_, line)| !line.is_empty() && !line.starts_with('#'));
    rows.map(|(number, line)| row(format!("{name}:{}", number + 1), line))
        .collect()
}

fn row(place: String, line: &str) -> Row {
    let columns: Vec<&str> = line.split('\t').collect();
    let ([_, call, _, flags, size, nest, pattern, haystack, number, template, wanted, _]
    | [_, call, _, flags, size, nest, pattern, haystack, number, template, wanted, _, _]) =
        columns[..]
    else {
        panic!("{place} has {} columns", columns.len());
    };
    let number_of = |column: &str| (column != "-").then(|| column.parse().expect("a number"));
    Row {
        call: call.into(),
        flags: flags.trim_matches('-').into(),
        size_limit: number_of(size),
        nest_limit: number_of(nest).map(|limit| u32::try_from(limit).expect("a nest limit")),
        pattern: unescaped(pattern),
        haystack: unescaped(haystack),
        number: number_of(number).unwrap_or(0),
        template: unescaped(template),
        wanted: wanted.into(),
        offset: columns.get(12).map(|offset| offset.to_string()),
        place,
    }
}

/// Returns the bytes that a column stands for.
fn unescaped(column: &str) -> Vec<u8> {
    let mut bytes = Vec::new();
    let mut rest = column.as_bytes();
    while let [first, behind @ ..] = rest {
        rest = behind;
        match (first, behind) {
            (b'\\', [b'x', high, low, behind @ ..]) => {
                let digits = [*high, *low];
                let digits = std::str::from_utf8(&digits).expect("hexadecimal digits");
                bytes.push(u8::from_str_radix(digits, 16).expect("hexadecimal digits"));
                rest = behind;
            }
            (b'\\', [b'\\', behind @ ..]) => {
                bytes.push(b'\\');
                rest = behind;
            }
            _ => bytes.push(*first),
        }
    }
    bytes
}

/// Returns the column that stands for the bytes.
pub fn escaped(bytes: &[u8]) -> String {
    let mut column = String::new();
    for &byte in bytes {
        match byte {
            b'\\' => column.push_str("\\\\"),
            b' '..=b'~' => column.push(byte.into()),
            _ => write!(column, "\\x{byte:02X}").expect("a text takes all"),
        }
    }
    column
}
