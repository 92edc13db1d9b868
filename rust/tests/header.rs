//! `src/sys.rs` declares what `c/bites.h` does: the same structs with the same fields, the same calls in the same order, with
//! parameters of the same types, and the same numbers.

use std::collections::HashMap;
use std::fs;
use std::path::Path;

fn read(path: &str) -> String {
    let path = Path::new(env!("CARGO_MANIFEST_DIR")).join(path);
    fs::read_to_string(path).expect("a file of this repository")
}

/// Returns the header without comments, up to the first function that it defines itself, with one space for each run of white
/// space.
fn header() -> String {
    let text = read("../c/bites.h");
    let declared = text.split("#define BITES_INLINE").next().expect("a text");
    let code = declared
        .split("/*")
        .map(|part| part.split_once("*/").map_or(part, |(_, code)| code));
    let words: Vec<&str> = code.flat_map(str::split_whitespace).collect();
    words.join(" ")
}

/// A declaration as a list of words: the name, the type of the result, and the type of each parameter.
type Declaration = Vec<String>;

fn of_header() -> Vec<Declaration> {
    let text = header();
    let calls = text
        .split(';')
        .filter(|part| part.trim_end().ends_with(')'));
    calls.map(|call| of_c(call.trim())).collect()
}

fn of_c(call: &str) -> Declaration {
    let (head, parameters) = call.trim_end_matches(')').split_once('(').expect("a call");
    let head = head.rsplit([';', '}']).next().expect("what stands last");
    let (answer, name) = head.trim().rsplit_once(' ').expect("an answer and a name");
    let parameters = parameters
        .split(',')
        .filter(|parameter| *parameter != "void");
    let types = parameters.map(|parameter| {
        let (kind, name) = parameter
            .trim()
            .rsplit_once([' ', '*'])
            .expect("a type and a name");
        let stars = parameter.matches('*').count();
        assert!(stars < 2 && !name.is_empty());
        type_of_c(kind.trim_end_matches([' ', '*']), stars == 1)
    });
    [name.to_string(), type_of_c(answer, false)]
        .into_iter()
        .chain(types)
        .collect()
}

fn type_of_c(kind: &str, pointer: bool) -> String {
    let (is_const, kind) = match kind.strip_prefix("const ") {
        Some(kind) => (true, kind),
        None => (false, kind),
    };
    let own = match kind {
        "uint8_t" | "char" => "u8",
        "uint32_t" => "u32",
        "size_t" => "usize",
        "void" => "()",
        "bites" => "Bites",
        "bites_cache" => "BitesCache",
        "bites_set" => "BitesSet",
        "bites_span" => "BitesSpan",
        "bites_size" => "BitesSize",
        "bites_table" => "BitesTable",
        other => panic!("no type {other}"),
    };
    match (pointer, is_const) {
        (false, _) => own.into(),
        (true, true) => format!("*const {own}"),
        (true, false) => format!("*mut {own}"),
    }
}

fn of_crate() -> Vec<Declaration> {
    let text = read("src/sys.rs");
    let (_, calls) = text.split_once("extern \"C\" {").expect("the calls");
    let calls = calls.split(';').filter_map(|call| call.split_once("fn "));
    calls.map(|(_, call)| of_rust(call)).collect()
}

fn of_rust(call: &str) -> Declaration {
    let (name, rest) = call.split_once('(').expect("a call");
    let (parameters, answer) = rest.split_once(')').expect("a call");
    let answer = answer.trim().strip_prefix("-> ").unwrap_or("()");
    let parameters = parameters
        .split(',')
        .map(str::trim)
        .filter(|part| !part.is_empty());
    let types = parameters.map(|part| part.split_once(": ").expect("a type").1.to_string());
    [name.to_string(), answer.to_string()]
        .into_iter()
        .chain(types)
        .collect()
}

#[test]
fn the_calls_are_those_of_the_header() {
    assert_eq!(of_crate(), of_header());
    assert!(of_crate().len() > 14);
}

/// Returns each struct of the header as a list of words: its name, and each field with its type.
fn structs_of_header() -> Vec<Declaration> {
    let text = header();
    let structs = text.split("typedef struct { ").skip(1).map(|part| {
        let (fields, rest) = part.split_once("; } ").expect("the end of a struct");
        let name = rest.split(';').next().expect("a name");
        let fields = fields.split("; ").flat_map(fields_of_c);
        [type_of_c(name, false)].into_iter().chain(fields).collect()
    });
    structs.collect()
}

/// Returns the fields of one line of a struct, each with its type.
fn fields_of_c(line: &str) -> Vec<String> {
    let (kind, names) = line.split_once(' ').expect("a type and names");
    let fields = names.split(", ").map(|name| match name.strip_prefix('*') {
        Some(name) => format!("{name}: *mut c_{kind}"),
        None => format!("{name}: {}", type_of_c(kind, false)),
    });
    fields.collect()
}

/// Returns each struct of the crate in the same form.
fn structs_of_crate() -> Vec<Declaration> {
    let text = read("src/sys.rs").replace("pub(crate) ", "");
    let structs = text.split("#[repr(C)]").skip(1).map(|part| {
        let (_, part) = part.split_once("struct ").expect("a struct");
        let (name, rest) = part.split_once(" {").expect("fields");
        let fields = rest.split('}').next().expect("fields").split(',');
        let fields = fields.map(str::trim).filter(|field| !field.is_empty());
        [name].into_iter().chain(fields).map(String::from).collect()
    });
    structs.collect()
}

#[test]
fn the_structs_are_those_of_the_header() {
    assert_eq!(structs_of_crate(), structs_of_header());
    assert_eq!(structs_of_crate().len(), 6);
}

/// Returns each name with its number.
fn numbers_of_header() -> HashMap<String, String> {
    let text = header().replace(['(', ')', '=', ','], " ");
    let words = text.split_whitespace().filter(|word| !word.ends_with("_t"));
    let words: Vec<&str> = words.collect();
    let pairs = words.windows(2).filter_map(|pair| {
        let name = pair[0].strip_prefix("BITES_")?;
        Some((name.to_string(), pair[1].to_string()))
    });
    pairs.collect()
}

#[test]
fn the_numbers_are_those_of_the_header() {
    let wanted = numbers_of_header();
    let text = read("src/sys.rs");
    let lines = text
        .lines()
        .filter_map(|line| line.strip_prefix("pub(crate) const "));
    let mut count = 0;
    for line in lines {
        let (name, rest) = line.split_once(": ").expect("a type");
        let (_, value) = rest
            .trim_end_matches(';')
            .split_once(" = ")
            .expect("a number");
        let value = value.replace("usize::MAX", "SIZE_MAX").replace('_', "");
        assert_eq!(wanted[name].replace('_', ""), value, "{name}");
        count += 1;
    }
    assert_eq!(count, 21);
}
