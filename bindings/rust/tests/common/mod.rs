//! What the tests share: the repository's files, and the functions that a text declares.
#![allow(dead_code)] // each test uses a part
use std::fs;
use std::path::{Path, PathBuf};

/// A function's name, and its parameters as C sees them: name and type.
pub type Function = (String, Vec<(String, String)>);

/// Where a path of the repository is.
pub fn place(path: &str) -> PathBuf {
    Path::new(env!("CARGO_MANIFEST_DIR")).join("../..").join(path)
}

pub fn read(path: &str) -> String {
    fs::read_to_string(place(path)).unwrap_or_else(|error| panic!("{path}: {error}"))
}

/// The functions that a text declares, in the order of their names.
pub fn functions(text: &str, result: fn(&str, &str) -> bool, parameter: fn(&str) -> Vec<(String, String)>) -> Vec<Function> {
    let mut found = Vec::new();
    for (start, _) in text.match_indices("qcldpc_") {
        let (before, rest) = text.split_at(start);
        let Some((name, rest)) = rest.split_once('(') else { continue };
        if !name.bytes().all(|b| b == b'_' || b.is_ascii_lowercase()) {
            continue;
        }
        let (inside, after) = rest.split_once(')').expect("a closing parenthesis");
        assert!(result(before, after), "the result of {name}");
        let one_line = inside.split_whitespace().collect::<Vec<_>>().join(" ");
        let parameters = one_line.split(',').map(str::trim).filter(|p| !p.is_empty());
        found.push((name.into(), parameters.flat_map(parameter).collect()));
    }
    found.sort();
    found
}

// A parameter of the header.
fn header(parameter: &str) -> Vec<(String, String)> {
    let at = parameter.rfind([' ', '*']).expect("a type and a name") + 1;
    vec![(parameter[at..].into(), parameter[..at].trim_end().into())]
}

/// The functions of `include/qcldpc.h`.
pub fn header_functions() -> Vec<Function> {
    functions(&read("include/qcldpc.h"), |before, _| before.ends_with("uint64_t "), header)
}
