//! The C header and the raw declarations name what the proved source names: the same functions, parameters and types.
mod common;

use common::{functions, header_functions, read};

/// A number's type in C.
fn number(rust: &str) -> &str {
    match rust {
        "i16" => "int16_t",
        "u8" => "uint8_t",
        "u16" => "uint16_t",
        "u64" => "uint64_t",
        "usize" => "size_t",
        other => panic!("{other} is not passed"),
    }
}

/// A parameter of the proved source: a slice is passed as a pointer, then its length.
fn proved(parameter: &str) -> Vec<(String, String)> {
    let (name, kind) = parameter.split_once(": ").expect("a name and a type");
    let slice = |element: &str, form: &str| {
        let element = element.strip_suffix(']').expect("a slice");
        vec![(name.into(), format!("{form}{} *", number(element))), (format!("{name}_len"), "size_t".into())]
    };
    if let Some(element) = kind.strip_prefix("&mut [") {
        slice(element, "")
    } else if let Some(element) = kind.strip_prefix("&[") {
        slice(element, "const ")
    } else {
        vec![(name.into(), number(kind).into())]
    }
}

/// A parameter of the raw declarations.
fn raw(parameter: &str) -> Vec<(String, String)> {
    let (name, kind) = parameter.split_once(": ").expect("a name and a type");
    let kind = if let Some(element) = kind.strip_prefix("*mut ") {
        format!("{} *", number(element))
    } else if let Some(element) = kind.strip_prefix("*const ") {
        format!("const {} *", number(element))
    } else {
        number(kind).into()
    };
    vec![(name.into(), kind)]
}

fn arrow(_: &str, after: &str) -> bool {
    after.starts_with(" -> u64")
}

#[test]
fn header_and_raw_declarations_are_those_of_the_source() {
    let source = functions(&read("crates/qcldpc/src/lib.rt"), arrow, proved);
    assert_eq!(source.len(), 17);
    assert_eq!(functions(&read("bindings/rust/src/raw.rs"), arrow, raw), source);
    assert_eq!(header_functions(), source);
}
