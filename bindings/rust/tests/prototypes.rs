//! The functions are declared three times: in Rattle, in the C header and in this crate. A difference would be a call with wrong
//! arguments, which no compiler sees; so the three texts are read here and compared. (A function that the library lacks does not link.)
use std::collections::BTreeMap;

use heddleplume::Refusal;

const HEADER: &str = include_str!("../../../include/heddleplume.h");
const OURS: &str = include_str!("../src/ffi.rs");
const RATTLE: &str = include_str!("../../../crates/heddleplume/src/lib.rt");

/// Each function's parameters, `name: type` in Rust's words.
type Prototypes = BTreeMap<String, Vec<String>>;

/// Reads every `KEYWORD heddleplume_name(parameters)` of a text; `read` says what a parameter is.
fn prototypes(text: &str, keyword: &str, read: fn(&str) -> Vec<String>) -> Prototypes {
    let before_name = format!("{keyword} heddleplume_");
    let declared = text.split(&before_name).skip(1);
    let each = declared.map(|rest| {
        let (name, rest) = rest.split_once('(').expect("parameters follow the name");
        let (parameters, _) = rest.split_once(')').expect("they end");
        let words = parameters.split(',').map(|parameter| parameter.split_whitespace().collect::<Vec<_>>().join(" "));
        (name.to_string(), words.filter(|parameter| !parameter.is_empty()).flat_map(|parameter| read(&parameter)).collect())
    });
    each.collect()
}

fn from_rust(parameter: &str) -> Vec<String> {
    vec![parameter.to_string()]
}

fn from_c(parameter: &str) -> Vec<String> {
    let end = parameter.rfind([' ', '*']).expect("a type and a name") + 1;
    let (kind, name) = parameter.split_at(end);
    let kind = match kind.trim() {
        "double" => "f64",
        "const double *" => "*const f64",
        "double *" => "*mut f64",
        "uint32_t" => "u32",
        "uint32_t *" => "*mut u32",
        "uint64_t *" => "*mut u64",
        "int32_t *" => "*mut i32",
        "const int32_t *" => "*const i32",
        "uint8_t *" => "*mut u8",
        "const uint8_t *" => "*const u8",
        "size_t" => "usize",
        "bool" => "bool",
        other => panic!("a type that is not known here: {other}"),
    };
    vec![format!("{name}: {kind}")]
}

/// A slice of Rattle is a pointer and a length in C.
fn from_rattle(parameter: &str) -> Vec<String> {
    let (name, kind) = parameter.split_once(": ").expect("a name and a type");
    let element = kind.trim_start_matches("&mut [").trim_start_matches("&[").trim_end_matches(']');
    let pointer = if kind.starts_with("&mut") { "*mut" } else { "*const" };
    if !kind.starts_with('&') {
        return vec![parameter.to_string()];
    }
    vec![format!("{name}: {pointer} {element}"), format!("{name}_len: usize")]
}

#[test]
fn header_and_crate_declare_the_same() {
    let header = prototypes(HEADER, "uint32_t", from_c);
    assert_eq!(header.len(), 32);
    assert_eq!(header, prototypes(OURS, "fn", from_rust));
}

#[test]
fn every_exported_function_is_declared_as_it_is() {
    let header = prototypes(HEADER, "uint32_t", from_c);
    let exported = prototypes(RATTLE, "extern \"C\" fn", from_rattle);
    assert!(!exported.is_empty());
    for (name, parameters) in exported {
        assert_eq!(header.get(&name), Some(&parameters), "heddleplume_{name}");
    }
}

/// BadFrame is HEDDLEPLUME_BAD_FRAME, and so on.
#[test]
fn header_has_every_refusal() {
    for refusal in Refusal::ALL {
        let named = format!("{refusal:?}").chars().fold(String::new(), |name, letter| match letter {
            'A'..='Z' => format!("{name}_{letter}"),
            _ => format!("{name}{}", letter.to_ascii_uppercase()),
        });
        let constant = format!("HEDDLEPLUME{named} = {}", refusal.number());
        assert!(HEADER.contains(&format!("{constant},")) || HEADER.contains(&format!("{constant} ")), "{constant}");
    }
}
