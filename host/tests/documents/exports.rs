//! The `extern "C"` block of the host is what the library exports.

use std::collections::BTreeMap;

use crate::project;
use crate::rust;

pub const EXPORTS: &str = "crates/cagvost/src/lib.rt";
const DECLARATIONS: &str = "host/src/library.rs";

/// Names and types, in their order.
type Fields = Vec<(String, String)>;

#[derive(PartialEq, Eq, Debug)]
pub struct Signature {
    arguments: Fields,
    pub returns: String,
}

#[test]
fn the_host_declares_every_exported_function_with_its_signature() {
    let exported = exported();
    let declared = declared();
    let names =
        |functions: &BTreeMap<String, Signature>| functions.keys().cloned().collect::<Vec<_>>();
    assert_eq!(
        names(&declared),
        names(&exported),
        "{DECLARATIONS} and {EXPORTS}"
    );
    for (name, function) in &exported {
        let as_c = Signature {
            arguments: function.arguments.iter().flat_map(as_c).collect(),
            returns: function.returns.clone(),
        };
        assert_eq!(
            declared[name], as_c,
            "{name} in {DECLARATIONS} and {EXPORTS}"
        );
    }
}

#[test]
fn the_host_has_the_returned_structs_field_by_field() {
    let host = rust::read(DECLARATIONS);
    for (name, path) in returned() {
        assert_eq!(
            fields(&host, &name, DECLARATIONS),
            fields(&rust::read(&path), &name, &path),
            "{name} in {DECLARATIONS} and {path}"
        );
    }
}

/// "The caller owes no prior check": and each promises something.
#[test]
fn no_exported_function_asks_anything_of_its_caller() {
    let words = rust::words(&rust::read(EXPORTS));
    let count = |word: &str| words.iter().filter(|w| *w == word).count();
    assert_eq!(count("requires"), 0, "{EXPORTS}");
    assert_eq!(count("ensures"), exported().len(), "{EXPORTS}");
}

/// The structs that exported functions return, with the files that declare them.
pub fn returned() -> Vec<(String, String)> {
    let uses = rust::uses(&rust::read(EXPORTS));
    let with_path = |name: String| {
        let used = uses.iter().find(|(used, _)| *used == name);
        let path = used.map_or(EXPORTS.to_string(), |(_, krate)| project::code_path(krate));
        (name, path)
    };
    let mut names: Vec<String> = exported().into_values().map(|f| f.returns).collect();
    names.sort();
    names.dedup();
    names.into_iter().map(with_path).collect()
}

/// The functions that the library exports. No other function of it is `extern`.
fn exported() -> BTreeMap<String, Signature> {
    let words = rust::words(&rust::read(EXPORTS));
    let mark = rust::words("#[unsafe(no_mangle)] pub extern \"C\" fn");
    let starts = (0..words.len()).filter(|&i| words[i..].starts_with(&mark));
    let functions: Vec<_> = starts
        .map(|i| signature(&words[i + mark.len()..]))
        .collect();
    let externs = words.iter().filter(|word| *word == "extern").count();
    assert_eq!(
        externs,
        functions.len(),
        "{EXPORTS}: an `extern` that is not {}",
        mark.concat()
    );
    functions.into_iter().collect()
}

/// The functions of the host's one `extern "C"` block.
fn declared() -> BTreeMap<String, Signature> {
    let words = rust::words(&rust::read(DECLARATIONS));
    let mark = rust::words("extern \"C\" {");
    let starts: Vec<usize> = (0..words.len())
        .filter(|&i| words[i..].starts_with(&mark))
        .collect();
    assert_eq!(starts.len(), 1, "{DECLARATIONS}: one block");
    let block = rust::braced(&words[starts[0] + mark.len() - 1..]);
    let functions = block.split(|word| word == "fn").skip(1);
    functions.map(signature).collect()
}

/// `name(arguments) -> Type`
fn signature(words: &[String]) -> (String, Signature) {
    let close = words
        .iter()
        .position(|word| word == ")")
        .expect("arguments end");
    let arguments = listed(&words[2..close]);
    assert_eq!(
        words[close + 1..close + 3].concat(),
        "->",
        "{} returns something",
        words[0]
    );
    let returns = words[close + 3].clone();
    (words[0].clone(), Signature { arguments, returns })
}

/// `name: type` between commas, with or without `pub` before it.
fn listed(words: &[String]) -> Fields {
    let items = words
        .split(|word| word == ",")
        .filter(|item| !item.is_empty());
    let field = |item: &[String]| {
        let colon = item
            .iter()
            .position(|word| word == ":")
            .expect("a name and its type");
        (item[colon - 1].clone(), item[colon + 1..].join(" "))
    };
    items.map(field).collect()
}

/// An argument of the library as C has it: a slice is a pointer and a length.
fn as_c((name, rust): &(String, String)) -> Fields {
    let slice = |pointer: &str| {
        let length = (format!("{name}_len"), "usize".to_string());
        vec![(name.clone(), pointer.to_string()), length]
    };
    match rust.as_str() {
        "& [ u8 ]" => slice("* const u8"),
        "& mut [ u8 ]" => slice("* mut u8"),
        "usize" | "u8" => vec![(name.clone(), rust.clone())],
        _ => panic!("{name}: {rust} has no counterpart here"),
    }
}

/// The fields of a struct that is laid out as in C.
fn fields(text: &str, name: &str, path: &str) -> Fields {
    let types = rust::types(text);
    let found = types.iter().find(|t| t.name == name && !t.is_enum);
    let found = found.unwrap_or_else(|| panic!("{path} has no struct {name}"));
    assert!(found.is_c, "{path}: {name} is not #[repr(C)]");
    listed(&found.body)
}
