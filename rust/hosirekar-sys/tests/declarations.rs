//! Holds the declarations, the structs and the safe functions to the archive's own source.

#[path = "common/source.rs"]
mod source;
use source::*;

fn ours(file: &str) -> String {
    plain(&read(&package().join("src").join(file)))
}

/// A parameter as C has it: a list is a pointer and a length.
fn as_c((name, kind): &(String, String)) -> Vec<(String, String)> {
    let list = |pointer: &str, element: &str| {
        let element = element.strip_suffix(']').expect("a list's end");
        vec![
            (name.clone(), format!("{pointer} {element}")),
            (format!("{name}_len"), "usize".to_string()),
        ]
    };
    match (kind.strip_prefix("&["), kind.strip_prefix("&mut [")) {
        (Some(element), _) => list("*const", element),
        (_, Some(element)) => list("*mut", element),
        _ => vec![(name.clone(), kind.clone())],
    }
}

/// An argument as it is handed to C.
fn handed((name, kind): &(String, String)) -> String {
    if kind.starts_with("&mut [") {
        format!("{name}.as_mut_ptr(), {name}.len()")
    } else if kind.starts_with("&[") {
        format!("{name}.as_ptr(), {name}.len()")
    } else {
        name.clone()
    }
}

fn has_lists(shape: &Shape) -> bool {
    shape.parts.iter().any(|(_, kind)| kind.starts_with('&'))
}

#[test]
fn every_exported_function_is_declared_with_its_parameters() {
    let wanted: Shapes = exported()
        .into_iter()
        .map(|(name, shape)| {
            let parts = shape.parts.iter().flat_map(as_c).collect();
            (name, Shape { parts, ..shape })
        })
        .collect();
    let raw = ours("raw.rs").replace("pub safe fn", "pub fn");
    assert!(
        wanted.len() >= 35,
        "{} functions are exported",
        wanted.len()
    );
    assert_eq!(wanted, functions(&raw, "pub fn "));
}

#[test]
fn only_functions_without_lists_are_declared_safe() {
    let safe = functions(&ours("raw.rs"), "pub safe fn ");
    let wanted: Vec<String> = exported()
        .into_iter()
        .filter(|(_, shape)| !has_lists(shape))
        .map(|(name, _)| name)
        .collect();
    assert_eq!(wanted, safe.into_keys().collect::<Vec<_>>());
}

#[test]
fn every_safe_function_has_the_exported_parameters_and_hands_them_over_in_order() {
    let calls = ours("calls.rs");
    let wanted: Shapes = exported()
        .into_iter()
        .filter(|(_, shape)| has_lists(shape))
        .collect();
    let given = tight(&calls);
    for (name, shape) in &wanted {
        let arguments: Vec<String> = shape.parts.iter().map(handed).collect();
        let call = format!("unsafe {{ raw::{name}({}) }}", arguments.join(", "));
        assert!(given.contains(&tight(&call)), "no call as {call}");
    }
    assert_eq!(calls.matches("unsafe {").count(), wanted.len());
    assert_eq!(wanted, functions(&calls, "pub fn "));
}

/// The text without its spaces and without the comma before a closing bracket.
fn tight(text: &str) -> String {
    text.replace(' ', "").replace(",)", ")")
}

#[test]
fn every_struct_has_the_archives_fields_in_order() {
    let wanted = structs(&archive());
    assert!(wanted.len() >= 25, "{} structs are exported", wanted.len());
    assert_eq!(wanted, structs(&ours("structs.rs")));
}
