//! Holds the header for C to the archive's own source, and to the sizes and places that Rust gives to the
//! fields of its structs.

#[path = "common/compiler.rs"]
mod compiler;
#[path = "common/source.rs"]
mod source;
use compiler::{Language, C, CPP};
use hosirekar_sys::*;
use source::*;
use std::collections::BTreeSet;
use std::mem::{offset_of, size_of};
use std::path::Path;

/// A name of the archive's in C, where all names share one space: `CPlane` is `HosirekarPlane`. The
/// record of a cell has no `C` before its name.
fn c_type(kind: &str) -> String {
    let known = match kind {
        "f32" => "float",
        "bool" => "bool",
        "u8" => "uint8_t",
        "u16" => "uint16_t",
        "u32" => "uint32_t",
        "usize" => "size_t",
        "Cell" => "HosirekarCell",
        _ => {
            let name = kind.strip_prefix('C').expect("a struct");
            return format!("Hosirekar{name}");
        }
    };
    known.to_string()
}

/// A field or a parameter by value. An array has its length behind its name.
fn by_value(name: &str, kind: &str) -> String {
    let array = kind.strip_prefix('[').and_then(|kind| {
        let (element, length) = kind.strip_suffix(']')?.split_once("; ")?;
        Some(format!("{} {name}[{length}]", c_type(element)))
    });
    array.unwrap_or_else(|| format!("{} {name}", c_type(kind)))
}

/// A parameter: a list is a pointer and a length.
fn parameter((name, kind): &(String, String)) -> String {
    let list = |mark: &str, element: &str| {
        let element = c_type(element.strip_suffix(']').expect("a list's end"));
        format!("{mark}{element} *{name}, size_t {name}_len")
    };
    match (kind.strip_prefix("&["), kind.strip_prefix("&mut [")) {
        (Some(element), _) => list("const ", element),
        (_, Some(element)) => list("", element),
        _ => by_value(name, kind),
    }
}

fn function((name, shape): (&String, &Shape)) -> String {
    let parameters: Vec<String> = shape.parts.iter().map(parameter).collect();
    let parameters = parameters.join(", ");
    format!("{} {name}({parameters})", c_type(&shape.result))
}

fn structure((name, shape): (&String, &Shape)) -> String {
    let field = |(name, kind): &(String, String)| format!("{};", by_value(name, kind));
    let fields: Vec<String> = shape.parts.iter().map(field).collect();
    let name = c_type(name);
    format!("typedef struct {name} {{ {} }} {name}", fields.join(" "))
}

fn source_structs() -> Shapes {
    structs(&archive())
}

/// `NoFace` as `NO_FACE`.
fn upper(name: &str) -> String {
    let letter = |(k, x): (usize, char)| {
        let gap = if k > 0 && x.is_uppercase() { "_" } else { "" };
        format!("{gap}{}", x.to_ascii_uppercase())
    };
    name.char_indices().map(letter).collect()
}

/// The cases of a function that matches on an enum, each with what it gives.
fn cases(text: &str, function: &str, kind: &str) -> Vec<(String, String)> {
    let (_, body) = text
        .split_once(&format!("fn {function}("))
        .expect("a function");
    let (_, body) = body.split_once("match ").expect("a match");
    let (_, body) = body.split_once('{').expect("its cases");
    let (body, _) = body.split_once('}').expect("their end");
    let case = |case: &str| {
        let (name, given) = case.split_once(" => ").expect("a case");
        let (name, _) = name.split_once('(').unwrap_or((name, ""));
        let given = given.trim_end().trim_end_matches(',');
        (upper(name), given.to_string())
    };
    body.split(&format!("{kind}::")).skip(1).map(case).collect()
}

/// The numbers of reasons and of kinds of faces, from the functions that number them.
fn told() -> [String; 2] {
    let text = plain(&read(Path::new("../../crates/heightmap_why/src/lib.rt")));
    let reasons = cases(&text, "reason_code", "Reason");
    let kinds = cases(&text, "kind_code", "Name");
    assert_eq!(
        (reasons.len(), kinds.len()),
        (4, 2),
        "{reasons:?}, {kinds:?}"
    );
    let listed = |name: &str, cases: Vec<(String, String)>| {
        let case = |(case, given)| format!("HOSIREKAR_{case} = {given}");
        let cases: Vec<String> = cases.into_iter().map(case).collect();
        format!("enum {name} {{ {} }}", cases.join(", "))
    };
    [
        listed("HosirekarReason", reasons),
        listed("HosirekarKind", kinds),
    ]
}

/// The numbers of answers, from the functions that number the refusals and the buffers that are short.
fn numbers() -> String {
    let text = plain(&read(Path::new("../../crates/answer/src/answer.rt")));
    let buffers = cases(&text, "room_code", "Buffer");
    assert_eq!(buffers.len(), 4, "{buffers:?}");
    let refusals = cases(&text, "refusal_code", "Refusal");
    assert!(refusals.len() >= 12, "{refusals:?}");
    let numbers = refusals.into_iter().flat_map(|(name, given)| {
        if given != "room_code(buffer)" {
            return vec![format!("HOSIREKAR_{name} = {given}")];
        }
        let each = buffers.iter();
        each.map(|(buffer, number)| format!("HOSIREKAR_{name}_{buffer} = {number}"))
            .collect()
    });
    let numbers: Vec<String> = numbers.collect();
    let numbers = numbers.join(", ");
    format!("enum HosirekarNumber {{ HOSIREKAR_DONE = 0, {numbers} }}")
}

/// What the header declares, without comments and the lines of the preprocessor.
fn declared() -> Vec<String> {
    let text = read(&package().join("include/hosirekar.h"));
    let mut parts = text.split("/*");
    let first = parts.next().unwrap_or("").to_string();
    let text = parts.fold(first, |kept, part| {
        kept + part.split_once("*/").expect("a comment's end").1
    });
    let lines = text.lines().filter(|line| !line.starts_with('#'));
    let words: Vec<&str> = lines.flat_map(str::split_whitespace).collect();
    let text = words.join(" ").replace("( ", "(");
    let text = text.strip_prefix("extern \"C\" {").expect("for C++ too");
    statements(text.strip_suffix('}').expect("its end"))
}

/// The text between semicolons that stand in no braces.
fn statements(text: &str) -> Vec<String> {
    let (mut depth, mut made) = (0, vec![String::new()]);
    for letter in text.chars() {
        match letter {
            '{' => depth += 1,
            '}' => depth -= 1,
            _ => (),
        }
        match letter {
            ';' if depth == 0 => made.push(String::new()),
            _ => made.last_mut().unwrap().push(letter),
        }
    }
    let made = made.iter().map(|text| text.trim().to_string());
    made.filter(|text| !text.is_empty()).collect()
}

#[test]
fn the_header_declares_what_the_archive_has() {
    let (functions, structs) = (exported(), source_structs());
    assert!(functions.len() >= 35 && structs.len() >= 25);
    let wanted = functions.iter().map(function);
    let wanted = wanted.chain(structs.iter().map(structure));
    let wanted: BTreeSet<String> = wanted.chain([numbers()]).chain(told()).collect();
    let given = declared();
    let once: BTreeSet<String> = given.iter().cloned().collect();
    let missing: Vec<&String> = wanted.difference(&once).collect();
    let strange: Vec<&String> = once.difference(&wanted).collect();
    assert!(
        missing.is_empty() && strange.is_empty(),
        "the source has {missing:#?}, the header {strange:#?}"
    );
    assert_eq!(given.len(), once.len(), "a declaration stands there twice");
}

/// The size of a struct, and its fields with their places.
type Layout = (&'static str, usize, Vec<(&'static str, usize)>);

macro_rules! layouts {
    ($($name:ident { $($field:ident)* })*) => {
        vec![$((
            stringify!($name),
            size_of::<$name>(),
            vec![$((stringify!($field), offset_of!($name, $field))),*],
        )),*]
    };
}

/// What Rust makes of each struct.
fn layouts() -> Vec<Layout> {
    layouts! {
        CVec2 { x y }
        CVec3 { x y z }
        CCounts { vertices indices }
        CChoice3 { given value }
        CTurn { given first second third }
        CPlacement { scale turn offset }
        CAnswer { number spare vertices indices need }
        CCentroid { answer centroid }
        CUvCentroid { answer centroid }
        CFile { answer bytes }
        CFaces { answer faces }
        CWindow { answer first_vertex first_index vertices indices }
        CWhy { answer reason height face }
        CWhich { answer kind side cell }
        CFlip { u v }
        CUvOptions { scale offset min max flip }
        CChoice { given option }
        CSubdivisions { given number }
        CPlane { position option placement }
        CColumn { height subdivisions sides top bottom position placement }
        CCheapColumn { centre height }
        CRange { given min max }
        COrigin { given at }
        CHeightMap { caps sides customs fringe range origin placement }
        Cell { height x z ends neighbours }
    }
}

#[test]
fn every_field_of_every_struct_is_measured() {
    let fields = |layout: &Layout| {
        let fields = layout.2.iter().map(|(field, _)| field.to_string());
        (layout.0.to_string(), fields.collect::<Vec<_>>())
    };
    let mut measured: Vec<_> = layouts().iter().map(fields).collect();
    measured.sort();
    let fields = |(name, shape): (String, Shape)| {
        let fields = shape.parts.into_iter().map(|(field, _)| field);
        (name, fields.collect::<Vec<_>>())
    };
    let wanted: Vec<_> = source_structs().into_iter().map(fields).collect();
    assert_eq!(measured, wanted);
}

/// Lines that hold the sizes, the places and the numbers that have names.
fn lines() -> Vec<String> {
    let hold = |what: String, wanted: usize| format!("hold(\"{what}\", {what}, {wanted}u);");
    let mut lines: Vec<String> = Vec::new();
    for (name, size, fields) in layouts() {
        let name = c_type(name);
        lines.push(hold(format!("sizeof({name})"), size));
        let fields = fields.into_iter();
        lines.extend(fields.map(|(field, at)| hold(format!("offsetof({name}, {field})"), at)));
    }
    let named = [
        ("DEFAULT", 255),
        ("NO_CELL", u32::MAX),
        ("FRINGE_NONE", 1),
        ("FRINGE_LISTED", 2),
    ];
    lines.extend(named.map(|(name, value)| hold(format!("HOSIREKAR_{name}"), value as usize)));
    lines
}

/// A program that tells what differs and how much it held, and that needs every function to be linked.
fn program() -> String {
    let functions: Vec<String> = exported()
        .keys()
        .map(|name| format!("(Function){name},"))
        .collect();
    format!(
        "#include \"hosirekar.h\"
#include <stdio.h>
typedef void (*Function)(void);
Function functions[] = {{ {} }};
static unsigned long held = 0;
static void hold(const char *what, size_t made, size_t wanted) {{
    held++;
    if (made != wanted)
        printf(\"%s is %lu, not %lu\\n\", what, (unsigned long)made, (unsigned long)wanted);
}}
int main(void) {{
    {}
    printf(\"%lu held\\n\", held);
    return 0;
}}
",
        functions.join(" "),
        lines().join("\n    ")
    )
}

fn hold_layout(language: &Language) {
    if let Some(printed) = language.run("the header's layout", &program()) {
        assert_eq!(printed, format!("{} held\n", lines().len()));
    }
}

#[test]
fn c_lays_structs_out_as_rust_does() {
    hold_layout(&C);
}

#[test]
fn cpp_lays_structs_out_as_rust_does() {
    hold_layout(&CPP);
}
