//! The declarations of `src/exports.rs` are those of the C header: names, order and widths. Each `unsafe` block of
//! `src/sys.rs` says why it is sound.
use std::fs;
use std::path::Path;

fn text(path: &str) -> String {
    let path = Path::new(env!("CARGO_MANIFEST_DIR")).join(path);
    fs::read_to_string(&path).unwrap_or_else(|e| panic!("{}: {}", path.display(), e))
}

/// The text between two marks, and what follows the second.
fn between<'a>(s: &'a str, open: &str, close: &str) -> Option<(&'a str, &'a str)> {
    let (_, s) = s.split_once(open)?;
    s.split_once(close)
}

/// Every text that stands between two marks.
fn all_between<'a>(mut s: &'a str, open: &str, close: &str) -> Vec<&'a str> {
    let mut found = Vec::new();
    while let Some((part, rest)) = between(s, open, close) {
        found.push(part);
        s = rest;
    }
    found
}

fn without_comments(mut s: &str) -> String {
    let mut kept = String::new();
    while let Some((before, rest)) = s.split_once("/*") {
        kept.push_str(before);
        s = rest.split_once("*/").expect("a comment ends").1;
    }
    kept + s
}

/// A type of C as Rust writes it.
fn rust_type(c: &str) -> String {
    match c.trim() {
        "uint8_t" => "u8".into(),
        "uint32_t" => "u32".into(),
        "uint64_t" => "u64".into(),
        "size_t" => "usize".into(),
        other => other.strip_prefix("Galdovar").expect("a struct of the header").into(),
    }
}

/// A field or a parameter of C, `const uint8_t *path` or `uint8_t used[256]`, as Rust writes it.
fn rust_variable(c: &str) -> String {
    if let Some((kind, name)) = c.split_once('*') {
        return match kind.trim().strip_prefix("const ") {
            Some(kind) => format!("{}: *const {}", name.trim(), rust_type(kind)),
            None => format!("{}: *mut {}", name.trim(), rust_type(kind)),
        };
    }
    let (kind, name) = c.trim().rsplit_once(' ').expect("a type and a name");
    match name.strip_suffix(']').and_then(|n| n.split_once('[')) {
        Some((name, size)) => format!("{}: [{}; {}]", name, rust_type(kind), size),
        None => format!("{}: {}", name, rust_type(kind)),
    }
}

fn of_header(header: &str) -> Vec<String> {
    let mut found = Vec::new();
    for part in all_between(header, "typedef struct Galdovar", "}") {
        let (name, fields) = part.split_once('{').expect("a struct has fields");
        let fields = fields.split(';').filter(|f| !f.trim().is_empty()).map(rust_variable);
        found.push(format!("{} {{ {} }}", name.trim(), fields.collect::<Vec<_>>().join(", ")));
    }
    for line in header.lines().filter(|l| l.contains(" galdovar_")) {
        let (answer, rest) = line.split_once(' ').expect("a type and a name");
        let (name, rest) = rest.split_once('(').expect("a function has parameters");
        let parameters = rest.trim_end_matches(");").split(',').map(rust_variable);
        let parameters = parameters.collect::<Vec<_>>().join(", ");
        found.push(format!("{}({}) -> {}", name, parameters, rust_type(answer)));
    }
    found
}

/// Items as rustfmt lays them out, each on one line.
fn joined(items: &str) -> String {
    let words = items.replace("pub ", "");
    let items = words.split(',').map(str::trim).filter(|i| !i.is_empty());
    items.collect::<Vec<_>>().join(", ")
}

fn of_exports(exports: &str) -> Vec<String> {
    let mut found = Vec::new();
    for part in all_between(exports, "pub struct ", "}") {
        let (name, fields) = part.split_once('{').expect("a struct has fields");
        found.push(format!("{} {{ {} }}", name.trim(), joined(fields)));
    }
    let (functions, _) = between(exports, "extern \"C\" {", "\n}").expect("the functions");
    for part in all_between(functions, "fn ", ";") {
        let (name, rest) = part.split_once('(').expect("a function has parameters");
        let (parameters, answer) = rest.split_once(") -> ").expect("a function has an answer");
        found.push(format!("{}({}) -> {}", name, joined(parameters), answer));
    }
    found
}

#[test]
fn declarations_are_those_of_the_header() {
    let mut header = of_header(&without_comments(&text("../crates/gateway/galdovar.h")));
    let mut exports = of_exports(&text("src/exports.rs"));
    assert!(header.len() > 30, "{} declarations in the header", header.len());
    header.sort();
    exports.sort();
    assert_eq!(exports, header);
}

#[test]
fn structs_are_laid_out_as_in_c() {
    let exports = text("src/exports.rs");
    let parts: Vec<_> = exports.split("pub struct ").collect();
    assert_eq!(parts.len() - 1, 15, "structs of the header");
    for before in &parts[..parts.len() - 1] {
        // The attributes of an item stand behind the last empty line.
        let attributes = before.rsplit("\n\n").next().expect("one part at least");
        assert!(attributes.contains("#[repr(C)]"), "a struct without #[repr(C)]: {}", attributes);
    }
}

#[test]
fn every_unsafe_block_says_why_it_is_sound() {
    let sys = text("src/sys.rs");
    let lines: Vec<_> = sys.lines().map(str::trim).collect();
    let blocks: Vec<_> = (1..lines.len()).filter(|k| lines[*k].contains("unsafe {")).collect();
    assert_eq!(blocks.len(), 20, "one block for each call");
    for k in blocks {
        assert!(lines[k - 1].starts_with("// SAFETY: "), "{}", lines[k]);
    }
}
