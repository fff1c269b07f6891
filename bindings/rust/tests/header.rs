//! The declarations of src/ffi.rs are those of include/rdp6.h, and so are the numbers and the texts. The compiler does not check that.

use std::fs;
use std::path::Path;

use rdp6::Refusal;

fn read(file: &str) -> String {
    let path = Path::new(env!("CARGO_MANIFEST_DIR")).join(file);
    fs::read_to_string(&path).unwrap_or_else(|why| {
        panic!("{} cannot be read: {why}. This test needs the complete repository.", path.display())
    })
}

/// A function: its name, the types and names of its parameters, the type of its result, with the types of Rust.
#[derive(Debug, PartialEq, Eq)]
struct Function {
    name: String,
    parameters: Vec<(String, String)>,
    result: String,
}

/// C without comments and lines of the preprocessor.
fn plain_c(text: &str) -> String {
    let mut plain = String::new();
    let mut rest = text;
    while let Some(start) = rest.find("/*") {
        let end = rest[start..].find("*/").expect("a comment ends") + start + 2;
        plain.push_str(&rest[..start]);
        rest = &rest[end..];
    }
    plain.push_str(rest);
    plain.lines().filter(|line| !line.trim_start().starts_with('#')).collect::<Vec<_>>().join("\n")
}

fn rust_type(c: &str) -> &'static str {
    match c {
        "const uint8_t *" => "*const u8",
        "uint8_t *" => "*mut u8",
        "size_t" => "usize",
        "uint32_t" => "u32",
        "int64_t" => "i64",
        "bool" => "bool",
        other => panic!("a type that this test does not know: {other}"),
    }
}

fn words(text: &str) -> String {
    text.split_whitespace().collect::<Vec<_>>().join(" ")
}

/// The type and the name of `const uint8_t *src`.
fn c_declared(text: &str) -> (String, String) {
    let text = words(text);
    let start = text.rfind([' ', '*']).expect("a type and a name") + 1;
    (rust_type(text[..start].trim_end()).to_string(), text[start..].to_string())
}

/// The function that the header defines, and the header without it.
fn split_definition(plain: &str) -> (String, String) {
    let start = plain.find("static inline ").expect("a function");
    let end = plain[start..].find("\n}\n").expect("its end") + start + 3;
    (plain[start..end].to_string(), plain[..start].to_string() + &plain[end..])
}

/// The functions that the header declares.
fn c_functions(header: &str) -> Vec<Function> {
    let (_, plain) = split_definition(&plain_c(header));
    let statements = plain.split(';').filter(|statement| statement.contains('('));
    let function = |statement: &str| {
        let (head, rest) = statement.split_once('(').expect("parameters");
        let head = head.rsplit(['{', '}']).next().expect("what follows the last brace");
        let (result, name) = c_declared(head);
        let parameters = rest.trim_end().strip_suffix(')').expect("the end of the parameters");
        Function { name, parameters: parameters.split(',').map(c_declared).collect(), result }
    };
    statements.map(function).collect()
}

fn rust_functions(source: &str) -> Vec<Function> {
    let (_, block) = source.split_once("extern \"C\" {\n").expect("the block");
    let (block, _) = block.split_once("\n}").expect("its end");
    let function = |text: &str| {
        let text = words(text);
        let (name, rest) = text.strip_prefix("pub fn ").expect("a function").split_once('(').expect("parameters");
        let (parameters, result) = rest.split_once(") -> ").expect("a result");
        let parameter =
            |text: &str| text.trim().split_once(": ").map(|(name, kind)| (kind.to_string(), name.to_string()));
        Function {
            name: name.to_string(),
            parameters: parameters.split(',').filter_map(parameter).collect(),
            result: result.to_string(),
        }
    };
    block.split(';').filter(|text| !text.trim().is_empty()).map(function).collect()
}

#[test]
fn the_declarations_are_those_of_the_header() {
    let functions = c_functions(&read("../../include/rdp6.h"));
    assert_eq!(functions.len(), 20, "the functions of the header");
    assert_eq!(rust_functions(&read("src/ffi.rs")), functions);
}

/// Each edit of the header must be found.
#[test]
fn another_declaration_is_found() {
    let header = read("../../include/rdp6.h");
    let declared = rust_functions(&read("src/ffi.rs"));
    for (from, to) in [
        ("size_t dst_len, size_t width, size_t height);", "size_t dst_len, size_t height, size_t width);"),
        ("bool rle, bool alpha, uint32_t definition", "bool rle, bool alpha, size_t definition"),
        ("bool rle, bool alpha,", "bool alpha, bool rle,"),
        ("uint8_t *dst, size_t dst_len, bool rle", "const uint8_t *dst, size_t dst_len, bool rle"),
        ("size_t rdp6_image_size", "int64_t rdp6_image_size"),
        ("rdp6_encode_bitmap(", "rdp6_encode_pixels("),
        ("rdp6_stream_encode_bitmap(", "rdp6_encode_bitmap_stream("),
        ("int64_t rdp6_stream_decode(const uint8_t *stream", "int64_t rdp6_stream_decode(uint8_t *stream"),
        ("size_t rdp6_stream_work_size(const uint8_t *stream, size_t stream_len,", "size_t rdp6_stream_work_size("),
        ("const uint8_t *a, size_t a_len, ", ""),
        ("int64_t rdp6_encode_bitmap(uint32_t layout, ", "int64_t rdp6_encode_bitmap("),
        (
            "int64_t rdp6_stream_encode_bitmap_alpha(uint32_t layout",
            "int64_t rdp6_stream_encode_bitmap_alpha(bool layout",
        ),
        ("bool chroma_subsampling, uint32_t layout,", "uint32_t layout, bool chroma_subsampling,"),
        ("size_t rdp6_pixels_work_size(bool rle, bool alpha, ", "size_t rdp6_pixels_work_size(bool rle, "),
        ("rdp6_stream_pixels_work_size(", "rdp6_pixels_stream_work_size("),
    ] {
        let edited = header.replace(from, to);
        assert_ne!(edited, header, "nothing to edit: {from}");
        assert_ne!(c_functions(&edited), declared, "not found: {to}");
    }
}

/// The names and numbers of an enum of the header.
fn c_enum(header: &str, name: &str) -> Vec<(String, u8)> {
    let plain = plain_c(header);
    let (_, rest) = plain.split_once(&format!("enum {name} {{")).expect("the enum");
    let (cases, _) = rest.split_once('}').expect("its end");
    let case = |text: &str| {
        let (name, number) = text.split_once('=').expect("a name and a number");
        (name.trim().to_string(), number.trim().parse().expect("a number"))
    };
    cases.split(',').map(case).collect()
}

/// `RDP6_ZERO_SIZE` as `ZeroSize`.
fn rust_name(c: &str) -> String {
    let words = c.strip_prefix("RDP6_").expect("the library's prefix").split('_');
    words.map(|word| word[..1].to_string() + &word[1..].to_lowercase()).collect()
}

#[test]
fn the_refusals_are_those_of_the_header() {
    let cases = c_enum(&read("../../include/rdp6.h"), "rdp6_refusal");
    assert_eq!(cases.iter().map(|(_, number)| *number).collect::<Vec<_>>(), (1..=14).collect::<Vec<u8>>());
    for (name, number) in cases {
        let refusal = Refusal::try_from(number).expect("a refusal of that number");
        assert_eq!(format!("{refusal:?}"), rust_name(&name));
    }
}

#[test]
fn the_definitions_are_those_of_the_header() {
    let source = read("src/header.rs");
    for (name, number) in c_enum(&read("../../include/rdp6.h"), "rdp6_definition") {
        assert!(source.contains(&format!("const {name}: u32 = {number};")), "{name}");
    }
}

/// `RDP6_LAYOUT_BGRA` is the number of `BgrAChannels`, and so on.
#[test]
fn the_layouts_are_those_of_the_header() {
    let source = read("src/bitmap_stream/layout.rs");
    let cases = c_enum(&read("../../include/rdp6.h"), "rdp6_layout");
    assert_eq!(cases.len(), 4);
    for ((name, number), layout) in cases.into_iter().zip(["BgrA", "RgbA", "ARgb", "ABgr"]) {
        assert_eq!(name, format!("RDP6_LAYOUT_{}", layout.to_uppercase()));
        let constant = format!("const {name}: u32 = {number};");
        let used = format!("impl Layout for {layout}Channels {{\n    const NUMBER: u32 = {name};\n}}");
        assert!(source.contains(&constant) && source.contains(&used), "{name}");
    }
}

#[test]
fn the_largest_side_is_that_of_the_header() {
    let line = format!("#define RDP6_MAX_SIDE {}", rdp6::MAX_SIDE);
    assert!(read("../../include/rdp6.h").lines().any(|other| other == line), "{line}");
}

/// The labels of rdp6_refusal_text with their texts: `case RDP6_ZERO_SIZE` or `default`.
fn c_texts(header: &str) -> Vec<(String, String)> {
    let (definition, _) = split_definition(&plain_c(header));
    let (head, body) = definition.split_once("switch (number) {").expect("a switch over the number");
    assert_eq!(words(head), "static inline const char *rdp6_refusal_text(int64_t number) {");
    let case = |text: &str| {
        let (label, text) = text.split_once(':').expect("a label");
        let text = words(text);
        let text = text.strip_prefix("return \"").and_then(|text| text.strip_suffix('"')).expect("a text");
        (words(label), text.to_string())
    };
    body.split(';').filter(|text| text.contains(':')).map(case).collect()
}

/// The same from `Refusal`, in the order of the numbers.
fn rust_texts(header: &str) -> Vec<(String, String)> {
    let cases = c_enum(header, "rdp6_refusal").into_iter().map(|(name, number)| {
        let text = Refusal::try_from(number).expect("a refusal of that number").to_string();
        let text = text.strip_prefix(&format!("refusal {number}: ")).expect("the number comes first");
        (format!("case {name}"), text.to_string())
    });
    cases.chain([("default".to_string(), "no refusal has this number".to_string())]).collect()
}

#[test]
fn the_texts_are_those_of_the_header() {
    let header = read("../../include/rdp6.h");
    assert_eq!(rust_texts(&header).len(), 15);
    assert_eq!(c_texts(&header), rust_texts(&header));
}

#[test]
fn another_text_is_found() {
    let header = read("../../include/rdp6.h");
    for (from, to) in [
        ("\"a control byte is 0\"", "\"a control byte is 1\""),
        ("case RDP6_SHORT_PLANE:", "case RDP6_SHORT_IMAGE:"),
        ("\"the stream is empty\"", "\"a raw stream has no pad byte\""),
        ("    case RDP6_SHORT_WORK:\n        return \"the work area is shorter than its minimum size\";\n", ""),
        ("\"no refusal has this number\"", "\"\""),
    ] {
        let edited = header.replace(from, to);
        assert_ne!(edited, header, "nothing to edit: {from}");
        assert_ne!(c_texts(&edited), rust_texts(&header), "not found: {to}");
    }
}
