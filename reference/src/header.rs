//! The declarations in `linked` against the C header, argument by argument.

const HEADER: &str = include_str!("../../include/journeys.h");
const LINKED: &str = include_str!("linked.rs");

/// Name, arguments as (name, Rust type), and the type of the answer.
type Function = (String, Vec<(String, String)>, String);

fn rust_type(c: &str) -> String {
    let number = |c: &str| match c {
        "size_t" => "usize".to_string(),
        "struct journeys_answer" => "Answer".to_string(),
        c => c.replace("uint", "u").replace("_t", ""),
    };
    match (c.strip_suffix('*'), c.strip_prefix("const ")) {
        (Some(_), Some(c)) => format!("*const {}", number(c.trim_end_matches([' ', '*']))),
        (Some(c), None) => format!("*mut {}", number(c.trim())),
        _ => number(c),
    }
}

fn words(text: &str) -> String {
    text.split_whitespace().collect::<Vec<_>>().join(" ")
}

fn without_comments(text: &str) -> String {
    let pieces = text.split("/*").map(|piece| piece.split_once("*/").map_or(piece, |(_, p)| p));
    pieces.collect::<Vec<_>>().concat()
}

fn in_header() -> Vec<Function> {
    let plain = without_comments(HEADER);
    let mut found = Vec::new();
    for declaration in
        plain.split(';').filter(|text| text.contains("journeys_") && text.contains('('))
    {
        let (front, inside) = declaration.split_once('(').unwrap();
        let front = words(front.rsplit('}').next().unwrap());
        let (answer, name) = front.rsplit_once(' ').unwrap();
        let arguments = inside.trim_end_matches(')').split(',').map(|argument| {
            let argument = words(argument);
            let at = argument.rfind([' ', '*']).unwrap() + 1;
            (argument[at..].to_string(), rust_type(argument[..at].trim()))
        });
        found.push((name.to_string(), arguments.collect(), rust_type(answer)));
    }
    found
}

fn in_linked() -> Vec<Function> {
    let block = LINKED.split_once("extern \"C\" {").unwrap().1.split_once("\n}").unwrap().0;
    let mut found = Vec::new();
    for declaration in block.split(';').filter(|text| text.contains("fn ")) {
        let (front, rest) = declaration.split_once('(').unwrap();
        let (inside, answer) = rest.split_once(") -> ").unwrap();
        let arguments = inside.split(',').map(words).filter(|argument| !argument.is_empty());
        let arguments = arguments.map(|argument| {
            let (name, kind) = argument.split_once(": ").unwrap();
            (name.to_string(), kind.to_string())
        });
        found.push((
            front.trim().replace("fn ", ""),
            arguments.collect(),
            answer.trim().to_string(),
        ));
    }
    found
}

#[test]
fn declarations_are_those_of_the_header() {
    let (header, linked) = (in_header(), in_linked());
    assert_eq!(header.len(), 5);
    for (one, other) in header.iter().zip(&linked) {
        assert_eq!(one, other);
    }
    assert_eq!(header.len(), linked.len());
}

#[test]
fn the_answer_is_laid_out_as_in_the_header() {
    let plain = without_comments(HEADER);
    let fields = plain.split_once("struct journeys_answer {").unwrap().1.split_once('}').unwrap().0;
    let fields = words(fields);
    assert_eq!(fields, "uint8_t number; uint64_t place; uint64_t time; uint32_t count;");
    // C lays these out as 1 and 7 unused, 8, 8, 4 and 4 unused.
    assert_eq!(std::mem::size_of::<crate::columns::Answer>(), 32);
    assert_eq!(std::mem::offset_of!(crate::columns::Answer, place), 8);
    assert_eq!(std::mem::offset_of!(crate::columns::Answer, time), 16);
    assert_eq!(std::mem::offset_of!(crate::columns::Answer, count), 24);
}
