//! A card as text, one record per line, `#` begins a comment:
//!
//!   head 7 8              nodes, edges
//!   node foot 0           mode (number or word), rank (number or `core`)
//!   edge 0 1 foot 4       tail, head, mode, length
//!   sheet 2               states
//!   state modes=0b10 next=0b10 ends=3
//!   question 0 6          from, to
//!   end
//!   bytes 07 ff           bytes as they are, in hexadecimal
//!
//! `bytes` carries what does not decode (an unknown kind or a cut body, and
//! all behind it), so card to text to card gives every stream back unchanged.
//! Text may hold records in any order: damaged cards are cards too.

use crate::card::{find, Found, Record};
use crate::network::{Edge, Node, State, CORE};

const MODE_WORDS: [(&str, u8); 3] = [("link", 0), ("foot", 1), ("rail", 2)];

pub fn from_card(bytes: &[u8]) -> String {
    let mut text = String::new();
    let (mut offset, mut nodes, mut edges) = (0, 0, 0);
    while let Found::Record(record) = find(bytes, offset) {
        let mut line = line_of(&record);
        // The numbers other records use, as a comment for the reader.
        if let Record::Node(_) = record {
            line = format!("{line:<24}# node {nodes}");
            nodes += 1;
        }
        if let Record::Edge(_) = record {
            line = format!("{line:<24}# edge {edges}");
            edges += 1;
        }
        text.push_str(&line);
        text.push('\n');
        offset += record.size();
    }
    if offset < bytes.len() {
        text.push_str(&format!("# no whole record at offset {offset}\n"));
        for chunk in bytes[offset..].chunks(16) {
            let hex: Vec<String> = chunk.iter().map(|b| format!("{b:02x}")).collect();
            text.push_str(&format!("bytes {}\n", hex.join(" ")));
        }
    }
    text
}

fn line_of(record: &Record) -> String {
    match record {
        Record::End => "end".to_string(),
        Record::Head { nodes, edges } => format!("head {nodes} {edges}"),
        Record::Node(n) if n.rank == CORE => format!("node {} core", mode_word(n.mode)),
        Record::Node(n) => format!("node {} {}", mode_word(n.mode), n.rank),
        Record::Edge(e) => {
            format!("edge {} {} {} {}", e.tail, e.head, mode_word(e.mode), e.length)
        }
        Record::State(s) => {
            format!("state modes={:#b} next={:#b} ends={}", s.modes, s.next, s.ends)
        }
        Record::Question { from, to } => format!("question {from} {to}"),
        Record::Sheet { states } => format!("sheet {states}"),
    }
}

fn mode_word(mode: u8) -> String {
    match MODE_WORDS.iter().find(|(_, number)| *number == mode) {
        Some((word, _)) => word.to_string(),
        None => mode.to_string(),
    }
}

/// The same for bytes that may not be text at all.
pub fn bytes_to_card(bytes: &[u8]) -> Result<Vec<u8>, String> {
    match std::str::from_utf8(bytes) {
        Ok(text) => to_card(text),
        Err(error) => {
            let before = &bytes[..error.valid_up_to()];
            let line = 1 + before.iter().filter(|&&b| b == b'\n').count();
            Err(format!("line {line}: not UTF-8"))
        }
    }
}

/// The card, or what is wrong and in which line (counted from 1).
pub fn to_card(text: &str) -> Result<Vec<u8>, String> {
    let mut bytes = Vec::new();
    for (number, line) in text.lines().enumerate() {
        let words: Vec<&str> =
            line.split('#').next().unwrap_or("").split_ascii_whitespace().collect();
        if let Some((kind, rest)) = words.split_first() {
            match line_bytes(kind, rest) {
                Ok(more) => bytes.extend(more),
                Err(wrong) => return Err(format!("line {}: {wrong}", number + 1)),
            }
        }
    }
    Ok(bytes)
}

fn line_bytes(kind: &str, rest: &[&str]) -> Result<Vec<u8>, String> {
    let record = match (kind, rest) {
        ("bytes", hex) => return hex.iter().map(|word| hex_byte(word)).collect(),
        ("end", []) => Record::End,
        ("head", [nodes, edges]) => Record::Head { nodes: number(nodes)?, edges: number(edges)? },
        ("node", [m, rank]) => Record::Node(Node { mode: mode(m)?, rank: read_rank(rank)? }),
        ("edge", [tail, head, m, length]) => Record::Edge(Edge {
            tail: number(tail)?,
            head: number(head)?,
            mode: mode(m)?,
            length: number(length)?,
        }),
        ("sheet", [states]) => Record::Sheet { states: small(states)? },
        ("state", [modes, next, ends]) => Record::State(State {
            modes: named("modes", modes)?,
            next: named("next", next)?,
            ends: named("ends", ends)?,
        }),
        ("question", [from, to]) => Record::Question { from: number(from)?, to: number(to)? },
        ("end" | "head" | "node" | "edge" | "sheet" | "state" | "question", _) => {
            return Err(format!("`{kind}` with {} words behind it", rest.len()))
        }
        _ => return Err(format!("unknown record `{kind}`")),
    };
    Ok(record.bytes())
}

/// Decimal digits without leading zeros.
pub fn digits(word: &str) -> Option<u64> {
    let plain = word.bytes().all(|b| b.is_ascii_digit());
    let leading_zero = word.len() > 1 && word.starts_with('0');
    if plain && !leading_zero {
        word.parse().ok()
    } else {
        None
    }
}

fn number(word: &str) -> Result<u16, String> {
    let value = digits(word).and_then(|n| u16::try_from(n).ok());
    value.ok_or_else(|| format!("`{word}` is no number from 0 to 65535"))
}

/// A byte: decimal, or binary with `0b` in front.
fn small(word: &str) -> Result<u8, String> {
    let value = match word.strip_prefix("0b") {
        Some(bits) if bits.bytes().all(|b| b == b'0' || b == b'1') => {
            u8::from_str_radix(bits, 2).ok()
        }
        _ => digits(word).and_then(|n| u8::try_from(n).ok()),
    };
    value.ok_or_else(|| format!("`{word}` is no number from 0 to 255"))
}

fn mode(word: &str) -> Result<u8, String> {
    match MODE_WORDS.iter().find(|(name, _)| *name == word) {
        Some((_, mode)) => Ok(*mode),
        None => small(word),
    }
}

fn read_rank(word: &str) -> Result<u16, String> {
    if word == "core" {
        Ok(CORE)
    } else {
        number(word)
    }
}

fn named(name: &str, word: &str) -> Result<u8, String> {
    match word.split_once('=') {
        Some((given, value)) if given == name => small(value),
        _ => Err(format!("`{word}` stands where `{name}=...` belongs")),
    }
}

fn hex_byte(word: &str) -> Result<u8, String> {
    let two_digits = word.len() == 2 && word.bytes().all(|b| b.is_ascii_hexdigit());
    let value = if two_digits { u8::from_str_radix(word, 16).ok() } else { None };
    value.ok_or_else(|| format!("`{word}` is no byte of two hexadecimal digits"))
}
