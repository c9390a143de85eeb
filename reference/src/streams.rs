//! The stored streams that the proved program `streams` answers: 01's stream,
//! each refusal by a card of its own, cut streams and the empty stream.
//!
//! `stored` makes the program's input, and `owed` what it must write for it.
//! `shows` is written by hand from 01 and stands beside each stream, so that
//! the answers of this program are held to something too.

use crate::answer::{answer, print};
use crate::card::{of_sheet, write, Record};
use crate::cases::{reference_card, REFERENCE_LINES};
use crate::extremes::star;
use crate::network::{Network, Sheet, State};
use crate::text;

pub struct Stream {
    pub name: String,
    pub bytes: Vec<u8>,
    /// The lines that 01 asks for.
    pub shows: String,
}

fn stream(name: &str, bytes: Vec<u8>, shows: &str) -> Stream {
    Stream { name: name.to_string(), bytes, shows: shows.to_string() }
}

fn written(name: &str, card: &str, shows: &str) -> Stream {
    let bytes = text::to_card(card).unwrap_or_else(|wrong| panic!("{name}: {wrong}"));
    stream(name, bytes, shows)
}

/// Two foot nodes and a way from one to the other: 21 bytes.
const WAY: &str = "head 2 1\nnode foot 0\nnode foot 0\nedge 0 1 foot 4\n";
/// A sheet that lets one walk: 6 bytes.
const WALK: &str = "sheet 1\nstate modes=0b10 next=0b0 ends=3\n";

/// 01's stream, whole.
fn reference() -> Vec<u8> {
    write(&reference_card())
}

/// 01's stream with the first such line made another.
fn reference_with(old: &str, new: &str) -> String {
    let whole = text::from_card(&reference());
    let (before, after) = whole.split_once(old).unwrap_or_else(|| panic!("no line {old}"));
    format!("{before}{new}{after}")
}

pub fn all() -> Vec<Stream> {
    let mut all = vec![stream("reference", reference(), REFERENCE_LINES)];
    all.extend(sizes());
    all.extend(nodes_and_edges());
    all.extend(transfer_nodes());
    all.extend(sheets());
    all.extend(questions());
    all.extend(rows());
    all.extend(unknown_and_misplaced());
    all.extend(cut());
    all.extend(behind_the_end());
    all.push(stream("empty", Vec::new(), "! 12 0\n"));
    all.extend(silent());
    all
}

/// 1, told with the head: nothing behind it is read.
fn sizes() -> Vec<Stream> {
    let head = |name, sizes, shows| written(name, &format!("head {sizes}\nnode 0 0\nend"), shows);
    vec![
        head("refusal-1-no-nodes", "0 0", "! 1 0\n"),
        head("refusal-1-513-nodes", "513 0", "! 1 0\n"),
        head("refusal-1-2049-edges", "2 2049", "! 1 0\n"),
        head("refusal-1-both-numbers-at-their-largest", "65535 65535", "! 1 0\n"),
        written("sizes-at-the-limits-and-stopped", "head 512 2048\n", "! 12 5\n"),
    ]
}

/// 2 and 3, told when the network's last record is in.
fn nodes_and_edges() -> Vec<Stream> {
    let node = |name, old, new, shows| written(name, &reference_with(old, new), shows);
    // Nodes 0 and 1 foot, 2 rail. Edge 1 is the given one; edge 2 is wrong too,
    // and not told.
    let edge = |name, edge: &str| {
        let nodes = "node foot core\nnode foot core\nnode rail core\n";
        let edges = format!("edge 0 1 foot 4\nedge {edge}\nedge 1 1 foot 0\n");
        written(name, &format!("head 3 3\n{nodes}{edges}{WALK}question 0 1\nend"), "! 3 1\n")
    };
    vec![
        node("refusal-2-mode-zero", "node rail core", "node 0 core", "! 2 3\n"),
        node("refusal-2-mode-eight", "node foot 0 ", "node 8 0 ", "! 2 1\n"),
        written(
            "refusal-2-two-nodes",
            "head 4 0\nnode foot 0\nnode 255 0\nnode foot 0\nnode 0 0\nend",
            "! 2 1\n",
        ),
        written(
            "refusal-2-before-3",
            "head 2 1\nnode foot 0\nnode 9 0\nedge 0 0 foot 0\nend",
            "! 2 1\n",
        ),
        edge("refusal-3-tail-is-no-node", "3 0 foot 1"),
        edge("refusal-3-head-is-no-node", "0 3 foot 1"),
        edge("refusal-3-link-to-no-node", "0 65535 link 1"),
        edge("refusal-3-equal-ends", "0 0 foot 1"),
        edge("refusal-3-length-zero", "0 1 foot 0"),
        edge("refusal-3-mode-eight", "0 1 8 1"),
        edge("refusal-3-ride-from-another-mode", "2 0 foot 1"),
        edge("refusal-3-ride-to-another-mode", "0 2 foot 1"),
        edge("refusal-3-ride-between-nodes-of-another-mode", "0 1 rail 1"),
        written(
            "refusal-3-before-4",
            "head 2 2\nnode foot 0\nnode foot 0\nedge 0 1 link 1\nedge 0 1 foot 0\nend",
            "! 3 1\n",
        ),
    ]
}

/// 4.
fn transfer_nodes() -> Vec<Stream> {
    let link = |name, tail, head, shows| {
        let nodes = format!("node foot 0\nnode foot {tail}\nnode rail {head}\n");
        written(name, &format!("head 3 1\n{nodes}edge 1 2 link 5\n{WALK}question 0 0\nend"), shows)
    };
    vec![
        link("transfer-nodes-core", "core", "core", "0 0\n"),
        link("refusal-4-tail-not-core", "65534", "core", "! 4 1\n"),
        link("refusal-4-head-not-core", "core", "65534", "! 4 2\n"),
        link("refusal-4-both-not-core", "0", "0", "! 4 1\n"),
        written(
            "refusal-4-reference-with-node-2-at-rank-9",
            &reference_with("node foot core", "node foot 9"),
            "! 4 2\n",
        ),
    ]
}

/// 5: a state count at once, the states when the last one is in.
fn sheets() -> Vec<Stream> {
    let good = "state modes=0b11111110 next=0b11 ends=3";
    let sheet = |name, lines: &str, shows| {
        written(name, &format!("{WAY}{lines}\nquestion 0 1\nend"), shows)
    };
    let second = |name, state: &str| sheet(name, &format!("sheet 2\n{good}\n{state}"), "! 5 1\n");
    let many = |count: u8| {
        let mut records = vec![Record::Sheet { states: count }];
        records.resize(
            1 + count as usize,
            Record::State(State { modes: 2, next: 0b1111_1111, ends: 3 }),
        );
        let end = [Record::Question { from: 0, to: 1 }, Record::End];
        records.extend(end);
        [written("", WAY, "").bytes, write(&records)].concat()
    };
    vec![
        sheet("refusal-5-no-states", "sheet 0", "! 5 0\n"),
        stream("refusal-5-nine-states", many(9), "! 5 0\n"),
        stream("eight-states", many(8), "4 1 0\n"),
        sheet("refusal-5-mode-zero-ridden", "sheet 1\nstate modes=0b11 next=0b0 ends=3", "! 5 0\n"),
        second("refusal-5-next-state-absent", "state modes=0b10 next=0b100 ends=3"),
        second("refusal-5-ends-above-three", "state modes=0b10 next=0b0 ends=4"),
        sheet(
            "refusal-5-both-states",
            "sheet 2\nstate modes=0b1 next=0b0 ends=3\nstate modes=0b10 next=0b0 ends=255",
            "! 5 0\n",
        ),
        sheet(
            "refusal-5-behind-an-answer",
            &format!("{WALK}question 0 1\nsheet 1\nstate modes=0b1 next=0b0 ends=0"),
            "4 1 0\n! 5 0\n",
        ),
    ]
}

/// 6 and 7: the next question is answered.
fn questions() -> Vec<Stream> {
    let asked = |name, questions: &str, shows| {
        written(name, &format!("{WAY}{WALK}{questions}\nquestion 0 1\nend"), shows)
    };
    let sheet = |name, state: &str, question: &str, shows| {
        let then = format!("{WALK}question 0 1\nend");
        written(name, &format!("{WAY}sheet 1\n{state}\nquestion {question}\n{then}"), shows)
    };
    vec![
        asked("refusal-6-from", "question 2 0", "! 6 0\n4 1 0\n"),
        asked("refusal-6-to", "question 0 2", "! 6 1\n4 1 0\n"),
        asked("refusal-6-both", "question 65535 65535", "! 6 0\n4 1 0\n"),
        asked("refusal-7-no-way-back", "question 1 0", "! 7 0\n4 1 0\n"),
        sheet(
            "refusal-7-mode-not-allowed",
            "state modes=0b100 next=0b0 ends=3",
            "0 1",
            "! 7 0\n4 1 0\n",
        ),
        sheet(
            "refusal-7-no-state-both-initial-and-final",
            "state modes=0b10 next=0b0 ends=1",
            "0 0",
            "! 7 0\n4 1 0\n",
        ),
        asked(
            "refusal-6-and-7-in-turn",
            "question 2 2\nquestion 1 0\nquestion 1 2\nquestion 1 1",
            "! 6 0\n! 7 0\n! 6 1\n0 0\n4 1 0\n",
        ),
    ]
}

/// 9: 63 ways into a node that is contracted meet 63 ways out of it, so there
/// are 126 edges, 3,969 shortcuts, and one or two edges that lead nowhere new.
fn rows() -> Vec<Stream> {
    let card = |network: &Network| {
        let mut records = crate::card::of_network(network);
        records.extend(of_sheet(&Sheet::of(&[State { modes: 2, next: 0, ends: 3 }])));
        records.extend([Record::Question { from: 1, to: 64 }, Record::End]);
        write(&records)
    };
    vec![
        stream("rows-4096", card(&star(63, 63, 1)), "69 2 0 63\n"),
        stream("refusal-9-4097-rows", card(&star(63, 63, 2)), "! 9 0\n"),
    ]
}

/// 12 at the first byte of a record that no one awaits.
fn unknown_and_misplaced() -> Vec<Stream> {
    let behind = |name, card: &str, shows| written(name, &format!("{WAY}{card}"), shows);
    let state = "state modes=0b10 next=0b0 ends=3";
    vec![
        written("refusal-12-unknown-kind-at-the-start", "bytes 07", "! 12 0\n"),
        behind(
            "refusal-12-unknown-kind-behind-a-question",
            &format!("{WALK}question 0 1\nbytes ff\nquestion 0 1\nend"),
            "4 1 0\n! 12 32\n",
        ),
        written("refusal-12-end-at-the-start", "end", "! 12 0\n"),
        written("refusal-12-second-head", "head 2 1\nhead 2 1\nend", "! 12 5\n"),
        written(
            "refusal-12-edge-before-the-last-node",
            "head 2 1\nnode foot 0\nedge 0 1 foot 4\nend",
            "! 12 9\n",
        ),
        written(
            "refusal-12-node-too-many",
            "head 2 1\nnode foot 0\nnode foot 0\nnode foot 0\nend",
            "! 12 13\n",
        ),
        written(
            "refusal-12-end-before-the-last-edge",
            "head 2 1\nnode foot 0\nnode foot 0\nend",
            "! 12 13\n",
        ),
        behind("refusal-12-edge-too-many", "edge 0 1 foot 4\nend", "! 12 21\n"),
        behind("refusal-12-question-before-a-sheet", "question 0 1\nend", "! 12 21\n"),
        behind("refusal-12-state-before-a-sheet", &format!("{state}\nend"), "! 12 21\n"),
        behind(
            "refusal-12-question-between-states",
            &format!("sheet 2\n{state}\nquestion 0 1\nend"),
            "! 12 27\n",
        ),
        behind("refusal-12-state-too-many", &format!("{WALK}{state}\nend"), "! 12 27\n"),
    ]
}

/// 01's stream cut: inside a record the place is its first byte, between two
/// records the length of what there is.
fn cut() -> Vec<Stream> {
    let lines: Vec<&str> = REFERENCE_LINES.lines().collect();
    let cut = |name, length: usize, answered: usize, place: u64| {
        let mut shows: String = lines[..answered].iter().map(|line| format!("{line}\n")).collect();
        shows.push_str(&format!("! 12 {place}\n"));
        stream(name, reference()[..length].to_vec(), &shows)
    };
    vec![
        cut("cut-in-the-head", 4, 0, 0),
        cut("stopped-behind-the-head", 5, 0, 5),
        cut("cut-in-a-node", 16, 0, 13),
        cut("stopped-between-nodes", 17, 0, 17),
        cut("stopped-behind-the-nodes", 33, 0, 33),
        cut("cut-in-an-edge", 35, 0, 33),
        cut("cut-in-the-last-edge", 96, 0, 89),
        cut("stopped-between-edges", 89, 0, 89),
        cut("stopped-behind-the-network", 97, 0, 97),
        cut("cut-in-a-sheet", 98, 0, 97),
        cut("stopped-behind-a-sheet-without-its-states", 99, 0, 99),
        cut("cut-in-a-state", 105, 0, 103),
        cut("stopped-between-states", 103, 0, 103),
        cut("stopped-behind-the-last-state", 107, 0, 107),
        cut("cut-in-the-first-question", 111, 0, 107),
        cut("stopped-between-questions", 112, 1, 112),
        cut("cut-in-a-question", 113, 1, 112),
        cut("cut-in-the-second-sheet", 123, 3, 122),
        cut("cut-in-the-last-question", 132, 3, 128),
        cut("stopped-before-the-end-record", 133, 4, 133),
    ]
}

/// 12 at the first byte behind the end record, whatever it is.
fn behind_the_end() -> Vec<Stream> {
    let and = |name, more: &[u8]| {
        let mut bytes = reference();
        bytes.extend(more);
        stream(name, bytes, &format!("{REFERENCE_LINES}! 12 134\n"))
    };
    vec![
        and("behind-the-end-another-end", &[0]),
        and("behind-the-end-a-question", &[5, 0, 0, 0, 6]),
        and("behind-the-end-an-unknown-byte", &[255]),
        and("behind-the-end-the-whole-stream-again", &reference()),
        written("behind-the-end-of-a-bare-network", &format!("{WAY}end\nend"), "! 12 22\n"),
    ]
}

/// Streams that owe nothing.
fn silent() -> Vec<Stream> {
    vec![
        written("without-a-sheet", &format!("{WAY}end"), ""),
        written("without-a-question", &format!("{WAY}{WALK}{WALK}end"), ""),
    ]
}

/// The program's input: each stream as its name, LF, its length in two bytes
/// (big-endian) and its bytes.
pub fn stored(streams: &[Stream]) -> Vec<u8> {
    let mut stored = Vec::new();
    for stream in streams {
        stored.extend(stream.name.as_bytes());
        stored.push(b'\n');
        stored.extend((stream.bytes.len() as u16).to_be_bytes());
        stored.extend(&stream.bytes);
    }
    stored
}

/// What the program must write: for each stream its name, then its lines. Or
/// the name of a stream whose answer is not the one written by hand.
pub fn owed(streams: &[Stream]) -> Result<String, String> {
    let mut owed = String::new();
    for Stream { name, bytes, shows } in streams {
        let lines = print(&answer(bytes).lines);
        if lines != *shows {
            return Err(format!("{name} shows\n{lines}and not\n{shows}"));
        }
        owed.push_str(&format!("{name}\n{lines}"));
    }
    Ok(owed)
}
