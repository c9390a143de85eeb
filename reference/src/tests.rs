//! Unit tests. Cards are written in text form, so that each test can be read.

use crate::answer::{answer, print};
use crate::card::{find, write, Found, Record};
use crate::cases;
use crate::columns::{Answer, NetworkColumns, RowColumns};
use crate::contraction::prepare;
use crate::expected::{self, clears_rooms};
use crate::extremes;
use crate::judge::judge;
use crate::make::make;
use crate::network::{check_sheet, Network, Refusal, Row, Sheet, State};
use crate::selftest;
use crate::stored_tables;
use crate::streams;
use crate::text;

fn card(text: &str) -> Vec<u8> {
    text::to_card(text).expect("the test's own card is well written")
}

fn says(text: &str) -> String {
    print(&answer(&card(text)).lines)
}

fn refusal(number: u8, place: u64) -> Refusal {
    Refusal { number, place }
}

/// Two foot nodes, one way: 5 + 4 + 4 + 8 = 21 bytes.
const TOWN: &str = "head 2 1\nnode foot 0\nnode foot 0\nedge 0 1 foot 4\n";
/// With a sheet that lets one walk: 2 + 4 more, 27 bytes.
const WALK: &str = "head 2 1\nnode foot 0\nnode foot 0\nedge 0 1 foot 4\n\
                    sheet 1\nstate modes=0b10 next=0b0 ends=3\n";

// ---- 01's own cases ----

#[test]
fn cases_marked_p_and_the_reference_stream() {
    for (name, outcome) in cases::all() {
        assert_eq!(outcome, Ok(()), "{name}");
    }
}

#[test]
fn reference_lines_are_exact() {
    let lines = print(&answer(&write(&cases::reference_card())).lines);
    assert_eq!(lines, "22 6 0 1 2 3 4 5\n! 7 0\n0 0\n42 4 0 1 7 5\n");
}

#[test]
fn selftest_in_short() {
    selftest::run(900_000, 120).expect("selftest holds");
}

// ---- each refusal by a card of its own ----

#[test]
fn refusal_1_sizes() {
    assert_eq!(says("head 0 0\n"), "! 1 0\n");
    assert_eq!(says("head 513 0\nend"), "! 1 0\n");
    assert_eq!(says("head 512 2049\n"), "! 1 0\n");
    assert_eq!(says("head 65535 65535\nquestion 1 1"), "! 1 0\n");
    // 512 and 2,048 are within the limits: the first node is missing.
    assert_eq!(says("head 512 2048\n"), "! 12 5\n");
}

#[test]
fn refusal_2_node_mode() {
    assert_eq!(says("head 3 0\nnode foot 1\nnode 0 1\nnode 9 1\nend"), "! 2 1\n");
    assert_eq!(says("head 1 0\nnode 8 0\nend"), "! 2 0\n");
    assert_eq!(says("head 1 0\nnode 7 0\nend"), "");
}

#[test]
fn refusal_3_edge() {
    let town = |edge: &str| {
        says(&format!("head 3 2\nnode 1 9\nnode 1 9\nnode 2 9\nedge 0 1 1 1\nedge {edge}\nend"))
    };
    assert_eq!(town("1 0 1 1"), "");
    for edge in [
        "3 0 1 1",
        "0 3 1 1",
        "0 65535 0 1",
        "1 1 1 1",
        "0 1 8 1",
        "0 1 255 1",
        "0 1 1 0",
        "0 1 2 1",
        "0 2 1 1",
        "2 0 1 1",
        "0 2 2 1",
    ] {
        assert_eq!(town(edge), "! 3 1\n", "{edge}");
    }
    // Node modes are told before edges, whatever came first.
    assert_eq!(says("head 2 1\nnode 1 0\nnode 9 0\nedge 0 0 1 0\nend"), "! 2 1\n");
}

#[test]
fn refusal_4_transfer_node() {
    let town = |a: &str, b: &str| {
        says(&format!("head 3 1\nnode 1 0\nnode 1 {a}\nnode 2 {b}\nedge 1 2 link 5\nend"))
    };
    assert_eq!(town("core", "core"), "");
    assert_eq!(town("65534", "core"), "! 4 1\n");
    assert_eq!(town("core", "65534"), "! 4 2\n");
    assert_eq!(town("0", "0"), "! 4 1\n");
    // A broken edge is told first even if it is the later trouble.
    let text = "head 2 2\nnode 1 0\nnode 1 0\nedge 0 1 link 1\nedge 0 1 foot 0\n";
    assert_eq!(says(text), "! 3 1\n");
}

#[test]
fn refusal_5_sheet() {
    let sheet = |lines: &str| says(&format!("{TOWN}{lines}\nquestion 0 1\nend"));
    assert_eq!(sheet("sheet 0"), "! 5 0\n");
    assert_eq!(sheet("sheet 9"), "! 5 0\n");
    assert_eq!(sheet("sheet 255"), "! 5 0\n");
    assert_eq!(sheet("sheet 1\nstate modes=0b11 next=0b0 ends=3"), "! 5 0\n");
    assert_eq!(sheet("sheet 1\nstate modes=0b10 next=0b10 ends=3"), "! 5 0\n");
    assert_eq!(sheet("sheet 1\nstate modes=0b10 next=0b0 ends=4"), "! 5 0\n");
    let good = "state modes=0b11111110 next=0b11 ends=3";
    assert_eq!(sheet(&format!("sheet 2\n{good}\n{good}")), "4 1 0\n");
    assert_eq!(sheet(&format!("sheet 2\n{good}\nstate modes=0b0 next=0b100 ends=0")), "! 5 1\n");
    // The lowest state, when the last one is in.
    let bad = "state modes=0b1 next=0b0 ends=3";
    assert_eq!(sheet(&format!("sheet 2\n{bad}\n{bad}")), "! 5 0\n");
}

#[test]
fn eight_states_name_each_other() {
    let all = "state modes=0b10 next=0b11111111 ends=3\n".repeat(8);
    assert_eq!(says(&format!("{TOWN}sheet 8\n{all}question 0 1\nend")), "4 1 0\n");
}

#[test]
fn refusals_6_and_7_go_on() {
    let text = format!(
        "{WALK}question 2 0\nquestion 0 2\nquestion 65535 65535\nquestion 1 0\nquestion 0 1\n\
         question 1 1\nend"
    );
    assert_eq!(says(&text), "! 6 0\n! 6 1\n! 6 0\n! 7 0\n4 1 0\n0 0\n");
}

#[test]
fn refusal_7_needs_a_state_at_both_ends() {
    let ends = |ends: u8| {
        says(&format!("{TOWN}sheet 1\nstate modes=0b10 next=0b0 ends={ends}\nquestion 0 0\nend"))
    };
    assert_eq!([ends(0), ends(1), ends(2), ends(3)], ["! 7 0\n", "! 7 0\n", "! 7 0\n", "0 0\n"]);
}

#[test]
fn refusal_8_room_and_its_weight() {
    let n = NetworkColumns::of(&cases::reference_network());
    let rows = RowColumns::of(&prepare(&cases::reference_network(), 9).expect("prepares"));
    for (room, number) in [(0, 8), (5, 8), (6, 0), (7, 0)] {
        let ask = cases::ask(&cases::sheet_a(), 0, 6, room);
        let shown = Answer { number, place: 0, time: 22, count: 6 };
        assert_eq!(expected::plain(&n, &ask), shown);
        assert_eq!(expected::contracted(&n, &rows, &ask), shown);
    }
}

#[test]
fn refusal_9_ends_the_card_at_once() {
    let mut records = extremes::card("rows-4097").expect("is there");
    assert_eq!(print(&answer(&write(&records)).lines), "! 9 0\n");
    // Even if nothing follows the last edge.
    records.retain(|r| matches!(r, Record::Head { .. } | Record::Node(_) | Record::Edge(_)));
    assert_eq!(print(&answer(&write(&records)).lines), "! 9 0\n");
    let whole = extremes::card("rows-4096").expect("is there");
    assert_eq!(print(&answer(&write(&whole)).lines), "22 2 0 16\n261 2 15 255\n! 7 0\n");
}

#[test]
fn refusal_9_lent_rows() {
    let network = cases::reference_network();
    assert_eq!(prepare(&network, 0), Err(refusal(9, 0)));
    assert_eq!(prepare(&network, 1).map(|rows| rows.len()), Ok(1));
    let n = NetworkColumns::of(&network);
    let garbage = Row { tail: 7, head: 7, mode: 7, length: 7, count: 7, first: 7, second: 7 };
    let lent = RowColumns::of(&[garbage; 3]);
    let (answer, after) = expected::prepare(&n, &lent, 112, 224);
    assert_eq!(answer, Answer { number: 0, place: 0, time: 0, count: 1 });
    let row_8 = Row { tail: 0, head: 2, mode: 1, length: 7, count: 2, first: 0, second: 1 };
    assert_eq!(after, RowColumns::of(&[row_8, Row::default(), Row::default()]));
    // One 64-bit number short: 11, and the lent rows stay as they were.
    let (answer, after) = expected::prepare(&n, &lent, 111, 224);
    assert_eq!((answer.number, after), (11, lent));
}

#[test]
fn refusal_10_lowest_unsound_row() {
    let network = cases::reference_network();
    let row = Row { tail: 0, head: 2, mode: 1, length: 7, count: 2, first: 0, second: 1 };
    assert_eq!(network.check_rows(&[row, row]), Ok(()));
    let wrong = [
        Row { tail: 1, ..row },
        Row { head: 5, ..row },
        Row { mode: 2, ..row },
        Row { mode: 0, ..row },
        Row { length: 8, ..row },
        Row { count: 3, ..row },
        Row { first: 6, ..row },
        Row { second: 0, ..row },
        // Itself, a later row and a row that is not there.
        Row { first: 9, ..row },
        Row { second: 10, ..row },
        Row { first: 65_535, ..row },
        // Joined, but the meeting node is core.
        Row { tail: 0, head: 5, mode: 1, length: 39, count: 2, first: 6, second: 7 },
        Row::default(),
    ];
    for bad in wrong {
        assert_eq!(network.check_rows(&[row, bad, row, bad]), Err(refusal(10, 9)), "{bad:?}");
    }
}

#[test]
fn refusal_10_meeting_node_and_loops() {
    // 0 -> 1 -> 0 would be a row from a node to itself; 1 -> 0 -> 1 meets at a
    // node that comes later.
    let network =
        answer(&card("head 2 2\nnode 1 5\nnode 1 5\nedge 0 1 1 1\nedge 1 0 1 1\n")).network;
    let row =
        |tail, head, first, second| Row { tail, head, mode: 1, length: 2, count: 2, first, second };
    assert_eq!(network.check_rows(&[row(0, 0, 0, 1)]), Err(refusal(10, 2)));
    assert_eq!(network.check_rows(&[row(1, 1, 1, 0)]), Err(refusal(10, 2)));
    // Equal ranks: the lower number is contracted first.
    let three = "head 3 2\nnode 1 5\nnode 1 RANK\nnode 1 5\nedge 0 1 1 1\nedge 1 2 1 1\n";
    for (rank, sound) in [("4", true), ("5", false), ("6", false)] {
        let network = answer(&card(&three.replace("RANK", rank))).network;
        assert_eq!(network.check_rows(&[row(0, 2, 0, 1)]).is_ok(), sound, "{rank}");
    }
}

#[test]
fn refusal_10_bounds() {
    let (network, rows) = extremes::doubling(511, 2);
    assert_eq!(rows.last().map(|r| (r.length, r.count)), Some((33_488_385, 511)));
    assert_eq!(network.check_rows(&rows), Ok(()));
    let (network, rows) = extremes::doubling(512, 2);
    let last = network.edges.len() + rows.len() - 1;
    assert_eq!(network.check_rows(&rows), Err(refusal(10, last as u64)));
}

#[test]
fn refusal_11_work_rooms() {
    let n = NetworkColumns::of(&cases::reference_network());
    let mut ask = cases::ask(&cases::sheet_a(), 0, 6, 6);
    for (wide, narrow, number) in [(112, 224, 0), (111, 224, 11), (112, 223, 11), (0, 0, 11)] {
        (ask.wide, ask.narrow) = (wide, narrow);
        assert_eq!(expected::plain(&n, &ask).number, number);
        assert_eq!(expected::contracted(&n, &RowColumns::default(), &ask).number, number);
    }
}

#[test]
fn the_first_that_applies() {
    // Everything wrong at once, then mended in 01's order.
    let mut network = cases::reference_network();
    network.nodes[6].mode = 0;
    network.edges[7].length = 0;
    network.nodes[2].rank = 9;
    let mut n = NetworkColumns::of(&network);
    n.modes.push(0);
    let mut rows = RowColumns::of(&[Row::default()]);
    let mut ask = cases::ask(&cases::sheet_a(), 7, 7, 0);
    (ask.wide, ask.states) = (0, 9);
    let mut seen = Vec::new();
    for step in 0..11 {
        match step {
            1 => n.modes.truncate(8),
            2 => ask.wide = 112,
            3 => n.node_modes[6] = 1,
            4 => n.lengths[7] = 30,
            5 => n.node_ranks[2] = 65_535,
            6 => rows = RowColumns::default(),
            7 => ask.states = 2,
            8 => ask.from = 0,
            9 => (ask.from, ask.to) = (3, 4),
            10 => (ask.from, ask.to) = (0, 2),
            _ => {}
        }
        let answer = expected::contracted(&n, &rows, &ask);
        seen.push((answer.number, answer.place));
    }
    let order =
        [(1, 0), (11, 0), (2, 6), (3, 7), (4, 2), (10, 8), (5, 0), (6, 0), (6, 1), (7, 0), (8, 0)];
    assert_eq!(seen, order);
}

#[test]
fn work_rooms_are_cleared_by_four_numbers_only() {
    let cleared: Vec<u8> = (0..=12).filter(|&number| clears_rooms(number)).collect();
    assert_eq!(cleared, [0, 7, 8, 9]);
}

// ---- 12: unknown, misplaced and cut records ----

#[test]
fn empty_stream() {
    assert_eq!(says(""), "! 12 0\n");
}

#[test]
fn reference_card_cut_at_every_byte() {
    let records = cases::reference_card();
    let bytes = write(&records);
    let lines: Vec<&str> = cases::REFERENCE_LINES.lines().collect();
    for length in 0..bytes.len() {
        let (mut offset, mut answered) = (0, 0);
        for record in &records {
            if offset + record.size() > length {
                break;
            }
            offset += record.size();
            answered += matches!(record, Record::Question { .. }) as usize;
        }
        // `offset` is where the first record that is not whole begins; it is
        // the length itself if the cut lies between records.
        let mut said = lines[..answered].join("\n");
        said.push_str(if answered > 0 { "\n" } else { "" });
        said.push_str(&format!("! 12 {offset}\n"));
        assert_eq!(print(&answer(&bytes[..length]).lines), said, "cut at {length}");
    }
}

#[test]
fn misplaced_records() {
    let state = "state modes=0b10 next=0b0 ends=3\n";
    let cases = [
        ("end", 0),
        ("node foot 0", 0),
        ("edge 0 1 foot 4", 0),
        ("sheet 1", 0),
        (state, 0),
        ("question 0 0", 0),
        ("head 2 1\nhead 2 1", 5),
        ("head 2 1\nnode foot 0\nedge 0 1 foot 4", 9),
        ("head 2 1\nnode foot 0\nend", 9),
        ("head 2 0\nnode foot 0\nsheet 1", 9),
        ("head 2 1\nnode foot 0\nnode foot 0\nnode foot 0", 13),
        ("head 2 1\nnode foot 0\nnode foot 0\nend", 13),
        ("head 2 1\nnode foot 0\nnode foot 0\nsheet 1", 13),
        ("head 2 2\nnode foot 0\nnode foot 0\nedge 0 1 foot 4\nnode foot 0", 21),
        ("head 2 2\nnode foot 0\nnode foot 0\nedge 0 1 foot 4\nhead 2 2", 21),
    ];
    for (text, place) in cases {
        assert_eq!(says(text), format!("! 12 {place}\n"), "{text}");
    }
    // Behind the network (21 bytes).
    for text in ["head 2 1", "node foot 0", "edge 0 1 foot 4", state, "question 0 1"] {
        assert_eq!(says(&format!("{TOWN}{text}")), "! 12 21\n", "{text}");
    }
    // Behind a sheet record that is owed its states (23 bytes).
    for text in ["head 2 1", "node foot 0", "edge 0 1 foot 4", "sheet 1", "question 0 1", "end"] {
        assert_eq!(says(&format!("{TOWN}sheet 2\n{text}")), "! 12 23\n", "{text}");
        assert_eq!(says(&format!("{TOWN}sheet 2\n{state}{text}")), "! 12 27\n", "{text}");
    }
    // Behind a whole sheet (27 bytes), and behind a question (32 bytes).
    for text in ["head 2 1", "node foot 0", "edge 0 1 foot 4", state] {
        assert_eq!(says(&format!("{WALK}{text}")), "! 12 27\n", "{text}");
        assert_eq!(says(&format!("{WALK}question 0 1\n{text}")), "4 1 0\n! 12 32\n", "{text}");
    }
}

#[test]
fn unknown_kinds() {
    for kind in 7..=255u8 {
        assert_eq!(says(&format!("bytes {kind:02x}")), "! 12 0\n");
        assert_eq!(says(&format!("{WALK}question 0 1\nbytes {kind:02x}")), "4 1 0\n! 12 32\n");
    }
}

#[test]
fn nothing_may_follow_the_end() {
    assert_eq!(says(&format!("{TOWN}end")), "");
    assert_eq!(says(&format!("{WALK}end")), "");
    for more in ["end", "bytes ff", "question 0 1", "head 2 1"] {
        assert_eq!(says(&format!("{TOWN}end\n{more}")), "! 12 22\n");
        let asked = says(&format!("{WALK}question 0 1\nend\n{more}"));
        assert_eq!(asked, "4 1 0\n! 12 33\n");
    }
}

#[test]
fn tests_come_when_their_last_record_is_in() {
    // The network's trouble is told before the cut behind it ...
    assert_eq!(says("head 1 0\nnode 0 0\n"), "! 2 0\n");
    assert_eq!(says("head 2 1\nnode foot 0\nnode foot 0\nedge 0 0 foot 4\nbytes 03 00"), "! 3 0\n");
    // ... but not before a cut in front of its last record.
    assert_eq!(says("head 2 1\nnode 0 0\nnode 0 0\nbytes 03 00"), "! 12 13\n");
    // The same for a sheet; its state count is told at once.
    assert_eq!(says(&format!("{TOWN}sheet 9")), "! 5 0\n");
    let bad = "state modes=0b1 next=0b0 ends=3";
    assert_eq!(says(&format!("{TOWN}sheet 1\n{bad}")), "! 5 0\n");
    assert_eq!(says(&format!("{TOWN}sheet 2\n{bad}")), "! 12 27\n");
    // A bad sheet ends the card; the lines before it stand.
    let text = format!("{WALK}question 0 1\nsheet 1\n{bad}\nquestion 0 1\nend");
    assert_eq!(says(&text), "4 1 0\n! 5 0\n");
    // A cut head is 12, not 1.
    assert_eq!(says("bytes 01 00 00 00"), "! 12 0\n");
    assert_eq!(says("bytes 01 00 00 00 00"), "! 1 0\n");
}

#[test]
fn a_sheet_replaces_the_one_before() {
    let rail = "sheet 1\nstate modes=0b100 next=0b0 ends=3\n";
    let text = format!("{WALK}question 0 1\n{rail}question 0 1\nquestion 0 0\nend");
    assert_eq!(says(&text), "4 1 0\n! 7 0\n0 0\n");
    assert_eq!(says(&format!("{WALK}{rail}end")), "");
}

// ---- limits 01 wants run ----

#[test]
fn limits_from_01() {
    let expected = [
        ("nodes-513", "! 1 0\n"),
        ("lengths-0", "! 3 0\n"),
        ("rank-65534-transfer", "! 4 1\n"),
        ("rank-65535-transfer", "2 2 0 1\n! 7 0\n"),
        ("states-8", "8 4 0 1 2 3\n"),
        ("states-9", "! 5 0\n"),
        ("question-last", "16 8 0 1 2 3 4 5 6 7\n0 0\n"),
        ("question-outside", "! 6 1\n! 6 0\n! 6 0\n! 6 0\n16 8 0 1 2 3 4 5 6 7\n"),
        ("no-edges", "! 7 0\n0 0\n"),
        ("one-node-initial-only", "! 7 0\n"),
        ("dense-star", "! 9 0\n"),
    ];
    for (name, said) in expected {
        let card = make(0, name).expect("is there");
        assert_eq!(print(&answer(&card).lines), said, "{name}");
    }
    let longest = make(0, "longest-journey").expect("is there");
    assert!(print(&answer(&longest).lines).starts_with("268365825 4095 0 1 2 "));
}

#[test]
fn every_extreme_card_is_there() {
    for name in extremes::NAMES {
        assert!(extremes::card(name).is_some(), "{name}");
    }
}

#[test]
fn sheet_rules() {
    let state = State { modes: 0, next: 0, ends: 0 };
    assert_eq!(check_sheet(&Sheet::of(&[state])), Ok(()));
    // Entries past the count are not read.
    let mut sheet = Sheet::of(&[state]);
    sheet.entries[1] = State { modes: 255, next: 255, ends: 255 };
    assert_eq!(check_sheet(&sheet), Ok(()));
    sheet.count = 2;
    assert_eq!(check_sheet(&sheet), Err(refusal(5, 1)));
}

// ---- opening ----

#[test]
fn opening() {
    let network = cases::reference_network();
    let (n, rows) = (NetworkColumns::of(&network), prepare(&network, 9).expect("prepares"));
    let columns = RowColumns::of(&rows);
    assert_eq!(expected::opened(&n, &columns, 8, 2), [0, 1]);
    assert_eq!(expected::opened(&n, &columns, 8, 1), []);
    assert_eq!(expected::opened(&n, &columns, 7, 1), [7]);
    assert_eq!(expected::opened(&n, &columns, 7, 0), []);
    assert_eq!(expected::opened(&n, &columns, 9, 9), []);
    let mut unsound = columns.clone();
    unsound.lengths[0] = 8;
    assert_eq!(expected::opened(&n, &unsound, 0, 9), []);
    assert_eq!(expected::opened(&NetworkColumns::default(), &columns, 0, 9), []);
}

// ---- text form ----

#[test]
fn text_there_and_back() {
    for seed in 0..300 {
        let card = make(seed, "any").expect("makes");
        let text = text::from_card(&card);
        assert_eq!(text::to_card(&text), Ok(card), "seed {seed}");
    }
    assert_eq!(text::to_card("node 1 65535 # core"), text::to_card("  node   foot core"));
    assert_eq!(text::to_card("# nothing\n\n   # at all"), Ok(Vec::new()));
}

#[test]
fn text_errors_name_the_line() {
    let wrong = [
        "heads 1 1",
        "head 1",
        "head 1 1 1",
        "head 01 1",
        "head 65536 1",
        "head -1 1",
        "head +1 1",
        "node boat 1",
        "node 256 1",
        "node 1 corer",
        "edge 0 1 1",
        "state modes=1 next=1",
        "state next=1 modes=1 ends=1",
        "state modes=0b2 next=1 ends=1",
        "sheet 0b",
        "end 1",
        "state modes=0b100000000 next=1 ends=1",
        "bytes 1",
        "bytes +1",
        "bytes 123",
        "sheet 0b+1",
    ];
    for line in wrong {
        let error = text::to_card(&format!("# one\nend\n{line}\nend")).expect_err(line);
        assert!(error.starts_with("line 3: "), "{line}: {error}");
    }
    assert_eq!(text::bytes_to_card(b"end\n\xff"), Err("line 2: not UTF-8".to_string()));
    assert_eq!(text::bytes_to_card(b"end\n"), Ok(vec![0]));
}

// ---- the judge ----

#[test]
fn judge_takes_the_right_answer_only() {
    let card = write(&cases::reference_card());
    assert!(judge(&card, cases::REFERENCE_LINES.as_bytes()).is_ok());
    let changes = [
        ("22 6 0 1 2 3 4 5\n", ""),
        ("22 6", "22  6"),
        ("22 6", "022 6"),
        ("22 6", " 22 6"),
        ("22 6", "+22 6"),
        ("22 6", "21 6"),
        ("22 6", "22 5"),
        ("5\n! 7", "5 \n! 7"),
        ("5\n! 7", "5\r\n! 7"),
        ("3 4 5\n", "3 4\n"),
        ("0 1 2 3", "6 2 3"),
        ("0 1 2 3", "1 0 2 3"),
        ("0 1 2 3", "0 1 2 8"),
        ("0 1 2 3", "0 1 2 70000"),
        ("! 7 0", "! 7 1"),
        ("! 7 0", "! 6 0"),
        ("! 7 0", "0 0"),
        ("0 0\n", "! 7 0\n"),
        ("7 5\n", "7 5"),
        ("7 5\n", "7 5\n\n"),
        ("7 5\n", "7 5\n! 12 0\n"),
        ("42 4 0 1 7 5\n", ""),
    ];
    for (right, wrong) in changes {
        let written = cases::REFERENCE_LINES.replacen(right, wrong, 1);
        assert!(judge(&card, written.as_bytes()).is_err(), "{written}");
    }
    assert!(judge(&card, &[0xff, 0xfe, b'\n']).is_err());
    assert!(judge(&card, b"").is_err());
}

#[test]
fn judge_takes_any_equal_journey() {
    let two_ways = card(
        "head 2 3\nnode foot 0\nnode foot 0\nedge 0 1 foot 4\nedge 0 1 foot 4\nedge 0 1 foot 5\n\
         sheet 1\nstate modes=0b10 next=0b0 ends=3\nquestion 0 1\nend",
    );
    assert!(judge(&two_ways, b"4 1 0\n").is_ok());
    assert!(judge(&two_ways, b"4 1 1\n").is_ok());
    assert!(judge(&two_ways, b"4 1 2\n").is_err());
    assert!(judge(&two_ways, b"5 1 2\n").is_err());
}

// ---- no input brings the program down ----

#[test]
fn any_bytes_at_all() {
    let mut rng = crate::rng::Rng::new(5);
    for _ in 0..3_000 {
        let length = rng.below(60);
        // Low bytes mostly, or nearly every record would be of unknown kind.
        let bytes: Vec<u8> = (0..length).map(|_| (rng.next() as u8) >> rng.below(8)).collect();
        let talk = answer(&bytes);
        assert!(judge(&bytes, print(&talk.lines).as_bytes()).is_ok());
        assert_eq!(text::to_card(&text::from_card(&bytes)), Ok(bytes));
    }
}

#[test]
fn every_record_reads_as_it_was_written() {
    for record in cases::reference_card() {
        assert_eq!(find(&record.bytes(), 0), Found::Record(record));
    }
    assert_eq!(find(&[], 0), Found::Nothing);
    assert_eq!(find(&[7], 0), Found::Unknown);
    assert_eq!(find(&[6], 0), Found::Cut);
}

#[test]
fn columns_there_and_back() {
    let network = cases::reference_network();
    let mut n = NetworkColumns::of(&network);
    assert_eq!(n.network(), Some(network));
    n.lengths.pop();
    assert_eq!((n.network(), expected::check(&n).number), (None, 1));
    let none = NetworkColumns::of(&Network::default());
    assert_eq!(expected::check(&none).number, 1);
}

// ---- the stored streams ----

/// The number in a name such as `refusal-3-length-zero`; a name that tells of
/// no refusal has none.
fn named_refusal(name: &str) -> Option<u8> {
    if ["cut-", "stopped-", "behind-the-end-"].iter().any(|front| name.starts_with(front)) {
        return Some(12);
    }
    match name {
        "empty" | "sizes-at-the-limits-and-stopped" => Some(12),
        _ => name.strip_prefix("refusal-")?.split('-').next()?.parse().ok(),
    }
}

#[test]
fn each_stored_stream_shows_what_its_name_says() {
    for stream in streams::all() {
        let lines = print(&answer(&stream.bytes).lines);
        assert_eq!(lines, stream.shows, "{}", stream.name);
        let refused =
            |line: &str| -> Option<u8> { line.strip_prefix("! ")?.split(' ').next()?.parse().ok() };
        let refusals: Vec<u8> = lines.lines().filter_map(refused).collect();
        match named_refusal(&stream.name) {
            // 6 and 7 go on: the question behind them is answered.
            Some(number @ (6 | 7)) => {
                assert!(refusals.contains(&number), "{}", stream.name);
                assert!(lines.ends_with("\n4 1 0\n"), "{}", stream.name);
            }
            Some(number) => {
                let last = lines.lines().last().and_then(refused);
                assert_eq!(last, Some(number), "{}", stream.name);
            }
            None if stream.name == "reference" => assert_eq!(refusals, [7]),
            None => assert_eq!(refusals, [], "{}", stream.name),
        }
    }
}

#[test]
fn the_stored_streams_show_every_refusal_of_the_stream() {
    let streams = streams::all();
    let named: Vec<u8> = streams.iter().filter_map(|s| named_refusal(&s.name)).collect();
    for number in [1, 2, 3, 4, 5, 6, 7, 9, 12] {
        assert!(named.contains(&number), "{number}");
    }
    let mut names: Vec<&str> = streams.iter().map(|s| s.name.as_str()).collect();
    names.sort_unstable();
    names.dedup();
    assert_eq!(names.len(), streams.len(), "each name stands once");
    // What the program that reads them has room for.
    assert!(streams.len() < 1_000 && streams::stored(&streams).len() <= 32_768);
    assert!(streams.iter().all(|s| s.bytes.len() < 65_536));
}

#[test]
fn the_stored_files_are_those_made_here() {
    let file = |name: &str| {
        let path = format!("{}/../crates/streams/{name}", env!("CARGO_MANIFEST_DIR"));
        std::fs::read(&path).unwrap_or_else(|error| panic!("{path}: {error}"))
    };
    let streams = streams::all();
    let owed = streams::owed(&streams).expect("answers are those written by hand");
    assert!(file("stdin") == streams::stored(&streams), "make it by `reference streams`");
    assert!(file("stdout") == owed.as_bytes(), "make it by `reference streams`");
}

#[test]
fn towns_for_timing_are_as_promised() {
    for nodes in [50, 100, 200, 300, 400, 500] {
        let town = crate::district::district(&mut crate::rng::Rng::new(nodes as u64), nodes);
        assert_eq!(town.check(), Ok(()));
        assert_eq!((town.nodes.len(), town.edges.len()), (nodes, nodes * 28 / 10));
        let core = town.nodes.iter().filter(|node| node.rank == crate::network::CORE).count();
        assert!(core * 10 <= nodes, "{core} of {nodes} are core");
        assert!(crate::rounds::Round::new(1, nodes).is_some(), "{nodes} nodes have no table");
    }
}

// ---- the stored tables ----

#[test]
fn the_stored_table_files_are_those_made_here() {
    let file = |name: &str| {
        let path = format!("{}/../crates/tables/{name}", env!("CARGO_MANIFEST_DIR"));
        std::fs::read(&path).unwrap_or_else(|error| panic!("{path}: {error}"))
    };
    let all = stored_tables::all();
    assert!(file("stdin") == stored_tables::input(&all), "make it by `reference tables`");
    assert!(
        file("stdout") == stored_tables::owed(&all).as_bytes(),
        "make it by `reference tables`"
    );
    // What the program that reads them has room for.
    assert!(all.len() < 1_000 && stored_tables::input(&all).len() < 65_536);
    let most = |size: fn(&stored_tables::Stored) -> usize| all.iter().map(size).max();
    assert!(most(|s| s.network.nodes.len()) <= Some(513));
    assert!(most(|s| s.network.edges.len()) <= Some(2_048));
    assert!(most(|s| s.lent) <= Some(4_096) && most(|s| s.questions.len()) <= Some(255));
}

/// 01's cases P1 to P9, written by hand.
#[test]
fn the_stored_tables_of_01_are_those_of_01() {
    let row_8 = "0 2 1 7 2 0 1\n";
    let zero = "0 0 0 0 0 0 0\n";
    let twice = |line: &str| format!("{line}\n{line}\n");
    let p1_to_p6 = ["0 0 22 6", "0 0 42 4", "7 0 0 0", "7 0 0 0", "0 0 0 0", "0 0 0 0"];
    let refused = ["5 0 0 0", "6 0 0 0", "6 1 0 0"];
    let answers: String = p1_to_p6.iter().chain(&refused).map(|line| twice(line)).collect();
    let shows = [
        format!("0 0 1\n{row_8}{zero}{zero}{answers}"),
        format!("0 0 0\n{zero}{zero}{}", twice("0 0 22 5")),
        format!("0 0 1\n{row_8}{}", twice("0 0 22 6")),
    ];
    for (stored, shows) in stored_tables::all().iter().zip(shows) {
        assert_eq!(stored.told().text(), shows, "{}", stored.name);
    }
}

#[test]
fn the_stored_tables_show_what_they_are_stored_for() {
    let all = stored_tables::all();
    let mut names: Vec<&str> = all.iter().map(|s| s.name.as_str()).collect();
    names.sort_unstable();
    names.dedup();
    assert_eq!(names.len(), all.len(), "each name stands once");
    let (mut numbers, mut answers) = ([0; 13], [0; 13]);
    let (mut bare, mut nested) = (0, 0);
    for stored in &all {
        let told = stored.told();
        let named = stored.name.strip_prefix("refusal-").and_then(|n| n.split('-').next());
        let number = named.map_or(Ok(0), str::parse);
        assert_eq!(Ok(told.prepared.number), number, "{}", stored.name);
        numbers[told.prepared.number as usize] += 1;
        for (plain, contracted) in &told.answers {
            answers[contracted.number as usize] += 1;
            if told.prepared.number == 0 {
                assert_eq!(plain, contracted, "{}", stored.name);
            }
        }
        if told.prepared.number == 0 {
            let edges = stored.network.edges.len();
            let made = &told.rows[..told.prepared.count as usize];
            bare += made.is_empty() as usize;
            nested += made.iter().any(|r| r.first.max(r.second) as usize >= edges) as usize;
        }
    }
    for number in [0, 1, 2, 3, 4, 9] {
        assert!(numbers[number] > 0, "no network shows {number}: {numbers:?}");
    }
    for number in [0, 5, 6, 7, 10] {
        assert!(answers[number] > 0, "no question shows {number}: {answers:?}");
    }
    assert!(bare > 1 && nested > 5, "{bare} without a shortcut, {nested} with nested ones");
}

/// The way round decides: equal in time and count it forbids the shortcut,
/// heavier in either it does not.
#[test]
fn among_the_stored_tables_a_way_round_decides() {
    let all = stored_tables::all();
    let count = |name: &str| {
        let stored = all.iter().find(|s| s.name == name).expect("it is stored");
        stored.told().prepared.count
    };
    assert_eq!(count("an-equal-way-round"), 0);
    assert_eq!(count("a-way-round-that-is-lighter"), 0);
    assert_eq!(count("a-way-round-that-is-heavier"), 1);
    assert_eq!(count("an-equal-way-round-of-more-edges"), 1);
}

#[test]
fn the_stored_town_is_as_large_as_is_said() {
    let all = stored_tables::all();
    let town = all.last().expect("the town is the last one");
    assert_eq!((town.network.nodes.len(), town.network.edges.len()), (500, 1_400));
    let core = town.network.nodes.iter().filter(|n| n.rank == crate::network::CORE).count();
    assert!(core <= 50, "{core} nodes are core");
    assert_eq!((town.lent, town.told().prepared.number), (4_096, 0));
}
