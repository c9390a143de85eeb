//! 01's reference network and the cases marked P, as one list that both
//! `selftest` and the tests go through.

use crate::answer::{answer, print};
use crate::card::{of_network, of_sheet, write, Record};
use crate::columns::{Answer, NetworkColumns, RowColumns};
use crate::contraction::prepare;
use crate::expected::{self, Ask};
use crate::network::{Edge, Network, Node, Refusal, Row, Sheet, State, CORE};

pub const REFERENCE_LINES: &str = "22 6 0 1 2 3 4 5\n! 7 0\n0 0\n42 4 0 1 7 5\n";

pub fn reference_network() -> Network {
    let node = |mode, rank| Node { mode, rank };
    let edge = |tail, head, mode, length| Edge { tail, head, mode, length };
    Network {
        nodes: vec![
            node(1, 5),
            node(1, 0),
            node(1, CORE),
            node(2, CORE),
            node(2, CORE),
            node(1, CORE),
            node(1, 5),
        ],
        edges: vec![
            edge(0, 1, 1, 4),
            edge(1, 2, 1, 3),
            edge(2, 3, 0, 2),
            edge(3, 4, 2, 6),
            edge(4, 5, 0, 2),
            edge(5, 6, 1, 5),
            edge(0, 2, 1, 9),
            edge(2, 5, 1, 30),
        ],
    }
}

pub fn sheet_a() -> Sheet {
    Sheet::of(&[State { modes: 2, next: 2, ends: 3 }, State { modes: 4, next: 1, ends: 0 }])
}

pub fn sheet_f() -> Sheet {
    Sheet::of(&[State { modes: 2, next: 0, ends: 3 }])
}

pub fn sheet_r() -> Sheet {
    Sheet::of(&[State { modes: 4, next: 0, ends: 3 }])
}

pub fn reference_card() -> Vec<Record> {
    let ask = |from, to| Record::Question { from, to };
    let mut records = of_network(&reference_network());
    records.extend(of_sheet(&sheet_a()));
    records.extend([ask(0, 6), ask(0, 3), ask(0, 0)]);
    records.extend(of_sheet(&sheet_f()));
    records.extend([ask(0, 6), Record::End]);
    records
}

pub fn sheet_bytes(sheet: &Sheet) -> Vec<u8> {
    sheet.entries.iter().flat_map(|s| [s.modes, s.next, s.ends]).collect()
}

/// A question with rooms that suffice for any network.
pub fn ask(sheet: &Sheet, from: u16, to: u16, journey: usize) -> Ask {
    let (wide, narrow) = (16 * 512, 32 * 512);
    Ask { sheet: sheet_bytes(sheet), states: sheet.count, from, to, journey, wide, narrow }
}

/// The plain answer if the contracted one over our own table is the same.
fn both(network: &Network, ask: &Ask) -> Result<Answer, String> {
    let columns = NetworkColumns::of(network);
    let plain = expected::plain(&columns, ask);
    let shortcuts = prepare(network, 4_096).unwrap_or_default();
    let contracted = expected::contracted(&columns, &RowColumns::of(&shortcuts), ask);
    if plain == contracted {
        Ok(plain)
    } else {
        Err(format!("plain {plain:?}, contracted {contracted:?}"))
    }
}

fn shows(network: &Network, ask: Ask, number: u8, time: u64, count: u32) -> Result<(), String> {
    same(both(network, &ask)?, Answer { number, place: 0, time, count })
}

fn same<T: PartialEq + std::fmt::Debug>(ours: T, theirs: T) -> Result<(), String> {
    if ours == theirs {
        Ok(())
    } else {
        Err(format!("{ours:?} stands where {theirs:?} belongs"))
    }
}

fn with_edge_6(length: u16) -> Network {
    let mut network = reference_network();
    network.edges[6].length = length;
    network
}

type Case = (&'static str, Result<(), String>);

/// P1 to P12 and the reference stream, each with what went wrong, if anything.
pub fn all() -> Vec<Case> {
    let network = reference_network();
    let (a, f, r) = (sheet_a(), sheet_f(), sheet_r());
    let room = 4_096;
    let row_8 = Row { tail: 0, head: 2, mode: 1, length: 7, count: 2, first: 0, second: 1 };
    let mut ranked = network.clone();
    ranked.nodes[2].rank = 9;
    let alone = Network { nodes: vec![Node { mode: 1, rank: 0 }], edges: Vec::new() };
    let initial = Sheet::of(&[State { modes: 2, next: 0, ends: 1 }]);
    vec![
        ("P1", shows(&network, ask(&a, 0, 6, room), 0, 22, 6)),
        ("P2", shows(&network, ask(&f, 0, 6, room), 0, 42, 4)),
        ("P3", shows(&network, ask(&a, 0, 3, room), 7, 0, 0)),
        ("P4", shows(&network, ask(&a, 3, 4, room), 7, 0, 0)),
        ("P5", shows(&network, ask(&a, 0, 0, room), 0, 0, 0)),
        ("P6", shows(&network, ask(&r, 0, 0, room), 0, 0, 0)),
        ("P7", same(prepare(&network, 4_096), Ok(vec![row_8]))),
        ("P8 rows", same(prepare(&with_edge_6(7), 4_096), Ok(Vec::new()))),
        ("P8 journey", shows(&with_edge_6(7), ask(&a, 0, 6, room), 0, 22, 5)),
        ("P9", same(prepare(&with_edge_6(8), 4_096), Ok(vec![row_8]))),
        ("P10 room 5", shows(&network, ask(&a, 0, 6, 5), 8, 22, 6)),
        ("P10 room 6", shows(&network, ask(&a, 0, 6, 6), 0, 22, 6)),
        ("P11", same(ranked.check(), Err(Refusal { number: 4, place: 2 }))),
        ("P12", shows(&alone, ask(&initial, 0, 0, room), 7, 0, 0)),
        ("stream", {
            let lines = answer(&write(&reference_card())).lines;
            same(print(&lines), REFERENCE_LINES.to_string())
        }),
    ]
}
