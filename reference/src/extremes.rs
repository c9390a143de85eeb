//! Cards at the limits, each by name, and row tables at theirs.

use crate::card::{of_network, of_sheet, Record};
use crate::network::{Edge, Network, Node, Row, Sheet, State, CORE};

pub const NAMES: [&str; 34] = [
    "reference",
    "no-nodes",
    "one-node",
    "one-node-initial-only",
    "nodes-512",
    "nodes-513",
    "edges-2048",
    "edges-2049",
    "nodes-65535",
    "lengths-0",
    "lengths-1",
    "lengths-65535",
    "rank-65534-transfer",
    "rank-65535-transfer",
    "ranks-65534",
    "states-0",
    "states-8",
    "states-9",
    "states-255",
    "question-last",
    "question-outside",
    "no-edges",
    "parallel-edges",
    "rows-4096",
    "rows-4097",
    "dense-star",
    "longest-journey",
    "all-core",
    "mode-0-node",
    "mode-8-node",
    "empty-modes",
    "next-absent",
    "ends-4",
    "sheets-only",
];

/// `None` for an unknown name.
pub fn card(name: &str) -> Option<Vec<Record>> {
    let foot = Sheet::of(&[State { modes: 2, next: 1, ends: 3 }]);
    let mut records = match name {
        "reference" => return Some(crate::cases::reference_card()),
        "no-nodes" => vec![Record::Head { nodes: 0, edges: 0 }],
        "one-node" => ask(&chain(1, 0, 1), &foot, &[(0, 0), (0, 1), (1, 0)]),
        "one-node-initial-only" => {
            ask(&chain(1, 0, 1), &Sheet::of(&[State { modes: 2, next: 0, ends: 1 }]), &[(0, 0)])
        }
        "nodes-512" => ask(&chain(512, 0, 1), &foot, &[(0, 511), (511, 0), (3, 400), (0, 512)]),
        "nodes-513" => of_network(&chain(513, 0, 1)),
        "edges-2048" => ask(&ladder(2_048), &foot, &[(0, 511), (511, 0), (7, 300)]),
        "edges-2049" => of_network(&ladder(2_049)),
        "nodes-65535" => vec![Record::Head { nodes: 65_535, edges: 65_535 }],
        "lengths-0" => ask(&chain(4, 0, 0), &foot, &[(0, 3)]),
        "lengths-1" => ask(&chain(40, 0, 1), &foot, &[(0, 39)]),
        "lengths-65535" => ask(&chain(512, 0, 65_535), &foot, &[(0, 511), (1, 511), (0, 510)]),
        "rank-65534-transfer" => ask(&transfer(65_534), &foot, &[(0, 2)]),
        "rank-65535-transfer" => ask(&transfer(CORE), &foot, &[(0, 2), (2, 0)]),
        "ranks-65534" => ask(&chain(30, 65_534, 3), &foot, &[(0, 29), (5, 6)]),
        "states-0" => sheet_of(0),
        "states-8" => sheet_of(8),
        "states-9" => sheet_of(9),
        "states-255" => sheet_of(255),
        "question-last" => ask(&chain(9, 0, 2), &foot, &[(0, 8), (8, 8)]),
        "question-outside" => {
            ask(&chain(9, 0, 2), &foot, &[(0, 9), (9, 0), (9, 9), (65_535, 65_535), (0, 8)])
        }
        "no-edges" => {
            let mut network = chain(512, 3, 1);
            network.edges.clear();
            ask(&network, &foot, &[(0, 1), (511, 511)])
        }
        "parallel-edges" => ask(&parallel(), &foot, &[(0, 1), (1, 0), (0, 2)]),
        "rows-4096" => ask(&star(16, 240, 0), &foot, &[(1, 17), (16, 256), (17, 1)]),
        "rows-4097" => ask(&star(16, 240, 1), &foot, &[(1, 17)]),
        "dense-star" => ask(&star(200, 200, 0), &foot, &[(1, 300)]),
        "longest-journey" => {
            let (network, sheet) = longest();
            ask(&network, &sheet, &[(0, 511), (1, 511), (511, 0)])
        }
        "all-core" => ask(&chain(60, CORE, 5), &foot, &[(0, 59), (59, 0)]),
        "mode-0-node" => ask(&with_mode(0), &foot, &[(0, 1)]),
        "mode-8-node" => ask(&with_mode(8), &foot, &[(0, 1)]),
        "empty-modes" => ask(
            &chain(3, 0, 1),
            &Sheet::of(&[State { modes: 0, next: 1, ends: 3 }]),
            &[(0, 0), (0, 2)],
        ),
        "next-absent" => {
            let good = State { modes: 2, next: 3, ends: 3 };
            ask(&chain(3, 0, 1), &Sheet::of(&[good, State { next: 4, ..good }]), &[(0, 0)])
        }
        "ends-4" => {
            ask(&chain(3, 0, 1), &Sheet::of(&[State { modes: 2, next: 0, ends: 4 }]), &[(0, 0)])
        }
        "sheets-only" => {
            let mut records = ask(&chain(3, 0, 1), &foot, &[]);
            records.extend(of_sheet(&foot));
            records
        }
        _ => return None,
    };
    records.push(Record::End);
    Some(records)
}

fn ask(network: &Network, sheet: &Sheet, questions: &[(u16, u16)]) -> Vec<Record> {
    let mut records = of_network(network);
    records.extend(of_sheet(sheet));
    records.extend(questions.iter().map(|&(from, to)| Record::Question { from, to }));
    records
}

/// A small network with a sheet record of any state count and as many states.
fn sheet_of(states: u8) -> Vec<Record> {
    let mut records = of_network(&chain(5, 0, 2));
    records.push(Record::Sheet { states });
    for state in 0..states {
        let next = if state < 7 { 2 << state } else { 1 };
        records.push(Record::State(State { modes: 2, next, ends: 3 }));
    }
    records.push(Record::Question { from: 0, to: 4 });
    records
}

/// Foot nodes one behind the other, ways forward only; the two ends are core.
pub fn chain(nodes: u16, rank: u16, length: u16) -> Network {
    let rank_of = |i: u16| if i == 0 || i + 1 == nodes { CORE } else { rank };
    Network {
        nodes: (0..nodes).map(|i| Node { mode: 1, rank: rank_of(i) }).collect(),
        edges: (1..nodes).map(|i| Edge { tail: i - 1, head: i, mode: 1, length }).collect(),
    }
}

/// 512 nodes, ways to and fro and steps of two, as many edges as asked.
pub fn ladder(edges: u16) -> Network {
    let mut network = chain(512, 4, 2);
    let steps = (0u16..).flat_map(|round| (0..510u16).map(move |i| (round, i)));
    for (round, i) in steps {
        if network.edges.len() >= edges as usize {
            break;
        }
        let (tail, head) = match round % 3 {
            0 => (i + 1, i),
            1 => (i, i + 2),
            _ => (i + 2, i),
        };
        network.edges.push(Edge { tail, head, mode: 1, length: 3 + i % 3 });
    }
    network
}

fn transfer(rank: u16) -> Network {
    Network {
        nodes: vec![
            Node { mode: 1, rank: CORE },
            Node { mode: 1, rank },
            Node { mode: 2, rank: CORE },
        ],
        edges: vec![
            Edge { tail: 0, head: 1, mode: 1, length: 1 },
            Edge { tail: 1, head: 2, mode: 0, length: 1 },
        ],
    }
}

fn with_mode(mode: u8) -> Network {
    let mut network = chain(4, 0, 1);
    network.nodes[2].mode = mode;
    network
}

/// 2,048 edges between three nodes; the middle one is contracted.
pub fn parallel() -> Network {
    let mut network = chain(3, 0, 1);
    network.nodes[2].rank = CORE;
    network.nodes.swap(1, 2);
    network.nodes[2].rank = 7;
    network.edges = (0..2_048u16)
        .map(|i| {
            let (tail, head) = [(0, 2), (2, 1), (0, 1), (1, 2), (2, 0)][i as usize % 5];
            Edge { tail, head, mode: 1, length: 40 - (i * 7) % 31 }
        })
        .collect();
    network
}

/// Node 0 in the middle: every way in meets every way out, so contracting it
/// gives ins * outs shortcuts. `idle` edges between outer nodes change nothing
/// but the row count.
pub fn star(ins: u16, outs: u16, idle: u16) -> Network {
    let mut network = Network {
        nodes: vec![Node { mode: 1, rank: CORE }; 1 + (ins + outs) as usize],
        edges: Vec::new(),
    };
    network.nodes[0].rank = 0;
    let out = |node: u16| Edge { tail: 0, head: node, mode: 1, length: node };
    network.edges.extend((1..=ins).map(|node| Edge { tail: node, head: 0, mode: 1, length: 5 }));
    network.edges.extend((ins + 1..=ins + outs).map(out));
    network.edges.extend((0..idle).map(|_| Edge { tail: ins + 1, head: 1, mode: 1, length: 9 }));
    network
}

/// The longest journey there is: each of 512 nodes in each of 8 states, 4,095
/// edges of 65,535 s. A link at the far end leads back to the start.
pub fn longest() -> (Network, Sheet) {
    let mut network = chain(512, 0, 65_535);
    network.edges.push(Edge { tail: 511, head: 0, mode: 0, length: 65_535 });
    (network, eight_times())
}

/// Walk, link, walk again: eight states in a row, the last one final.
pub fn eight_times() -> Sheet {
    let states: Vec<State> = (0..8u8)
        .map(|i| State {
            modes: 2,
            next: if i < 7 { 2 << i } else { 0 },
            ends: if i == 0 {
                1
            } else if i == 7 {
                2
            } else {
                0
            },
        })
        .collect();
    Sheet::of(&states)
}

/// The first of the core nodes in `doubling`; those below it are contracted.
pub const FIRST_CORE: u16 = 9;

/// A network and a table in which each core node has a row of the given count
/// (1 to 511; 512 is one above the bound, so the first such row is unsound) to
/// the next one, and a link leads from the last back to the first. Lengths are
/// all 65,535. The same inner nodes are met again and again, as no prepared
/// table would do, so journeys over it are longer than over any network.
pub fn doubling(count: u16, cores: u16) -> (Network, Vec<Row>) {
    let last = FIRST_CORE + cores - 1;
    let back = Edge { tail: last, head: FIRST_CORE, mode: 0, length: 65_535 };
    let mut town = Doubling { edges: vec![back], made: Vec::new() };
    // First the edges, so that row numbers are known, then the rows.
    for numbered in [false, true] {
        town.made.clear();
        for core in FIRST_CORE..last {
            town.row(core, core + 1, FIRST_CORE, count, numbered);
        }
    }
    let rank = |i: u16| if i < FIRST_CORE { i } else { CORE };
    let network = Network {
        nodes: (0..=last).map(|i| Node { mode: 1, rank: rank(i) }).collect(),
        edges: town.edges,
    };
    let shortcuts = town.made.into_iter().map(|(_, row)| row).collect();
    (network, shortcuts)
}

/// (tail, head, depth, count) of a row that was made.
type Wish = (u16, u16, u16, u16);

struct Doubling {
    edges: Vec<Edge>,
    made: Vec<(Wish, Row)>,
}

impl Doubling {
    /// The number of a row tail to head with `count` edges. The meeting node
    /// of depth d is node d - 1, below both ends.
    fn row(&mut self, tail: u16, head: u16, depth: u16, count: u16, numbered: bool) -> u16 {
        if count == 1 {
            let edge = Edge { tail, head, mode: 1, length: 65_535 };
            if let Some(at) = self.edges.iter().position(|e| *e == edge) {
                return at as u16;
            }
            self.edges.push(edge);
            return self.edges.len() as u16 - 1;
        }
        let wish = (tail, head, depth, count);
        if let Some(at) = self.made.iter().position(|(made, _)| *made == wish) {
            return if numbered { (self.edges.len() + at) as u16 } else { 0 };
        }
        let meeting = depth - 1;
        let first = self.row(tail, meeting, depth - 1, count - count / 2, numbered);
        let second = self.row(meeting, head, depth - 1, count / 2, numbered);
        let length = count as u32 * 65_535;
        self.made.push((wish, Row { tail, head, mode: 1, length, count, first, second }));
        (self.edges.len() + self.made.len() - 1) as u16
    }
}
