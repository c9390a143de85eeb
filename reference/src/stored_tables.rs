//! The stored networks that the proved program `tables` prepares and asks
//! about: 01's network, some made by hand, each refusal of preparation, a few
//! dozen from fixed seeds, and a town of 500 nodes.
//!
//! `stored` makes the program's input, and `owed` what it must write for it,
//! by our own contraction and searches alone.

use crate::cases::{ask, reference_network, sheet_a, sheet_f, sheet_r};
use crate::city;
use crate::columns::{Answer, NetworkColumns, RowColumns};
use crate::contraction::prepare;
use crate::district::district;
use crate::expected::{self, Ask};
use crate::extremes::star;
use crate::network::{Edge, Network, Node, Row, Sheet, State, CORE};
use crate::rng::Rng;

pub struct Stored {
    pub name: String,
    pub network: Network,
    /// How many rows preparation is lent.
    pub lent: usize,
    pub questions: Vec<Ask>,
}

/// What came of one stored network.
pub struct Told {
    pub prepared: Answer,
    /// All lent rows, as they were left.
    pub rows: Vec<Row>,
    /// The plain search's answer to each question, and the contracted search's.
    pub answers: Vec<(Answer, Answer)>,
}

/// What every lent row is filled with before preparation.
const FILLED: Row = Row { tail: 7, head: 7, mode: 7, length: 7, count: 7, first: 7, second: 7 };
/// Tables of more lent rows are told by their checksum.
const FEW: usize = 64;
/// The largest prime below 2^32.
const PRIME: u64 = 4_294_967_291;
const SEEDS: u64 = 30;

fn asked(questions: &[(Sheet, u16, u16)]) -> Vec<Ask> {
    questions.iter().map(|&(ref sheet, from, to)| ask(sheet, from, to, 4_096)).collect()
}

fn stored(name: &str, network: Network, lent: usize, questions: &[(Sheet, u16, u16)]) -> Stored {
    Stored { name: name.to_string(), network, lent, questions: asked(questions) }
}

/// Nodes of one mode with these ranks, and ways (tail, head, length).
fn ways(ranks: &[u16], ways: &[(u16, u16, u16)]) -> Network {
    Network {
        nodes: ranks.iter().map(|&rank| Node { mode: 1, rank }).collect(),
        edges: ways
            .iter()
            .map(|&(tail, head, length)| Edge { tail, head, mode: 1, length })
            .collect(),
    }
}

pub fn all() -> Vec<Stored> {
    let mut all = reference();
    all.extend(by_hand());
    all.extend((1..=SEEDS).map(from_seed));
    all.extend(too_few_rows());
    all.extend(broken());
    all.extend(full());
    all.push(town());
    all
}

/// 01's network as it is (P1 to P7, and questions that are refused), and with
/// edge 6 at other lengths (P8, P9).
fn reference() -> Vec<Stored> {
    let (a, f, r) = (sheet_a(), sheet_f(), sheet_r());
    let wrong = Sheet::of(&[State { modes: 2, next: 0, ends: 4 }]);
    let with = |length| {
        let mut network = reference_network();
        network.edges[6].length = length;
        network
    };
    let marked = [(a, 0, 6), (f, 0, 6), (a, 0, 3), (a, 3, 4), (a, 0, 0), (r, 0, 0)];
    let refused = [(wrong, 0, 6), (a, 7, 0), (a, 0, 7)];
    vec![
        stored("reference", with(9), 3, &[&marked[..], &refused[..]].concat()),
        stored("reference-with-edge-6-at-7", with(7), 2, &[(a, 0, 6)]),
        stored("reference-with-edge-6-at-8", with(8), 1, &[(a, 0, 6)]),
    ]
}

fn by_hand() -> Vec<Stored> {
    let walk = sheet_f();
    let round =
        |length| ways(&[CORE, 0, CORE, CORE], &[(0, 1, 2), (1, 2, 2), (0, 3, 1), (3, 2, length)]);
    let line: Vec<(u16, u16, u16)> = (0..6).map(|i| (i, i + 1, 1 + i % 3)).collect();
    vec![
        stored("an-equal-way-round", round(3), 2, &[(walk, 0, 2)]),
        stored("a-way-round-that-is-heavier", round(4), 2, &[(walk, 0, 2)]),
        stored("a-way-round-that-is-lighter", round(2), 2, &[(walk, 0, 2)]),
        stored(
            "an-equal-way-round-of-more-edges",
            ways(
                &[CORE, 0, CORE, CORE, CORE],
                &[(0, 1, 2), (1, 2, 2), (0, 3, 1), (3, 4, 1), (4, 2, 2)],
            ),
            2,
            &[(walk, 0, 2)],
        ),
        stored(
            "parallel-edges",
            ways(&[CORE, 0, CORE], &[(0, 1, 3), (0, 1, 2), (0, 1, 2), (1, 2, 1), (1, 2, 1)]),
            2,
            &[(walk, 0, 2)],
        ),
        stored(
            "shortcuts-of-shortcuts",
            ways(&[CORE, 3, 1, 0, 4, 2, CORE], &line),
            8,
            &[(walk, 0, 6), (walk, 1, 4), (walk, 2, 6), (walk, 6, 0)],
        ),
        stored("one-node", ways(&[0], &[]), 1, &[(walk, 0, 0)]),
    ]
}

/// Up to three modes, the nodes of each in one block. Lengths 1 to 4, so that
/// ties and equal ways round abound.
fn small(rng: &mut Rng) -> Network {
    let size = rng.between(2, 14);
    let kinds = if size < 5 { 1 } else { rng.between(2, 3) };
    let block = |kind: usize| (kind * size / kinds, (kind + 1) * size / kinds - 1);
    let ranks = rng.pick(&[2, 4, 40]);
    let mut network = Network::default();
    for kind in 0..kinds {
        let (first, last) = block(kind);
        for node in first..=last {
            let rank = if rng.chance(6) { CORE } else { rng.below(ranks) as u16 };
            network.nodes.push(Node { mode: 1 + kind as u8, rank });
            if node > first {
                let before = rng.between(first, node - 1);
                add_edge(rng, &mut network, before, node, 1 + kind as u8);
            }
        }
        for _ in first..=last {
            let (tail, head) = (rng.between(first, last), rng.between(first, last));
            add_edge(rng, &mut network, tail, head, 1 + kind as u8);
        }
    }
    for kind in 1..kinds {
        for _ in 0..rng.between(1, 2) {
            let ((first, last), (low, high)) = (block(kind - 1), block(kind));
            let (tail, head) = (rng.between(first, last), rng.between(low, high));
            network.nodes[tail].rank = CORE;
            network.nodes[head].rank = CORE;
            add_edge(rng, &mut network, tail, head, 0);
        }
    }
    rng.shuffle(&mut network.edges);
    network
}

/// Two edges out of three have one back, and that is as long as often as not.
fn add_edge(rng: &mut Rng, network: &mut Network, tail: usize, head: usize, mode: u8) {
    if tail == head {
        return;
    }
    let (tail, head, length) = (tail as u16, head as u16, rng.between(1, 4) as u16);
    network.edges.push(Edge { tail, head, mode, length });
    if !rng.chance(3) {
        let length = if rng.chance(2) { length } else { rng.between(1, 4) as u16 };
        network.edges.push(Edge { tail: head, head: tail, mode, length });
    }
}

/// One sheet that allows everything, and one of two states with a change.
fn two_sheets() -> [Sheet; 2] {
    [
        Sheet::of(&[State { modes: 0xFE, next: 1, ends: 3 }]),
        Sheet::of(&[State { modes: 2, next: 2, ends: 1 }, State { modes: 0xFC, next: 0, ends: 2 }]),
    ]
}

fn some_questions(rng: &mut Rng, nodes: usize, sheets: &[Sheet]) -> Vec<(Sheet, u16, u16)> {
    let mut questions = Vec::new();
    for &sheet in sheets {
        for _ in 0..3 {
            questions.push((sheet, rng.below(nodes) as u16, rng.below(nodes) as u16));
        }
    }
    questions
}

/// The rows suffice, with up to three to spare.
fn from_seed(seed: u64) -> Stored {
    let mut rng = Rng::new(seed);
    let network = small(&mut rng);
    let questions = some_questions(&mut rng, network.nodes.len(), &two_sheets());
    let made = prepare(&network, 4_096).map_or(0, |rows| rows.len());
    stored(&format!("seed-{seed}"), network, made + rng.below(4), &questions)
}

/// 9: some of the same networks with one row too few, with half of them, with
/// none.
fn too_few_rows() -> Vec<Stored> {
    let mut short = Vec::new();
    for seed in 1..=SEEDS {
        let Stored { network, questions, .. } = from_seed(seed);
        let made = prepare(&network, 4_096).map_or(0, |rows| rows.len());
        let (name, lent) = match short.len() {
            0 | 1 => ("one-row-short", made.saturating_sub(1)),
            2 => ("half-of-the-rows", made / 2),
            3 => ("no-rows", 0),
            _ => break,
        };
        if made > 3 {
            let name = format!("refusal-9-{name}-seed-{seed}");
            short.push(Stored { name, network, lent, questions });
        }
    }
    short
}

/// 1 to 4, by changes of 01's network; the lent rows stay as they were.
fn broken() -> Vec<Stored> {
    let with = |name: &str, change: fn(&mut Network)| {
        let mut network = reference_network();
        change(&mut network);
        stored(name, network, 2, &[(sheet_a(), 0, 6)])
    };
    vec![
        with("refusal-1-no-nodes", |n| n.nodes.clear()),
        with("refusal-1-513-nodes", |n| n.nodes.resize(513, Node { mode: 1, rank: CORE })),
        with("refusal-2-mode-zero", |n| n.nodes[4].mode = 0),
        with("refusal-2-mode-eight", |n| n.nodes[1].mode = 8),
        with("refusal-3-length-zero", |n| n.edges[5].length = 0),
        with("refusal-3-equal-ends", |n| n.edges[0].head = 0),
        with("refusal-3-head-is-no-node", |n| n.edges[7].head = 7),
        with("refusal-3-ride-between-nodes-of-another-mode", |n| n.edges[3].mode = 1),
        with("refusal-4-node-2-at-rank-9", |n| n.nodes[2].rank = 9),
    ]
}

/// 63 ways into a node that is contracted meet 63 ways out of it: with one edge
/// more there are 4,096 rows, with two there are too many.
fn full() -> Vec<Stored> {
    let questions = [(sheet_f(), 1, 64), (sheet_f(), 64, 1)];
    vec![
        stored("rows-4096", star(63, 63, 1), 4_096, &questions),
        stored("refusal-9-4097-rows", star(63, 63, 2), 4_096, &questions),
    ]
}

/// 500 nodes and 1,400 edges, nine nodes in ten contractible.
fn town() -> Stored {
    let mut rng = Rng::new(500);
    let network = district(&mut rng, 500);
    let questions = some_questions(&mut rng, 400, &city::sheets());
    stored("town", network, 4_096, &questions)
}

impl Stored {
    pub fn told(&self) -> Told {
        let network = NetworkColumns::of(&self.network);
        let lent = RowColumns::of(&vec![FILLED; self.lent]);
        let (prepared, left) = expected::prepare(&network, &lent, 8_192, 16_384);
        let rows = left.rows().unwrap_or_default();
        // The table that was made; where none was, the lent rows as they are.
        let table = match prepared.number {
            0 => RowColumns::of(&rows[..prepared.count as usize]),
            _ => left,
        };
        let both =
            |ask| (expected::plain(&network, ask), expected::contracted(&network, &table, ask));
        Told { prepared, rows, answers: self.questions.iter().map(both).collect() }
    }

    /// Its name, LF; nodes, edges, lent rows (two bytes each), questions (one
    /// byte); the six columns; then each question: the sheet's 24 bytes, its
    /// state count, from and to. Numbers are big-endian.
    fn bytes(&self) -> Vec<u8> {
        fn words(column: &[u16]) -> Vec<u8> {
            column.iter().flat_map(|word| word.to_be_bytes()).collect()
        }
        let n = NetworkColumns::of(&self.network);
        let sizes = [n.node_modes.len() as u16, n.tails.len() as u16, self.lent as u16];
        let mut bytes = format!("{}\n", self.name).into_bytes();
        bytes.extend(words(&sizes));
        bytes.push(self.questions.len() as u8);
        bytes.extend(&n.node_modes);
        bytes.extend([words(&n.node_ranks), words(&n.tails), words(&n.heads)].concat());
        bytes.extend(&n.modes);
        bytes.extend(words(&n.lengths));
        for ask in &self.questions {
            bytes.extend(&ask.sheet);
            bytes.push(ask.states);
            bytes.extend(words(&[ask.from, ask.to]));
        }
        bytes
    }
}

impl Told {
    pub fn text(&self) -> String {
        let Answer { number, place, count, .. } = self.prepared;
        let mut text = format!("{number} {place} {count}\n");
        if self.rows.len() <= FEW {
            for row in &self.rows {
                let fields = fields(row).map(|field| field.to_string());
                text.push_str(&format!("{}\n", fields.join(" ")));
            }
        } else {
            text.push_str(&format!("{}\n", checksum(&self.rows)));
        }
        for (plain, contracted) in &self.answers {
            for Answer { number, place, time, count } in [plain, contracted] {
                text.push_str(&format!("{number} {place} {time} {count}\n"));
            }
        }
        text
    }
}

fn fields(row: &Row) -> [u64; 7] {
    let Row { tail, head, mode, length, count, first, second } = *row;
    [
        tail.into(),
        head.into(),
        mode.into(),
        length.into(),
        count.into(),
        first.into(),
        second.into(),
    ]
}

/// The checksum begins at 0; each field in turn is added to 65,599 times the
/// sum before it, modulo the prime.
fn checksum(rows: &[Row]) -> u64 {
    rows.iter().flat_map(fields).fold(0, |sum, field| (sum * 65_599 + field) % PRIME)
}

/// The program's input.
pub fn input(all: &[Stored]) -> Vec<u8> {
    all.iter().flat_map(Stored::bytes).collect()
}

/// What the program must write.
pub fn owed(all: &[Stored]) -> String {
    all.iter().map(|stored| format!("{}\n{}", stored.name, stored.told().text())).collect()
}
