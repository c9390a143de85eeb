//! The card stream, record by record: one byte of kind, then a body whose
//! length the kind fixes; numbers big-endian. Order and meaning of the records
//! are the business of `answer`.

use crate::network::{Edge, Network, Node, Sheet, State};

#[derive(Clone, Copy, Debug, PartialEq, Eq)]
pub enum Record {
    End,
    Head { nodes: u16, edges: u16 },
    Node(Node),
    Edge(Edge),
    State(State),
    Question { from: u16, to: u16 },
    Sheet { states: u8 },
}

/// What stands at an offset of the stream.
#[derive(Clone, Copy, Debug, PartialEq, Eq)]
pub enum Found {
    Record(Record),
    /// No byte is left: the stream stops between records.
    Nothing,
    /// A kind no record has.
    Unknown,
    /// A known kind whose body is not all there.
    Cut,
}

/// Bytes behind the kind byte; `None` for an unknown kind.
fn body_length(kind: u8) -> Option<usize> {
    match kind {
        0 => Some(0),
        1 => Some(4),
        2 => Some(3),
        3 => Some(7),
        4 => Some(3),
        5 => Some(4),
        6 => Some(1),
        _ => None,
    }
}

pub fn find(bytes: &[u8], offset: usize) -> Found {
    let Some(&kind) = bytes.get(offset) else {
        return Found::Nothing;
    };
    let Some(length) = body_length(kind) else {
        return Found::Unknown;
    };
    let Some(body) = bytes.get(offset + 1..offset + 1 + length) else {
        return Found::Cut;
    };
    let two = |at: usize| u16::from_be_bytes([body[at], body[at + 1]]);
    Found::Record(match kind {
        1 => Record::Head { nodes: two(0), edges: two(2) },
        2 => Record::Node(Node { mode: body[0], rank: two(1) }),
        3 => Record::Edge(Edge { tail: two(0), head: two(2), mode: body[4], length: two(5) }),
        4 => Record::State(State { modes: body[0], next: body[1], ends: body[2] }),
        5 => Record::Question { from: two(0), to: two(2) },
        6 => Record::Sheet { states: body[0] },
        _ => Record::End,
    })
}

impl Record {
    pub fn bytes(&self) -> Vec<u8> {
        let mut bytes = Vec::new();
        let two = |bytes: &mut Vec<u8>, n: u16| bytes.extend(n.to_be_bytes());
        match *self {
            Record::End => bytes.push(0),
            Record::Head { nodes, edges } => {
                bytes.push(1);
                two(&mut bytes, nodes);
                two(&mut bytes, edges);
            }
            Record::Node(node) => {
                bytes.extend([2, node.mode]);
                two(&mut bytes, node.rank);
            }
            Record::Edge(edge) => {
                bytes.push(3);
                two(&mut bytes, edge.tail);
                two(&mut bytes, edge.head);
                bytes.push(edge.mode);
                two(&mut bytes, edge.length);
            }
            Record::State(state) => bytes.extend([4, state.modes, state.next, state.ends]),
            Record::Question { from, to } => {
                bytes.push(5);
                two(&mut bytes, from);
                two(&mut bytes, to);
            }
            Record::Sheet { states } => bytes.extend([6, states]),
        }
        bytes
    }

    pub fn size(&self) -> usize {
        self.bytes().len()
    }
}

pub fn write(records: &[Record]) -> Vec<u8> {
    records.iter().flat_map(Record::bytes).collect()
}

/// The head, node and edge records of a network.
pub fn of_network(network: &Network) -> Vec<Record> {
    let mut records =
        vec![Record::Head { nodes: network.nodes.len() as u16, edges: network.edges.len() as u16 }];
    records.extend(network.nodes.iter().map(|&node| Record::Node(node)));
    records.extend(network.edges.iter().map(|&edge| Record::Edge(edge)));
    records
}

/// A sheet record with its states.
pub fn of_sheet(sheet: &Sheet) -> Vec<Record> {
    let mut records = vec![Record::Sheet { states: sheet.count }];
    records.extend(sheet.states().iter().map(|&state| Record::State(state)));
    records
}
