//! Networks and row tables as columns, the form the C interface passes them
//! in. Columns may be uneven; then there is no network or table behind them.

use crate::network::{Edge, Network, Node, Refusal, Row};

/// The value every call of the interface answers with.
#[repr(C)]
#[derive(Clone, Copy, Debug, PartialEq, Eq)]
pub struct Answer {
    pub number: u8,
    pub place: u64,
    pub time: u64,
    pub count: u32,
}

impl From<Refusal> for Answer {
    fn from(r: Refusal) -> Answer {
        Answer { number: r.number, place: r.place, time: 0, count: 0 }
    }
}

#[derive(Clone, Debug, Default, PartialEq, Eq)]
pub struct NetworkColumns {
    pub node_modes: Vec<u8>,
    pub node_ranks: Vec<u16>,
    pub tails: Vec<u16>,
    pub heads: Vec<u16>,
    pub modes: Vec<u8>,
    pub lengths: Vec<u16>,
}

impl NetworkColumns {
    pub fn of(network: &Network) -> NetworkColumns {
        NetworkColumns {
            node_modes: network.nodes.iter().map(|n| n.mode).collect(),
            node_ranks: network.nodes.iter().map(|n| n.rank).collect(),
            tails: network.edges.iter().map(|e| e.tail).collect(),
            heads: network.edges.iter().map(|e| e.head).collect(),
            modes: network.edges.iter().map(|e| e.mode).collect(),
            lengths: network.edges.iter().map(|e| e.length).collect(),
        }
    }

    /// `None` for uneven columns.
    pub fn network(&self) -> Option<Network> {
        let (nodes, edges) = (self.node_modes.len(), self.tails.len());
        let even = self.node_ranks.len() == nodes
            && self.heads.len() == edges
            && self.modes.len() == edges
            && self.lengths.len() == edges;
        even.then(|| Network {
            nodes: (0..nodes)
                .map(|i| Node { mode: self.node_modes[i], rank: self.node_ranks[i] })
                .collect(),
            edges: (0..edges)
                .map(|i| Edge {
                    tail: self.tails[i],
                    head: self.heads[i],
                    mode: self.modes[i],
                    length: self.lengths[i],
                })
                .collect(),
        })
    }
}

#[derive(Clone, Debug, Default, PartialEq, Eq)]
pub struct RowColumns {
    pub tails: Vec<u16>,
    pub heads: Vec<u16>,
    pub modes: Vec<u8>,
    pub lengths: Vec<u32>,
    pub counts: Vec<u16>,
    pub firsts: Vec<u16>,
    pub seconds: Vec<u16>,
}

/// Seven columns lent to be written.
#[cfg(feature = "linked")]
pub struct LentRows<'a> {
    pub tails: &'a mut [u16],
    pub heads: &'a mut [u16],
    pub modes: &'a mut [u8],
    pub lengths: &'a mut [u32],
    pub counts: &'a mut [u16],
    pub firsts: &'a mut [u16],
    pub seconds: &'a mut [u16],
}

impl RowColumns {
    #[cfg(feature = "linked")]
    pub fn lend(&mut self) -> LentRows<'_> {
        LentRows {
            tails: &mut self.tails,
            heads: &mut self.heads,
            modes: &mut self.modes,
            lengths: &mut self.lengths,
            counts: &mut self.counts,
            firsts: &mut self.firsts,
            seconds: &mut self.seconds,
        }
    }

    pub fn of(rows: &[Row]) -> RowColumns {
        RowColumns {
            tails: rows.iter().map(|r| r.tail).collect(),
            heads: rows.iter().map(|r| r.head).collect(),
            modes: rows.iter().map(|r| r.mode).collect(),
            lengths: rows.iter().map(|r| r.length).collect(),
            counts: rows.iter().map(|r| r.count).collect(),
            firsts: rows.iter().map(|r| r.first).collect(),
            seconds: rows.iter().map(|r| r.second).collect(),
        }
    }

    /// `None` for uneven columns.
    pub fn rows(&self) -> Option<Vec<Row>> {
        let rows = self.tails.len();
        let even = self.heads.len() == rows
            && self.modes.len() == rows
            && self.lengths.len() == rows
            && self.counts.len() == rows
            && self.firsts.len() == rows
            && self.seconds.len() == rows;
        even.then(|| {
            (0..rows)
                .map(|i| Row {
                    tail: self.tails[i],
                    head: self.heads[i],
                    mode: self.modes[i],
                    length: self.lengths[i],
                    count: self.counts[i],
                    first: self.firsts[i],
                    second: self.seconds[i],
                })
                .collect()
        })
    }
}
