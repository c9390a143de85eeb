//! The search over any sound row table.
//!
//! 01: the least weight of an accepted row path in which no inner node is
//! contracted before both its neighbours. The rule looks at three nodes in a
//! row, so the search remembers the row ridden last: a label is (last row,
//! state). Nothing here knows of an upward and a downward phase; the rule is
//! applied to each pair of consecutive rows as it is written.

use crate::network::{Network, Row, Sheet};
use crate::weight::Weight;
use std::cmp::Reverse;
use std::collections::BinaryHeap;

/// One least row path: its weight and its row numbers in order.
#[derive(Clone, Debug, PartialEq, Eq)]
pub struct RowPath {
    pub weight: Weight,
    pub rows: Vec<u16>,
}

/// May `row` follow `last`? Not if the node between is before both others.
pub fn may_follow(network: &Network, last: &Row, row: &Row) -> bool {
    let inner = row.tail as usize;
    !(network.before(inner, last.tail as usize) && network.before(inner, row.head as usize))
}

/// The table and the rows at each node. Lists serve any number of questions.
pub struct Lists {
    table: Vec<Row>,
    /// The rows out of each node.
    departures: Vec<Vec<usize>>,
    /// The tails of the rows that fall into each node.
    falls_from: Vec<Vec<usize>>,
}

impl Lists {
    pub fn of(network: &Network, shortcuts: &[Row]) -> Lists {
        let mut lists = Lists {
            table: network.table(shortcuts),
            departures: vec![Vec::new(); network.nodes.len()],
            falls_from: vec![Vec::new(); network.nodes.len()],
        };
        for (number, row) in lists.table.iter().enumerate() {
            lists.departures[row.tail as usize].push(number);
            if falls(network, row) {
                lists.falls_from[row.head as usize].push(row.tail as usize);
            }
        }
        lists
    }

    /// Marks the nodes from which falling rows alone reach `node`.
    fn mark(&self, node: usize, reaching: &mut [bool]) {
        if !reaching[node] {
            reaching[node] = true;
            for &above in &self.falls_from[node] {
                self.mark(above, reaching);
            }
        }
    }
}

fn falls(network: &Network, row: &Row) -> bool {
    network.before(row.head as usize, row.tail as usize)
}

/// `None` is refusal 7. Asks for inputs that passed their checks.
pub fn search(
    network: &Network,
    shortcuts: &[Row],
    sheet: &Sheet,
    from: u16,
    to: u16,
) -> Option<RowPath> {
    search_in(network, &Lists::of(network, shortcuts), sheet, from, to, false)
}

/// With `brisk` a label is passed over when another one that was at the same
/// node in the same state before it leaves at least the same rows to choose
/// from. The judging search goes without, to stay as simple as can be;
/// `selftest` holds the two against each other and `bench` times the brisk one.
pub fn search_in(
    network: &Network,
    lists: &Lists,
    sheet: &Sheet,
    from: u16,
    to: u16,
    brisk: bool,
) -> Option<RowPath> {
    let table = &lists.table;
    // After one falling row every further row must fall too, so a falling row
    // is worth riding only into a node from which falling rows reach `to`.
    let mut reaching = vec![false; network.nodes.len()];
    lists.mark(to as usize, &mut reaching);

    // A label is (row + 1) * states + state; row + 1 = 0 is the start.
    let states = sheet.states().len();
    let mut best: Vec<Option<(Weight, usize)>> = vec![None; (table.len() + 1) * states];
    // Per (node, state): was a label here before, and one with every row free?
    let mut been = vec![(false, false); if brisk { network.nodes.len() * states } else { 0 }];
    let mut heap = BinaryHeap::new();
    for (state, entry) in sheet.states().iter().enumerate() {
        if entry.starts() {
            best[state] = Some((Weight::ZERO, state));
            heap.push(Reverse((Weight::ZERO, state)));
        }
    }

    while let Some(Reverse((weight, label))) = heap.pop() {
        if best[label].is_some_and(|(known, _)| known < weight) {
            continue;
        }
        let (last, state) = ((label / states).checked_sub(1), label % states);
        let node = last.map_or(from, |number| table[number].head);
        if node == to && sheet.entries[state].finishes() {
            return Some(RowPath { weight, rows: rows_back(&best, states, label) });
        }
        if brisk {
            let free = last.is_none_or(|last| !falls(network, &table[last]));
            let (any_before, free_before) = &mut been[node as usize * states + state];
            if *free_before || (*any_before && !free) {
                continue;
            }
            *any_before = true;
            *free_before = free;
        }
        for &number in &lists.departures[node as usize] {
            let row = &table[number];
            if falls(network, row) && !reaching[row.head as usize] {
                continue;
            }
            if last.is_some_and(|last| !may_follow(network, &table[last], row)) {
                continue;
            }
            let reached = weight.plus(row.weight());
            for next in sheet.after(state, row.mode) {
                let there = (number + 1) * states + next;
                if best[there].is_none_or(|(known, _)| reached < known) {
                    best[there] = Some((reached, label));
                    heap.push(Reverse((reached, there)));
                }
            }
        }
    }
    None
}

fn rows_back(best: &[Option<(Weight, usize)>], states: usize, mut label: usize) -> Vec<u16> {
    let mut rows = Vec::new();
    while label >= states {
        rows.push((label / states - 1) as u16);
        match best[label] {
            Some((_, boarded)) => label = boarded,
            None => break,
        }
    }
    rows.reverse();
    rows
}
