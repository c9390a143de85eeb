//! Brute force for tiny inputs: walk every path the definitions allow.
//!
//! Nothing clever: no heap, no labels, no pruning but "already heavier than
//! the best". A least path repeats no (node, state) pair, so nodes * states
//! steps are enough; one step more than that is walked to be on the safe side.
//! Where even a tiny input has too many paths the walk gives up and says so.

use crate::contraction::contraction_order;
use crate::network::{Network, Row, Sheet, CORE};
use crate::weight::Weight;

struct Walk<'a> {
    network: &'a Network,
    table: &'a [Row],
    sheet: &'a Sheet,
    to: u16,
    /// The valley rule applies to row paths, not to plain edge paths.
    valley_rule: bool,
    best: Option<Weight>,
    patience: u32,
}

/// The walk gave up: no statement on the least weight.
#[derive(Debug, PartialEq, Eq)]
pub struct TooMany;

impl Walk<'_> {
    /// Is `inner` contracted before both its neighbours? Written anew, as a
    /// height: core nodes share one height above all others.
    fn valley(&self, left: u16, inner: u16, right: u16) -> bool {
        let height = |node: u16| match self.network.nodes[node as usize].rank {
            CORE => (CORE, 0),
            rank => (rank, node),
        };
        height(inner) < height(left) && height(inner) < height(right)
    }

    fn from(&mut self, node: u16, state: usize, last: Option<Row>, so_far: Weight, steps: usize) {
        if self.patience == 0 || self.best.is_some_and(|best| so_far >= best) {
            return;
        }
        self.patience -= 1;
        if node == self.to && self.sheet.entries[state].finishes() {
            self.best = Some(so_far);
            return;
        }
        if steps == 0 {
            return;
        }
        for row in self.table.iter().filter(|row| row.tail == node) {
            if self.valley_rule && last.is_some_and(|last| self.valley(last.tail, node, row.head)) {
                continue;
            }
            for next in self.sheet.after(state, row.mode) {
                self.from(row.head, next, Some(*row), so_far.plus(row.weight()), steps - 1);
            }
        }
    }
}

fn least(
    network: &Network,
    table: &[Row],
    sheet: &Sheet,
    from: u16,
    to: u16,
    valley_rule: bool,
) -> Result<Option<Weight>, TooMany> {
    let mut walk = Walk { network, table, sheet, to, valley_rule, best: None, patience: 200_000 };
    let steps = network.nodes.len() * sheet.states().len() + 1;
    for (state, entry) in sheet.states().iter().enumerate() {
        if entry.starts() {
            walk.from(from, state, None, Weight::ZERO, steps);
        }
    }
    if walk.patience == 0 {
        Err(TooMany)
    } else {
        Ok(walk.best)
    }
}

/// The least accepted edge path.
pub fn plain(
    network: &Network,
    sheet: &Sheet,
    from: u16,
    to: u16,
) -> Result<Option<Weight>, TooMany> {
    least(network, &network.table(&[]), sheet, from, to, false)
}

/// The least accepted row path without a valley.
pub fn rows(
    network: &Network,
    shortcuts: &[Row],
    sheet: &Sheet,
    from: u16,
    to: u16,
) -> Result<Option<Weight>, TooMany> {
    least(network, &network.table(shortcuts), sheet, from, to, true)
}

/// The same for tables too large to walk: in each round every row is ridden
/// behind every row, until nothing gets lighter.
pub fn rows_in_rounds(
    network: &Network,
    shortcuts: &[Row],
    sheet: &Sheet,
    from: u16,
    to: u16,
) -> Option<Weight> {
    let table = network.table(shortcuts);
    let walk =
        Walk { network, table: &table, sheet, to, valley_rule: true, best: None, patience: 1 };
    // The least weight of a path that ends with this row in this state.
    let mut least: Vec<[Option<Weight>; 8]> = vec![[None; 8]; table.len()];
    let lighter = |known: &mut Option<Weight>, weight: Weight| {
        let better = known.is_none_or(|known| weight < known);
        if better {
            *known = Some(weight);
        }
        better
    };
    let starts = |state: &usize| sheet.entries[*state].starts();
    let finishes = |state: &usize| sheet.entries[*state].finishes();
    let states = 0..sheet.states().len();
    for (number, row) in table.iter().enumerate().filter(|(_, row)| row.tail == from) {
        for state in states.clone().filter(starts) {
            for next in sheet.after(state, row.mode) {
                lighter(&mut least[number][next], row.weight());
            }
        }
    }
    let mut changed = true;
    while changed {
        changed = false;
        for (i, last) in table.iter().enumerate() {
            for (j, row) in table.iter().enumerate().filter(|(_, row)| row.tail == last.head) {
                if walk.valley(last.tail, row.tail, row.head) {
                    continue;
                }
                for state in states.clone() {
                    let Some(weight) = least[i][state] else { continue };
                    for next in sheet.after(state, row.mode) {
                        changed |= lighter(&mut least[j][next], weight.plus(row.weight()));
                    }
                }
            }
        }
    }
    let stays = from == to && states.clone().any(|s| starts(&s) && finishes(&s));
    let arrivals = table.iter().zip(&least).filter(|(row, _)| row.head == to);
    arrivals
        .flat_map(|(_, weights)| states.clone().filter(finishes).filter_map(|s| weights[s]))
        .chain(stays.then_some(Weight::ZERO))
        .min()
}

/// Every weight of a simple path from u to w over the given rows is visited.
fn least_simple(rows: &[Row], u: u16, w: u16, seen: &mut Vec<u16>) -> Option<Weight> {
    if u == w {
        return Some(Weight::ZERO);
    }
    seen.push(u);
    let mut best: Option<Weight> = None;
    for row in rows.iter().filter(|row| row.tail == u) {
        if seen.contains(&row.head) {
            continue;
        }
        if let Some(rest) = least_simple(rows, row.head, w, seen) {
            let whole = row.weight().plus(rest);
            best = Some(best.map_or(whole, |best| best.min(whole)));
        }
    }
    seen.pop();
    best
}

/// All shortcuts, straight from the sentence in 01, without any limit.
pub fn prepare(network: &Network) -> Vec<Row> {
    let mut table = network.table(&[]);
    let mut gone: Vec<usize> = Vec::new();
    for v in contraction_order(network) {
        let standing: Vec<(usize, Row)> = table
            .iter()
            .copied()
            .enumerate()
            .filter(|(_, r)| {
                !gone.contains(&(r.tail as usize)) && !gone.contains(&(r.head as usize))
            })
            .collect();
        let riding: Vec<Row> = standing.iter().map(|(_, r)| *r).filter(|r| r.mode != 0).collect();
        let avoiding: Vec<Row> = riding
            .iter()
            .copied()
            .filter(|r| r.tail as usize != v && r.head as usize != v)
            .collect();
        let least_row = |tail: usize, head: usize| {
            standing
                .iter()
                .filter(|(_, r)| r.tail as usize == tail && r.head as usize == head)
                .min_by_key(|(number, r)| (r.weight(), *number))
        };
        let mut added = Vec::new();
        for u in 0..network.nodes.len() {
            for w in 0..network.nodes.len() {
                let (Some((i, first)), Some((j, second))) = (least_row(u, v), least_row(v, w))
                else {
                    continue;
                };
                if u == w {
                    continue;
                }
                let sum = first.weight().plus(second.weight());
                let all = least_simple(&riding, u as u16, w as u16, &mut Vec::new());
                let other = least_simple(&avoiding, u as u16, w as u16, &mut Vec::new());
                if all == Some(sum) && other.is_none_or(|other| other > sum) {
                    added.push(Row {
                        tail: u as u16,
                        head: w as u16,
                        mode: first.mode,
                        length: sum.time as u32,
                        count: sum.count as u16,
                        first: *i as u16,
                        second: *j as u16,
                    });
                }
            }
        }
        table.extend(added);
        gone.push(v);
    }
    table.split_off(network.edges.len())
}
