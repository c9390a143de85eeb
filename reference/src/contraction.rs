//! Preparation: nodes that are not core are contracted one after another.
//!
//! For every pair (u, w) around v two searches decide: one over all standing
//! rows (is the pair of rows through v a least path?) and one that stays away
//! from v (is every other way heavier?). Both read the rows as they stood
//! before v's first shortcut, because the lists are built once per v.

use crate::network::{refuse, Network, Refusal, Row, CORE, MOST_ROWS};
use crate::weight::Weight;
use std::cmp::Reverse;
use std::collections::{BTreeMap, BinaryHeap};

/// The shortcuts in contraction order, or 9.
pub fn prepare(network: &Network, lent: usize) -> Result<Vec<Row>, Refusal> {
    let most = lent.min(MOST_ROWS - network.edges.len().min(MOST_ROWS));
    let mut table = network.table(&[]);
    let mut gone = vec![false; network.nodes.len()];
    for v in contraction_order(network) {
        let added = shortcuts_around(&table, &gone, v);
        table.extend(added);
        if table.len() - network.edges.len() > most {
            return refuse(9, 0);
        }
        gone[v] = true;
    }
    Ok(table.split_off(network.edges.len()))
}

/// Not core; by rising rank, then by rising number.
pub fn contraction_order(network: &Network) -> Vec<usize> {
    let mut order: Vec<usize> =
        (0..network.nodes.len()).filter(|&v| network.nodes[v].rank != CORE).collect();
    order.sort_by_key(|&v| (network.nodes[v].rank, v));
    order
}

/// The least row for each neighbour, the lowest row number among equals. The
/// map keeps neighbours in rising order, which is the order 01 wants.
type LeastRows = BTreeMap<usize, usize>;

fn keep_least(table: &[Row], least: &mut LeastRows, neighbour: usize, number: usize) {
    let kept = least.entry(neighbour).or_insert(number);
    // Numbers come rising, so an equal weight leaves the lower number standing.
    if table[number].weight() < table[*kept].weight() {
        *kept = number;
    }
}

/// The shortcuts of one contracted node, by u, then w, both rising.
fn shortcuts_around(table: &[Row], gone: &[bool], v: usize) -> Vec<Row> {
    // Standing rows; links are left out (no link touches v: v is not core).
    let mut departures: Vec<Vec<usize>> = vec![Vec::new(); gone.len()];
    let (mut into, mut out) = (LeastRows::new(), LeastRows::new());
    for (number, row) in table.iter().enumerate() {
        let (tail, head) = (row.tail as usize, row.head as usize);
        if gone[tail] || gone[head] || row.mode == 0 {
            continue;
        }
        departures[tail].push(number);
        if head == v {
            keep_least(table, &mut into, tail, number);
        }
        if tail == v {
            keep_least(table, &mut out, head, number);
        }
    }

    let mut added = Vec::new();
    for (&u, &first) in &into {
        let sum = |second: usize| table[first].weight().plus(table[second].weight());
        let others = || out.iter().filter(|(&w, _)| w != u);
        let Some(furthest) = others().map(|(_, &second)| sum(second)).max() else {
            continue;
        };
        let with_v = least_from(table, &departures, u, None, furthest);
        let without_v = least_from(table, &departures, u, Some(v), furthest);
        for (&w, &second) in others() {
            let sum = sum(second);
            let is_least = with_v[w] == Some(sum);
            let others_heavier = without_v[w].is_none_or(|other| other > sum);
            if is_least && others_heavier {
                added.push(join(table, first, second, sum));
            }
        }
    }
    added
}

fn join(table: &[Row], first: usize, second: usize, sum: Weight) -> Row {
    Row {
        tail: table[first].tail,
        head: table[second].head,
        mode: table[first].mode,
        length: sum.time as u32,
        count: sum.count as u16,
        first: first as u16,
        second: second as u16,
    }
}

/// Least weights from `u`, never entering `avoid`. Weights above `furthest`
/// may stay unknown or too high; no sum that is compared with them is larger.
fn least_from(
    table: &[Row],
    departures: &[Vec<usize>],
    u: usize,
    avoid: Option<usize>,
    furthest: Weight,
) -> Vec<Option<Weight>> {
    let mut least = vec![None; departures.len()];
    least[u] = Some(Weight::ZERO);
    let mut heap = BinaryHeap::from([Reverse((Weight::ZERO, u))]);
    while let Some(Reverse((weight, node))) = heap.pop() {
        if weight > furthest {
            break;
        }
        if least[node].is_some_and(|known| known < weight) {
            continue;
        }
        for &number in &departures[node] {
            let head = table[number].head as usize;
            let reached = weight.plus(table[number].weight());
            if Some(head) != avoid && least[head].is_none_or(|known| reached < known) {
                least[head] = Some(reached);
                heap.push(Reverse((reached, head)));
            }
        }
    }
    least
}
