//! Row tables that are sound but that no preparation made.

use crate::network::{Network, Row, MOST_ROWS};
use crate::rng::Rng;

/// Some rows of a prepared table are left out, others are added.
pub fn sound_rows(rng: &mut Rng, network: &Network, prepared: &[Row], more: usize) -> Vec<Row> {
    let edges = network.edges.len();
    let leave_out = rng.pick(&[0, 0, 1, 1, 2, 4, 10]);
    let mut table = network.table(&[]);
    // Where each prepared row went; a row without its children goes too.
    let mut moved: Vec<Option<u16>> = (0..edges).map(|e| Some(e as u16)).collect();
    for row in prepared {
        let children = (moved[row.first as usize], moved[row.second as usize]);
        match children {
            (Some(first), Some(second)) if leave_out == 0 || !rng.chance(leave_out) => {
                moved.push(Some(table.len() as u16));
                table.push(Row { first, second, ..*row });
            }
            _ => moved.push(None),
        }
    }
    for _ in 0..more * 8 {
        if table.len() >= edges + prepared.len() + more
            || table.len() >= MOST_ROWS
            || table.is_empty()
        {
            break;
        }
        // The later half more often, so that counts grow.
        let low = if rng.chance(2) { table.len() / 2 } else { 0 };
        let first = rng.between(low, table.len() - 1);
        let meeting = table[first].head;
        let onward: Vec<usize> =
            (0..table.len()).filter(|&second| table[second].tail == meeting).collect();
        if onward.is_empty() {
            continue;
        }
        let second = rng.pick(&onward);
        let (a, b) = (table[first], table[second]);
        table.push(Row {
            tail: a.tail,
            head: b.head,
            mode: a.mode,
            length: a.length + b.length,
            count: a.count + b.count,
            first: first as u16,
            second: second as u16,
        });
        if network.check_rows(&table[edges..]).is_err() {
            table.pop();
        }
    }
    table.split_off(edges)
}
