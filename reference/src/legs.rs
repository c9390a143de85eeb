//! Are the legs of an answer real?
//!
//! Several journeys may be equal in time and count, so legs are never compared
//! with ours; they are ridden, edge by edge, with the set of states the
//! traveller could be in.

use crate::network::{Network, Sheet};
use crate::weight::Weight;

pub fn ride(
    network: &Network,
    sheet: &Sheet,
    (from, to): (u16, u16),
    shown: Weight,
    legs: &[u16],
) -> Result<(), String> {
    if legs.len() as u64 != shown.count as u64 {
        return Err(format!("{} legs written, {} edges shown", legs.len(), shown.count));
    }
    let states = sheet.states();
    let mut possible: Vec<bool> = states.iter().map(|s| s.starts()).collect();
    let (mut node, mut time) = (from, 0u64);
    for (place, &leg) in legs.iter().enumerate() {
        let Some(edge) = network.edges.get(leg as usize) else {
            return Err(format!("leg {place} names edge {leg}, which is not there"));
        };
        if edge.tail != node {
            return Err(format!("leg {place} (edge {leg}) leaves {}, not {node}", edge.tail));
        }
        let mut after = vec![false; states.len()];
        for state in (0..states.len()).filter(|&state| possible[state]) {
            for next in sheet.after(state, edge.mode) {
                after[next] = true;
            }
        }
        possible = after;
        node = edge.head;
        time += edge.length as u64;
    }
    if node != to {
        return Err(format!("legs end at node {node}, not {to}"));
    }
    if time != shown.time {
        return Err(format!("legs take {time} s, {} s shown", shown.time));
    }
    if !states.iter().zip(&possible).any(|(s, &possible)| possible && s.finishes()) {
        return Err("legs are not accepted by the sheet".to_string());
    }
    Ok(())
}
