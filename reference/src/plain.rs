//! Plain label-constrained Dijkstra: a binary heap over (node, state).

use crate::network::{Network, Sheet};
use crate::weight::Weight;
use std::cmp::Reverse;
use std::collections::BinaryHeap;

/// One least journey: its weight and its edge numbers in order.
#[derive(Clone, Debug, PartialEq, Eq)]
pub struct Journey {
    pub weight: Weight,
    pub legs: Vec<u16>,
}

/// Where the traveller stands, what it cost, and how they came there.
#[derive(Clone, Copy)]
struct Arrival {
    weight: Weight,
    /// The edge ridden last and the place it was boarded; none at the start.
    by: Option<(u16, usize)>,
}

/// The edges out of each node, by number. Lists serve any number of questions.
pub struct Lists {
    departures: Vec<Vec<u16>>,
}

impl Lists {
    pub fn of(network: &Network) -> Lists {
        let mut departures = vec![Vec::new(); network.nodes.len()];
        for (number, edge) in network.edges.iter().enumerate() {
            departures[edge.tail as usize].push(number as u16);
        }
        Lists { departures }
    }
}

/// `None` is refusal 7. Asks for a network, sheet and question that passed
/// their checks.
pub fn search(network: &Network, sheet: &Sheet, from: u16, to: u16) -> Option<Journey> {
    search_in(network, &Lists::of(network), sheet, from, to)
}

pub fn search_in(
    network: &Network,
    lists: &Lists,
    sheet: &Sheet,
    from: u16,
    to: u16,
) -> Option<Journey> {
    // A place is node * states + state.
    let states = sheet.states().len();
    let mut best: Vec<Option<Arrival>> = vec![None; network.nodes.len() * states];
    let mut heap = BinaryHeap::new();
    for (state, entry) in sheet.states().iter().enumerate() {
        if entry.starts() {
            let place = from as usize * states + state;
            best[place] = Some(Arrival { weight: Weight::ZERO, by: None });
            heap.push(Reverse((Weight::ZERO, place)));
        }
    }

    while let Some(Reverse((weight, place))) = heap.pop() {
        // A better entry for this place was popped before.
        if best[place].is_some_and(|a| a.weight < weight) {
            continue;
        }
        let (node, state) = (place / states, place % states);
        if node == to as usize && sheet.entries[state].finishes() {
            return Some(Journey { weight, legs: legs_back(&best, place) });
        }
        for &number in &lists.departures[node] {
            let edge = network.edges[number as usize];
            let reached = weight.plus(Weight { time: edge.length as u64, count: 1 });
            for next in sheet.after(state, edge.mode) {
                let there = edge.head as usize * states + next;
                if best[there].is_none_or(|a| reached < a.weight) {
                    best[there] = Some(Arrival { weight: reached, by: Some((number, place)) });
                    heap.push(Reverse((reached, there)));
                }
            }
        }
    }
    None
}

fn legs_back(best: &[Option<Arrival>], mut place: usize) -> Vec<u16> {
    let mut legs = Vec::new();
    while let Some(Arrival { by: Some((edge, boarded)), .. }) = best[place] {
        legs.push(edge);
        place = boarded;
    }
    legs.reverse();
    legs
}
