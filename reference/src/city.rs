//! Towns with streets and rail lines, for timing.

use crate::network::{Edge, Network, Node, Sheet, State, CORE, MOST_EDGES};
use crate::rng::Rng;

/// Ranks for a grid of streets: a middle line splits a block in two and is
/// contracted after both halves, and so on within each half. The first middle
/// lines are the main streets and stay core.
fn rank_block(
    rng: &mut Rng,
    ranks: &mut [u16],
    side: usize,
    xs: (usize, usize),
    ys: (usize, usize),
    depth: usize,
) {
    let (wide, high) = (xs.1 - xs.0, ys.1 - ys.0);
    if wide == 0 || high == 0 {
        return;
    }
    let rank = |rng: &mut Rng| match depth {
        0 | 1 => CORE,
        _ => (20_000 - depth * 1_000 + rng.below(1_000)) as u16,
    };
    if wide >= high {
        let x = xs.0 + wide / 2;
        for y in ys.0..ys.1 {
            ranks[y * side + x] = rank(rng);
        }
        rank_block(rng, ranks, side, (xs.0, x), ys, depth + 1);
        rank_block(rng, ranks, side, (x + 1, xs.1), ys, depth + 1);
    } else {
        let y = ys.0 + high / 2;
        for x in xs.0..xs.1 {
            ranks[y * side + x] = rank(rng);
        }
        rank_block(rng, ranks, side, xs, (ys.0, y), depth + 1);
        rank_block(rng, ranks, side, xs, (y + 1, ys.1), depth + 1);
    }
}

/// A town as a planner would draw it, for timing: a grid of streets, rail
/// lines through it, stations linked to the street below. Ranks follow blocks
/// within blocks, so that contraction has something to gain.
pub fn city(rng: &mut Rng, size: usize) -> Network {
    let mut side = 1;
    while (side + 1) * (side + 1) * 10 <= size * 7 {
        side += 1;
    }
    let streets = side * side;
    let mut ranks = vec![0; streets];
    rank_block(rng, &mut ranks, side, (0, side), (0, side), 0);
    let mut network = Network::default();
    network.nodes.extend(ranks.into_iter().map(|rank| Node { mode: 1, rank }));
    for _ in streets..size {
        network.nodes.push(Node { mode: 2, rank: rng.below(5_000) as u16 });
    }
    let both_ways = |network: &mut Network, a: usize, b: usize, mode: u8, length: usize| {
        let (tail, head, length) = (a as u16, b as u16, length as u16);
        network.edges.push(Edge { tail, head, mode, length });
        network.edges.push(Edge { tail: head, head: tail, mode, length });
    };
    for place in 0..streets {
        if place % side + 1 < side {
            both_ways(&mut network, place, place + 1, 1, rng.between(40, 90));
        }
        if place + side < streets {
            both_ways(&mut network, place, place + side, 1, rng.between(40, 90));
        }
    }
    let line = 20;
    for stop in streets..size {
        if (stop - streets) % line != 0 {
            both_ways(&mut network, stop - 1, stop, 2, rng.between(15, 40));
        }
        if (stop - streets) % 3 == 0 {
            let street = rng.below(streets);
            network.nodes[stop].rank = CORE;
            network.nodes[street].rank = CORE;
            both_ways(&mut network, stop, street, 0, rng.between(30, 120));
        }
    }
    network.edges.truncate(MOST_EDGES);
    network
}

/// Foot, rail, foot again; and foot alone.
pub fn sheets() -> [Sheet; 2] {
    [
        Sheet::of(&[
            State { modes: 2, next: 2, ends: 3 },
            State { modes: 4, next: 5, ends: 2 },
            State { modes: 2, next: 0, ends: 2 },
        ]),
        Sheet::of(&[State { modes: 2, next: 0, ends: 3 }]),
    ]
}
