//! A town for timing, with as much to contract as the scope of a terminal
//! allows: nine nodes in ten are no core, and there are 2.8 edges to a node.

use crate::network::{Edge, Network, Node, CORE};
use crate::rng::Rng;

/// Streets across the valley.
const VALLEY: usize = 7;

/// Four nodes in five are streets, a grid along a valley with some ways left
/// out; the others are stops on rail lines. One node in twenty is a stop with a
/// link to the street below, and both are core.
pub fn district(rng: &mut Rng, size: usize) -> Network {
    let streets = size * 4 / 5;
    // A square of 400 streets would need more rows than there may be.
    let side = (1..VALLEY).find(|side| side * side >= streets).unwrap_or(VALLEY);
    let sides = (side, streets.div_ceil(side));
    let mut nodes: Vec<Node> =
        (0..streets).map(|place| Node { mode: 1, rank: rank(rng, place, sides) }).collect();
    nodes.extend((streets..size).map(|_| Node { mode: 2, rank: rng.below(5_000) as u16 }));
    let mut ways = Vec::new();
    for place in 0..streets {
        if place % side + 1 < side && place + 1 < streets {
            ways.push((place, place + 1));
        }
        if place + side < streets {
            ways.push((place, place + side));
        }
    }
    let (line, links) = (20, size / 20);
    let rails: Vec<usize> = (streets + 1..size).filter(|s| (s - streets) % line != 0).collect();
    rng.shuffle(&mut ways);
    ways.truncate((size * 14 / 10).saturating_sub(rails.len() + links));

    let mut edges = Vec::new();
    let mut both_ways = |a: usize, b: usize, mode: u8, length: usize| {
        let (tail, head, length) = (a as u16, b as u16, length as u16);
        edges.push(Edge { tail, head, mode, length });
        edges.push(Edge { tail: head, head: tail, mode, length });
    };
    for (a, b) in ways {
        both_ways(a, b, 1, rng.between(40, 90));
    }
    for stop in rails {
        both_ways(stop - 1, stop, 2, rng.between(15, 40));
    }
    // Stations stand at the main streets: those that are contracted last.
    let mut main: Vec<usize> = (0..streets).collect();
    main.sort_by_key(|&street| std::cmp::Reverse(nodes[street].rank));
    for (link, &street) in main[..links].iter().enumerate() {
        let stop = streets + link * (size - streets) / links;
        nodes[stop].rank = CORE;
        nodes[street].rank = CORE;
        both_ways(stop, street, 0, rng.between(30, 120));
    }
    Network { nodes, edges }
}

/// Blocks within blocks: the middle line of a block is contracted after both
/// halves. So contraction has something to gain, and needs few shortcuts.
fn rank(rng: &mut Rng, place: usize, (wide, long): (usize, usize)) -> u16 {
    let (x, y) = (place % wide, place / wide);
    let (mut xs, mut ys) = ((0, wide), (0, long));
    for depth in 0..20 {
        let across = xs.1 - xs.0 >= ys.1 - ys.0;
        let (at, block) = if across { (x, &mut xs) } else { (y, &mut ys) };
        let middle = (block.0 + block.1) / 2;
        match at.cmp(&middle) {
            std::cmp::Ordering::Less => block.1 = middle,
            std::cmp::Ordering::Greater => block.0 = middle + 1,
            std::cmp::Ordering::Equal => return (30_000 - depth * 1_000 + rng.below(1_000)) as u16,
        }
    }
    0
}
