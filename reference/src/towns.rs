//! Random accepted networks with real structure, and ways to spoil them.

use crate::network::{Edge, Network, Node, CORE, MOST_EDGES};
use crate::rng::Rng;

/// A network that passes every check: clusters of one mode each, core transfer
/// nodes with links between them, inner nodes that can be contracted.
pub fn network(rng: &mut Rng, size: usize) -> Network {
    let modes = modes_for(rng, size);
    let mut network = Network { nodes: nodes(rng, size, &modes), edges: Vec::new() };
    let lengths = rng.below(5);
    for &mode in &modes {
        ride_edges(rng, &mut network, mode, lengths);
    }
    let links = rng.pick(&[0, 1, 2, 4, size / 10 + 1, size / 4 + 1]);
    for _ in 0..links {
        add_link(rng, &mut network, lengths);
    }
    if rng.chance(3) {
        add_parallels(rng, &mut network, lengths);
    }
    network.edges.truncate(MOST_EDGES);
    rng.shuffle(&mut network.edges);
    network
}

fn modes_for(rng: &mut Rng, size: usize) -> Vec<u8> {
    // Small ones often of one mode, or there would be little to contract.
    let kinds = if size < 9 && rng.chance(2) { 1 } else { rng.between(1, size.min(4)) };
    let mut modes: Vec<u8> = (1..=7).collect();
    if rng.chance(2) {
        rng.shuffle(&mut modes);
    }
    modes.truncate(kinds);
    modes
}

fn nodes(rng: &mut Rng, size: usize, modes: &[u8]) -> Vec<Node> {
    let in_blocks = rng.chance(2);
    let style = rng.below(5);
    let core_one_in = rng.pick(&[0, 0, 12, 6, 3, 2, 1]);
    (0..size)
        .map(|i| {
            let mode = if in_blocks { modes[i * modes.len() / size] } else { rng.pick(modes) };
            let core = core_one_in > 0 && rng.chance(core_one_in);
            let rank = match style {
                _ if core => CORE,
                // Few ranks, so that the node number decides often.
                0 => rng.below(3) as u16,
                1 => rng.below(CORE as usize) as u16,
                2 => i as u16,
                3 => (size - i) as u16,
                _ => rng.pick(&[0, 65_533, 65_534]),
            };
            Node { mode, rank }
        })
        .collect()
}

/// Short lengths make many equal times, so that edge counts and row numbers
/// decide; long ones test the number types.
fn length(rng: &mut Rng, style: usize) -> u16 {
    match style {
        0 => rng.between(1, 3) as u16,
        1 => rng.between(1, 60) as u16,
        2 => rng.pick(&[1, 2, 65_534, 65_535]),
        3 => rng.between(1, 65_535) as u16,
        _ => 1,
    }
}

fn ride_edges(rng: &mut Rng, network: &mut Network, mode: u8, lengths: usize) {
    let mut members: Vec<u16> = (0..network.nodes.len() as u16)
        .filter(|&node| network.nodes[node as usize].mode == mode)
        .collect();
    if members.len() < 2 {
        return;
    }
    if rng.chance(2) {
        rng.shuffle(&mut members);
    }
    let mut pairs: Vec<(usize, usize)> = (1..members.len()).map(|i| (i - 1, i)).collect();
    if rng.chance(2) {
        pairs.push((members.len() - 1, 0));
    }
    let density = rng.below(4);
    for _ in 0..members.len() * density / 2 {
        let a = rng.below(members.len());
        // Mostly near ones: far edges everywhere would contract to too much.
        let far = if members.len() < 30 { rng.chance(2) } else { rng.chance(15) };
        let b = if far { rng.below(members.len()) } else { a + rng.between(1, 4) };
        if b < members.len() && a != b {
            pairs.push((a, b));
        }
    }
    for (a, b) in pairs {
        let (tail, head) = (members[a], members[b]);
        if tail != head && !rng.chance(10) {
            let length = length(rng, lengths);
            network.edges.push(Edge { tail, head, mode, length });
        }
        if tail != head && !rng.chance(3) {
            let length = length(rng, lengths);
            network.edges.push(Edge { tail: head, head: tail, mode, length });
        }
    }
}

/// Both ends become core, as a transfer node must be.
fn add_link(rng: &mut Rng, network: &mut Network, lengths: usize) {
    let size = network.nodes.len();
    let (mut a, mut b) = (rng.below(size), rng.below(size));
    for _ in 0..4 {
        if network.nodes[a].mode == network.nodes[b].mode && !rng.chance(8) {
            (a, b) = (rng.below(size), rng.below(size));
        }
    }
    if a == b {
        return;
    }
    network.nodes[a].rank = CORE;
    network.nodes[b].rank = CORE;
    let link = |rng: &mut Rng, tail: usize, head: usize| Edge {
        tail: tail as u16,
        head: head as u16,
        mode: 0,
        length: length(rng, lengths),
    };
    network.edges.push(link(rng, a, b));
    if !rng.chance(4) {
        network.edges.push(link(rng, b, a));
    }
}

fn add_parallels(rng: &mut Rng, network: &mut Network, lengths: usize) {
    for _ in 0..rng.below(network.edges.len() / 3 + 2) {
        if network.edges.is_empty() {
            return;
        }
        let mut twin = network.edges[rng.below(network.edges.len())];
        if rng.chance(2) {
            twin.length = length(rng, lengths);
        }
        network.edges.push(twin);
    }
}

/// Breaks one rule of a network (2, 3 or 4), most of the time.
pub fn spoil(rng: &mut Rng, network: &mut Network) {
    let node = rng.below(network.nodes.len());
    if network.edges.is_empty() || rng.chance(4) {
        network.nodes[node].mode = rng.pick(&[0, 8, 9, 255]);
        return;
    }
    let links: Vec<usize> =
        (0..network.edges.len()).filter(|&e| network.edges[e].mode == 0).collect();
    let edge = rng.below(network.edges.len());
    let size = network.nodes.len() as u16;
    match rng.below(12) {
        0 => network.edges[edge].tail = rng.pick(&[size, size + 1, 65_535]),
        1 => network.edges[edge].head = rng.pick(&[size, size + 1, 65_535]),
        2 => network.edges[edge].head = network.edges[edge].tail,
        3 => network.edges[edge].length = 0,
        4 => network.edges[edge].mode = rng.pick(&[8, 9, 16, 255]),
        5 => network.edges[edge].mode = rng.between(0, 7) as u8,
        6 => network.nodes[node].mode = rng.between(1, 7) as u8,
        _ if links.is_empty() => network.edges[edge].mode = 0,
        _ => {
            let link = network.edges[rng.pick(&links)];
            let end = if rng.chance(2) { link.tail } else { link.head };
            // The link may have lost its end when it was spoilt before.
            if let Some(node) = network.nodes.get_mut(end as usize) {
                node.rank = rng.pick(&[0, 1, 65_534]);
            }
        }
    }
}
