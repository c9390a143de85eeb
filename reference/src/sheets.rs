//! Random sheets and questions for a network, and ways to spoil a sheet.

use crate::network::{Network, Sheet, State};
use crate::rng::Rng;

/// The modes the network's nodes have; foot if none is right, so that there is
/// always one to choose.
fn used_modes(network: &Network) -> Vec<u8> {
    let used = |mode: &u8| network.nodes.iter().any(|n| n.mode == *mode);
    let modes: Vec<u8> = (1..=7).filter(used).collect();
    if modes.is_empty() {
        vec![1]
    } else {
        modes
    }
}

/// A sheet that keeps the rules.
pub fn sheet(rng: &mut Rng, network: &Network) -> Sheet {
    let modes = used_modes(network);
    let every: u8 = modes.iter().fold(0, |bits, &mode| bits | 1 << mode);
    let one = |rng: &mut Rng| 1u8 << rng.pick(&modes);
    match rng.below(9) {
        // Anything goes.
        0 | 6 => Sheet::of(&[State { modes: every, next: 1, ends: 3 }]),
        // Anything goes, but with one transfer at most, or none before the end.
        7 => Sheet::of(&[
            State { modes: every, next: 2, ends: 3 },
            State { modes: every, next: 0, ends: rng.pick(&[0, 2, 2, 3]) },
        ]),
        // One mode only, no transfers.
        1 => Sheet::of(&[State { modes: one(rng), next: 0, ends: 3 }]),
        // To and fro between two modes, like the reference's sheet A.
        2 => Sheet::of(&[
            State { modes: one(rng), next: 2, ends: 3 },
            State { modes: one(rng), next: 1, ends: rng.below(4) as u8 },
        ]),
        3 => chain(rng, &modes),
        style => any_bits(rng, if style == 4 { every } else { 0xFE }),
    }
}

/// A chain of states, each with some modes, final at the last.
fn chain(rng: &mut Rng, modes: &[u8]) -> Sheet {
    let count = rng.between(2, 8);
    let mut states = Vec::new();
    for i in 0..count {
        let mut state = State { modes: 1 << rng.pick(modes), next: 0, ends: (i == 0) as u8 };
        if rng.chance(2) {
            state.modes |= 1 << rng.pick(modes);
        }
        if i + 1 < count {
            state.next |= 2 << i;
        }
        if rng.chance(4) {
            state.next |= 1 << i;
        }
        if i + 1 == count || rng.chance(3) {
            state.ends |= 2;
        }
        states.push(state);
    }
    Sheet::of(&states)
}

/// Any bits the rules allow, the modes among those given.
fn any_bits(rng: &mut Rng, modes: u8) -> Sheet {
    let count = rng.between(1, 8);
    let present = (0..count).fold(0u8, |bits, state| bits | 1 << state);
    let mut states = Vec::new();
    for _ in 0..count {
        states.push(State {
            modes: rng.next() as u8 & modes,
            next: rng.next() as u8 & present,
            ends: rng.below(4) as u8,
        });
    }
    Sheet::of(&states)
}

/// Two nodes of the network.
pub fn question(rng: &mut Rng, network: &Network) -> (u16, u16) {
    let size = network.nodes.len();
    let from = rng.below(size);
    let mut to = if rng.chance(12) { from } else { rng.below(size) };
    // Half the time of the same mode, or few questions would have an answer.
    for _ in 0..if rng.chance(2) { 6 } else { 0 } {
        if network.nodes[to].mode != network.nodes[from].mode {
            to = rng.below(size);
        }
    }
    (from as u16, to as u16)
}

/// Breaks one rule of a sheet (5), most of the time.
pub fn spoil_sheet(rng: &mut Rng, sheet: &mut Sheet) {
    let count = sheet.count.clamp(1, 8);
    let state = &mut sheet.entries[rng.below(count as usize)];
    match rng.below(5) {
        0 => state.modes |= 1,
        1 if count < 8 => state.next |= 1 << rng.between(count as usize, 7),
        2 => state.ends = rng.pick(&[4, 5, 7, 128, 255]),
        3 => sheet.count = rng.pick(&[0, 9, 10, 255]),
        _ => state.ends |= 1 << rng.between(2, 7),
    }
}
