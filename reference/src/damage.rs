//! Damage done to cards on their way: to bits, to bytes and to whole records.

use crate::card::{find, write, Found, Record};
use crate::network::{Edge, Node, State};
use crate::rng::Rng;

/// One to three damages.
pub fn damage(rng: &mut Rng, card: &[u8]) -> Vec<u8> {
    let mut bytes = card.to_vec();
    for _ in 0..rng.between(1, 3) {
        if rng.chance(2) {
            damage_bytes(rng, &mut bytes);
        } else {
            bytes = damage_records(rng, &bytes);
        }
    }
    bytes
}

fn damage_bytes(rng: &mut Rng, bytes: &mut Vec<u8>) {
    let at = rng.below(bytes.len() + 1);
    match rng.below(5) {
        0 => bytes.truncate(at),
        1 => bytes.insert(at, rng.next() as u8),
        2 if at < bytes.len() => {
            bytes.remove(at);
        }
        3 => bytes.push(rng.below(9) as u8),
        _ if at < bytes.len() => bytes[at] ^= 1 << rng.below(8),
        _ => {}
    }
}

/// Whole records are inserted, doubled, swapped, left out. Bytes that hold no
/// whole record stay where they are, at the end.
fn damage_records(rng: &mut Rng, bytes: &[u8]) -> Vec<u8> {
    let (mut records, mut offset) = (Vec::new(), 0);
    while let Found::Record(record) = find(bytes, offset) {
        records.push(record);
        offset += record.size();
    }
    // The rarer records behind the network are hit more often than by chance.
    let behind =
        records.iter().rposition(|r| matches!(r, Record::Node(_) | Record::Edge(_))).unwrap_or(0);
    let low = if rng.chance(2) { behind } else { 0 };
    let at = rng.between(low, records.len().max(1) - 1);
    match rng.below(5) {
        0 => records.insert(at.min(records.len()), any_record(rng)),
        1 if at < records.len() => records.insert(at, records[at]),
        2 if at + 1 < records.len() => records.swap(at, at + 1),
        3 if at < records.len() => {
            let other = rng.below(records.len());
            records.swap(at, other);
        }
        _ if at < records.len() => {
            records.remove(at);
        }
        _ => {}
    }
    let mut damaged = write(&records);
    damaged.extend(&bytes[offset..]);
    damaged
}

fn any_record(rng: &mut Rng) -> Record {
    let number = |rng: &mut Rng| rng.pick(&[0u16, 1, 2, 3, 7, 512, 513, 65_535]);
    let byte = |rng: &mut Rng| rng.pick(&[0u8, 1, 2, 3, 4, 8, 9, 255]);
    match rng.below(7) {
        0 => Record::End,
        1 => Record::Head { nodes: number(rng), edges: number(rng) },
        2 => Record::Node(Node { mode: byte(rng), rank: number(rng) }),
        3 => Record::Edge(Edge {
            tail: number(rng),
            head: number(rng),
            mode: byte(rng),
            length: number(rng),
        }),
        4 => Record::State(State { modes: byte(rng), next: byte(rng), ends: byte(rng) }),
        5 => Record::Question { from: number(rng), to: number(rng) },
        _ => Record::Sheet { states: byte(rng) },
    }
}
