//! A comparison that cannot fail is worth nothing. So it is tried: behind each
//! call one bit of what the library answered, wrote or was lent is turned over,
//! and the call must then be reported as a difference.

use crate::rng::Rng;
use std::collections::BTreeMap;

/// Something that a call hands back or was lent, to be falsified.
pub enum Part<'a> {
    Bytes(&'a mut [u8]),
    Shorts(&'a mut [u16]),
    Words(&'a mut [u32]),
    Longs(&'a mut [u64]),
    /// Legs, and the tails of the edges: the falsified leg must leave another
    /// node, since any of several equal journeys may be written.
    Legs(&'a mut [u16], &'a [u16]),
}

/// How often each part of each call was falsified; each time it was noticed.
#[derive(Default)]
pub struct Spoil {
    pub rng: Option<Rng>,
    seen: BTreeMap<(&'static str, &'static str), u64>,
    last: Option<(&'static str, &'static str)>,
}

impl Spoil {
    pub fn new(seed: u64) -> Spoil {
        Spoil { rng: Some(Rng::new(seed)), ..Spoil::default() }
    }

    /// Turns one bit over, in a part that has any.
    pub fn strike(&mut self, call: &'static str, parts: &mut [(&'static str, Part)]) {
        let Some(rng) = &mut self.rng else { return };
        self.last = None;
        let mut order: Vec<usize> = (0..parts.len()).collect();
        rng.shuffle(&mut order);
        for at in order {
            let (name, part) = &mut parts[at];
            if turn(rng, part) {
                self.last = Some((call, name));
                return;
            }
        }
    }

    /// The outcome of the call: with a falsified part it must be a difference.
    pub fn judge(&mut self, outcome: Result<(), String>) -> Result<(), String> {
        let Some(hit) = self.last.take() else { return outcome };
        match outcome {
            Err(_) => {
                *self.seen.entry(hit).or_insert(0) += 1;
                Ok(())
            }
            Ok(()) => Err(format!("{}: its falsified {} was not noticed", hit.0, hit.1)),
        }
    }

    pub fn tell(&self) -> String {
        let lines: Vec<String> = self
            .seen
            .iter()
            .map(|((call, part), times)| format!("{call:<11} {part:<22} {times}\n"))
            .collect();
        format!("falsified, and each time noticed:\n{}", lines.concat())
    }
}

fn turn(rng: &mut Rng, part: &mut Part) -> bool {
    // Half the time the first or the last word, where mistakes are likeliest.
    let place = |rng: &mut Rng, length: usize| match rng.below(4) {
        0 => 0,
        1 => length.saturating_sub(1),
        _ => rng.below(length),
    };
    match part {
        Part::Bytes(all) if !all.is_empty() => all[place(rng, all.len())] ^= 1 << rng.below(8),
        Part::Shorts(all) if !all.is_empty() => all[place(rng, all.len())] ^= 1 << rng.below(16),
        Part::Words(all) if !all.is_empty() => all[place(rng, all.len())] ^= 1 << rng.below(32),
        Part::Longs(all) if !all.is_empty() => all[place(rng, all.len())] ^= 1 << rng.below(64),
        Part::Legs(all, tails) if !all.is_empty() => {
            let leg = &mut all[place(rng, all.len())];
            let tail = |leg: u16| tails.get(leg as usize);
            let false_leg = *leg ^ 1 << rng.below(16);
            *leg = if tail(false_leg) == tail(*leg) { *leg ^ 1 << 15 } else { false_leg };
        }
        _ => return false,
    }
    true
}
