//! Cards from a seed. The same seed and kind give the same card everywhere.

use crate::card::{of_network, of_sheet, write, Record};
use crate::city::{city, sheets as city_sheets};
use crate::damage::damage;
use crate::extremes;
use crate::rng::Rng;
use crate::sheets;
use crate::towns;

pub const KINDS: [&str; 7] = ["small", "medium", "large", "town", "extreme", "damaged", "any"];

/// `None` for an unknown kind. The name of an extreme card is a kind too.
pub fn make(seed: u64, kind: &str) -> Option<Vec<u8>> {
    let mut rng = Rng::new(seed);
    match kind {
        "small" => Some(random_card(&mut rng, 1, 10, 12)),
        "medium" => Some(random_card(&mut rng, 11, 80, 20)),
        "large" => Some(random_card(&mut rng, 81, 500, 8)),
        "town" => Some(town(&mut rng)),
        "extreme" => extreme(seed),
        "damaged" => {
            let kind = rng.pick(&["small", "small", "small", "medium", "extreme"]);
            let card = make(rng.next(), kind)?;
            Some(damage(&mut rng, &card))
        }
        // A fixed round of kinds, so that neighbouring seeds cover them all.
        "any" => make(
            seed,
            match seed % 20 {
                0..=7 => "small",
                8..=11 => "medium",
                12 => "large",
                13 => "extreme",
                _ => "damaged",
            },
        ),
        name => extremes::card(name).map(|records| write(&records)),
    }
}

fn extreme(seed: u64) -> Option<Vec<u8>> {
    // Mixed first, because `any` comes here with seeds 20 apart.
    let name = extremes::NAMES[(Rng::new(seed).next() % extremes::NAMES.len() as u64) as usize];
    make(seed, name)
}

/// Mostly a card without fault; now and then a broken rule or a question that
/// names no node.
fn random_card(rng: &mut Rng, low: usize, high: usize, questions: usize) -> Vec<u8> {
    let size = rng.between(low, high);
    let mut network = towns::network(rng, size);
    let ask_about = network.clone();
    if rng.chance(15) {
        towns::spoil(rng, &mut network);
    }
    let mut records = of_network(&network);
    for _ in 0..rng.below(4) {
        let mut sheet = sheets::sheet(rng, &ask_about);
        if rng.chance(15) {
            sheets::spoil_sheet(rng, &mut sheet);
        }
        records.extend(of_sheet(&sheet));
        for _ in 0..rng.below(questions) {
            let (mut from, mut to) = sheets::question(rng, &ask_about);
            if rng.chance(25) {
                from = rng.pick(&[size as u16, 65_535]);
            }
            if rng.chance(25) {
                to = rng.pick(&[size as u16, 65_535]);
            }
            records.push(Record::Question { from, to });
        }
    }
    records.push(Record::End);
    write(&records)
}

/// A card without fault: a town of 500 nodes, and ten questions for each of its
/// two sheets, from a street to a street.
fn town(rng: &mut Rng) -> Vec<u8> {
    let network = city(rng, 500);
    let streets = network.nodes.iter().filter(|node| node.mode == 1).count();
    let mut records = of_network(&network);
    for sheet in city_sheets() {
        records.extend(of_sheet(&sheet));
        for _ in 0..10 {
            let (from, to) = (rng.below(streets) as u16, rng.below(streets) as u16);
            records.push(Record::Question { from, to });
        }
    }
    records.push(Record::End);
    write(&records)
}
