//! Calls the proved library on random, extreme and damaged input and compares
//! everything 01 fixes with our own functions. Legs are ridden, not compared.
//!
//! Each seed is a case of its own, so a difference is seen again with
//! `compare --seed <that seed> --count 1` and the same `--largest`.

use crate::cases;
use crate::columns::{NetworkColumns, RowColumns};
use crate::contraction::prepare;
use crate::extremes;
use crate::network::{Network, Row};
use crate::rng::Rng;
use crate::spoil::Spoil;
use crate::tables;
use crate::towns;
use std::collections::BTreeMap;

/// `Err` holds a difference and the input that showed it.
pub type Outcome = Result<(), String>;

/// How often each call gave each number, and how many calls each kind made.
#[derive(Default)]
pub struct Tally {
    numbers: BTreeMap<(&'static str, u8), u64>,
    kinds: BTreeMap<&'static str, u64>,
    pub calls: u64,
}

impl Tally {
    pub fn note(&mut self, kind: &'static str, call: &'static str, number: u8) {
        *self.numbers.entry((call, number)).or_insert(0) += 1;
        *self.kinds.entry(kind).or_insert(0) += 1;
        self.calls += 1;
    }

    pub fn tell(&self) -> String {
        let mut told = format!("{} calls\n", self.calls);
        for (kind, calls) in &self.kinds {
            told.push_str(&format!("  {kind:<40} {calls:>9}\n"));
        }
        told.push_str("how often each number was answered\n");
        for call in ["check", "prepare", "plain", "contracted", "open"] {
            let numbers: Vec<String> = self
                .numbers
                .iter()
                .filter(|((name, _), _)| *name == call)
                .map(|((_, number), times)| format!("{number}: {times}"))
                .collect();
            told.push_str(&format!("  {call:<11} {}\n", numbers.join(", ")));
        }
        told.push_str("  (open: 0 opened, 1 nothing handed back)\n");
        told
    }
}

/// How much is compared: so many seeds, or seeds until so many calls are made.
pub enum Amount {
    Cases(u64),
    Calls(u64),
}

/// The cases of the seeds from `seed` on, and how many. With `spoil` each call
/// is falsified, and must be noticed.
pub fn run(
    seed: u64,
    amount: Amount,
    largest: usize,
    spoil: &mut Spoil,
) -> Result<(u64, Tally), String> {
    let (mut tally, mut cases) = (Tally::default(), 0);
    while match amount {
        Amount::Cases(most) => cases < most,
        Amount::Calls(most) => tally.calls < most,
    } {
        let seed = seed.wrapping_add(cases);
        let mut case = Case { rng: Rng::new(seed), kind: "", tally: &mut tally, spoil };
        case.run(largest).map_err(|wrong| {
            format!("DIFFERENCE, seed {seed}, largest {largest}, {}\n{wrong}", case.kind)
        })?;
        cases += 1;
    }
    Ok((cases, tally))
}

/// One seed's case. What it asks stands in `asks`, how it calls in `calls`.
pub struct Case<'a> {
    pub rng: Rng,
    pub kind: &'static str,
    pub tally: &'a mut Tally,
    pub spoil: &'a mut Spoil,
}

impl Case<'_> {
    fn run(&mut self, largest: usize) -> Outcome {
        match self.rng.below(40) {
            0..=4 => self.small_with_every_flip(),
            5..=8 => self.random(),
            9..=13 => self.sound_tables(),
            14..=18 => self.broken(),
            19..=22 => self.damaged(),
            23..=27 => self.uneven(),
            28..=36 => {
                let size = self.rng.between(11, 60.min(largest.max(11)));
                self.random_flips("random flips, 11 to 60 nodes", size, 12)
            }
            37 => {
                let size = self.rng.between(61.min(largest), largest);
                self.random_flips("random flips, 61 nodes and more", size, 12)
            }
            _ => self.extreme(),
        }
    }

    fn small_with_every_flip(&mut self) -> Outcome {
        self.kind = "small tables, every single flip";
        let size = self.rng.between(1, 10);
        let network = towns::network(&mut self.rng, size);
        let rows = self.whole(&network, 4)?;
        if rows.len() > 8 {
            return Ok(());
        }
        let n = NetworkColumns::of(&network);
        for bit in 0..rows.len() * 120 {
            let flipped = flip(&RowColumns::of(&rows), bit);
            self.ask_table(&network, &n, &flipped)?;
            self.open(&n, &flipped, (network.edges.len() + bit / 120) as u16, 600)?;
        }
        Ok(())
    }

    /// Accepted networks and many questions.
    fn random(&mut self) -> Outcome {
        self.kind = "random networks";
        let size = if self.rng.chance(2) { 10 } else { 60 };
        let size = self.rng.between(1, size);
        let network = towns::network(&mut self.rng, size);
        self.whole(&network, 60).map(|_| ())
    }

    fn random_flips(&mut self, kind: &'static str, size: usize, flips: usize) -> Outcome {
        self.kind = kind;
        let network = towns::network(&mut self.rng, size.max(1));
        let rows = self.whole(&network, 4)?;
        let n = NetworkColumns::of(&network);
        for _ in 0..if rows.is_empty() { 0 } else { flips } {
            let mut flipped = RowColumns::of(&rows);
            for _ in 0..self.rng.between(1, 2) {
                flipped = flip(&flipped, self.rng.below(rows.len() * 120));
            }
            self.ask_table(&network, &n, &flipped)?;
            let row = self.rng.below(network.edges.len() + rows.len() + 2) as u16;
            self.open(&n, &flipped, row, 600)?;
        }
        Ok(())
    }

    /// Tables that keep every rule of soundness but were made by nobody.
    fn sound_tables(&mut self) -> Outcome {
        self.kind = "sound tables that nobody prepared";
        let size = self.rng.between(2, 25);
        let network = towns::network(&mut self.rng, size);
        let prepared = prepare(&network, 4_096).unwrap_or_default();
        let n = NetworkColumns::of(&network);
        for _ in 0..3 {
            let more = self.rng.below(30);
            let rows = tables::sound_rows(&mut self.rng, &network, &prepared, more);
            let columns = RowColumns::of(&rows);
            for _ in 0..5 {
                self.ask_table(&network, &n, &columns)?;
            }
            self.ask_contracted(&network, &n, &columns)?;
            self.open_some(&network, &n, &rows, 6)?;
            for _ in 0..if rows.is_empty() { 0 } else { 10 } {
                let flipped = flip(&columns, self.rng.below(rows.len() * 120));
                self.ask_table(&network, &n, &flipped)?;
            }
        }
        Ok(())
    }

    /// Networks with one broken rule or two, and everything else at random.
    fn broken(&mut self) -> Outcome {
        self.kind = "networks with broken rules";
        let size = self.rng.between(1, 30);
        let sane = towns::network(&mut self.rng, size);
        let rows = prepare(&sane, 4_096).unwrap_or_default();
        let mut network = sane.clone();
        for _ in 0..self.rng.between(1, 2) {
            towns::spoil(&mut self.rng, &mut network);
        }
        self.every_call(&sane, &NetworkColumns::of(&network), &rows)
    }

    /// Networks with one bit to three turned over.
    fn damaged(&mut self) -> Outcome {
        self.kind = "networks with bits turned over";
        let size = self.rng.between(1, 30);
        let sane = towns::network(&mut self.rng, size);
        let rows = prepare(&sane, 4_096).unwrap_or_default();
        for _ in 0..8 {
            let mut n = NetworkColumns::of(&sane);
            for _ in 0..self.rng.between(1, 3) {
                self.flip_network(&mut n);
            }
            self.every_call(&sane, &n, &rows)?;
        }
        Ok(())
    }

    /// Questions are asked about `sane`, of the columns as they are.
    fn every_call(&mut self, sane: &Network, n: &NetworkColumns, rows: &[Row]) -> Outcome {
        self.check(n)?;
        self.prepare(n, [rows.len(); 7])?;
        self.ask_plain(sane, n)?;
        let mut columns = RowColumns::of(rows);
        self.ask_contracted(sane, n, &columns)?;
        let row = self.rng.below(n.tails.len() + rows.len() + 1) as u16;
        self.open(n, &columns, row, 600)?;
        if !rows.is_empty() {
            columns = flip(&columns, self.rng.below(rows.len() * 120));
            self.ask_contracted(sane, n, &columns)?;
        }
        Ok(())
    }

    /// Columns of different lengths, in the network, the table or both.
    fn uneven(&mut self) -> Outcome {
        self.kind = "uneven columns";
        let size = self.rng.between(1, 20);
        let mut network = towns::network(&mut self.rng, size);
        let rows = prepare(&network, 4_096).unwrap_or_default();
        if self.rng.chance(4) {
            towns::spoil(&mut self.rng, &mut network);
        }
        let mut n = NetworkColumns::of(&network);
        let mut columns = RowColumns::of(&rows);
        let which = self.rng.below(3);
        if which != 0 {
            self.pull_network(&mut n);
        }
        if which != 1 {
            self.pull_rows(&mut columns);
        }
        self.check(&n)?;
        let mut lent = [rows.len() + 3; 7];
        if which != 1 {
            let column = self.rng.below(7);
            lent[column] = self.rng.pick(&[0, rows.len() + 2, rows.len() + 4]);
        }
        self.prepare(&n, lent)?;
        self.ask_plain(&network, &n)?;
        self.ask_contracted(&network, &n, &columns)?;
        self.open(&n, &columns, 0, 600)
    }

    fn extreme(&mut self) -> Outcome {
        self.kind = "extremes";
        let foot = |n: u16| extremes::chain(n, 0, 65_535);
        let network = match self.rng.below(16) {
            0 => foot(512),
            1 => foot(513),
            2 => Network::default(),
            3 => extremes::ladder(2_048),
            4 => extremes::ladder(2_049),
            5 => extremes::parallel(),
            6 => extremes::star(16, 240, 0),
            7 => extremes::star(16, 240, 1),
            8 => extremes::star(70, 70, 0),
            9 => foot(1),
            10 => return self.longest(),
            11 => return self.doubling(),
            12 => return self.too_many_rows(),
            13 | 14 => return self.wrapped(),
            _ => Network { edges: Vec::new(), ..foot(512) },
        };
        if network.check().is_ok() {
            self.whole(&network, 3)?;
        } else {
            let n = NetworkColumns::of(&network);
            self.check(&n)?;
            self.prepare(&n, [5; 7])?;
            self.ask_plain(&foot(3), &n)?;
            self.ask_contracted(&foot(3), &n, &RowColumns::default())?;
            self.open(&n, &RowColumns::default(), 0, 5)?;
        }
        Ok(())
    }

    /// 4,095 edges in one journey.
    fn longest(&mut self) -> Outcome {
        let (network, sheet) = extremes::longest();
        let rows = prepare(&network, 4_096).unwrap_or_default();
        let n = NetworkColumns::of(&network);
        for journey in [4_094, 4_095, 4_096] {
            let ask = cases::ask(&sheet, 0, 511, journey);
            self.plain(&n, &ask)?;
            self.contracted(&n, &RowColumns::of(&rows), &ask)?;
        }
        self.open_some(&network, &n, &rows, 4)
    }

    /// Rows whose counts stand at the bound and one above it, and journeys
    /// over them of more edges and seconds than 16 and 32 bits can hold.
    fn doubling(&mut self) -> Outcome {
        let count = self.rng.pick(&[2, 3, 255, 256, 257, 500, 510, 511, 511, 511, 512]);
        let cores = self.rng.pick(&[2, 3, 22]);
        let (network, rows) = extremes::doubling(count, cores);
        let (n, columns) = (NetworkColumns::of(&network), RowColumns::of(&rows));
        for _ in 0..8 {
            self.ask_table(&network, &n, &columns)?;
        }
        let (from, to) = (extremes::FIRST_CORE, extremes::FIRST_CORE + cores - 1);
        let edges = 8 * (cores as usize - 1) * count as usize + 7;
        for room in [edges - 1, edges, edges + 9] {
            let ask = cases::ask(&extremes::eight_times(), from, to, room);
            self.contracted(&n, &columns, &ask)?;
        }
        self.open_some(&network, &n, &rows, 12)
    }

    /// Edges and shortcuts together: 4,096 pass the sizes, 4,097 do not.
    fn too_many_rows(&mut self) -> Outcome {
        let size = self.rng.between(2, 12);
        let network = towns::network(&mut self.rng, size);
        let n = NetworkColumns::of(&network);
        for in_all in [4_096, 4_097, 5_000] {
            let columns = RowColumns::of(&vec![Row::default(); in_all - network.edges.len()]);
            self.ask_contracted(&network, &n, &columns)?;
            self.open(&n, &columns, 0, 9)?;
        }
        Ok(())
    }

    /// Lengths whose last 16 bits would pass; and more rows lent than 16 bits
    /// can count.
    fn wrapped(&mut self) -> Outcome {
        let size = self.rng.between(2, 12);
        let network = towns::network(&mut self.rng, size);
        let rows = prepare(&network, 4_096).unwrap_or_default();
        let (n, columns) = (NetworkColumns::of(&network), RowColumns::of(&rows));
        let (mut many_nodes, mut many_edges, mut many_rows) =
            (n.clone(), n.clone(), columns.clone());
        many_nodes.node_modes.resize(65_536 + size, 1);
        many_nodes.node_ranks.resize(65_536 + size, 0);
        for column in [&mut many_edges.tails, &mut many_edges.heads, &mut many_edges.lengths] {
            column.resize(65_536 + network.edges.len(), 1);
        }
        many_edges.modes.resize(65_536 + network.edges.len(), 1);
        let more = 65_536 + rows.len();
        for column in [
            &mut many_rows.tails,
            &mut many_rows.heads,
            &mut many_rows.counts,
            &mut many_rows.firsts,
            &mut many_rows.seconds,
        ] {
            column.resize(more, 0);
        }
        many_rows.modes.resize(more, 0);
        many_rows.lengths.resize(more, 0);
        self.prepare(&n, [more; 7])?;
        for n in [&many_nodes, &many_edges] {
            self.check(n)?;
            self.prepare(n, [9; 7])?;
            self.ask_plain(&network, n)?;
            self.ask_contracted(&network, n, &columns)?;
            self.open(n, &columns, 0, 9)?;
        }
        self.ask_contracted(&network, &n, &many_rows)?;
        self.open(&n, &many_rows, 0, 9)
    }

    /// Every call on an accepted network, rooms of all lengths. Hands back our
    /// own table (empty if there is none).
    fn whole(&mut self, network: &Network, questions: usize) -> Result<Vec<Row>, String> {
        let n = NetworkColumns::of(network);
        self.check(&n)?;
        let (rows, needed) = match prepare(network, 4_096) {
            Ok(rows) => (rows.clone(), rows.len()),
            Err(_) => (Vec::new(), 4_096),
        };
        let few = self.rng.below(needed.max(1));
        for lent in [few, needed.saturating_sub(1), needed, needed + self.rng.between(1, 40)] {
            self.prepare(&n, [lent; 7])?;
        }
        if self.rng.chance(20) {
            self.prepare(&n, [5_000; 7])?;
        }
        let columns = RowColumns::of(&rows);
        for _ in 0..questions {
            self.ask_plain(network, &n)?;
            self.ask_contracted(network, &n, &columns)?;
        }
        self.open_some(network, &n, &rows, 6)?;
        Ok(rows)
    }
}

/// A row has 120 bits: tail, head, mode, length, count, first, second.
fn flip(rows: &RowColumns, bit: usize) -> RowColumns {
    let mut flipped = rows.clone();
    let (row, bit) = (bit / 120, bit % 120);
    match bit {
        0..=15 => flipped.tails[row] ^= 1 << bit,
        16..=31 => flipped.heads[row] ^= 1 << (bit - 16),
        32..=39 => flipped.modes[row] ^= 1 << (bit - 32),
        40..=71 => flipped.lengths[row] ^= 1 << (bit - 40),
        72..=87 => flipped.counts[row] ^= 1 << (bit - 72),
        88..=103 => flipped.firsts[row] ^= 1 << (bit - 88),
        _ => flipped.seconds[row] ^= 1 << (bit - 104),
    }
    flipped
}
