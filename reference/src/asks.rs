//! What `compare` asks: questions, rooms and lent rows, with and without fault.

use crate::cases::sheet_bytes;
use crate::columns::{NetworkColumns, RowColumns};
use crate::compare::{Case, Outcome};
use crate::expected::{self, Ask};
use crate::network::{Network, Row};
use crate::rng::Rng;
use crate::rooms::{Room, RowRooms, MARGIN};
use crate::sheets;
use std::fmt::Debug;

impl Case<'_> {
    /// A length around the one that is needed: often exact.
    pub fn length(&mut self, needed: usize) -> usize {
        match self.rng.below(10) {
            0 => needed.saturating_sub(1),
            1 => self.rng.below(needed.max(1)),
            2 => 0,
            3 | 4 => needed + self.rng.between(1, 50),
            _ => needed,
        }
    }

    /// A question without fault and with work rooms that suffice, exactly or
    /// with some to spare. The journey room is for the caller to choose.
    pub fn sound_ask(&mut self, network: &Network, nodes: usize) -> Ask {
        let mut sheet = sheets::sheet(&mut self.rng, network);
        // Entries behind the state count are not read: fill them with noise.
        for entry in &mut sheet.entries[(sheet.count as usize).min(8)..] {
            let noise = self.rng.next();
            (entry.modes, entry.next, entry.ends) =
                (noise as u8, (noise >> 8) as u8, (noise >> 16) as u8);
        }
        let (from, to) = sheets::question(&mut self.rng, network);
        let more = if self.rng.chance(3) { self.rng.below(60) } else { 0 };
        Ask {
            sheet: sheet_bytes(&sheet),
            states: sheet.count,
            from,
            to,
            journey: 0,
            wide: 16 * nodes + more,
            narrow: 32 * nodes + more / 2,
        }
    }

    /// Like `sound_ask`, but now and then with something wrong, so that the
    /// order of refusals is put to the test too.
    pub fn ask(&mut self, network: &Network, nodes: usize) -> Ask {
        let mut ask = self.sound_ask(network, nodes);
        if self.rng.chance(12) {
            if let Some(mut sheet) = expected::sheet_of(&ask.sheet, ask.states) {
                sheets::spoil_sheet(&mut self.rng, &mut sheet);
                (ask.sheet, ask.states) = (sheet_bytes(&sheet), sheet.count);
            }
        }
        if self.rng.chance(20) {
            ask.from = self.rng.pick(&[nodes as u16, 65_535]);
        }
        if self.rng.chance(20) {
            ask.to = self.rng.pick(&[nodes as u16, 65_535]);
        }
        if self.rng.chance(25) {
            let length = self.rng.pick(&[0, 1, 23, 25, 48]);
            ask.sheet.resize(length, 0);
        }
        if self.rng.chance(5) {
            (ask.wide, ask.narrow) = (self.length(16 * nodes), self.length(32 * nodes));
        }
        ask
    }

    pub fn ask_plain(&mut self, network: &Network, n: &NetworkColumns) -> Outcome {
        let mut ask = self.ask(network, n.node_modes.len());
        let ours = expected::plain(n, &ask);
        ask.journey = self.length(ours.count as usize);
        self.plain_told(n, &ask, expected::in_room(ours, ask.journey))
    }

    pub fn ask_contracted(
        &mut self,
        network: &Network,
        n: &NetworkColumns,
        r: &RowColumns,
    ) -> Outcome {
        let ask = self.ask(network, n.node_modes.len());
        self.contracted_in_some_room(n, r, ask)
    }

    /// The table alone decides: nothing else is wrong.
    pub fn ask_table(&mut self, network: &Network, n: &NetworkColumns, r: &RowColumns) -> Outcome {
        let ask = self.sound_ask(network, n.node_modes.len());
        self.contracted_in_some_room(n, r, ask)
    }

    pub fn contracted_in_some_room(
        &mut self,
        n: &NetworkColumns,
        r: &RowColumns,
        mut ask: Ask,
    ) -> Outcome {
        let ours = expected::contracted(n, r, &ask);
        ask.journey = self.length(ours.count as usize);
        self.contracted_told(n, r, &ask, expected::in_room(ours, ask.journey))
    }

    pub fn open_some(
        &mut self,
        network: &Network,
        n: &NetworkColumns,
        rows: &[Row],
        times: usize,
    ) -> Outcome {
        let (edges, columns) = (network.edges.len(), RowColumns::of(rows));
        for _ in 0..times {
            // Mostly shortcuts; sometimes an edge or a row that is not there.
            let low = if self.rng.chance(3) { 0 } else { edges };
            let row = self.rng.between(low, edges + rows.len());
            let needed = network.table(rows).get(row).map_or(3, |row| row.count as usize);
            let room = self.length(needed);
            self.open(n, &columns, row as u16, room)?;
        }
        self.open(n, &columns, 65_535, 9)
    }

    /// A room full of garbage: anything, all bits set, small numbers that look
    /// like those a search writes, or zero.
    pub fn room<T: Copy + PartialEq + Debug>(
        &mut self,
        length: usize,
        cut: impl Fn(u64) -> T,
    ) -> Room<T> {
        let style = self.rng.below(6);
        let word = |rng: &mut Rng| match style {
            0 => u64::MAX,
            1 => rng.next() % 4,
            2 => 0,
            _ => rng.next(),
        };
        Room::new((0..length + 2 * MARGIN).map(|_| cut(word(&mut self.rng))).collect())
    }

    /// So many rows in each of seven columns.
    pub fn row_rooms(&mut self, lengths: [usize; 7]) -> RowRooms {
        RowRooms {
            tails: self.room(lengths[0], |n| n as u16),
            heads: self.room(lengths[1], |n| n as u16),
            modes: self.room(lengths[2], |n| n as u8),
            lengths: self.room(lengths[3], |n| n as u32),
            counts: self.room(lengths[4], |n| n as u16),
            firsts: self.room(lengths[5], |n| n as u16),
            seconds: self.room(lengths[6], |n| n as u16),
        }
    }

    /// One bit of the network turned over; none where the column is empty.
    pub fn flip_network(&mut self, n: &mut NetworkColumns) {
        fn any<T>(rng: &mut Rng, column: &mut [T], turn: impl Fn(&mut T, usize)) {
            if !column.is_empty() {
                let at = rng.below(column.len());
                turn(&mut column[at], rng.below(64));
            }
        }
        let short = |n: &mut u16, bit: usize| *n ^= 1u16 << (bit % 16);
        let byte = |n: &mut u8, bit: usize| *n ^= 1u8 << (bit % 8);
        match self.rng.below(6) {
            0 => any(&mut self.rng, &mut n.node_modes, byte),
            1 => any(&mut self.rng, &mut n.node_ranks, short),
            2 => any(&mut self.rng, &mut n.tails, short),
            3 => any(&mut self.rng, &mut n.heads, short),
            4 => any(&mut self.rng, &mut n.modes, byte),
            _ => any(&mut self.rng, &mut n.lengths, short),
        }
    }

    pub fn pull_network(&mut self, n: &mut NetworkColumns) {
        match self.rng.below(6) {
            0 => pull(&mut self.rng, &mut n.node_modes),
            1 => pull(&mut self.rng, &mut n.node_ranks),
            2 => pull(&mut self.rng, &mut n.tails),
            3 => pull(&mut self.rng, &mut n.heads),
            4 => pull(&mut self.rng, &mut n.modes),
            _ => pull(&mut self.rng, &mut n.lengths),
        }
    }

    pub fn pull_rows(&mut self, r: &mut RowColumns) {
        match self.rng.below(7) {
            0 => pull(&mut self.rng, &mut r.tails),
            1 => pull(&mut self.rng, &mut r.heads),
            2 => pull(&mut self.rng, &mut r.modes),
            3 => pull(&mut self.rng, &mut r.lengths),
            4 => pull(&mut self.rng, &mut r.counts),
            5 => pull(&mut self.rng, &mut r.firsts),
            _ => pull(&mut self.rng, &mut r.seconds),
        }
    }
}

/// One entry more or less, or none left.
fn pull<T: Copy + Default>(rng: &mut Rng, column: &mut Vec<T>) {
    match rng.below(3) {
        0 => column.push(T::default()),
        1 if !column.is_empty() => column.truncate(column.len() - 1),
        _ => {
            let length = if column.is_empty() { 2 } else { 0 };
            column.resize(length, T::default());
        }
    }
}
