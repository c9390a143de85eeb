//! Networks, sheets and row tables, and the rules they must keep.
//!
//! Every check hands back the first broken rule as a `Refusal` with 01's
//! number and place.

use crate::weight::Weight;

pub const CORE: u16 = 65_535;
pub const MOST_NODES: usize = 512;
pub const MOST_EDGES: usize = 2_048;
pub const MOST_ROWS: usize = 4_096;
pub const MOST_STATES: u8 = 8;
const MOST_ROW_LENGTH: u64 = 33_488_385;
const MOST_ROW_COUNT: u64 = 511;

#[derive(Clone, Copy, Debug, PartialEq, Eq)]
pub struct Node {
    pub mode: u8,
    pub rank: u16,
}

#[derive(Clone, Copy, Debug, PartialEq, Eq)]
pub struct Edge {
    pub tail: u16,
    pub head: u16,
    pub mode: u8,
    pub length: u16,
}

#[derive(Clone, Debug, Default, PartialEq, Eq)]
pub struct Network {
    pub nodes: Vec<Node>,
    pub edges: Vec<Edge>,
}

/// A row of the table. A shortcut has two children; an edge seen as a row has
/// count 1 and its children are not read.
#[derive(Clone, Copy, Debug, Default, PartialEq, Eq)]
pub struct Row {
    pub tail: u16,
    pub head: u16,
    pub mode: u8,
    pub length: u32,
    pub count: u16,
    pub first: u16,
    pub second: u16,
}

impl Row {
    pub fn weight(&self) -> Weight {
        Weight { time: self.length as u64, count: self.count as u32 }
    }
}

#[derive(Clone, Copy, Debug, Default, PartialEq, Eq)]
pub struct State {
    pub modes: u8,
    pub next: u8,
    pub ends: u8,
}

impl State {
    pub fn starts(&self) -> bool {
        self.ends & 1 != 0
    }
    pub fn finishes(&self) -> bool {
        self.ends & 2 != 0
    }
    pub fn rides(&self, mode: u8) -> bool {
        self.modes >> mode & 1 != 0
    }
    pub fn leads_to(&self, state: usize) -> bool {
        self.next >> state & 1 != 0
    }
}

/// `count` states stand in front; the entries behind them are never read.
#[derive(Clone, Copy, Debug, Default, PartialEq, Eq)]
pub struct Sheet {
    pub count: u8,
    pub entries: [State; 8],
}

impl Sheet {
    pub fn of(states: &[State]) -> Sheet {
        let mut sheet = Sheet { count: states.len() as u8, ..Sheet::default() };
        for (entry, state) in sheet.entries.iter_mut().zip(states) {
            *entry = *state;
        }
        sheet
    }

    pub fn states(&self) -> &[State] {
        &self.entries[..(self.count as usize).min(8)]
    }

    /// The states a traveller may be in after riding `mode` out of `state`.
    pub fn after(&self, state: usize, mode: u8) -> impl Iterator<Item = usize> {
        let entry = self.entries[state];
        let states = self.states().len();
        (0..states).filter(move |&next| match mode {
            0 => entry.leads_to(next),
            _ => next == state && entry.rides(mode),
        })
    }
}

#[derive(Clone, Copy, Debug, PartialEq, Eq)]
pub struct Refusal {
    pub number: u8,
    pub place: u64,
}

pub fn refuse<T>(number: u8, place: usize) -> Result<T, Refusal> {
    Err(Refusal { number, place: place as u64 })
}

impl Network {
    /// Is node `a` contracted before node `b`? Core nodes come last and level
    /// with each other, so a core node is before nobody.
    pub fn before(&self, a: usize, b: usize) -> bool {
        let key = |node: usize| (self.nodes[node].rank, node);
        self.nodes[a].rank != CORE && key(a) < key(b)
    }

    pub fn check_sizes(&self) -> Result<(), Refusal> {
        let nodes = self.nodes.len();
        if nodes == 0 || nodes > MOST_NODES || self.edges.len() > MOST_EDGES {
            return refuse(1, 0);
        }
        Ok(())
    }

    /// Everything but the sizes: 2, then 3, then 4. Kept apart from the sizes
    /// because a work room that is too short (11) is told between the two.
    pub fn check_rules(&self) -> Result<(), Refusal> {
        if let Some(node) = self.nodes.iter().position(|n| n.mode == 0 || n.mode > 7) {
            return refuse(2, node);
        }
        if let Some(edge) = self.edges.iter().position(|e| !self.edge_keeps_rules(e)) {
            return refuse(3, edge);
        }
        let mut transfer = vec![false; self.nodes.len()];
        for link in self.edges.iter().filter(|e| e.mode == 0) {
            transfer[link.tail as usize] = true;
            transfer[link.head as usize] = true;
        }
        let wrong = |node: &usize| transfer[*node] && self.nodes[*node].rank != CORE;
        if let Some(node) = (0..self.nodes.len()).find(wrong) {
            return refuse(4, node);
        }
        Ok(())
    }

    pub fn check(&self) -> Result<(), Refusal> {
        self.check_sizes()?;
        self.check_rules()
    }

    fn edge_keeps_rules(&self, edge: &Edge) -> bool {
        let (Some(tail), Some(head)) =
            (self.nodes.get(edge.tail as usize), self.nodes.get(edge.head as usize))
        else {
            return false;
        };
        let ends_fit = edge.mode == 0 || (tail.mode == edge.mode && head.mode == edge.mode);
        edge.tail != edge.head && edge.mode <= 7 && edge.length >= 1 && ends_fit
    }

    /// The edges followed by the shortcuts, each at its row number.
    pub fn table(&self, shortcuts: &[Row]) -> Vec<Row> {
        let as_row = |e: &Edge| Row {
            tail: e.tail,
            head: e.head,
            mode: e.mode,
            length: e.length as u32,
            count: 1,
            first: 0,
            second: 0,
        };
        self.edges.iter().map(as_row).chain(shortcuts.iter().copied()).collect()
    }

    pub fn check_row_sizes(&self, shortcuts: &[Row]) -> Result<(), Refusal> {
        if self.edges.len() + shortcuts.len() > MOST_ROWS {
            return refuse(1, 0);
        }
        Ok(())
    }

    /// 10 with the lowest unsound row number; the first shortcut's number is
    /// the edge count. Asks for a network that keeps its own rules.
    pub fn check_rows(&self, shortcuts: &[Row]) -> Result<(), Refusal> {
        let table = self.table(shortcuts);
        match (self.edges.len()..table.len()).find(|&number| !self.sound(&table, number)) {
            Some(number) => refuse(10, number),
            None => Ok(()),
        }
    }

    /// Rows below `number` are taken as sound already (the lowest is sought).
    fn sound(&self, table: &[Row], number: usize) -> bool {
        let row = &table[number];
        if row.first as usize >= number || row.second as usize >= number {
            return false;
        }
        let (first, second) = (&table[row.first as usize], &table[row.second as usize]);
        let joined = row.tail == first.tail && first.head == second.tail && second.head == row.head;
        if !joined || row.tail == row.head {
            return false;
        }
        let (tail, meeting, head) = (row.tail as usize, first.head as usize, row.head as usize);
        let length = first.length as u64 + second.length as u64;
        let count = first.count as u64 + second.count as u64;
        self.before(meeting, tail)
            && self.before(meeting, head)
            && row.mode == first.mode
            && row.mode == second.mode
            && row.length as u64 == length
            && row.count as u64 == count
            && length <= MOST_ROW_LENGTH
            && count <= MOST_ROW_COUNT
    }

    pub fn check_question(&self, from: u16, to: u16) -> Result<(), Refusal> {
        if from as usize >= self.nodes.len() {
            return refuse(6, 0);
        }
        if to as usize >= self.nodes.len() {
            return refuse(6, 1);
        }
        Ok(())
    }
}

/// The state count alone: the card stream tests it before any state is read.
pub fn check_state_count(count: u8) -> Result<(), Refusal> {
    if count == 0 || count > MOST_STATES {
        return refuse(5, 0);
    }
    Ok(())
}

pub fn check_sheet(sheet: &Sheet) -> Result<(), Refusal> {
    check_state_count(sheet.count)?;
    let absent = |bits: u8| (sheet.count..8).any(|state| bits >> state & 1 != 0);
    let wrong = |s: &State| s.modes & 1 != 0 || absent(s.next) || s.ends > 3;
    match sheet.states().iter().position(wrong) {
        Some(state) => refuse(5, state),
        None => Ok(()),
    }
}
