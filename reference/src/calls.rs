//! The calls of the library, each with everything that can be compared after
//! it: the answer, every word of every lent room, that what was lent to be read
//! is as it was, and the legs, which are ridden.

use crate::card::{of_network, write};
use crate::columns::{Answer, NetworkColumns, RowColumns};
use crate::compare::{Case, Outcome};
use crate::expected::{self, clears_rooms, Ask};
use crate::legs::ride;
use crate::linked;
use crate::rooms::{Room, RowRooms};
use crate::spoil::Part;
use crate::text;
use crate::weight::Weight;
use std::fmt::Debug;
use std::slice::from_mut;

/// What a complaint shows of the input.
fn shown(n: &NetworkColumns, rows: Option<&RowColumns>, rest: &str) -> String {
    let network = match n.network() {
        // What is no card is shown as columns.
        Some(network) if network.check_sizes().is_ok() => {
            text::from_card(&write(&of_network(&network)))
        }
        _ => format!("columns {n:?}\n"),
    };
    let rows = match rows.map(|columns| (columns, columns.rows())) {
        None => String::new(),
        Some((_, Some(rows))) => {
            let lines: Vec<String> = rows.iter().map(|row| format!("  {row:?}\n")).collect();
            format!("rows:\n{}", lines.concat())
        }
        Some((columns, None)) => format!("uneven rows {columns:?}\n"),
    };
    format!("{network}{rows}{rest}")
}

type Parts<'a> = Vec<(&'static str, Part<'a>)>;

fn answer_parts(a: &mut Answer) -> Parts<'_> {
    vec![
        ("number", Part::Bytes(from_mut(&mut a.number))),
        ("place", Part::Longs(from_mut(&mut a.place))),
        ("time", Part::Longs(from_mut(&mut a.time))),
        ("count", Part::Words(from_mut(&mut a.count))),
    ]
}

fn network_parts(n: &mut NetworkColumns) -> Parts<'_> {
    vec![
        ("node modes", Part::Bytes(&mut n.node_modes)),
        ("node ranks", Part::Shorts(&mut n.node_ranks)),
        ("tails", Part::Shorts(&mut n.tails)),
        ("heads", Part::Shorts(&mut n.heads)),
        ("modes", Part::Bytes(&mut n.modes)),
        ("lengths", Part::Shorts(&mut n.lengths)),
    ]
}

fn row_parts(r: &mut RowColumns) -> Parts<'_> {
    vec![
        ("row tails", Part::Shorts(&mut r.tails)),
        ("row heads", Part::Shorts(&mut r.heads)),
        ("row modes", Part::Bytes(&mut r.modes)),
        ("row lengths", Part::Words(&mut r.lengths)),
        ("row counts", Part::Shorts(&mut r.counts)),
        ("row firsts", Part::Shorts(&mut r.firsts)),
        ("row seconds", Part::Shorts(&mut r.seconds)),
    ]
}

fn lent_row_parts(r: &mut RowRooms) -> Parts<'_> {
    vec![
        ("lent row tails", Part::Shorts(r.tails.all())),
        ("lent row heads", Part::Shorts(r.heads.all())),
        ("lent row modes", Part::Bytes(r.modes.all())),
        ("lent row lengths", Part::Words(r.lengths.all())),
        ("lent row counts", Part::Shorts(r.counts.all())),
        ("lent row firsts", Part::Shorts(r.firsts.all())),
        ("lent row seconds", Part::Shorts(r.seconds.all())),
    ]
}

impl Case<'_> {
    /// Says what was wrong with which input, and counts the call.
    fn close(
        &mut self,
        call: &'static str,
        number: u8,
        judged: Outcome,
        input: impl Fn() -> String,
    ) -> Outcome {
        self.tally.note(self.kind, call, number);
        let judged = judged.map_err(|wrong| format!("{call}: {wrong}\n--- input\n{}", input()));
        self.spoil.judge(judged)
    }

    pub fn check(&mut self, n: &NetworkColumns) -> Outcome {
        let ours = expected::check(n);
        let mut lent = n.clone();
        let mut theirs = linked::check(&lent);
        let mut parts = answer_parts(&mut theirs);
        parts.extend(network_parts(&mut lent));
        self.spoil.strike("check", &mut parts);
        let judged = same("answer", ours, theirs).and_then(|_| whole("network", n, &lent));
        self.close("check", ours.number, judged, || shown(n, None, ""))
    }

    /// Lends garbage: so many rows in each of the seven columns.
    pub fn prepare(&mut self, n: &NetworkColumns, lengths: [usize; 7]) -> Outcome {
        let nodes = n.node_modes.len();
        let (wide, narrow) = match self.rng.below(4) {
            0 => (self.length(16 * nodes), self.length(32 * nodes)),
            1 => (16 * nodes + self.rng.below(60), 32 * nodes + self.rng.below(60)),
            _ => (16 * nodes, 32 * nodes),
        };
        let mut rooms = Rooms::new(self, wide, narrow);
        let mut rows = self.row_rooms(lengths);
        let (ours, rows_after) = expected::prepare(n, &rows.now(), wide, narrow);
        let mut lent = n.clone();
        let mut theirs = {
            let (wide, narrow) = (rooms.wide.lend(), rooms.narrow.lend());
            linked::prepare(&lent, rows.lend(), wide, narrow)
        };
        let mut parts = answer_parts(&mut theirs);
        parts.extend(network_parts(&mut lent));
        parts.extend(lent_row_parts(&mut rows));
        parts.extend(rooms.parts());
        self.spoil.strike("prepare", &mut parts);
        let judged = same("answer", ours, theirs)
            .and_then(|_| rooms.judge(ours.number))
            .and_then(|_| rows.judge(&rows_after))
            .and_then(|_| whole("network", n, &lent));
        self.close("prepare", ours.number, judged, || {
            shown(n, None, &format!("lent rows {lengths:?}, wide {wide}, narrow {narrow}"))
        })
    }

    pub fn plain(&mut self, n: &NetworkColumns, ask: &Ask) -> Outcome {
        self.plain_told(n, ask, expected::plain(n, ask))
    }

    pub fn plain_told(&mut self, n: &NetworkColumns, ask: &Ask, ours: Answer) -> Outcome {
        let mut lent = Lent::new(self, n, &RowColumns::default(), ask);
        let mut theirs = {
            let question = (lent.sheet.as_slice(), ask.states, ask.from, ask.to);
            let (wide, narrow) = (lent.rooms.wide.lend(), lent.rooms.narrow.lend());
            linked::plain(&lent.network, question, lent.journey.lend(), wide, narrow)
        };
        self.spoil.strike("plain", &mut lent.parts(ours, &mut theirs, &n.tails));
        let judged = lent.judge(n, &RowColumns::default(), ask, ours, theirs);
        self.close("plain", ours.number, judged, || shown(n, None, &format!("{ask:?}")))
    }

    pub fn contracted(&mut self, n: &NetworkColumns, r: &RowColumns, ask: &Ask) -> Outcome {
        self.contracted_told(n, r, ask, expected::contracted(n, r, ask))
    }

    pub fn contracted_told(
        &mut self,
        n: &NetworkColumns,
        r: &RowColumns,
        ask: &Ask,
        ours: Answer,
    ) -> Outcome {
        let mut lent = Lent::new(self, n, r, ask);
        let mut theirs = {
            let question = (lent.sheet.as_slice(), ask.states, ask.from, ask.to);
            let (wide, narrow) = (lent.rooms.wide.lend(), lent.rooms.narrow.lend());
            let journey = lent.journey.lend();
            linked::contracted(&lent.network, &lent.rows, question, journey, wide, narrow)
        };
        self.spoil.strike("contracted", &mut lent.parts(ours, &mut theirs, &n.tails));
        let judged = lent.judge(n, r, ask, ours, theirs);
        self.close("contracted", ours.number, judged, || shown(n, Some(r), &format!("{ask:?}")))
    }

    pub fn open(&mut self, n: &NetworkColumns, r: &RowColumns, row: u16, room: usize) -> Outcome {
        let ours = expected::opened(n, r, row, room);
        let mut after = self.room(room, |n| n as u16);
        let (mut lent, mut rows) = (n.clone(), r.clone());
        let mut handed_back = linked::open(&lent, &rows, row, after.lend()) as u64;
        let mut parts = vec![
            ("length handed back", Part::Longs(from_mut(&mut handed_back))),
            ("room", Part::Shorts(after.all())),
        ];
        parts.extend(network_parts(&mut lent));
        parts.extend(row_parts(&mut rows));
        self.spoil.strike("open", &mut parts);
        // The edges in front, all else as it was.
        let judged = same("length handed back", ours.len() as u64, handed_back)
            .and_then(|_| after.judge("room", |i, was| ours.get(i).copied().unwrap_or(was)))
            .and_then(|_| whole("network", n, &lent))
            .and_then(|_| whole("rows", r, &rows));
        self.close("open", ours.is_empty() as u8, judged, || {
            shown(n, Some(r), &format!("open row {row}, room {room}"))
        })
    }
}

fn same<T: PartialEq + Debug>(what: &str, ours: T, theirs: T) -> Outcome {
    if ours == theirs {
        Ok(())
    } else {
        Err(format!("{what}\nours:   {ours:?}\ntheirs: {theirs:?}"))
    }
}

/// What was lent to be read must be as it was.
fn whole<T: PartialEq + Debug>(what: &str, lent: &T, after: &T) -> Outcome {
    if lent == after {
        Ok(())
    } else {
        Err(format!("{what} was only lent to be read, and is now {after:?}"))
    }
}

/// The two work rooms.
struct Rooms {
    wide: Room<u64>,
    narrow: Room<u32>,
}

impl Rooms {
    fn new(case: &mut Case, wide: usize, narrow: usize) -> Rooms {
        Rooms { wide: case.room(wide, |n| n), narrow: case.room(narrow, |n| n as u32) }
    }

    fn parts(&mut self) -> Parts<'_> {
        vec![
            ("64-bit work room", Part::Longs(self.wide.all())),
            ("32-bit work room", Part::Words(self.narrow.all())),
        ]
    }

    fn judge(&self, number: u8) -> Outcome {
        let zero = clears_rooms(number);
        self.wide.judge("64-bit work room", |_, was| if zero { 0 } else { was })?;
        self.narrow.judge("32-bit work room", |_, was| if zero { 0 } else { was })
    }
}

/// All that a search is lent.
struct Lent {
    network: NetworkColumns,
    rows: RowColumns,
    sheet: Vec<u8>,
    rooms: Rooms,
    journey: Room<u16>,
}

impl Lent {
    fn new(case: &mut Case, n: &NetworkColumns, r: &RowColumns, ask: &Ask) -> Lent {
        Lent {
            network: n.clone(),
            rows: r.clone(),
            sheet: ask.sheet.clone(),
            rooms: Rooms::new(case, ask.wide, ask.narrow),
            journey: case.room(ask.journey, |n| n as u16),
        }
    }

    fn parts<'a>(
        &'a mut self,
        ours: Answer,
        theirs: &'a mut Answer,
        tails: &'a [u16],
    ) -> Parts<'a> {
        let (margin, legs, behind) = split(self.journey.all(), filled(ours));
        let mut parts = answer_parts(theirs);
        parts.extend(self.rooms.parts());
        parts.extend([
            ("margin before the legs", Part::Shorts(margin)),
            ("legs", Part::Legs(legs, tails)),
            ("room behind the legs", Part::Shorts(behind)),
            ("sheet", Part::Bytes(&mut self.sheet)),
        ]);
        parts.extend(network_parts(&mut self.network));
        parts.extend(row_parts(&mut self.rows));
        parts
    }

    fn judge(
        &self,
        n: &NetworkColumns,
        r: &RowColumns,
        ask: &Ask,
        ours: Answer,
        theirs: Answer,
    ) -> Outcome {
        same("answer", ours, theirs)?;
        self.rooms.judge(ours.number)?;
        let legs = &self.journey.now()[..filled(ours)];
        self.journey.judge("journey room", |i, was| legs.get(i).copied().unwrap_or(was))?;
        whole("network", n, &self.network)?;
        whole("rows", r, &self.rows)?;
        whole("sheet", &ask.sheet, &self.sheet)?;
        if ours.number != 0 {
            return Ok(());
        }
        let sheet = expected::sheet_of(&ask.sheet, ask.states);
        let (Some(network), Some(sheet)) = (n.network(), sheet) else {
            return Err("answered without a network or a sheet".to_string());
        };
        let weight = Weight { time: ours.time, count: ours.count };
        ride(&network, &sheet, (ask.from, ask.to), weight, legs)
            .map_err(|why| format!("{why}\nours:   {ours:?}\ntheirs: legs {legs:?}"))
    }
}

/// How many places of the journey room an answer fills.
fn filled(answer: Answer) -> usize {
    if answer.number == 0 {
        answer.count as usize
    } else {
        0
    }
}

fn split(all: &mut [u16], legs: usize) -> (&mut [u16], &mut [u16], &mut [u16]) {
    let (margin, rest) = all.split_at_mut(crate::rooms::MARGIN);
    let (legs, behind) = rest.split_at_mut(legs);
    (margin, legs, behind)
}
