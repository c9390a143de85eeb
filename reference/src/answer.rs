//! What `journeys` must print for any byte stream whatsoever.
//!
//! Decisions on 01's "Card stream", each in one place below:
//! - Unknown, misplaced and cut records all give 12 with the offset of the
//!   record's kind byte, so it never matters which of the three it is.
//! - A stream that stops where a record is owed has no kind byte to point at;
//!   its place is the stream's length. This holds between any two records,
//!   before the first one (empty stream: 0) and instead of the end record.
//! - A record is misplaced if it is not one of those that may come next:
//!   a head at the start; a node while nodes are owed; an edge while edges are
//!   owed; a state while states are owed; a sheet or the end before the first
//!   whole sheet; a sheet, a question or the end behind it.
//!   So a second head, a node after the edges began, a question between a
//!   sheet and its last state, a state too many, and an end record while
//!   anything is owed are all misplaced.
//! - A record is tested only when it is whole: a cut head is 12, not 1.
//! - The network is tested when its last record is in (the last node if there
//!   are no edges), and preparation follows at once. So 2, 3, 4 and 9 come
//!   before anything that is wrong with a later byte.
//! - A sheet's state count is tested with the sheet record, its states when
//!   the last one is in. A sheet nobody asks about is tested all the same.
//! - 6 and 7 are lines like answers; any other refusal is the last line.
//! - A byte behind the end record is a misplaced record: 12 at its offset,
//!   whatever the byte is, behind the lines that stand already.

use crate::card::{find, Found, Record};
use crate::contraction::prepare;
use crate::network::{
    check_sheet, check_state_count, refuse, Network, Refusal, Row, Sheet, State, MOST_ROWS,
};
use crate::opening::open_all;
use crate::plain::Journey;
use crate::rows;

/// One line of the answer.
#[derive(Clone, Debug, PartialEq, Eq)]
pub enum Line {
    Journey { from: u16, to: u16, sheet: Sheet, journey: Journey },
    Refusal(Refusal),
}

/// The lines, and the network once all its records were read.
#[derive(Debug, Default)]
pub struct Talk {
    pub network: Network,
    pub shortcuts: Vec<Row>,
    pub lines: Vec<Line>,
}

pub fn answer(bytes: &[u8]) -> Talk {
    let mut talk = Talk::default();
    if let Err(refusal) = listen(bytes, &mut talk) {
        talk.lines.push(Line::Refusal(refusal));
    }
    talk
}

pub fn print(lines: &[Line]) -> String {
    let mut text = String::new();
    for line in lines {
        match line {
            Line::Refusal(r) => text.push_str(&format!("! {} {}", r.number, r.place)),
            Line::Journey { journey, .. } => {
                text.push_str(&format!("{} {}", journey.weight.time, journey.weight.count));
                for leg in &journey.legs {
                    text.push_str(&format!(" {leg}"));
                }
            }
        }
        text.push('\n');
    }
    text
}

struct Stream<'a> {
    bytes: &'a [u8],
    /// Where the next record begins.
    offset: usize,
}

impl Stream<'_> {
    /// The next record if `wanted` takes it. `offset` is the length of the
    /// stream when it stops here, so one place serves all four misfortunes.
    fn take<T>(&mut self, wanted: impl Fn(Record) -> Option<T>) -> Result<T, Refusal> {
        if let Found::Record(record) = find(self.bytes, self.offset) {
            if let Some(taken) = wanted(record) {
                self.offset += record.size();
                return Ok(taken);
            }
        }
        refuse(12, self.offset)
    }
}

fn listen(bytes: &[u8], talk: &mut Talk) -> Result<(), Refusal> {
    let mut stream = Stream { bytes, offset: 0 };
    talk.network = hear_network(&mut stream)?;
    talk.network.check_rules()?;
    talk.shortcuts = prepare(&talk.network, MOST_ROWS)?;

    let mut sheet: Option<Sheet> = None;
    loop {
        let asked = sheet.is_some();
        let record = stream.take(|record| match record {
            Record::Sheet { .. } | Record::End => Some(record),
            Record::Question { .. } if asked => Some(record),
            _ => None,
        })?;
        match (record, &sheet) {
            (Record::Sheet { states }, _) => sheet = Some(hear_sheet(&mut stream, states)?),
            (Record::Question { from, to }, Some(sheet)) => {
                let line = reply(talk, sheet, from, to);
                talk.lines.push(line);
            }
            // `take` lets nothing else through but the end record.
            _ if stream.offset < bytes.len() => return refuse(12, stream.offset),
            _ => return Ok(()),
        }
    }
}

fn hear_network(stream: &mut Stream) -> Result<Network, Refusal> {
    let (nodes, edges) = stream.take(|record| match record {
        Record::Head { nodes, edges } => Some((nodes, edges)),
        _ => None,
    })?;
    if nodes == 0 || nodes > 512 || edges > 2_048 {
        return refuse(1, 0);
    }
    let mut network = Network::default();
    for _ in 0..nodes {
        network.nodes.push(stream.take(|record| match record {
            Record::Node(node) => Some(node),
            _ => None,
        })?);
    }
    for _ in 0..edges {
        network.edges.push(stream.take(|record| match record {
            Record::Edge(edge) => Some(edge),
            _ => None,
        })?);
    }
    Ok(network)
}

fn hear_sheet(stream: &mut Stream, count: u8) -> Result<Sheet, Refusal> {
    check_state_count(count)?;
    let mut states: Vec<State> = Vec::new();
    for _ in 0..count {
        states.push(stream.take(|record| match record {
            Record::State(state) => Some(state),
            _ => None,
        })?);
    }
    let sheet = Sheet::of(&states);
    check_sheet(&sheet)?;
    Ok(sheet)
}

fn reply(talk: &Talk, sheet: &Sheet, from: u16, to: u16) -> Line {
    if let Err(refusal) = talk.network.check_question(from, to) {
        return Line::Refusal(refusal);
    }
    match rows::search(&talk.network, &talk.shortcuts, sheet, from, to) {
        None => Line::Refusal(Refusal { number: 7, place: 0 }),
        Some(path) => {
            let table = talk.network.table(&talk.shortcuts);
            let legs = open_all(&table, talk.network.edges.len(), &path.rows);
            Line::Journey {
                from,
                to,
                sheet: *sheet,
                journey: Journey { weight: path.weight, legs },
            }
        }
    }
}
