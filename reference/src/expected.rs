//! What each call of the C interface must answer and leave behind, worked out
//! by our own functions alone.

use crate::columns::{Answer, NetworkColumns, RowColumns};
use crate::contraction;
use crate::network::{check_sheet, refuse, Network, Refusal, Row, Sheet, State};
use crate::opening::open;
use crate::plain;
use crate::rows;
use crate::weight::Weight;

/// A question as the interface passes it, with the lengths of the lent rooms.
#[derive(Clone, Debug)]
pub struct Ask {
    pub sheet: Vec<u8>,
    pub states: u8,
    pub from: u16,
    pub to: u16,
    pub journey: usize,
    pub wide: usize,
    pub narrow: usize,
}

/// Work rooms are all zero after these numbers and untouched after the others.
pub fn clears_rooms(number: u8) -> bool {
    matches!(number, 0 | 7 | 8 | 9)
}

fn even<T>(columns: Option<T>) -> Result<T, Refusal> {
    columns.map_or_else(|| refuse(1, 0), Ok)
}

fn check_rooms(network: &Network, wide: usize, narrow: usize) -> Result<(), Refusal> {
    let nodes = network.nodes.len();
    if wide < 16 * nodes || narrow < 32 * nodes {
        return refuse(11, 0);
    }
    Ok(())
}

fn sized(columns: &NetworkColumns) -> Result<Network, Refusal> {
    let network = even(columns.network())?;
    network.check_sizes()?;
    Ok(network)
}

pub fn check(network: &NetworkColumns) -> Answer {
    let run = || sized(network)?.check_rules();
    match run() {
        Ok(()) => Answer { number: 0, place: 0, time: 0, count: 0 },
        Err(refusal) => refusal.into(),
    }
}

/// The answer, and the lent rows after the call.
pub fn prepare(
    network: &NetworkColumns,
    lent: &RowColumns,
    wide: usize,
    narrow: usize,
) -> (Answer, RowColumns) {
    let run = || -> Result<(usize, Vec<Row>), Refusal> {
        let network = sized(network)?;
        let lent = even(lent.rows())?.len();
        check_rooms(&network, wide, narrow)?;
        network.check_rules()?;
        Ok((lent, contraction::prepare(&network, lent)?))
    };
    match run() {
        Ok((lent, mut made)) => {
            let count = made.len() as u32;
            made.resize(lent, Row::default());
            (Answer { number: 0, place: 0, time: 0, count }, RowColumns::of(&made))
        }
        Err(refusal) if refusal.number == 9 => {
            let rows = lent.tails.len();
            (refusal.into(), RowColumns::of(&vec![Row::default(); rows]))
        }
        Err(refusal) => (refusal.into(), lent.clone()),
    }
}

/// The sheet of 24 bytes: modes, next and ends of each of eight states.
pub fn sheet_of(bytes: &[u8], states: u8) -> Option<Sheet> {
    let mut sheet = Sheet { count: states, ..Sheet::default() };
    if bytes.len() != 24 {
        return None;
    }
    for (entry, three) in sheet.entries.iter_mut().zip(bytes.chunks(3)) {
        *entry = State { modes: three[0], next: three[1], ends: three[2] };
    }
    Some(sheet)
}

pub fn plain(network: &NetworkColumns, ask: &Ask) -> Answer {
    let run = || -> Result<Weight, Refusal> {
        let network = sized(network)?;
        let sheet = even(sheet_of(&ask.sheet, ask.states))?;
        check_rooms(&network, ask.wide, ask.narrow)?;
        network.check_rules()?;
        check_sheet(&sheet)?;
        network.check_question(ask.from, ask.to)?;
        match plain::search(&network, &sheet, ask.from, ask.to) {
            Some(journey) => Ok(journey.weight),
            None => refuse(7, 0),
        }
    };
    answered(run(), ask.journey)
}

pub fn contracted(network: &NetworkColumns, shortcuts: &RowColumns, ask: &Ask) -> Answer {
    let run = || -> Result<Weight, Refusal> {
        let network = sized(network)?;
        let shortcuts = even(shortcuts.rows())?;
        network.check_row_sizes(&shortcuts)?;
        let sheet = even(sheet_of(&ask.sheet, ask.states))?;
        check_rooms(&network, ask.wide, ask.narrow)?;
        network.check_rules()?;
        network.check_rows(&shortcuts)?;
        check_sheet(&sheet)?;
        network.check_question(ask.from, ask.to)?;
        match rows::search(&network, &shortcuts, &sheet, ask.from, ask.to) {
            Some(path) => Ok(path.weight),
            None => refuse(7, 0),
        }
    };
    answered(run(), ask.journey)
}

/// 8 is the one refusal that shows the time and count.
fn answered(found: Result<Weight, Refusal>, room: usize) -> Answer {
    match found {
        Ok(Weight { time, count }) => {
            let number = if room < count as usize { 8 } else { 0 };
            Answer { number, place: 0, time, count }
        }
        Err(refusal) => refusal.into(),
    }
}

/// The same answer where the journey room has another length.
pub fn in_room(answer: Answer, room: usize) -> Answer {
    match answer.number {
        0 | 8 => answered(Ok(Weight { time: answer.time, count: answer.count }), room),
        _ => answer,
    }
}

/// The filled front; empty if anything is bad or the room is short.
pub fn opened(network: &NetworkColumns, shortcuts: &RowColumns, row: u16, room: usize) -> Vec<u16> {
    let run = || -> Result<Vec<u16>, Refusal> {
        let network = sized(network)?;
        let shortcuts = even(shortcuts.rows())?;
        network.check_row_sizes(&shortcuts)?;
        network.check_rules()?;
        network.check_rows(&shortcuts)?;
        let mut legs = Vec::new();
        open(&network.table(&shortcuts), network.edges.len(), row as usize, &mut legs);
        Ok(legs)
    };
    match run() {
        Ok(legs) if legs.len() <= room => legs,
        _ => Vec::new(),
    }
}
