//! Judges what `journeys` wrote for a card.
//!
//! Refusals, times and counts must be ours; legs must be real but need not be
//! ours, because several journeys may be equal in time and count.

use crate::answer::{answer, print, Line};
use crate::legs::ride;
use crate::network::{Network, Refusal, Sheet};
use crate::plain::Journey;
use crate::text;
use crate::weight::Weight;

/// What was seen, so that a run can show it tested something.
#[derive(Clone, Copy, Debug, Default, PartialEq, Eq)]
pub struct Seen {
    pub journeys: usize,
    pub refusals: [usize; 13],
}

impl Seen {
    pub fn add(&mut self, other: &Seen) {
        self.journeys += other.journeys;
        for (sum, more) in self.refusals.iter_mut().zip(other.refusals) {
            *sum += more;
        }
    }
}

/// `Err` says what is wrong.
pub fn judge(card: &[u8], written: &[u8]) -> Result<Seen, String> {
    let ours = answer(card);
    let theirs = lines_of(written)?;
    let mut seen = Seen::default();
    for (number, line) in ours.lines.iter().enumerate() {
        let Some(text) = theirs.get(number) else {
            return Err(format!("line {} is missing", number + 1));
        };
        judge_line(&ours.network, line, text)
            .map_err(|wrong| format!("line {}: {wrong}", number + 1))?;
        match line {
            Line::Refusal(r) => seen.refusals[r.number as usize] += 1,
            Line::Journey { .. } => seen.journeys += 1,
        }
    }
    if theirs.len() > ours.lines.len() {
        return Err(format!("line {} is one too many", ours.lines.len() + 1));
    }
    Ok(seen)
}

/// The lines without their LF; each must have one.
fn lines_of(written: &[u8]) -> Result<Vec<&str>, String> {
    let text = std::str::from_utf8(written).map_err(|_| "the answer is not text".to_string())?;
    match text.strip_suffix('\n') {
        Some(body) => Ok(body.split('\n').collect()),
        None if text.is_empty() => Ok(Vec::new()),
        None => Err("the last line does not end with LF".to_string()),
    }
}

fn judge_line(network: &Network, ours: &Line, theirs: &str) -> Result<(), String> {
    match ours {
        Line::Refusal(r) => judge_refusal(r, theirs),
        Line::Journey { from, to, sheet, journey } => {
            judge_journey(network, sheet, (*from, *to), journey, theirs)
        }
    }
}

fn judge_refusal(ours: &Refusal, theirs: &str) -> Result<(), String> {
    let expected = format!("! {} {}", ours.number, ours.place);
    if theirs == expected {
        Ok(())
    } else {
        Err(format!("`{theirs}` stands where `{expected}` belongs"))
    }
}

fn judge_journey(
    network: &Network,
    sheet: &Sheet,
    question: (u16, u16),
    ours: &Journey,
    theirs: &str,
) -> Result<(), String> {
    // Single spaces only: an empty piece is no number.
    let numbers: Option<Vec<u64>> = theirs
        .split(' ')
        .map(|word| if word.is_empty() { None } else { text::digits(word) })
        .collect();
    let Some(numbers) = numbers else {
        return Err(format!("`{theirs}` is no line of numbers with single spaces"));
    };
    let (time, count) = (ours.weight.time, ours.weight.count);
    if numbers.len() < 2 || numbers[0] != time || numbers[1] != count as u64 {
        return Err(format!("`{theirs}` stands where `{time} {count} ...` belongs"));
    }
    let legs: Result<Vec<u16>, _> = numbers[2..].iter().map(|&n| u16::try_from(n)).collect();
    let legs = legs.map_err(|_| format!("`{theirs}` names an edge that is not there"))?;
    ride(network, sheet, question, Weight { time, count }, &legs)
}

/// All a reader needs to see the difference again.
pub fn report(seed: Option<u64>, card: &[u8], written: &[u8], wrong: &str) -> String {
    let seed = seed.map_or("unknown".to_string(), |seed| seed.to_string());
    format!(
        "DIFFERENCE: {wrong}\n--- seed {seed}\n--- card\n{}--- our answer\n{}--- their answer\n{}",
        text::from_card(card),
        print(&answer(card).lines),
        String::from_utf8_lossy(written),
    )
}
