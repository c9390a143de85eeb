//! One round of timing: a network, its table, questions, and the work that is
//! timed, by the name of the program and of the call.

use crate::city;
use crate::contraction::prepare;
use crate::district::district;
use crate::network::{check_sheet, Network, Row, Sheet};
use crate::plain;
use crate::rng::Rng;
use crate::rows;
use std::hint::black_box;

#[cfg(feature = "linked")]
use crate::{
    cases::sheet_bytes,
    columns::{NetworkColumns, RowColumns},
    linked,
};

pub const QUESTIONS: usize = 20;

/// `check` is the check of the network, which is part of every call; `checks`
/// is all that a contracted search checks: network, table, sheet, question.
pub const CALLS: [&str; 5] = ["check", "checks", "prepare", "plain", "contracted"];

/// `ours` builds its lists anew for each question, as whoever is given columns
/// must; `ready` has them built once, and its contracted search is brisk.
pub const PROGRAMS: [&str; 3] = ["ours", "ready", "theirs"];

pub struct Round {
    pub network: Network,
    pub shortcuts: Vec<Row>,
    pub questions: Vec<(Sheet, u16, u16)>,
}

impl Round {
    /// `None` where the shortcuts exceed 4,096 rows.
    pub fn new(seed: u64, nodes: usize) -> Option<Round> {
        let mut rng = Rng::new(seed.wrapping_add(nodes as u64));
        let network = district(&mut rng, nodes);
        network.check().ok()?;
        let shortcuts = prepare(&network, 4_096).ok()?;
        let sheets = city::sheets();
        // From street to street, so that nearly every question has an answer.
        let streets = network.nodes.iter().filter(|n| n.mode == 1).count();
        let questions = (0..QUESTIONS)
            .map(|i| {
                let (from, to) = (rng.below(streets) as u16, rng.below(streets) as u16);
                (sheets[i % sheets.len()], from, to)
            })
            .collect();
        Some(Round { network, shortcuts, questions })
    }

    /// One repetition: one check or preparation, or all the questions. `None`
    /// where the program has no such call.
    pub fn work<'a>(&'a self, program: &str, call: &str) -> Option<Box<dyn FnMut() + 'a>> {
        match program {
            "ours" => self.ours(call),
            "ready" => self.ready(call),
            #[cfg(feature = "linked")]
            "theirs" => self.theirs(call),
            _ => None,
        }
    }

    fn each<'a>(
        &'a self,
        mut ask: impl FnMut(&Sheet, u16, u16) + 'a,
    ) -> Option<Box<dyn FnMut() + 'a>> {
        Some(Box::new(move || self.questions.iter().for_each(|(sheet, a, b)| ask(sheet, *a, *b))))
    }

    fn ours<'a>(&'a self, call: &str) -> Option<Box<dyn FnMut() + 'a>> {
        let (network, shortcuts) = (&self.network, &self.shortcuts);
        match call {
            "check" => Some(Box::new(|| _ = black_box(network.check()))),
            "checks" => self.each(|sheet, from, to| {
                _ = black_box(network.check());
                _ = black_box(network.check_rows(shortcuts));
                _ = black_box(check_sheet(sheet));
                _ = black_box(network.check_question(from, to));
            }),
            "prepare" => Some(Box::new(|| _ = black_box(prepare(network, 4_096)))),
            "plain" => {
                self.each(|sheet, from, to| _ = black_box(plain::search(network, sheet, from, to)))
            }
            "contracted" => self.each(|sheet, from, to| {
                _ = black_box(rows::search(network, shortcuts, sheet, from, to))
            }),
            _ => None,
        }
    }

    fn ready<'a>(&'a self, call: &str) -> Option<Box<dyn FnMut() + 'a>> {
        let network = &self.network;
        match call {
            "plain" => {
                let lists = plain::Lists::of(network);
                self.each(move |sheet, from, to| {
                    _ = black_box(plain::search_in(network, &lists, sheet, from, to))
                })
            }
            "contracted" => {
                let lists = rows::Lists::of(network, &self.shortcuts);
                self.each(move |sheet, from, to| {
                    _ = black_box(rows::search_in(network, &lists, sheet, from, to, true))
                })
            }
            _ => None,
        }
    }

    #[cfg(feature = "linked")]
    fn theirs<'a>(&'a self, call: &str) -> Option<Box<dyn FnMut() + 'a>> {
        let (network, table) = (NetworkColumns::of(&self.network), RowColumns::of(&self.shortcuts));
        let mut lent = Lent::new(self.network.nodes.len());
        match call {
            "check" => Some(Box::new(move || _ = black_box(linked::check(&network)))),
            // A question that names no node is refused behind all the checks.
            "checks" => self.each(move |sheet, _, to| {
                _ = black_box(lent.contracted(&network, &table, sheet, 65_535, to))
            }),
            "prepare" => Some(Box::new(move || _ = black_box(lent.prepare(&network)))),
            "plain" => self
                .each(move |sheet, from, to| _ = black_box(lent.plain(&network, sheet, from, to))),
            "contracted" => self.each(move |sheet, from, to| {
                _ = black_box(lent.contracted(&network, &table, sheet, from, to))
            }),
            _ => None,
        }
    }

    /// What is timed must be right: their table is ours, and so are time and
    /// count of each answer.
    #[cfg(feature = "linked")]
    pub fn agree(&self) -> Result<(), String> {
        let (network, table) = (NetworkColumns::of(&self.network), RowColumns::of(&self.shortcuts));
        let mut lent = Lent::new(self.network.nodes.len());
        let made = lent.prepare(&network);
        let rows = lent.rows.rows().map(|rows| rows[..made.count as usize].to_vec());
        if made.number != 0 || rows.as_ref() != Some(&self.shortcuts) {
            return Err(format!("their preparation differs from ours: {made:?}"));
        }
        for (sheet, from, to) in &self.questions {
            let ours = plain::search(&self.network, sheet, *from, *to)
                .map_or((7, 0, 0), |j| (0, j.weight.time, j.weight.count));
            let a = lent.plain(&network, sheet, *from, *to);
            let b = lent.contracted(&network, &table, sheet, *from, *to);
            for (name, a) in [("plain", a), ("contracted", b)] {
                if (a.number, a.time, a.count) != ours {
                    return Err(format!("{name} {from} to {to}: ours {ours:?}, theirs {a:?}"));
                }
            }
        }
        Ok(())
    }

    #[cfg(not(feature = "linked"))]
    pub fn agree(&self) -> Result<(), String> {
        Ok(())
    }
}

/// What is lent to the library: rows, a journey room and work rooms.
#[cfg(feature = "linked")]
struct Lent {
    rows: RowColumns,
    journey: Vec<u16>,
    wide: Vec<u64>,
    narrow: Vec<u32>,
}

#[cfg(feature = "linked")]
impl Lent {
    fn new(nodes: usize) -> Lent {
        Lent {
            rows: RowColumns::of(&vec![Row::default(); 4_096]),
            journey: vec![0; 4_096],
            wide: vec![0; 16 * nodes],
            narrow: vec![0; 32 * nodes],
        }
    }

    fn prepare(&mut self, n: &NetworkColumns) -> crate::columns::Answer {
        linked::prepare(n, self.rows.lend(), &mut self.wide, &mut self.narrow)
    }

    fn plain(
        &mut self,
        n: &NetworkColumns,
        sheet: &Sheet,
        from: u16,
        to: u16,
    ) -> crate::columns::Answer {
        let question = (&sheet_bytes(sheet)[..], sheet.count, from, to);
        linked::plain(n, question, &mut self.journey, &mut self.wide, &mut self.narrow)
    }

    fn contracted(
        &mut self,
        n: &NetworkColumns,
        r: &RowColumns,
        sheet: &Sheet,
        from: u16,
        to: u16,
    ) -> crate::columns::Answer {
        let question = (&sheet_bytes(sheet)[..], sheet.count, from, to);
        linked::contracted(n, r, question, &mut self.journey, &mut self.wide, &mut self.narrow)
    }
}
