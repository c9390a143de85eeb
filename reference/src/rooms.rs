//! What is lent to be written: garbage with a margin on both sides. A call may
//! write between the margins only, and what it leaves there is looked at word
//! by word.

use crate::columns::{LentRows, RowColumns};
use crate::compare::Outcome;
use std::fmt::Debug;

/// Words before and behind what is lent.
pub const MARGIN: usize = 4;

pub struct Room<T> {
    all: Vec<T>,
    before: Vec<T>,
}

impl<T: Copy + PartialEq + Debug> Room<T> {
    /// `all` has both margins.
    pub fn new(all: Vec<T>) -> Room<T> {
        Room { before: all.clone(), all }
    }

    pub fn lend(&mut self) -> &mut [T] {
        let end = self.all.len() - MARGIN;
        &mut self.all[MARGIN..end]
    }

    /// What is lent, as it is now.
    pub fn now(&self) -> &[T] {
        &self.all[MARGIN..self.all.len() - MARGIN]
    }

    /// With the margins, to be spoilt.
    pub fn all(&mut self) -> &mut [T] {
        &mut self.all
    }

    /// `must` tells from a place and what was there what must be there now.
    pub fn judge(&self, name: &str, must: impl Fn(usize, T) -> T) -> Outcome {
        let lent = MARGIN..self.all.len() - MARGIN;
        for (at, (&now, &was)) in self.all.iter().zip(&self.before).enumerate() {
            let (place, ours) = match lent.contains(&at) {
                true => (format!("place {}", at - MARGIN), must(at - MARGIN, was)),
                false => (format!("margin, place {}", at as i64 - MARGIN as i64), was),
            };
            if now != ours {
                return Err(format!(
                    "{name}, {place} of {}: was {was:?}\nours:   {ours:?}\ntheirs: {now:?}",
                    lent.len()
                ));
            }
        }
        Ok(())
    }
}

/// Rows lent for preparation.
pub struct RowRooms {
    pub tails: Room<u16>,
    pub heads: Room<u16>,
    pub modes: Room<u8>,
    pub lengths: Room<u32>,
    pub counts: Room<u16>,
    pub firsts: Room<u16>,
    pub seconds: Room<u16>,
}

impl RowRooms {
    pub fn lend(&mut self) -> LentRows<'_> {
        LentRows {
            tails: self.tails.lend(),
            heads: self.heads.lend(),
            modes: self.modes.lend(),
            lengths: self.lengths.lend(),
            counts: self.counts.lend(),
            firsts: self.firsts.lend(),
            seconds: self.seconds.lend(),
        }
    }

    pub fn now(&self) -> RowColumns {
        RowColumns {
            tails: self.tails.now().to_vec(),
            heads: self.heads.now().to_vec(),
            modes: self.modes.now().to_vec(),
            lengths: self.lengths.now().to_vec(),
            counts: self.counts.now().to_vec(),
            firsts: self.firsts.now().to_vec(),
            seconds: self.seconds.now().to_vec(),
        }
    }

    /// `ours`: the columns after the call.
    pub fn judge(&self, ours: &RowColumns) -> Outcome {
        self.tails.judge("lent row tails", |i, _| ours.tails[i])?;
        self.heads.judge("lent row heads", |i, _| ours.heads[i])?;
        self.modes.judge("lent row modes", |i, _| ours.modes[i])?;
        self.lengths.judge("lent row lengths", |i, _| ours.lengths[i])?;
        self.counts.judge("lent row counts", |i, _| ours.counts[i])?;
        self.firsts.judge("lent row firsts", |i, _| ours.firsts[i])?;
        self.seconds.judge("lent row seconds", |i, _| ours.seconds[i])
    }
}
