//! The proved library through its C interface. The only module with `unsafe`.
//!
//! Each wrapper lends plain slices for the length of one call; a slice passes
//! as pointer, then length. Columns of different lengths pass as they are:
//! refusing them is the library's business.

use crate::columns::{Answer, LentRows, NetworkColumns, RowColumns};

extern "C" {
    fn journeys_check(
        node_modes: *const u8, node_modes_length: usize,
        node_ranks: *const u16, node_ranks_length: usize,
        tails: *const u16, tails_length: usize,
        heads: *const u16, heads_length: usize,
        modes: *const u8, modes_length: usize,
        lengths: *const u16, lengths_length: usize,
    ) -> Answer;

    fn journeys_prepare(
        node_modes: *const u8, node_modes_length: usize,
        node_ranks: *const u16, node_ranks_length: usize,
        tails: *const u16, tails_length: usize,
        heads: *const u16, heads_length: usize,
        modes: *const u8, modes_length: usize,
        lengths: *const u16, lengths_length: usize,
        row_tails: *mut u16, row_tails_length: usize,
        row_heads: *mut u16, row_heads_length: usize,
        row_modes: *mut u8, row_modes_length: usize,
        row_lengths: *mut u32, row_lengths_length: usize,
        row_counts: *mut u16, row_counts_length: usize,
        row_firsts: *mut u16, row_firsts_length: usize,
        row_seconds: *mut u16, row_seconds_length: usize,
        wide: *mut u64, wide_length: usize,
        narrow: *mut u32, narrow_length: usize,
    ) -> Answer;

    fn journeys_plain(
        node_modes: *const u8, node_modes_length: usize,
        node_ranks: *const u16, node_ranks_length: usize,
        tails: *const u16, tails_length: usize,
        heads: *const u16, heads_length: usize,
        modes: *const u8, modes_length: usize,
        lengths: *const u16, lengths_length: usize,
        sheet: *const u8, sheet_length: usize,
        states: u8, from: u16, to: u16,
        journey: *mut u16, journey_length: usize,
        wide: *mut u64, wide_length: usize,
        narrow: *mut u32, narrow_length: usize,
    ) -> Answer;

    fn journeys_contracted(
        node_modes: *const u8, node_modes_length: usize,
        node_ranks: *const u16, node_ranks_length: usize,
        tails: *const u16, tails_length: usize,
        heads: *const u16, heads_length: usize,
        modes: *const u8, modes_length: usize,
        lengths: *const u16, lengths_length: usize,
        row_tails: *const u16, row_tails_length: usize,
        row_heads: *const u16, row_heads_length: usize,
        row_modes: *const u8, row_modes_length: usize,
        row_lengths: *const u32, row_lengths_length: usize,
        row_counts: *const u16, row_counts_length: usize,
        row_firsts: *const u16, row_firsts_length: usize,
        row_seconds: *const u16, row_seconds_length: usize,
        sheet: *const u8, sheet_length: usize,
        states: u8, from: u16, to: u16,
        journey: *mut u16, journey_length: usize,
        wide: *mut u64, wide_length: usize,
        narrow: *mut u32, narrow_length: usize,
    ) -> Answer;

    fn journeys_open(
        node_modes: *const u8, node_modes_length: usize,
        node_ranks: *const u16, node_ranks_length: usize,
        tails: *const u16, tails_length: usize,
        heads: *const u16, heads_length: usize,
        modes: *const u8, modes_length: usize,
        lengths: *const u16, lengths_length: usize,
        row_tails: *const u16, row_tails_length: usize,
        row_heads: *const u16, row_heads_length: usize,
        row_modes: *const u8, row_modes_length: usize,
        row_lengths: *const u32, row_lengths_length: usize,
        row_counts: *const u16, row_counts_length: usize,
        row_firsts: *const u16, row_firsts_length: usize,
        row_seconds: *const u16, row_seconds_length: usize,
        row: u16,
        room: *mut u16, room_length: usize,
    ) -> usize;
}

/// Sheet bytes, state count, from, to.
pub type Question<'a> = (&'a [u8], u8, u16, u16);

// SAFETY, for every call below: the pointers and lengths come from live Rust
// slices of the declared types, read-only ones from shared borrows and written
// ones from exclusive borrows, and the library keeps none of them.

pub fn check(n: &NetworkColumns) -> Answer {
    unsafe {
        journeys_check(
            n.node_modes.as_ptr(), n.node_modes.len(),
            n.node_ranks.as_ptr(), n.node_ranks.len(),
            n.tails.as_ptr(), n.tails.len(),
            n.heads.as_ptr(), n.heads.len(),
            n.modes.as_ptr(), n.modes.len(),
            n.lengths.as_ptr(), n.lengths.len(),
        )
    }
}

pub fn prepare(
    n: &NetworkColumns,
    r: LentRows,
    wide: &mut [u64],
    narrow: &mut [u32],
) -> Answer {
    unsafe {
        journeys_prepare(
            n.node_modes.as_ptr(), n.node_modes.len(),
            n.node_ranks.as_ptr(), n.node_ranks.len(),
            n.tails.as_ptr(), n.tails.len(),
            n.heads.as_ptr(), n.heads.len(),
            n.modes.as_ptr(), n.modes.len(),
            n.lengths.as_ptr(), n.lengths.len(),
            r.tails.as_mut_ptr(), r.tails.len(),
            r.heads.as_mut_ptr(), r.heads.len(),
            r.modes.as_mut_ptr(), r.modes.len(),
            r.lengths.as_mut_ptr(), r.lengths.len(),
            r.counts.as_mut_ptr(), r.counts.len(),
            r.firsts.as_mut_ptr(), r.firsts.len(),
            r.seconds.as_mut_ptr(), r.seconds.len(),
            wide.as_mut_ptr(), wide.len(),
            narrow.as_mut_ptr(), narrow.len(),
        )
    }
}

pub fn plain(
    n: &NetworkColumns,
    (sheet, states, from, to): Question,
    journey: &mut [u16],
    wide: &mut [u64],
    narrow: &mut [u32],
) -> Answer {
    unsafe {
        journeys_plain(
            n.node_modes.as_ptr(), n.node_modes.len(),
            n.node_ranks.as_ptr(), n.node_ranks.len(),
            n.tails.as_ptr(), n.tails.len(),
            n.heads.as_ptr(), n.heads.len(),
            n.modes.as_ptr(), n.modes.len(),
            n.lengths.as_ptr(), n.lengths.len(),
            sheet.as_ptr(), sheet.len(),
            states, from, to,
            journey.as_mut_ptr(), journey.len(),
            wide.as_mut_ptr(), wide.len(),
            narrow.as_mut_ptr(), narrow.len(),
        )
    }
}

pub fn contracted(
    n: &NetworkColumns,
    r: &RowColumns,
    (sheet, states, from, to): Question,
    journey: &mut [u16],
    wide: &mut [u64],
    narrow: &mut [u32],
) -> Answer {
    unsafe {
        journeys_contracted(
            n.node_modes.as_ptr(), n.node_modes.len(),
            n.node_ranks.as_ptr(), n.node_ranks.len(),
            n.tails.as_ptr(), n.tails.len(),
            n.heads.as_ptr(), n.heads.len(),
            n.modes.as_ptr(), n.modes.len(),
            n.lengths.as_ptr(), n.lengths.len(),
            r.tails.as_ptr(), r.tails.len(),
            r.heads.as_ptr(), r.heads.len(),
            r.modes.as_ptr(), r.modes.len(),
            r.lengths.as_ptr(), r.lengths.len(),
            r.counts.as_ptr(), r.counts.len(),
            r.firsts.as_ptr(), r.firsts.len(),
            r.seconds.as_ptr(), r.seconds.len(),
            sheet.as_ptr(), sheet.len(),
            states, from, to,
            journey.as_mut_ptr(), journey.len(),
            wide.as_mut_ptr(), wide.len(),
            narrow.as_mut_ptr(), narrow.len(),
        )
    }
}

pub fn open(n: &NetworkColumns, r: &RowColumns, row: u16, room: &mut [u16]) -> usize {
    unsafe {
        journeys_open(
            n.node_modes.as_ptr(), n.node_modes.len(),
            n.node_ranks.as_ptr(), n.node_ranks.len(),
            n.tails.as_ptr(), n.tails.len(),
            n.heads.as_ptr(), n.heads.len(),
            n.modes.as_ptr(), n.modes.len(),
            n.lengths.as_ptr(), n.lengths.len(),
            r.tails.as_ptr(), r.tails.len(),
            r.heads.as_ptr(), r.heads.len(),
            r.modes.as_ptr(), r.modes.len(),
            r.lengths.as_ptr(), r.lengths.len(),
            r.counts.as_ptr(), r.counts.len(),
            r.firsts.as_ptr(), r.firsts.len(),
            r.seconds.as_ptr(), r.seconds.len(),
            row,
            room.as_mut_ptr(), room.len(),
        )
    }
}
