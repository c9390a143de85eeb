//! The program tests itself: 01's cases, brute force on tiny networks, and
//! plain against contracted on a few thousand larger ones.

use crate::answer::{answer, print};
use crate::brute;
use crate::cases;
use crate::contraction::prepare;
use crate::extremes;
use crate::judge::{judge, Seen};
use crate::legs::ride;
use crate::make::make;
use crate::network::{check_sheet, Network, Row, Sheet};
use crate::opening::open_all;
use crate::plain;
use crate::rng::Rng;
use crate::rows;
use crate::sheets;
use crate::tables;
use crate::text;
use crate::towns;
use std::time::Instant;

type Outcome = Result<String, String>;

/// All parts in order; each says what it did. The first failure ends it.
pub fn run(seed: u64, count: u64) -> Outcome {
    let mut told = String::new();
    for part in [
        known_cases,
        brute_plain,
        brute_rows,
        rounds_rows,
        brute_contraction,
        condition_3,
        limits,
        cards,
    ] {
        let start = Instant::now();
        let part = part(seed, count)?;
        told.push_str(&format!("{part} [{:.1} s]\n", start.elapsed().as_secs_f64()));
    }
    Ok(told)
}

fn known_cases(_: u64, _: u64) -> Outcome {
    let cases = cases::all();
    for (name, outcome) in &cases {
        outcome.clone().map_err(|wrong| format!("{name}: {wrong}"))?;
    }
    Ok(format!("01's cases: {} of {} hold (P1 to P12, reference stream)", cases.len(), cases.len()))
}

/// Tiny enough to walk every path.
fn tiny(rng: &mut Rng) -> (Network, Sheet) {
    let size = rng.between(1, 6);
    let mut network = towns::network(rng, size);
    network.edges.truncate(12);
    let mut sheet = sheets::sheet(rng, &network);
    while sheet.count > 3 {
        sheet = sheets::sheet(rng, &network);
    }
    (network, sheet)
}

fn complaint(seed: u64, what: &str, network: &Network, rows: &[Row], sheet: &Sheet) -> String {
    format!("{what} (seed {seed})\n{network:?}\n{rows:?}\n{sheet:?}")
}

fn brute_plain(seed: u64, count: u64) -> Outcome {
    let (mut asked, mut answered, mut skipped) = (0, 0, 0);
    for seed in seed..seed.saturating_add(count) {
        let mut rng = Rng::new(seed);
        let (network, sheet) = tiny(&mut rng);
        for _ in 0..4 {
            let (from, to) = sheets::question(&mut rng, &network);
            let ours = plain::search(&network, &sheet, from, to).map(|j| j.weight);
            let Ok(brute) = brute::plain(&network, &sheet, from, to) else {
                skipped += 1;
                continue;
            };
            if ours != brute {
                let what = format!("plain differs from brute force, {from} to {to}");
                return Err(complaint(seed, &what, &network, &[], &sheet));
            }
            asked += 1;
            answered += ours.is_some() as u64;
        }
    }
    Ok(format!(
        "plain against brute force: {asked} questions, {answered} answered, all equal \
         ({skipped} more had too many paths)"
    ))
}

fn brute_rows(seed: u64, count: u64) -> Outcome {
    let (mut asked, mut answered, mut skipped) = (0, 0, 0);
    let (mut unlike_plain, mut shortcuts) = (0, 0);
    for seed in seed..seed.saturating_add(count) {
        let mut rng = Rng::new(seed);
        let (network, sheet) = tiny(&mut rng);
        let prepared = prepare(&network, 4_096).unwrap_or_default();
        let more = rng.below(7);
        let table = tables::sound_rows(&mut rng, &network, &prepared, more);
        if network.check_rows(&table).is_err() {
            return Err(complaint(seed, "rows made as sound are not", &network, &table, &sheet));
        }
        shortcuts += table.len();
        for _ in 0..4 {
            let (from, to) = sheets::question(&mut rng, &network);
            let ours = rows::search(&network, &table, &sheet, from, to).map(|p| p.weight);
            let Ok(brute) = brute::rows(&network, &table, &sheet, from, to) else {
                skipped += 1;
                continue;
            };
            if ours != brute {
                let what = format!("rows differ from brute force, {from} to {to}");
                return Err(complaint(seed, &what, &network, &table, &sheet));
            }
            asked += 1;
            answered += ours.is_some() as u64;
            unlike_plain +=
                (ours != plain::search(&network, &sheet, from, to).map(|j| j.weight)) as u64;
        }
    }
    Ok(format!(
        "rows against brute force: {asked} questions over sound tables ({shortcuts} shortcuts), \
         {answered} answered, {unlike_plain} unlike the plain answer, all equal \
         ({skipped} more had too many paths)"
    ))
}

/// Larger sound tables, against rounds instead of walks.
fn rounds_rows(seed: u64, count: u64) -> Outcome {
    let (mut asked, mut answered, mut unlike_plain, mut shortcuts) = (0, 0, 0, 0);
    for seed in seed..seed.saturating_add(count / 4 + 1) {
        let mut rng = Rng::new(seed ^ 0x0707);
        let size = rng.between(4, 24);
        let network = towns::network(&mut rng, size);
        let prepared = prepare(&network, 4_096).unwrap_or_default();
        let more = rng.below(30);
        let table = tables::sound_rows(&mut rng, &network, &prepared, more);
        let lists = rows::Lists::of(&network, &table);
        shortcuts += table.len();
        for _ in 0..6 {
            let sheet = sheets::sheet(&mut rng, &network);
            let (from, to) = sheets::question(&mut rng, &network);
            let plain = plain::search(&network, &sheet, from, to).map(|j| j.weight);
            let rounds = brute::rows_in_rounds(&network, &table, &sheet, from, to);
            for brisk in [false, true] {
                let ours = rows::search_in(&network, &lists, &sheet, from, to, brisk);
                if ours.map(|p| p.weight) != rounds {
                    let what = format!("rows differ from rounds, {from} to {to}, brisk {brisk}");
                    return Err(complaint(seed, &what, &network, &table, &sheet));
                }
            }
            asked += 1;
            answered += rounds.is_some() as u64;
            unlike_plain += (rounds != plain) as u64;
        }
    }
    Ok(format!(
        "rows against rounds: {asked} questions over sound tables ({shortcuts} shortcuts), \
         {answered} answered, {unlike_plain} unlike the plain answer, all equal"
    ))
}

fn brute_contraction(seed: u64, count: u64) -> Outcome {
    let (mut shortcuts, mut many) = (0, 0);
    for seed in seed..seed.saturating_add(count) {
        let mut rng = Rng::new(seed);
        let size = rng.between(2, 7);
        let mut network = towns::network(&mut rng, size);
        network.edges.truncate(24);
        let ours = prepare(&network, 4_096).map_err(|r| format!("{r:?} (seed {seed})"))?;
        if ours != brute::prepare(&network) {
            let what = "preparation differs from brute force";
            return Err(complaint(seed, what, &network, &ours, &Sheet::default()));
        }
        if network.check_rows(&ours).is_err() {
            let what = "a prepared row is not sound";
            return Err(complaint(seed, what, &network, &ours, &Sheet::default()));
        }
        // Exactly enough rows lent is enough; one fewer is 9.
        let enough = prepare(&network, ours.len());
        let short = ours.len().checked_sub(1).map(|lent| prepare(&network, lent));
        if enough.as_ref() != Ok(&ours) || short.is_some_and(|short| short.is_ok()) {
            let what = "lent rows are counted wrongly";
            return Err(complaint(seed, what, &network, &ours, &Sheet::default()));
        }
        shortcuts += ours.len();
        many += (ours.len() > 3) as u64;
    }
    Ok(format!(
        "contraction against brute force: {count} networks, {shortcuts} shortcuts \
         ({many} networks with more than 3), all equal"
    ))
}

/// Plain and contracted answers over our own prepared table are equal, and the
/// legs of both are real.
fn condition_3(seed: u64, count: u64) -> Outcome {
    let (mut networks, mut asked, mut answered, mut modal) = (0, 0, 0, 0);
    let (mut shortcuts, mut by_shortcut, mut too_many) = (0, 0, 0);
    for seed in seed..seed.saturating_add(count) {
        let mut rng = Rng::new(seed ^ 0x5eed);
        let size = match seed % 40 {
            0 => rng.between(100, 500),
            1..=9 => rng.between(20, 100),
            _ => rng.between(2, 20),
        };
        let network = towns::network(&mut rng, size);
        network.check().map_err(|r| format!("a made network is refused: {r:?} (seed {seed})"))?;
        let Ok(table) = prepare(&network, 4_096) else {
            too_many += 1;
            continue;
        };
        networks += 1;
        shortcuts += table.len();
        let rows_in_all = network.table(&table);
        for _ in 0..6 {
            let sheet = sheets::sheet(&mut rng, &network);
            check_sheet(&sheet).map_err(|r| format!("a made sheet is refused: {r:?} ({seed})"))?;
            let (from, to) = sheets::question(&mut rng, &network);
            let plain = plain::search(&network, &sheet, from, to);
            let over_rows = rows::search(&network, &table, &sheet, from, to);
            let wrong = |what: &str| {
                let what = format!("{what}, {from} to {to}");
                complaint(seed, &what, &network, &table, &sheet)
            };
            if plain.as_ref().map(|j| j.weight) != over_rows.as_ref().map(|p| p.weight) {
                return Err(wrong("plain and contracted differ"));
            }
            asked += 1;
            if let (Some(journey), Some(path)) = (plain, over_rows) {
                let edges = network.edges.len();
                let opened = open_all(&rows_in_all, edges, &path.rows);
                for legs in [&journey.legs, &opened] {
                    ride(&network, &sheet, (from, to), journey.weight, legs)
                        .map_err(|why| wrong(&why))?;
                }
                answered += 1;
                modal += opened.iter().any(|&e| network.edges[e as usize].mode == 0) as u64;
                by_shortcut += path.rows.iter().any(|&r| r as usize >= edges) as u64;
            }
        }
    }
    Ok(format!(
        "plain against contracted: {networks} networks ({too_many} more with too many rows), \
         {shortcuts} shortcuts, {asked} questions, {answered} answered, {modal} with a link, \
         {by_shortcut} over a shortcut, all equal"
    ))
}

fn limits(_: u64, _: u64) -> Outcome {
    let expect = |name: &str, holds: bool| {
        if holds {
            Ok(())
        } else {
            Err(format!("limit `{name}` does not hold"))
        }
    };
    let (network, sheet) = extremes::longest();
    let table = prepare(&network, 4_096).map_err(|r| format!("{r:?}"))?;
    let longest = rows::search(&network, &table, &sheet, 0, 511);
    let weight = longest.map(|p| (p.weight.time, p.weight.count));
    expect("longest journey", weight == Some((268_365_825, 4_095)))?;
    let plain = plain::search(&network, &sheet, 0, 511);
    expect("longest journey, plain", plain.is_some_and(|j| j.weight.count == 4_095))?;
    let last = table.last().copied().unwrap_or_default();
    expect("longest shortcut", (last.length, last.count) == (33_488_385, 511))?;
    expect(
        "4,096 rows",
        prepare(&extremes::star(16, 240, 0), 4_096).is_ok_and(|t| t.len() == 3_840),
    )?;
    expect("4,097 rows", prepare(&extremes::star(16, 240, 1), 4_096).is_err())?;
    let (network, rows) = extremes::doubling(511, 2);
    expect("count 511", network.check().is_ok() && network.check_rows(&rows).is_ok())?;
    let (network, rows) = extremes::doubling(512, 2);
    let last = (network.edges.len() + rows.len() - 1) as u64;
    let refused = network.check_rows(&rows).is_err_and(|r| r.number == 10 && r.place == last);
    expect("count 512", refused)?;
    // Damaged but sound: longer than any journey over a prepared table.
    let (network, rows) = extremes::doubling(511, 22);
    expect("22 cores", network.check().is_ok() && network.check_rows(&rows).is_ok())?;
    let (from, to) = (extremes::FIRST_CORE, extremes::FIRST_CORE + 21);
    let giant = rows::search(&network, &rows, &extremes::eight_times(), from, to);
    let edges = 8 * 21 * 511 + 7;
    let weight = giant.map(|p| (p.weight.time, p.weight.count));
    expect("giant journey", weight == Some((edges * 65_535, edges as u32)))?;
    Ok("limits: longest journey 4,095 edges, longest shortcut 511, rows 4,096 and 4,097, \
        counts 511 and 512, a journey of 85,855 edges over damaged rows hold"
        .to_string())
}

/// Whole cards: text there and back, and the judge on our own answers, whole
/// and tampered with.
fn cards(seed: u64, count: u64) -> Outcome {
    // Whole cards take longer than single questions.
    let count = count / 4 + 1;
    let (mut seen, mut tampered) = (Seen::default(), 0);
    for seed in seed..seed.saturating_add(count) {
        let Some(card) = make(seed, "any") else {
            return Err("no card of kind `any`".to_string());
        };
        let back = text::to_card(&text::from_card(&card));
        if back.as_ref() != Ok(&card) {
            return Err(format!("text does not give the card back (seed {seed})"));
        }
        let written = print(&answer(&card).lines).into_bytes();
        seen.add(&judge(&card, &written).map_err(|why| format!("{why} (seed {seed})"))?);
        let mut rng = Rng::new(seed);
        if !written.is_empty() {
            let mut other = written.clone();
            let at = rng.below(other.len());
            other[at] = rng.pick(b"0123456789! \n");
            let changed_passes = other != written && judge(&card, &other).is_ok();
            // A changed leg may by chance be an equal parallel edge; anything
            // else that was changed or cut off must be noticed.
            if judge(&card, &written[..at]).is_ok() || (changed_passes && !in_legs(&written, at)) {
                return Err(format!("the judge lets a wrong answer pass (seed {seed})"));
            }
            tampered += 1;
        }
    }
    let refused: Vec<String> = (1..13)
        .filter(|&n| seen.refusals[n] > 0)
        .map(|n| format!("{n}: {}", seen.refusals[n]))
        .collect();
    Ok(format!(
        "cards: {count} there and back through text; judged {} journeys and refusals {}; \
         {tampered} wrong answers caught",
        seen.journeys,
        refused.join(", ")
    ))
}

/// Does this byte of the answer belong to a leg: a word behind the second of a
/// line that is no refusal?
fn in_legs(written: &[u8], at: usize) -> bool {
    let start = written[..at].iter().rposition(|&b| b == b'\n').map_or(0, |lf| lf + 1);
    let spaces = written[start..at].iter().filter(|&&b| b == b' ').count();
    written[start] != b'!' && spaces >= 2
}
