//! Timing, all in one run: our own program, and with feature `linked` the
//! proved library on the same networks and questions, after their results were
//! compared. The library checks everything in each call and clears its work
//! rooms; its times include both. The checks are timed apart, too.

use crate::rounds::{Round, CALLS, PROGRAMS, QUESTIONS};
use std::time::Instant;

const SIZES: [usize; 6] = [50, 100, 200, 300, 400, 500];

const HEAD: &str = "\
Microseconds: one check, one preparation, one question. Each is the least of
several repetitions, since whatever else the machine does can only lengthen one.
ours: lists built for each question; ready: lists built once; theirs: the library.
check: the network alone. checks: all that a contracted search checks.
ratio: theirs / ours. net: theirs without the checks / ready plain.
";

/// The least seconds of each work; one that there is not has none. All works
/// take turns, so that a busy spell of the machine falls on each of them.
fn least(works: &mut [Option<Box<dyn FnMut() + '_>>], repetitions: usize) -> Vec<Option<f64>> {
    let mut least: Vec<Option<f64>> = vec![None; works.len()];
    for _ in 0..repetitions.max(1) {
        for (work, least) in works.iter_mut().zip(&mut least) {
            let Some(work) = work else { continue };
            let start = Instant::now();
            work();
            let time = start.elapsed().as_secs_f64();
            *least = Some(least.map_or(time, |known| known.min(time)));
        }
    }
    least
}

/// Microseconds by program and call.
fn times(round: &Round, repetitions: usize) -> Vec<Vec<Option<f64>>> {
    let mut table = vec![Vec::new(); PROGRAMS.len()];
    for call in CALLS {
        // A preparation takes as long as many questions.
        let repetitions = if call == "prepare" { repetitions.min(3) } else { repetitions };
        let each = if matches!(call, "check" | "prepare") { 1 } else { QUESTIONS };
        let mut works: Vec<_> = PROGRAMS.iter().map(|program| round.work(program, call)).collect();
        for (line, time) in table.iter_mut().zip(least(&mut works, repetitions)) {
            line.push(time.map(|time| time * 1e6 / each as f64));
        }
    }
    table
}

/// One line; what was not timed is left blank.
fn line(sizes: &str, name: &str, values: &[Option<f64>], digits: usize) {
    let shown: Vec<String> = values
        .iter()
        .map(|value| format!("{:>11}", value.map_or(String::new(), |v| format!("{v:.digits$}"))))
        .collect();
    println!("{sizes}  {name:<7}{}", shown.concat());
}

pub fn run(seed: u64, repetitions: usize) -> Result<(), String> {
    print!("{HEAD}");
    let heads: Vec<String> = CALLS.iter().map(|call| format!("{call:>11}")).collect();
    println!("nodes edges shortcuts  program{}", heads.concat());
    for nodes in SIZES {
        let Some(round) = Round::new(seed, nodes) else {
            println!("{nodes:>5}  no table for seed {seed}");
            continue;
        };
        round.agree().map_err(|wrong| format!("{wrong} (seed {seed}, {nodes} nodes)"))?;
        let sizes = [nodes, round.network.edges.len(), round.shortcuts.len()];
        let sizes = format!("{:>5} {:>5} {:>9}", sizes[0], sizes[1], sizes[2]);
        let table = times(&round, repetitions);
        for (program, values) in PROGRAMS.iter().zip(&table) {
            if values.iter().any(Option::is_some) {
                line(&sizes, program, values, 1);
            }
        }
        let [ours, ready, theirs] = [&table[0], &table[1], &table[2]];
        let by = |a: Option<f64>, b: Option<f64>| Some(a? / b?);
        let less = |a: Option<f64>, b: Option<f64>| Some(a? - b?);
        if theirs.iter().any(Option::is_some) {
            let ratios: Vec<_> = theirs.iter().zip(ours).map(|(a, b)| by(*a, *b)).collect();
            line(&sizes, "ratio", &ratios, 2);
            let [check, checks, _, plain, contracted] = [0, 1, 2, 3, 4].map(|i| theirs[i]);
            let net = [less(plain, check), less(contracted, checks)].map(|t| by(t, ready[3]));
            line(&sizes, "net", &[None, None, None, net[0], net[1]], 2);
        }
    }
    Ok(())
}

/// One kind of call on one network, so often, and nothing else: instruction
/// counts of a call are the difference between two such runs.
pub fn drive(program: &str, call: &str, seed: u64, nodes: usize, times: u64) -> Result<(), String> {
    let round = Round::new(seed, nodes).ok_or("no table for this seed")?;
    let mut work = round.work(program, call).ok_or("no such program or call")?;
    (0..times).for_each(|_| work());
    Ok(())
}
