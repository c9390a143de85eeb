//! The independent reference program. See `USAGE` for its commands.
//!
//! It shares no code and no idea with the proved library: binary heaps,
//! recursion and growing lists, and its own reader of the card stream.

mod answer;
#[cfg(feature = "linked")]
mod asks;
mod bench;
mod brute;
#[cfg(feature = "linked")]
mod calls;
mod card;
mod cases;
mod city;
mod columns;
#[cfg(feature = "linked")]
mod compare;
mod contraction;
mod damage;
mod district;
// Without the library only the tests and cases ask what its calls must answer.
#[cfg_attr(not(feature = "linked"), allow(dead_code))]
mod expected;
mod extremes;
#[cfg(test)]
mod header;
mod judge;
mod legs;
#[cfg(feature = "linked")]
#[rustfmt::skip]
mod linked;
mod make;
mod network;
mod opening;
mod plain;
mod rng;
#[cfg(feature = "linked")]
mod rooms;
mod rounds;
mod rows;
mod selftest;
mod sheets;
#[cfg(feature = "linked")]
mod spoil;
mod stored_tables;
mod streams;
mod tables;
#[cfg(test)]
mod tests;
mod text;
mod towns;
mod weight;

use std::fs;
use std::io::{self, Read, Write};
use std::process::{Command, ExitCode, Stdio};

const USAGE: &str = "\
reference: a second opinion on journeys

  make --seed S [--kind K] [--text]     a card from a seed, to standard output
       kinds: small medium large town extreme damaged any (default any),
       or the name of one extreme card; `make --names` lists those
  answer [CARD]                         what `journeys` must print for the card
  judge CARD WRITTEN [--seed S]         judge what `journeys` wrote for the card
  judge --program P --seed S --count N [--kind K]
                                        run program P on N cards and judge it
  card [TEXT]                           text form to card
  text [CARD]                           card to text form
  streams FOLDER                        the stored streams (FOLDER/stdin) and what must
                                        be written for them (FOLDER/stdout)
  tables FOLDER                         the same of the stored networks
  compare [--seed S] [--count N | --calls N] [--largest NODES] [--spoil]
                                        call the proved library (feature linked)
                                        with N seeds, or until N calls are made;
                                        --spoil falsifies one bit behind each
                                        call, and each must be noticed
  bench [--seed S] [--repetitions R]    timing, with the library if linked
  drive --program P --call C --nodes N [--times T] [--seed S]
                                        one kind of call alone, to be counted:
       programs: ours ready theirs; calls: check checks prepare plain contracted
  selftest [--seed S] [--count N]       the program against itself and 01

A missing file name, or -, means standard input.
Exit status: 0 well, 1 a difference or wrong input, 2 wrong usage.
";

/// What a command may end with besides success.
enum Trouble {
    Usage(String),
    /// The input cannot be used: told to standard error.
    Wrong(String),
    /// What the program is for: told to standard output.
    Difference(String),
}

fn wrong(text: impl ToString) -> Trouble {
    Trouble::Wrong(text.to_string())
}

/// The words behind the command: `--name value` pairs, flags and plain words.
struct Words {
    named: Vec<(String, String)>,
    flags: Vec<String>,
    plain: Vec<String>,
}

const FLAGS: [&str; 3] = ["--text", "--names", "--spoil"];

impl Words {
    fn read(words: &[String], names: &[&str]) -> Result<Words, Trouble> {
        let mut read = Words { named: Vec::new(), flags: Vec::new(), plain: Vec::new() };
        let mut words = words.iter();
        while let Some(word) = words.next() {
            if !word.starts_with("--") {
                read.plain.push(word.clone());
            } else if !names.contains(&word.as_str()) {
                return Err(Trouble::Usage(format!("unknown option {word}")));
            } else if FLAGS.contains(&word.as_str()) {
                read.flags.push(word.clone());
            } else {
                match words.next() {
                    Some(value) => read.named.push((word.clone(), value.clone())),
                    None => return Err(Trouble::Usage(format!("{word} needs a value"))),
                }
            }
        }
        Ok(read)
    }

    fn value(&self, name: &str) -> Option<&str> {
        self.named.iter().find(|(given, _)| given == name).map(|(_, value)| value.as_str())
    }

    fn number(&self, name: &str) -> Result<Option<u64>, Trouble> {
        match self.value(name) {
            None => Ok(None),
            Some(value) => match value.parse() {
                Ok(number) => Ok(Some(number)),
                Err(_) => Err(Trouble::Usage(format!("{name} {value} is no number"))),
            },
        }
    }

    fn has(&self, flag: &str) -> bool {
        self.flags.iter().any(|given| given == flag)
    }
}

fn main() -> ExitCode {
    let words: Vec<String> = std::env::args().skip(1).collect();
    let done = match words.split_first() {
        Some((command, rest)) => run(command, rest),
        None => Err(Trouble::Usage("no command".to_string())),
    };
    match done {
        Ok(()) => ExitCode::SUCCESS,
        Err(Trouble::Wrong(text)) => {
            eprintln!("{text}");
            ExitCode::from(1)
        }
        Err(Trouble::Difference(text)) => {
            let _ = writeln!(io::stdout(), "{text}");
            ExitCode::from(1)
        }
        Err(Trouble::Usage(text)) => {
            eprintln!("{text}\n\n{USAGE}");
            ExitCode::from(2)
        }
    }
}

fn run(command: &str, words: &[String]) -> Result<(), Trouble> {
    match command {
        "make" => make_command(&Words::read(words, &["--seed", "--kind", "--text", "--names"])?),
        "answer" => {
            let card = input(&Words::read(words, &[])?, 0)?;
            put(answer::print(&answer::answer(&card).lines).as_bytes())
        }
        "judge" => {
            judge_command(&Words::read(words, &["--seed", "--count", "--kind", "--program"])?)
        }
        "card" => {
            let text = input(&Words::read(words, &[])?, 0)?;
            put(&text::bytes_to_card(&text).map_err(wrong)?)
        }
        "text" => {
            let card = input(&Words::read(words, &[])?, 0)?;
            put(text::from_card(&card).as_bytes())
        }
        "streams" => {
            let streams = streams::all();
            let owed = streams::owed(&streams).map_err(Trouble::Difference)?;
            store(&Words::read(words, &[])?, &streams::stored(&streams), &owed)
        }
        "tables" => {
            let all = stored_tables::all();
            let (input, owed) = (stored_tables::input(&all), stored_tables::owed(&all));
            store(&Words::read(words, &[])?, &input, &owed)
        }
        "compare" => {
            let names = ["--seed", "--count", "--calls", "--largest", "--spoil"];
            compare_command(&Words::read(words, &names)?)
        }
        "bench" => {
            let words = Words::read(words, &["--seed", "--repetitions"])?;
            let repetitions = words.number("--repetitions")?.unwrap_or(15) as usize;
            bench::run(words.number("--seed")?.unwrap_or(1), repetitions)
                .map_err(Trouble::Difference)
        }
        "drive" => {
            let names = ["--program", "--call", "--nodes", "--times", "--seed"];
            let words = Words::read(words, &names)?;
            let (program, call) = (words.value("--program"), words.value("--call"));
            let nodes = words.number("--nodes")?.unwrap_or(500) as usize;
            let times = words.number("--times")?.unwrap_or(1);
            let seed = words.number("--seed")?.unwrap_or(1);
            bench::drive(program.unwrap_or("theirs"), call.unwrap_or("prepare"), seed, nodes, times)
                .map_err(Trouble::Usage)
        }
        "selftest" => {
            let words = Words::read(words, &["--seed", "--count"])?;
            let count = words.number("--count")?.unwrap_or(4_000);
            let told = selftest::run(words.number("--seed")?.unwrap_or(1), count)
                .map_err(Trouble::Difference)?;
            put(told.as_bytes())
        }
        "help" | "--help" | "-h" => put(USAGE.as_bytes()),
        _ => Err(Trouble::Usage(format!("unknown command {command}"))),
    }
}

/// The file named by the given plain word, or standard input.
fn input(words: &Words, place: usize) -> Result<Vec<u8>, Trouble> {
    match words.plain.get(place).map(String::as_str) {
        None | Some("-") => {
            let mut bytes = Vec::new();
            io::stdin().read_to_end(&mut bytes).map_err(wrong)?;
            Ok(bytes)
        }
        Some(name) => fs::read(name).map_err(|error| wrong(format!("{name}: {error}"))),
    }
}

fn put(bytes: &[u8]) -> Result<(), Trouble> {
    io::stdout().write_all(bytes).map_err(wrong)
}

fn make_command(words: &Words) -> Result<(), Trouble> {
    if words.has("--names") {
        return put(format!("{}\n", extremes::NAMES.join("\n")).as_bytes());
    }
    let seed = words.number("--seed")?.unwrap_or(1);
    let kind = words.value("--kind").unwrap_or("any");
    let Some(card) = make::make(seed, kind) else {
        let kinds = make::KINDS.join(" ");
        return Err(Trouble::Usage(format!("unknown kind {kind}; kinds: {kinds}")));
    };
    if words.has("--text") {
        put(text::from_card(&card).as_bytes())
    } else {
        put(&card)
    }
}

/// Writes a program's input, and what it must write for it, to the folder named.
fn store(words: &Words, input: &[u8], owed: &str) -> Result<(), Trouble> {
    let [folder] = words.plain.as_slice() else {
        return Err(Trouble::Usage("name the folder to write to".to_string()));
    };
    let put = |name: &str, bytes: &[u8]| {
        let path = format!("{folder}/{name}");
        fs::write(&path, bytes).map_err(|error| wrong(format!("{path}: {error}")))
    };
    put("stdin", input)?;
    put("stdout", owed.as_bytes())
}

fn judge_command(words: &Words) -> Result<(), Trouble> {
    if let Some(program) = words.value("--program") {
        return judge_program(words, program);
    }
    if words.plain.len() != 2 {
        return Err(Trouble::Usage("judge needs a card and what was written for it".to_string()));
    }
    let (card, written) = (input(words, 0)?, input(words, 1)?);
    match judge::judge(&card, &written) {
        Ok(_) => Ok(()),
        Err(why) => {
            let seed = words.number("--seed")?;
            Err(Trouble::Difference(judge::report(seed, &card, &written, &why)))
        }
    }
}

fn judge_program(words: &Words, program: &str) -> Result<(), Trouble> {
    let seed = words.number("--seed")?.unwrap_or(1);
    let count = words.number("--count")?.unwrap_or(100);
    let kind = words.value("--kind").unwrap_or("any");
    let mut seen = judge::Seen::default();
    for seed in seed..seed.saturating_add(count) {
        let Some(card) = make::make(seed, kind) else {
            return Err(Trouble::Usage(format!("unknown kind {kind}")));
        };
        let written = output_of(program, &card)
            .map_err(|error| Trouble::Difference(format!("{program}: {error} (seed {seed})")))?;
        match judge::judge(&card, &written) {
            Ok(more) => seen.add(&more),
            Err(why) => {
                let report = judge::report(Some(seed), &card, &written, &why);
                return Err(Trouble::Difference(report));
            }
        }
    }
    put(format!("{count} cards judged well: {seen:?}\n").as_bytes())
}

/// What the program writes when it is given the card. It may stop reading
/// early, so a card that cannot be written in full is no trouble; a thread
/// writes, so neither side waits for the other for ever.
fn output_of(program: &str, card: &[u8]) -> io::Result<Vec<u8>> {
    let mut child = Command::new(program).stdin(Stdio::piped()).stdout(Stdio::piped()).spawn()?;
    let (stdin, card) = (child.stdin.take(), card.to_vec());
    let writer = std::thread::spawn(move || {
        if let Some(mut stdin) = stdin {
            let _ = stdin.write_all(&card);
        }
    });
    let output = child.wait_with_output()?;
    let _ = writer.join();
    // 01 fixes no exit status, but a program that was struck down is no answer.
    if output.status.code().is_none() {
        return Err(io::Error::other(format!("ended by {}", output.status)));
    }
    Ok(output.stdout)
}

#[cfg(feature = "linked")]
fn compare_command(words: &Words) -> Result<(), Trouble> {
    let seed = words.number("--seed")?.unwrap_or(1);
    let amount = match words.number("--calls")? {
        Some(calls) => compare::Amount::Calls(calls),
        None => compare::Amount::Cases(words.number("--count")?.unwrap_or(200)),
    };
    let largest = (words.number("--largest")?.unwrap_or(500) as usize).clamp(1, 500);
    let mut spoil = match words.has("--spoil") {
        true => spoil::Spoil::new(seed),
        false => spoil::Spoil::default(),
    };
    let (cases, tally) =
        compare::run(seed, amount, largest, &mut spoil).map_err(Trouble::Difference)?;
    if words.has("--spoil") {
        return put(format!("{}{}", spoil.tell(), tally.tell()).as_bytes());
    }
    put(format!("seeds {seed} on, {cases} cases, no difference: {}", tally.tell()).as_bytes())
}

#[cfg(not(feature = "linked"))]
fn compare_command(_: &Words) -> Result<(), Trouble> {
    Err(Trouble::Usage(
        "compare needs a build with --features linked and JOURNEYS_LIB set".to_string(),
    ))
}
