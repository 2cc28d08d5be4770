//! `oracle gen WHAT SEED COUNT [--stats]`: command streams for the comparison.
//!
//! The same words give the same bytes. With `--stats`, the oracle's own answers
//! are counted on standard error.

mod damage;
pub mod drawing;
mod evaluate;
mod full;
pub mod judge;
mod load;
pub mod look;
pub mod mend;
mod nest;
pub mod order;
pub mod random;
pub mod rounds;
pub mod settle;
pub mod slow;
pub mod tables;
mod torn;
mod votes;

use crate::command::Command;
use crate::plain::drawing::RECORD_BYTES;
use crate::plain::judge::RECORDS_MAX;
use crate::plain::mend::sifted;
use crate::plain::net::broken;
use crate::program::Program;
use random::Random;
use std::collections::BTreeMap;
use std::io::{BufWriter, Error, Result, Write};

const USAGE: &str =
    "usage: oracle | oracle gen evaluate|judge|load|run|tables|look|votes|mend|slow|order|settle \
                     SEED COUNT [--stats]";

pub fn usage() -> Result<()> {
    Err(Error::other(USAGE))
}

/// Where generated commands go. The oracle answers each of them, so that a
/// generator knows the tables that its next command meets.
pub struct Stream<W: Write> {
    output: BufWriter<W>,
    program: Program,
    /// How often each answer was given, by its line's first two words, those of the slow
    /// engine and of rounds in an order apart; how often each clause was the first that the
    /// tables broke; what mending dropped; which checks of the slow engine, and of rounds in an
    /// order, failed together; and how often an order told.
    answers: BTreeMap<String, u64>,
}

impl<W: Write> Stream<W> {
    fn new(output: W) -> Stream<W> {
        Stream { output: BufWriter::new(output), program: Program::new(), answers: BTreeMap::new() }
    }

    /// Writes a command.
    pub fn put(&mut self, command: Command) -> Result<()> {
        let mut bytes = Vec::new();
        command.write(&mut bytes);
        let mut lines = String::new();
        let before = self.program.tables.clone();
        self.program.answer(&command, &mut lines);
        if lines.starts_with("calm 16") {
            let clause = broken(&self.program.tables).unwrap_or("");
            *self.answers.entry(format!("not a net: {clause}")).or_default() += 1;
        }
        let (apart, counted) = match command {
            Command::RoundOrdered { time } => {
                (Some("ordered"), order::counted(&before, &self.program.tables, time))
            }
            _ if slow::is_call(&command) => (Some("slow"), slow::counted(&self.program, &command)),
            _ => (None, vec![]),
        };
        if let Some(first) = lines.lines().next() {
            let words: Vec<&str> = apart.into_iter().chain(first.split(' ').take(2)).collect();
            *self.answers.entry(words.join(" ")).or_default() += 1;
        }
        for one in counted {
            *self.answers.entry(one).or_default() += 1;
        }
        if lines.starts_with("mend 0 ") || lines.starts_with("mend 1 ") {
            self.count_dropped(lines.starts_with("mend 0 "));
        }
        self.output.write_all(&bytes)
    }

    /// Counts what was dropped in a mending that is done: the files by all reasons in them, and
    /// the positions by their reason; and a mending that is refused because no record is left.
    fn count_dropped(&mut self, done: bool) {
        let mended = sifted(&self.program.kept);
        let mut reasons: Vec<String> = mended.dropped.iter().map(|(_, why)| format!("{why:?}")).collect();
        let mut counted = vec![];
        if done {
            counted.extend(reasons.iter().map(|reason| format!("positions dropped: {reason}")));
            reasons.sort();
            reasons.dedup();
            counted.push(format!("mend 0, dropped [{}]", reasons.join(" ")));
        } else if mended.bytes.is_empty()
            && (1..=RECORDS_MAX).contains(&(self.program.kept.len() / RECORD_BYTES))
        {
            counted.push("mend 1, no record left".to_string());
        }
        for one in counted {
            *self.answers.entry(one).or_default() += 1;
        }
    }

    /// Writes several commands.
    pub fn put_all(&mut self, commands: impl IntoIterator<Item = Command>) -> Result<()> {
        commands.into_iter().try_for_each(|command| self.put(command))
    }

    /// The counted answers, but for `N`, `P`, `A` and `D`, which give no number, and
    /// `H`, whose number is that of `J`.
    fn statistics(&self) -> String {
        let refusable = |answer: &&String| {
            let word = answer.split(' ').next().unwrap_or("");
            !["net", "inputs", "components", "counts", "table", "no", "host"].contains(&word)
        };
        let counted = self.answers.keys().filter(refusable);
        counted.map(|answer| format!("{answer}: {}\n", self.answers[answer])).collect()
    }
}

/// Writes the stream that the words ask for.
pub fn run(words: &[String], output: impl Write) -> Result<()> {
    let stats = words.iter().any(|word| word == "--stats");
    let plain: Vec<&str> = words.iter().map(String::as_str).filter(|word| *word != "--stats").collect();
    let [what, seed, count] = plain[..] else {
        return usage();
    };
    let (Ok(seed), Ok(count)) = (seed.parse::<u64>(), count.parse::<u64>()) else {
        return usage();
    };
    let mut stream = Stream::new(output);
    let mut random = Random::new(seed);
    for _ in 0..count {
        match what {
            "evaluate" => evaluate::one(&mut random, &mut stream)?,
            "judge" => judge::one(&mut random, &mut stream)?,
            "load" => load::one(&mut random, &mut stream)?,
            "run" => rounds::one(&mut random, &mut stream)?,
            "tables" => tables::one(&mut random, &mut stream)?,
            "look" => look::one(&mut random, &mut stream)?,
            "votes" => votes::one(&mut random, &mut stream)?,
            "mend" => mend::one(&mut random, &mut stream)?,
            "slow" => slow::one(&mut random, &mut stream)?,
            "order" => order::one(&mut random, &mut stream)?,
            "settle" => settle::one(&mut random, &mut stream)?,
            _ => return usage(),
        }
    }
    if stats {
        eprint!("{}", stream.statistics());
    }
    stream.output.flush()
}
