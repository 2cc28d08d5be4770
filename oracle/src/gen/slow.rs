//! The slow engine beside the flat one: both load one file and get the same calls, and the state of
//! each is shown after each. Then the slow engine alone: another file kept, a damaged one or none; its
//! tables changed by hand; too little lent; several of these at once.

use super::damage::{damaged, noise};
use super::drawing::{boxes_profile, drawing, file_of, running_profile, voting};
use super::look::other_drawing;
use super::nest::nest;
use super::random::Random;
use super::rounds::{edit, either_way, first_time, next_time};
use super::tables::{change_values, const_fault, count_fault, list_fault, value_fault};
use super::Stream;
use crate::command::Command;
use crate::plain::calls::lent_short;
use crate::plain::drawing::{Record, COMPONENT};
use crate::plain::judge::{check_1, judge_records};
use crate::plain::slow::{short, Drawn};
use crate::program::Program;
use crate::tables::{Tables, FLAT, FULL_WORDS, MOVED, SLOW, SLOW_CURRENT, SLOW_STANDING};
use std::io::{Result, Write};

pub fn one<W: Write>(random: &mut Random, stream: &mut Stream<W>) -> Result<()> {
    if stream.program.kept.is_empty() {
        some_calls(random, stream)?;
    }
    let drawn = any_drawing(random);
    beside(random, stream, &file_of(&drawn))?;
    for _ in 0..random.pick(&[0, 1, 1, 2]) {
        alone(random, stream, &drawn)?;
    }
    Ok(())
}

/// Boxes in boxes more often than not, Majority gates in one drawing of four; in one of two many of
/// the Outputs are Inputs, which have the same ports.
pub fn any_drawing(random: &mut Random) -> Vec<Record> {
    let profile = match random.below(5) {
        0 => running_profile(random),
        1 => {
            let votes = random.once_in(4);
            return nest(random, votes);
        }
        _ => boxes_profile(random),
    };
    let profile = voting(random, 4, profile);
    let mut drawn = drawing(random, profile);
    if random.once_in(2) {
        for record in drawn.iter_mut().filter(|record| record.kind == COMPONENT && record.component_kind == 9)
        {
            record.component_kind = random.pick(&[8, 8, 9]);
        }
    }
    drawn
}

// ---- Both engines.

/// The same call of the slow engine.
fn slowly(call: &Command) -> Command {
    match *call {
        Command::Load(_) => Command::SlowLoad,
        Command::Round { time } => Command::SlowRound { time },
        Command::Edit { index, number } => Command::SlowEdit { index, number },
        Command::EditFirst { index, number } => Command::SlowEditFirst { index, number },
        Command::Run { time, limit } => Command::SlowRun { time, limit },
        _ => unreachable!("the slow engine has no such call"),
    }
}

/// A call in both engines, in either order, and the state of both.
fn both<W: Write>(random: &mut Random, stream: &mut Stream<W>, call: Command) -> Result<()> {
    let mut calls = [slowly(&call), call];
    if random.once_in(2) {
        calls.reverse();
    }
    stream.put_all(calls)?;
    stream.put_all([Command::State, Command::SlowState])
}

/// One accepted file, loaded by both engines, and calls on it in both.
fn beside<W: Write>(random: &mut Random, stream: &mut Stream<W>, file: &[u8]) -> Result<()> {
    stream.put(Command::Keep(file.to_vec()))?;
    both(random, stream, Command::Load(file.to_vec()))?;
    let mut time = first_time(random);
    for _ in 0..random.between(2, 14) {
        time = next_time(random, time);
        let call = any_call(random, stream, time);
        both(random, stream, call)?;
        if random.once_in(10) {
            stream.put(Command::Table { table: random.pick(&SHOWN) as u8 })?;
        }
        if random.once_in(25) {
            bits_lent_less(random, stream, time)?;
        }
    }
    Ok(())
}

/// The tables that a call of the slow engine writes.
const SHOWN: [usize; 6] = [SLOW[0], SLOW[1], SLOW[2], SLOW[3], SLOW[4], MOVED];

/// A round, an edit, mostly one that is taken, or a run; seldom a load.
fn any_call<W: Write>(random: &mut Random, stream: &Stream<W>, time: u64) -> Command {
    let (tables, kept) = (&stream.program.tables, &stream.program.kept);
    match random.below(24) {
        0..=9 => Command::Round { time },
        10..=14 => edit(random, tables),
        15..=18 => edit_of_input(random, tables, kept),
        19..=22 => Command::Run { time, limit: limit(random, tables) },
        _ => Command::Load(kept.to_vec()),
    }
}

/// A limit of rounds; a great one where a round is short.
fn limit(random: &mut Random, tables: &Tables) -> u16 {
    match tables.counts[0] < 9 && random.once_in(20) {
        true => random.pick(&[1_000, 65_534, 65_535]),
        false => random.pick(&[0, 1, 2, 3, 3, 16, 16, 40, 150]),
    }
}

/// An edit of an Input, driven or not, one that a map enters more often than another.
fn edit_of_input(random: &mut Random, tables: &Tables, kept: &[u8]) -> Command {
    let inputs = Drawn::new(kept).inputs();
    let mapped: Vec<(u16, bool)> = inputs.iter().copied().filter(|(_, mapped)| *mapped).collect();
    let (index, _) = match (inputs.is_empty(), mapped.is_empty()) {
        (true, _) => return edit(random, tables),
        (_, false) if !random.once_in(3) => random.pick(&mapped),
        _ => random.pick(&inputs),
    };
    let number = random.pick(&[0, 1, 1, 1, 2, 1 << 31, u64::MAX]);
    either_way(random, index, number)
}

/// Rounds of both engines that are lent too little of the table of bits, or just enough.
fn bits_lent_less<W: Write>(random: &mut Random, stream: &mut Stream<W>, time: u64) -> Result<()> {
    stream.put(Command::Lend { table: MOVED as u8, words: random.pick(&[0, 255, 255, 256]) })?;
    both(random, stream, Command::Round { time })?;
    let call = any_call(random, stream, time);
    both(random, stream, call)?;
    stream.put(Command::Lend { table: MOVED as u8, words: random.pick(&[256, 65_535]) })
}

// ---- The slow engine alone.

/// Its calls on something else than what was loaded.
fn alone<W: Write>(random: &mut Random, stream: &mut Stream<W>, drawn: &[Record]) -> Result<()> {
    match random.below(12) {
        0..=3 => another_file(random, stream, drawn)?,
        4..=7 => tables_changed(random, stream)?,
        8 => right_tables(random, stream)?,
        _ => lent_less(random, stream, drawn)?,
    }
    stream.put_all([Command::Keep(file_of(drawn)), Command::SlowState])?;
    some_calls(random, stream)?;
    match random.once_in(2) {
        true => stream.put_all([Command::SlowLoad, Command::SlowState]),
        false => Ok(()),
    }
}

/// Each call once or more, in any order; a load now and then, at the end.
fn some_calls<W: Write>(random: &mut Random, stream: &mut Stream<W>) -> Result<()> {
    let view = seen(&stream.program.tables);
    let time = random.any_size();
    let mut calls = vec![
        Command::Round { time },
        Command::Run { time: time.wrapping_add(1), limit: random.pick(&[0, 1, 3]) },
        edit(random, &view),
        edit(random, &view),
        edit_of_no_use(random, &view),
    ];
    if random.once_in(3) {
        calls.push(edit_of_no_use(random, &view));
    }
    while !calls.is_empty() {
        let at = random.below(calls.len() as u64) as usize;
        stream.put(slowly(&calls.swap_remove(at)))?;
    }
    if random.once_in(3) {
        stream.put(Command::SlowLoad)?;
    }
    stream.put(Command::SlowState)?;
    match random.once_in(4) {
        true => stream.put(Command::Table { table: random.pick(&SHOWN) as u8 }),
        false => Ok(()),
    }
}

/// An edit of no component, of any component, or with a number that fits few.
fn edit_of_no_use(random: &mut Random, tables: &Tables) -> Command {
    let count = tables.counts[0];
    let any = random.below(count.max(1));
    let index = random.pick(&[count, 65_535, any, any]) as u16;
    let number = random.pick(&[0, 1, 2, 1 << 32, u64::MAX]);
    either_way(random, index, number)
}

/// The flat engine's components and wires with the slow engine's ports and lists, as a generator of
/// calls looks at them; the flat engine's own where the slow engine's counts are past its tables.
fn seen(tables: &Tables) -> Tables {
    let mut view = tables.clone();
    if tables.slow_counts_within() {
        FLAT.into_iter().zip(SLOW).for_each(|(to, from)| view.put(to, tables.used(from)));
    }
    view
}

/// Other files are kept than the one loaded; now and then a count is past its table besides.
fn another_file<W: Write>(random: &mut Random, stream: &mut Stream<W>, drawn: &[Record]) -> Result<()> {
    for _ in 0..random.between(1, 3) {
        let file = match random.below(10) {
            0 => file_of(&any_drawing(random)),
            1..=6 => bad_file(random, drawn),
            _ => file_of(&other_drawing(random, drawn.to_vec())),
        };
        stream.put(Command::Keep(file))?;
        if random.once_in(6) {
            let number = random.pick(&[257, 65_536, 1 << 32, u64::MAX]);
            stream.put(Command::SetCount { which: random.pick(&SLOW) as u8, number })?;
        }
        some_calls(random, stream)?;
    }
    Ok(())
}

/// A file that is refused, as a rule.
fn bad_file(random: &mut Random, drawn: &[Record]) -> Vec<u8> {
    match random.below(8) {
        0 => vec![1; random.pick(&[0, 1, 23, 25, 24_577, 24_600, 30_000, 30_001])],
        1 => noise(random),
        _ => damaged(random, drawn.to_vec()),
    }
}

/// A clause of 20 is broken, or two.
fn tables_changed<W: Write>(random: &mut Random, stream: &mut Stream<W>) -> Result<()> {
    for _ in 0..random.pick(&[1, 1, 1, 2]) {
        let commands = fault(random, &seen(&stream.program.tables));
        stream.put_all(commands)?;
    }
    some_calls(random, stream)
}

/// A fault of a net's ports and lists, in the slow engine's tables.
fn fault(random: &mut Random, view: &Tables) -> Vec<Command> {
    loop {
        let commands = match random.below(9) {
            0..=2 => vec![count_fault(random, view)],
            3 | 4 => value_fault(random, view),
            5 => const_fault(random, view),
            _ => list_fault(random, view),
        };
        if let Some(commands) = commands.iter().map(on_slow).collect::<Option<Vec<Command>>>() {
            return commands;
        }
    }
}

/// The same on the slow engine's table; none where it has no such table.
fn on_slow(command: &Command) -> Option<Command> {
    let slow = |table: u8| Some(SLOW[FLAT.iter().position(|flat| *flat == table as usize)?] as u8);
    match *command {
        Command::WriteWord { table, place, word } => {
            Some(Command::WriteWord { table: slow(table)?, place, word })
        }
        Command::SetCount { which, number } => Some(Command::SetCount { which: slow(which)?, number }),
        _ => None,
    }
}

/// Values that fit and lists that name components without repeats, which no load made.
fn right_tables<W: Write>(random: &mut Random, stream: &mut Stream<W>) -> Result<()> {
    let mut view = seen(&stream.program.tables);
    change_values(random, &mut view);
    for (flat, slow) in FLAT.into_iter().zip(SLOW).take(2) {
        let words = view.used(flat).to_vec();
        stream.put(Command::WriteWords { table: slow as u8, place: 0, words })?;
    }
    for list in SLOW_CURRENT..=SLOW_STANDING {
        let mut left: Vec<u64> = (0..view.counts[0]).collect();
        let length = random.between(0, view.counts[0]);
        let words = (0..length).map(|_| left.swap_remove(random.below(left.len() as u64) as usize)).collect();
        stream.put(Command::WriteWords { table: list as u8, place: 0, words })?;
        stream.put(Command::SetCount { which: list as u8, number: length })?;
    }
    stream.put(Command::SlowState)?;
    for _ in 0..random.below(4) {
        stream.put_all([Command::SlowRound { time: random.below(30) }, Command::SlowState])?;
    }
    some_calls(random, stream)
}

/// Some of the tables are lent short, in any mix, the flat engine's too, which play no part; then
/// with a file that is refused, or with tables that are not right; then all are whole.
fn lent_less<W: Write>(random: &mut Random, stream: &mut Stream<W>, drawn: &[Record]) -> Result<()> {
    let tables: Vec<usize> = SHOWN.into_iter().filter(|_| random.once_in(2)).collect();
    let mut lent: Vec<usize> = if tables.is_empty() { vec![random.pick(&SHOWN)] } else { tables };
    if random.once_in(4) {
        lent.extend(0..7);
    }
    for table in &lent {
        let full = FULL_WORDS[*table] as u16;
        let words = random.pick(&[full - 1, full - 1, full - 1, 0, full]);
        stream.put(Command::Lend { table: *table as u8, words })?;
    }
    some_calls(random, stream)?;
    match random.below(3) {
        0 => stream.put(Command::Keep(bad_file(random, drawn)))?,
        1 => stream.put_all(fault(random, &seen(&stream.program.tables)))?,
        _ => stream.put(Command::Keep(vec![1; random.pick(&[0, 23, 24, 24_600, 30_001])]))?,
    }
    some_calls(random, stream)?;
    let whole = random.pick(&[0, 1, 65_535]);
    let words = |table: usize| (FULL_WORDS[table] as u16).saturating_add(whole);
    stream.put_all(lent.iter().map(|table| Command::Lend { table: *table as u8, words: words(*table) }))
}

// ---- What is counted.

/// Whether a command is a call of the slow engine.
pub fn is_call(command: &Command) -> bool {
    matches!(
        command,
        Command::SlowLoad
            | Command::SlowRound { .. }
            | Command::SlowEdit { .. }
            | Command::SlowEditFirst { .. }
            | Command::SlowRun { .. }
    )
}

/// After a call: which checks fail besides the one that refused it, the clause of 20 that does, and
/// whether it set an Input that a map enters. A refused call has changed nothing, so what failed
/// fails still; one that is done leaves tables that are right.
pub fn counted(program: &Program, call: &Command) -> Vec<String> {
    let (tables, file) = (&program.tables, &program.kept[..]);
    let rounds = matches!(call, Command::SlowRound { .. });
    let mut failing = vec![];
    let mut counted = vec![];
    if check_1(file) {
        failing.push(1);
    }
    if short(tables) || rounds && lent_short(tables, MOVED) {
        failing.push(2);
    }
    if failing.first() != Some(&1) {
        match judge_records(file) {
            Err(refusal) => {
                failing.push(refusal.number);
                failing.extend((!tables.slow_counts_within()).then_some(20));
            }
            Ok(()) => failing.extend(on_accepted(tables, file, call, &mut counted)),
        }
    }
    let later = failing.iter().skip(1);
    counted.extend(later.map(|number| format!("slow: {} before {number}", failing[0])));
    counted
}

/// The same for an accepted file: which of 20, 17, 18 and 19 fail.
fn on_accepted(tables: &Tables, file: &[u8], call: &Command, counted: &mut Vec<String>) -> Vec<u64> {
    let drawn = Drawn::new(file);
    let mut failing = vec![];
    if let (Some(clause), false) = (drawn.broken(tables), matches!(call, Command::SlowLoad)) {
        counted.push(format!("slow, not right: {clause}"));
        failing.push(20);
    }
    if let Command::SlowEdit { index, number } | Command::SlowEditFirst { index, number } = call {
        failing.extend(drawn.edit_failing(*index, *number));
        let mapped = drawn.inputs().contains(&(*index, true));
        match (mapped, &failing[..]) {
            (true, []) => counted.push("slow: an Input that a map enters is set".to_string()),
            (true, [18, ..]) => counted.push("slow: an Input that a map enters is driven".to_string()),
            _ => {}
        }
    }
    failing
}
