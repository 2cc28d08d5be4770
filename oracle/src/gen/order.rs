//! Rounds that are handed an order of all wires: loads, each with such rounds in orders of every kind among plain
//! ones, edits of both ways, runs until calm and questions; orders that are none; too little lent; fewer wires, and
//! tables that are no net; nets at every limit.

use super::drawing::{drawing, file_of, running_profile, voting};
use super::full::full_net;
use super::random::Random;
use super::rounds::{first_time, next_time, step};
use super::tables::{change_values, fault};
use super::Stream;
use crate::command::Command;
use crate::plain::calls::{is_order, lent_short, table_short};
use crate::plain::net::is_net;
use crate::plain::running;
use crate::tables::{Tables, COMPONENTS, CURRENT, FULL_WORDS, MOVED, ORDER, WIRES};
use std::io::{Result, Write};

pub fn one<W: Write>(random: &mut Random, stream: &mut Stream<W>) -> Result<()> {
    if random.once_in(25) {
        at_every_limit(random, stream)?;
    } else {
        let profile = running_profile(random);
        let profile = voting(random, 3, profile);
        stream.put_all([Command::Load(file_of(&drawing(random, profile))), Command::State])?;
    }
    let mut time = first_time(random);
    for _ in 0..random.between(3, 22) {
        time = next_time(random, time);
        call(random, stream, time)?;
        stream.put_all([Command::Satisfied, Command::State])?;
        if random.once_in(12) {
            stream.put(Command::Table { table: random.pick(&[MOVED, ORDER, ORDER]) as u8 })?;
        }
    }
    if random.once_in(6) {
        fewer_wires(random, stream, time)?;
    }
    match random.once_in(3) {
        true => on_no_net(random, stream, time),
        false => Ok(()),
    }
}

/// A net of 1,024 wires, which no load made, all its components listed; every word past the counts stays.
fn at_every_limit<W: Write>(random: &mut Random, stream: &mut Stream<W>) -> Result<()> {
    let mut tables = full_net(random);
    change_values(random, &mut tables);
    let all: Vec<u64> = (0..tables.counts[COMPONENTS]).collect();
    tables.put(CURRENT, &all);
    for table in 0..7 {
        stream.put_all([
            Command::WriteWords { table: table as u8, place: 0, words: tables.used(table).to_vec() },
            Command::SetCount { which: table as u8, number: tables.counts[table] },
        ])?;
    }
    stream.put(Command::State)
}

/// A round in an order more often than not, or another call, or one that is refused for its order, or for what is lent.
fn call<W: Write>(random: &mut Random, stream: &mut Stream<W>, time: u64) -> Result<()> {
    match random.below(20) {
        0..=10 => round_in_order(random, stream, time),
        11 | 12 => round_in_none(random, stream, time),
        13 => lent_less(random, stream, time),
        14 => stream.put(Command::RoundOrdered { time }),
        _ => stream.put(step(random, &stream.program.tables, time)),
    }
}

/// A round in an order that is written before it, and now and then words past the wires.
pub fn round_in_order<W: Write>(random: &mut Random, stream: &mut Stream<W>, time: u64) -> Result<()> {
    let order = any_order(random, stream.program.tables.counts[WIRES]);
    stream.put(written(order))?;
    if random.once_in(4) {
        stream.put(words_past(random, &stream.program.tables))?;
    }
    stream.put(Command::RoundOrdered { time })
}

/// The same in an order that is none, where there are wires.
pub fn round_in_none<W: Write>(random: &mut Random, stream: &mut Stream<W>, time: u64) -> Result<()> {
    let order = no_order(random, stream.program.tables.counts[WIRES]);
    stream.put_all([written(order), Command::RoundOrdered { time }])
}

fn written(words: Vec<u64>) -> Command {
    Command::WriteWords { table: ORDER as u8, place: 0, words }
}

/// Words past the wires, of any kind: they are not looked at. One that does not fit is left out.
fn words_past(random: &mut Random, tables: &Tables) -> Command {
    let wires = tables.counts[WIRES];
    let how_many = random.pick(&[1, 2, 20]);
    let words = (0..how_many).map(|_| random.pick(&[0, wires, 1_023, 1_024, 65_535, 65_536])).collect();
    Command::WriteWords { table: ORDER as u8, place: random.pick(&[wires, wires, 1_023]) as u16, words }
}

/// An order of so many wires: any, as a rule; the stored one, the same from its end, or from another wire on.
pub fn any_order(random: &mut Random, wires: u64) -> Vec<u64> {
    let mut order: Vec<u64> = (0..wires).collect();
    match random.below(10) {
        0 => {}
        1 => order.reverse(),
        2 => order.rotate_left(random.below(wires.max(1)) as usize),
        _ => shuffle(random, &mut order),
    }
    order
}

/// Every sequence is as likely as another.
pub fn shuffle<T>(random: &mut Random, list: &mut [T]) {
    for at in (1..list.len()).rev() {
        list.swap(at, random.below(at as u64 + 1) as usize);
    }
}

/// An order in which one wire's place, any or the last, has another wire or no wire.
fn no_order(random: &mut Random, wires: u64) -> Vec<u64> {
    let mut order = any_order(random, wires);
    if wires == 0 {
        return order;
    }
    let any = random.below(wires);
    let at = random.pick(&[any, any, 0, wires - 1, wires - 1]) as usize;
    let elsewhere = order[random.below(wires) as usize];
    order[at] =
        random.pick(&[elsewhere, elsewhere, elsewhere, wires, wires, wires + 1, 1_024, 32_768, 65_535]);
    order
}

/// Too little lent of the order, of the bits, of one of the seven, or of several; a right order or none. Then all is
/// whole again.
fn lent_less<W: Write>(random: &mut Random, stream: &mut Stream<W>, time: u64) -> Result<()> {
    let wires = stream.program.tables.counts[WIRES].min(1_023) as u16;
    let mut lent = vec![];
    if !random.once_in(4) {
        lent.push((ORDER, random.pick(&[1_023, 1_023, wires, 0, 1_024])));
    }
    if random.once_in(3) {
        lent.push((MOVED, random.pick(&[255, 0, 256])));
    }
    if lent.is_empty() || random.once_in(4) {
        let table = random.below(7) as usize;
        lent.push((table, random.pick(&[FULL_WORDS[table] as u16 - 1, 0])));
    }
    for (table, words) in &lent {
        stream.put(Command::Lend { table: *table as u8, words: *words })?;
    }
    match random.once_in(3) {
        true => round_in_none(random, stream, time)?,
        false => round_in_order(random, stream, time)?,
    }
    stream.put(step(random, &stream.program.tables, time))?;
    for (table, _) in lent {
        let words = FULL_WORDS[table] as u16 + random.pick(&[0, 0, 1]);
        stream.put(Command::Lend { table: table as u8, words })?;
    }
    Ok(())
}

/// Fewer wires than were loaded, which is a net as well: the order is of those alone.
fn fewer_wires<W: Write>(random: &mut Random, stream: &mut Stream<W>, time: u64) -> Result<()> {
    let wires = stream.program.tables.counts[WIRES];
    stream.put(Command::SetCount { which: WIRES as u8, number: random.below(wires.max(1)) })?;
    for _ in 0..random.between(1, 3) {
        stream.put_all([Command::RoundOrdered { time }, Command::State])?;
        round_in_order(random, stream, time)?;
        stream.put_all([Command::Satisfied, Command::State])?;
    }
    Ok(())
}

/// Tables that are no net, as a rule: 16 comes before 24, and 2 before both.
fn on_no_net<W: Write>(random: &mut Random, stream: &mut Stream<W>, time: u64) -> Result<()> {
    match random.once_in(2) {
        true => round_in_none(random, stream, time)?,
        false => round_in_order(random, stream, time)?,
    }
    let commands = fault(random, &stream.program.tables);
    stream.put_all(commands)?;
    let short = random.pick(&[(ORDER, 1_023), (ORDER, 0), (MOVED, 255), (ORDER, 1_024), (MOVED, 256)]);
    for (table, words) in [short, (short.0, FULL_WORDS[short.0] as u16)] {
        stream.put(Command::Lend { table: table as u8, words })?;
        stream.put_all([Command::RoundOrdered { time }, Command::Calm, Command::State])?;
    }
    match random.once_in(4) {
        true => stream.put(Command::All),
        false => Ok(()),
    }
}

// ---- What is counted.

/// After a round in an order: which checks fail besides the one that refused it; where it was done, whether the
/// stored order would have left another current list.
pub fn counted(before: &Tables, after: &Tables, time: u64) -> Vec<String> {
    let mut failing = vec![];
    if table_short(before) || lent_short(before, ORDER) || lent_short(before, MOVED) {
        failing.push(2);
    }
    if !is_net(before) {
        failing.push(16);
    }
    if before.counts_within() && !is_order(before) {
        failing.push(24);
    }
    if failing.is_empty() && order_tells(before, after, time) {
        return vec!["ordered: another current list than in the stored order".to_string()];
    }
    let later = failing.iter().skip(1);
    later.map(|number| format!("ordered: {} before {number}", failing[0])).collect()
}

/// Whether a round at that time in the stored order leaves another current list.
fn order_tells(before: &Tables, after: &Tables, time: u64) -> bool {
    let mut stored = before.clone();
    running::round(&mut stored, time);
    stored.used(CURRENT) != after.used(CURRENT)
}
