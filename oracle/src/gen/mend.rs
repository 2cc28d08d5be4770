//! Files to mend: accepted drawings as they are and damaged in every way, at the limits and
//! past them; with too little lent, and with words in what is lent.
//!
//! A mending that is refused says a number and a position. So in some files stands a mark, a
//! record of no kind: 3 at its position in the shortened file tells how many before it are kept.

use super::damage::{damaged, noise, positions};
use super::drawing::{blank, file_of};
use super::judge::any_drawing;
use super::random::Random;
use super::torn::{
    break_something, child_number, enters, from_anywhere, mendable, put_in_order, put_mark, stray,
};
use super::Stream;
use crate::command::Command;
use crate::plain::drawing::{Record, COMPONENT, CONNECTION, INPUT_MAP, RECORD_BYTES};
use crate::plain::judge::{COMPONENTS_MAX, RECORDS_MAX};
use crate::plain::mend::sifted;
use crate::tables::{DROPPED, FULL_WORDS, MENDED, MOVED};
use std::io::{Result, Write};

/// A damaged file, mended once or more; now and then the tables afterwards, and what mending
/// leaves of it loaded, or mended again.
pub fn one<W: Write>(random: &mut Random, stream: &mut Stream<W>) -> Result<()> {
    let file = any_file(random);
    stream.put(Command::Keep(file.clone()))?;
    let no_size = !(RECORD_BYTES..RECORD_BYTES * (RECORDS_MAX + 1)).contains(&file.len());
    match random.below(24) {
        0..=3 => lent_less(random, stream, &file)?,
        4 | 5 => written_before(random, stream, &file)?,
        6..=15 if no_size => lent_less(random, stream, &file)?,
        _ => {}
    }
    stream.put(Command::Mend)?;
    if random.once_in(40) {
        stream.put(Command::Table { table: MENDED as u8 })?;
    }
    if random.once_in(12) {
        stream.put(Command::Table { table: DROPPED as u8 })?;
    }
    match random.below(24) {
        0 | 1 => stream.put(Command::Load(sifted(&file).bytes)),
        2 => stream.put_all([Command::Keep(sifted(&file).bytes), Command::Mend]),
        _ => Ok(()),
    }
}

// ---- What is lent.

/// Less of a table is lent, or just enough, or more; then the whole of it again.
fn lent_less<W: Write>(random: &mut Random, stream: &mut Stream<W>, file: &[u8]) -> Result<()> {
    let (length, mended) = (file.len() as u16, sifted(file));
    let (bytes, count) = (mended.bytes.len() as u16, mended.dropped.len() as u16);
    let (table, words) = match random.below(16) {
        0..=7 => {
            let (less, more) = (length.saturating_sub(1), length + 1);
            (MENDED, random.pick(&[less, less, length, length, more, bytes, 0, 24_576, 29_999, 65_535]))
        }
        8..=14 => (DROPPED, random.pick(&[1_024, 1_024, 1_025, 1_026, count, count + 1, 0, 65_535])),
        // A table that mending is not lent.
        _ => (random.between(0, MOVED as u64) as usize, 0),
    };
    stream.put_all([Command::Lend { table: table as u8, words }, Command::Mend])?;
    if random.once_in(8) {
        stream.put(Command::Table { table: random.pick(&[MENDED, DROPPED, DROPPED]) as u8 })?;
    }
    stream.put(Command::Lend { table: table as u8, words: 65_535 })
}

/// Words in both tables, around the places where an answer ends.
fn written_before<W: Write>(random: &mut Random, stream: &mut Stream<W>, file: &[u8]) -> Result<()> {
    let mended = sifted(file);
    for (table, end) in [(MENDED, mended.bytes.len()), (DROPPED, mended.dropped.len())] {
        let places = [0, end, end.saturating_sub(3), FULL_WORDS[table] - 3, file.len()];
        let place = random.pick(&places) as u16;
        let words = (0..random.below(9)).map(|_| random.pick(&[0, 8, 255, 256, 65_535, 65_536])).collect();
        stream.put(Command::WriteWords { table: table as u8, place, words })?;
        let word = random.pick(&[9, 254, 255, 256, 65_535, u64::MAX]);
        stream.put(Command::WriteWord { table: table as u8, place, word })?;
    }
    stream.put(Command::Mend)?;
    let table = random.pick(&[MENDED, DROPPED, DROPPED, DROPPED]) as u8;
    match random.once_in(4) {
        true => stream.put(Command::Table { table }),
        false => Ok(()),
    }
}

// ---- Files.

/// A file to mend.
pub fn any_file(random: &mut Random) -> Vec<u8> {
    let what = random.below(40);
    let mut records = match what {
        0..=2 => return file_of(&any_drawing(random)),
        3 | 4 => return limit_of_length(random),
        5 => {
            let file = noise(random);
            return with_part(random, file, 2);
        }
        6..=8 => {
            let drawn = any_drawing(random);
            let file = damaged(random, drawn);
            return with_part(random, file, 4);
        }
        9 => crowd(random),
        10 | 11 => many_ports(random),
        _ => any_drawing(random),
    };
    for _ in 0..random.pick(&[1, 1, 2, 3, 6]) {
        match (12..19).contains(&what) && !random.once_in(3) {
            true => break_something(random, &mut records),
            false => mendable(random, &mut records),
        }
    }
    if random.once_in(if what < 12 { 2 } else { 10 }) {
        put_mark(random, &mut records);
    }
    records.truncate(RECORDS_MAX);
    with_part(random, file_of(&records), 3)
}

/// The file with a part record behind it, once in so many: of its own bytes or any.
fn with_part(random: &mut Random, mut file: Vec<u8>, times: u64) -> Vec<u8> {
    if random.once_in(times) {
        let any = random.between(1, 23) as usize;
        let length = random.pick(&[1, 12, 22, 23, any, any]);
        match file.len() >= RECORD_BYTES && random.once_in(2) {
            true => file.extend_from_within(..length),
            false => file.extend(bytes(random, length)),
        }
    }
    file
}

/// So many bytes that may begin records.
fn bytes(random: &mut Random, length: usize) -> Vec<u8> {
    (0..length).map(|_| random.pick(&[0, 1, 2, 3, 4, 255])).collect()
}

/// Files of no record and of too many, of nothing but what is dropped, full with a part or not.
fn limit_of_length(random: &mut Random) -> Vec<u8> {
    let part = random.between(1, 23) as usize;
    let edge = random.pick(&[24, 25, 47, 48, 24_575, 24_576, 24_577, 24_599, 29_999, 30_000]);
    match random.below(12) {
        0 => vec![],
        1 => bytes(random, part),
        2 => bytes(random, 24_600),
        3 => bytes(random, 24_600 + part),
        4 => bytes(random, edge),
        5..=7 => {
            let kind = random.pick(&[CONNECTION, INPUT_MAP]);
            let records = vec![Record { a: part as u16, ..blank(kind) }; random.pick(&[1, 2, 30, 1_024])];
            with_part(random, file_of(&records), 2)
        }
        _ => {
            let records = full(random);
            with_part(random, file_of(&records), 2)
        }
    }
}

/// 1,024 records: a drawing with more connections and maps behind its own, few of which are kept.
fn full(random: &mut Random) -> Vec<Record> {
    let mut records = any_drawing(random);
    let entering = positions(&records, enters);
    let end = entering.last().map_or(records.len(), |last| last + 1);
    let mut more = vec![];
    while records.len() + more.len() < RECORDS_MAX {
        more.push(match entering.is_empty() || random.once_in(3) {
            true => stray(random, &records),
            false => records[random.pick(&entering)],
        });
    }
    records.splice(end..end, more);
    records
}

/// More components than are accepted, in boxes or most of them in the root: numbers of owners or
/// of children go over 255. Connections and maps below all of them, some of them again with a
/// number that has the same low byte.
fn crowd(random: &mut Random) -> Vec<Record> {
    let mut records: Vec<Record> = vec![];
    let mut owners = vec![0];
    let flat = random.once_in(2);
    for number in 0..random.between(COMPONENTS_MAX as u64 + 1, 700) as usize {
        let near = &owners[owners.len().saturating_sub(12)..];
        let owner = if flat && !random.once_in(8) { 0 } else { random.pick(near) };
        let again = number >= 256 && records[number - 256].is_composite();
        let composite = number == 0 || again || random.once_in(if flat { 40 } else { 4 });
        if composite && number > 0 {
            owners.push(number as u16);
        }
        let component_kind = if composite { 0 } else { random.pick(&[1, 7]) };
        let (a, b) = (random.below(4) as u16, random.below(3) as u16);
        records.push(Record { component_kind, owner, a, b, id: number as u32, ..blank(COMPONENT) });
    }
    let children = if flat { records.len() as u64 } else { 4 };
    let more = random.pick(&[0, 256, 256, 512]);
    for _ in 0..random.between(50, 150) {
        let owner = if flat { 0 } else { random.pick(&owners) };
        let mut below = |limit| random.below(limit) as u16;
        let (a, b, c, d) = (below(children), below(2), below(children), below(3));
        let kind = random.pick(&[CONNECTION, INPUT_MAP]);
        let line = Record { owner, a, b, c, d, ..blank(kind) };
        records.push(line);
        match random.below(4) {
            0 => records.push(Record { owner: owner + more, ..line }),
            1 => records.push(Record { c: c + more, ..line }),
            _ => {}
        }
    }
    records
}

/// A drawing in which components get more inputs, or outputs, than are accepted, and records
/// lead there.
fn many_ports(random: &mut Random) -> Vec<Record> {
    let mut records = any_drawing(random);
    let components = positions(&records, |record| record.kind == COMPONENT);
    for _ in 0..random.pick(&[1, 1, 2]) {
        let number = random.pick(&components);
        let ports = random.pick(&[64, 65, 66, 127, 128, 129, 256, 1_000, 65_535]);
        (records[number].a, records[number].b) = (ports, ports.min(300));
        let (owner, child) = (records[number].owner, child_number(&records, number));
        for _ in 0..random.between(1, 8) {
            let d = random.pick(&[0, 63, 64, 65, 127, 128, ports - 1, ports - 1, ports, 65_535]);
            let b = random.pick(&[0, 63, 64, 127, ports - 1, ports]);
            let line = match random.once_in(4) {
                true => Record { owner, a: child, b, c: child, d, ..blank(CONNECTION) },
                false => Record { c: child, d, ..from_anywhere(random, &records, owner) },
            };
            put_in_order(random, &mut records, line);
            if random.once_in(4) {
                put_in_order(random, &mut records, Record { d: d ^ 256, ..line });
            }
        }
    }
    records
}
