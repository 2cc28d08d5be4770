//! What drawings in the field suffer: damage that mending takes out again, most of it, and damage
//! that stays.

use super::damage::{any_record, meet, positions};
use super::drawing::blank;
use super::random::Random;
use crate::plain::drawing::{Record, COMPONENT, CONNECTION, INPUT_MAP, OUTPUT_MAP};
use crate::plain::judge::{MEETINGS, RECORDS_MAX};
use std::cmp::Ordering;

/// A connection or an input map: what mending may drop.
pub fn enters(record: &Record) -> bool {
    record.kind == CONNECTION || record.kind == INPUT_MAP
}

/// Damage that mending takes out, most of it.
pub fn mendable(random: &mut Random, records: &mut Vec<Record>) {
    match random.below(12) {
        0 | 1 => {
            let meeting = random.pick(&MEETINGS);
            meet(random, records, meeting);
        }
        2 | 3 => misplace(random, records),
        4..=6 => delete_component(random, records),
        7 => enter_before(random, records),
        8 => {
            let line = stray(random, records);
            put_in_order(random, records, line);
        }
        9 => {
            let (line, place) = (stray(random, records), random.between(0, records.len() as u64));
            records.insert(place as usize, line);
        }
        10 => loose_field(random, records),
        _ => enter_again(random, records),
    }
}

/// A row of connections and maps stands there once more, behind one of them.
fn enter_again(random: &mut Random, records: &mut Vec<Record>) {
    let entering = positions(records, enters);
    if entering.is_empty() {
        return;
    }
    let (one, other) = (random.pick(&entering), random.pick(&entering));
    let first = if random.once_in(4) { 0 } else { one.min(other) };
    let row = entering.iter().filter(|at| (first..=one.max(other)).contains(*at));
    let again: Vec<Record> = row.map(|at| records[*at]).collect();
    records.splice(one + 1..one + 1, again);
}

/// The number of a component among its owner's children.
pub fn child_number(records: &[Record], component: usize) -> u16 {
    let owner = records[component].owner;
    let before = &records[..component];
    before.iter().skip(1).filter(|record| record.kind == COMPONENT && record.owner == owner).count() as u16
}

/// A connection or an input map of an owner that leads from some child, or input, which is there
/// or not.
pub fn from_anywhere(random: &mut Random, records: &[Record], owner: u16) -> Record {
    let of_owner = positions(records, |record| enters(record) && record.owner == owner);
    if !of_owner.is_empty() && !random.once_in(4) {
        return records[random.pick(&of_owner)];
    }
    let kind = random.pick(&[CONNECTION, INPUT_MAP]);
    Record { owner, a: random.below(4) as u16, ..blank(kind) }
}

/// A connection or an input map between any places.
pub fn stray(random: &mut Random, records: &[Record]) -> Record {
    let components = positions(records, |record| record.kind == COMPONENT);
    let composites = positions(records, Record::is_composite);
    let owner = match random.below(6) {
        0 => random.pick(&[1, 255, 256, 65_535, records.len(), components.len()]),
        1 if !components.is_empty() => random.pick(&components),
        _ if !composites.is_empty() => random.pick(&composites),
        _ => 0,
    };
    let mut any = || random.below(6) as u16;
    let (a, b, c, d) = (any(), any() / 3, any(), any() / 2);
    let kind = random.pick(&[CONNECTION, CONNECTION, INPUT_MAP]);
    let b = if kind == CONNECTION { b } else { 0 };
    let far = random.pick(&[6, 64, 256, 65_535]);
    let line = Record { owner: owner as u16, a, b, c, d, ..blank(kind) };
    match random.below(12) {
        0 => Record { a: far, ..line },
        1 => Record { c: far, ..line },
        2 => Record { d: far, ..line },
        _ => line,
    }
}

/// Puts a record in where check 4 wants it.
pub fn put_in_order(random: &mut Random, records: &mut Vec<Record>, line: Record) {
    let key = |record: &Record| (record.kind, if record.kind == COMPONENT { 0 } else { record.owner });
    let first = records.iter().position(|record| key(record) >= key(&line)).unwrap_or(records.len());
    let past = records.iter().position(|record| key(record) > key(&line)).unwrap_or(records.len());
    let place = random.between(first as u64, past.max(first) as u64);
    records.insert(place as usize, line);
}

/// A connection or an input map leads from or to a child or a port that is not there.
fn misplace(random: &mut Random, records: &mut [Record]) {
    let entering = positions(records, enters);
    if entering.is_empty() {
        return;
    }
    let record = &mut records[random.pick(&entering)];
    let more = random.pick(&[1, 1, 2, 5, 64, 256, 65_535]);
    let field = match random.below(4) {
        0 => &mut record.a,
        1 if record.kind == CONNECTION => &mut record.b,
        2 => &mut record.c,
        _ => &mut record.d,
    };
    *field = field.saturating_add(more);
}

/// Before a record that enters an input, another that enters it: from a place that is not
/// there, so that it enters nothing, or from one that may be; now and then one behind it too.
fn enter_before(random: &mut Random, records: &mut Vec<Record>) {
    let entering = positions(records, enters);
    if entering.is_empty() {
        return;
    }
    let at = random.pick(&entering);
    let entered = records[at];
    let a = random.pick(&[entered.a.saturating_add(1), 200, 65_535]);
    records.insert(at, Record { a, ..entered });
    if random.once_in(2) {
        let place = random.between(at as u64, records.len() as u64);
        records.insert(place as usize, entered);
    }
}

/// A field that must be 0 is not, in a connection or an input map, that is dropped or not.
fn loose_field(random: &mut Random, records: &mut Vec<Record>) {
    let entering = positions(records, enters);
    if entering.is_empty() {
        return;
    }
    let at = random.pick(&entering);
    let mut loose = records[at];
    match random.below(4) {
        0 => loose.component_kind = random.pick(&[1, 14, 255]),
        1 => loose.id = random.pick(&[1, 65_536, u32::MAX]),
        2 => loose.parameter = 1 << random.below(64),
        _ if loose.kind == INPUT_MAP => loose.b = random.pick(&[1, 65_535]),
        _ => loose.id = 1 << random.below(32),
    }
    match random.below(6) {
        0 => records[at] = loose,
        1 => records.insert(at, loose),
        2 | 3 => records.insert(at + 1, loose),
        _ => records.insert(at, Record { c: loose.c.saturating_add(300), ..loose }),
    }
}

/// A component goes, with all that it holds; owners are numbered anew. Lines from and to it are
/// left, and its owner's other children have new numbers in them or not.
fn delete_component(random: &mut Random, records: &mut Vec<Record>) {
    let components = positions(records, |record| record.kind == COMPONENT);
    if components.len() < 2 {
        return;
    }
    let gone = random.between(1, components.len() as u64 - 1) as usize;
    let (parent, child) = (records[components[gone]].owner, child_number(records, components[gone]));
    let mut goes = vec![false; components.len()];
    goes[gone] = true;
    for number in gone + 1..components.len() {
        let owner = records[components[number]].owner as usize;
        goes[number] = owner < number && goes[owner];
    }
    let numbered = random.once_in(2);
    let forgotten = random.pick(&[65_535, gone as u16]);
    let below = random.once_in(2);
    let mut number = 0;
    let mut left = vec![];
    for record in records.iter() {
        let owner = record.owner as usize;
        let held = goes.get(owner).copied().unwrap_or(false);
        if record.kind == COMPONENT {
            number += 1;
            if goes[number - 1] {
                continue;
            }
        } else if held && below {
            continue;
        }
        let mut record = *record;
        if record.kind != COMPONENT && numbered && record.owner == parent {
            renumber(&mut record, child);
        }
        record.owner = match held {
            true => forgotten,
            false => (owner - goes.iter().take(owner).filter(|goes| **goes).count()) as u16,
        };
        left.push(record);
    }
    *records = left;
}

/// Children behind the one that is gone have numbers one less; the one that is gone has none.
fn renumber(line: &mut Record, gone: u16) {
    let new = |child: u16| match child.cmp(&gone) {
        Ordering::Less => child,
        Ordering::Equal => 65_535,
        Ordering::Greater => child - 1,
    };
    if line.kind == CONNECTION || line.kind == OUTPUT_MAP {
        line.a = new(line.a);
    }
    if enters(line) {
        line.c = new(line.c);
    }
}

/// Damage that stays, most of it.
pub fn break_something(random: &mut Random, records: &mut Vec<Record>) {
    let length = records.len() as u64;
    let (one, other) = (random.below(length) as usize, random.below(length) as usize);
    let components = positions(records, |record| record.kind == COMPONENT);
    let output_maps = positions(records, |record| record.kind == OUTPUT_MAP);
    match random.below(13) {
        0 if length > 1 => drop(records.remove(one)),
        1 => records.insert(other, records[one]),
        2 => records.swap(one, other),
        3 => any_record(random, records).kind = random.pick(&[0, 1, 2, 3, 4, 5, 255]),
        4 => any_record(random, records).owner = random.pick(&[0, 1, 2, 255, 256, 65_535]),
        5 if !components.is_empty() => records[random.pick(&components)].d = random.pick(&[1, 256]),
        6 if components.len() > 1 => {
            let component = records.remove(random.pick(&components));
            records.insert(random.between(0, length - 1) as usize, component);
        }
        7 if components.len() > 1 => drop(records.remove(random.pick(&components))),
        8 if !output_maps.is_empty() => {
            let map = &mut records[random.pick(&output_maps)];
            map.b = map.b.saturating_add(random.pick(&[0, 1, 1, 300]));
            map.a = map.a.saturating_add(random.pick(&[0, 1, 300]));
        }
        9 if !components.is_empty() => {
            let component = &mut records[random.pick(&components)];
            component.component_kind = random.pick(&[0, 0, 1, 3, 7, 14, 16]);
        }
        10 => lines_first(random, records),
        11 if !components.is_empty() => {
            let component = &mut records[random.pick(&components)];
            component.a = component.a.saturating_add(random.pick(&[1, 2, 64]));
        }
        _ => mendable(random, records),
    }
}

/// Components stand behind all else, most often one of them with a D: 3 at its position tells
/// how many lines are kept. Components have the numbers that they had.
fn lines_first(random: &mut Random, records: &mut [Record]) {
    records.sort_by_key(|record| record.kind == COMPONENT);
    let components = positions(records, |record| record.kind == COMPONENT);
    let composites = positions(records, Record::is_composite);
    match random.below(4) {
        0 if !components.is_empty() => records[random.pick(&components)].d = 1,
        1 | 2 if !composites.is_empty() => records[random.pick(&composites)].d = 1,
        _ => {}
    }
}

/// A record of no kind, at the end or anywhere.
pub fn put_mark(random: &mut Random, records: &mut Vec<Record>) {
    records.truncate(RECORDS_MAX - 1);
    let last = records.len() as u64;
    let first = positions(records, enters).first().map_or(last, |first| *first as u64);
    let anywhere = random.between(0, last);
    let place = random.pick(&[last, last, first.midpoint(last), anywhere]);
    records.insert(place as usize, blank(random.pick(&[0, 5, 6, 255])));
}
