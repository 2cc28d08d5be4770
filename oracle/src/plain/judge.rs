//! The judge: checks 1 and 3 to 15 (the specification, "Numbers given back").
//!
//! Each `check_n` says whether the record at a position fails check n. It may
//! lean on the checks before n having passed over all records, and on check n
//! itself having passed at every earlier record. The check of 13 has three
//! numbers and tells of two records, so it has a form of its own.

use super::drawing::{records, Drawing, Record};
use super::drawing::{COMPONENT, CONNECTION, DEPTH_MAX, INPUT_MAP, OUTPUT_MAP, RECORD_BYTES};
use super::kinds::{CUSTOM, NO_KIND};
use std::collections::HashMap;

pub const RECORDS_MAX: usize = 1_024;
pub const COMPONENTS_MAX: usize = 256;
pub const SIDE_MAX: usize = 1_024;

/// The numbers of two records that meet: "13 stays for two connections", "22
/// connection and map, 23 two maps".
pub const TWO_CONNECTIONS: u64 = 13;
pub const CONNECTION_AND_MAP: u64 = 22;
pub const TWO_MAPS: u64 = 23;
/// All three.
pub const MEETINGS: [u64; 3] = [TWO_CONNECTIONS, CONNECTION_AND_MAP, TWO_MAPS];

/// Why a file, or a call that is lent one, is refused.
#[derive(Clone, Copy, Debug, PartialEq)]
pub struct Refusal {
    pub number: u64,
    /// The record that is refused; 0 where the number is about none.
    pub position: u64,
    /// "The answer also names the earlier record (0 for other numbers)".
    pub earlier: u64,
}

impl Refusal {
    /// A refusal that is about no record.
    pub fn of(number: u64) -> Refusal {
        Refusal::at(number, 0)
    }

    /// A refusal that is about one record.
    pub fn at(number: u64, position: usize) -> Refusal {
        Refusal { number, position: position as u64, earlier: 0 }
    }

    /// Number, position and earlier record, as a line has them.
    pub fn words(&self) -> [u64; 3] {
        [self.number, self.position, self.earlier]
    }
}

/// Accepted, or refused.
pub type Verdict = Result<(), Refusal>;

/// A verdict's three numbers, all 0 where it is accepted.
pub fn words(verdict: Verdict) -> [u64; 3] {
    verdict.map_or_else(|refusal| refusal.words(), |()| [0, 0, 0])
}

type Check = fn(&Drawing, usize) -> bool;

const CHECKS_3_TO_12: [(u64, Check); 10] = [
    (3, check_3),
    (4, check_4),
    (5, check_5),
    (6, check_6),
    (7, check_7),
    (8, check_8),
    (9, check_9),
    (10, check_10),
    (11, check_11),
    (12, check_12),
];

const CHECKS_14_AND_15: [(u64, Check); 2] = [(14, check_14), (15, check_15)];

/// The verdict on a file, check 2 not made.
pub fn judge(file: &[u8]) -> Verdict {
    if check_1(file) {
        return Err(Refusal::of(1));
    }
    judge_records(file)
}

/// Check 1: file empty, not a multiple of 24, or over 1,024 records.
pub fn check_1(file: &[u8]) -> bool {
    file.is_empty() || !file.len().is_multiple_of(RECORD_BYTES) || file.len() / RECORD_BYTES > RECORDS_MAX
}

/// Checks 3 to 15, "each over all records in file order before the next begins";
/// 22 and 23 are "both made in the place of 13".
pub fn judge_records(file: &[u8]) -> Verdict {
    let drawing = Drawing::new(records(file));
    each_over_all(&drawing, &CHECKS_3_TO_12)?;
    check_meetings(&drawing)?;
    each_over_all(&drawing, &CHECKS_14_AND_15)
}

fn each_over_all(drawing: &Drawing, checks: &[(u64, Check)]) -> Verdict {
    for (number, fails) in checks {
        if let Some(position) = (0..drawing.records.len()).find(|at| fails(drawing, *at)) {
            return Err(Refusal::at(*number, position));
        }
    }
    Ok(())
}

/// Check 3: record kind not 1-4; D not 0 in kind 1; in kinds 2-4 byte 1, id or
/// parameter not 0; B not 0 in kind 3; C or D not 0 in kind 4.
fn check_3(drawing: &Drawing, at: usize) -> bool {
    let record = &drawing.records[at];
    let line = record.component_kind != 0 || record.id != 0 || record.parameter != 0;
    match record.kind {
        COMPONENT => record.d != 0,
        CONNECTION => line,
        INPUT_MAP => line || record.b != 0,
        OUTPUT_MAP => line || record.c != 0 || record.d != 0,
        _ => true,
    }
}

/// Check 4: first record not kind 1; record kind below the one before; among
/// equal kinds 2-4, owner below the one before.
fn check_4(drawing: &Drawing, at: usize) -> bool {
    let record = &drawing.records[at];
    if at == 0 {
        return record.kind != COMPONENT;
    }
    let before = &drawing.records[at - 1];
    let same_list = record.kind == before.kind && record.kind != COMPONENT;
    record.kind < before.kind || (same_list && record.owner < before.owner)
}

/// Check 5: root's owner not 0; a later component's owner not a composite that is
/// the component before or holds it at some depth; owner of kinds 2-4 not a composite.
fn check_5(drawing: &Drawing, at: usize) -> bool {
    let record = &drawing.records[at];
    let owner = record.owner as usize;
    if at == 0 {
        return owner != 0;
    }
    let composite = drawing.component(owner).is_some_and(Record::is_composite);
    let open = record.kind != COMPONENT || is_or_holds(drawing, owner, at - 1);
    !(composite && open)
}

/// Whether `holder` is the component or holds it at some depth.
fn is_or_holds(drawing: &Drawing, holder: usize, component: usize) -> bool {
    let mut at = component;
    while at > holder {
        let owner = drawing.records[at].owner as usize;
        if owner >= at {
            return false;
        }
        at = owner;
    }
    at == holder
}

/// Check 6: component number 256 or more, or depth over 16 (root is 1).
fn check_6(drawing: &Drawing, at: usize) -> bool {
    is_component(drawing, at) && (at >= COMPONENTS_MAX || depth(drawing, at) > DEPTH_MAX)
}

fn depth(drawing: &Drawing, component: usize) -> usize {
    let mut depth = 1;
    let mut at = component;
    while at > 0 && depth <= DEPTH_MAX {
        at = drawing.records[at].owner as usize;
        depth += 1;
    }
    depth
}

/// Check 7: component kind 14, kept for `Custom`.
fn check_7(drawing: &Drawing, at: usize) -> bool {
    is_component(drawing, at) && drawing.records[at].component_kind as u64 == CUSTOM
}

/// Check 8: component kind 16-255.
fn check_8(drawing: &Drawing, at: usize) -> bool {
    is_component(drawing, at) && drawing.records[at].component_kind as u64 >= NO_KIND
}

/// Check 9: a component breaks the table of kinds.
fn check_9(drawing: &Drawing, at: usize) -> bool {
    is_component(drawing, at) && !drawing.records[at].fields().obey_the_table()
}

/// Check 10: id of an earlier component.
fn check_10(drawing: &Drawing, at: usize) -> bool {
    let id = drawing.records[at].id;
    is_component(drawing, at) && drawing.records[..at].iter().any(|earlier| earlier.id == id)
}

/// Check 11: primitives so far have over 1,024 inputs or over 1,024 outputs.
fn check_11(drawing: &Drawing, at: usize) -> bool {
    let so_far = &drawing.records[..=at];
    let primitives = so_far.iter().filter(|record| record.kind == COMPONENT && !record.is_composite());
    let inputs: usize = primitives.clone().map(|record| record.a as usize).sum();
    let outputs: usize = primitives.map(|record| record.b as usize).sum();
    is_component(drawing, at) && (inputs > SIDE_MAX || outputs > SIDE_MAX)
}

/// Check 12: a child or port in kinds 2-4 does not exist.
fn check_12(drawing: &Drawing, at: usize) -> bool {
    let record = &drawing.records[at];
    let owner_inputs = drawing.component(record.owner as usize).map_or(0, |owner| owner.a);
    let output_exists = has_output(drawing, record.owner, record.a, record.b);
    let input_exists = has_input(drawing, record.owner, record.c, record.d);
    match record.kind {
        CONNECTION => !output_exists || !input_exists,
        INPUT_MAP => record.a >= owner_inputs || !input_exists,
        OUTPUT_MAP => !output_exists,
        _ => false,
    }
}

fn has_output(drawing: &Drawing, owner: u16, child: u16, port: u16) -> bool {
    let component = drawing.child(owner, child);
    component.is_some_and(|number| port < drawing.records[number].b)
}

fn has_input(drawing: &Drawing, owner: u16, child: u16, port: u16) -> bool {
    let component = drawing.child(owner, child);
    component.is_some_and(|number| port < drawing.records[number].a)
}

/// Checks 13, 22 and 23, which are one: "a kind 2 or 3 record enters a child's input
/// that an earlier one entered". The first such record in file order decides, whatever
/// the two are.
fn check_meetings(drawing: &Drawing) -> Verdict {
    let mut entered_by = HashMap::new();
    for (position, record) in drawing.records.iter().enumerate() {
        if record.kind != CONNECTION && record.kind != INPUT_MAP {
            continue;
        }
        let input = (record.owner, record.c, record.d);
        if let Some(earlier) = entered_by.insert(input, position) {
            let number = match [drawing.records[earlier].kind, record.kind] {
                [CONNECTION, CONNECTION] => TWO_CONNECTIONS,
                [INPUT_MAP, INPUT_MAP] => TWO_MAPS,
                _ => CONNECTION_AND_MAP,
            };
            return Err(Refusal { earlier: earlier as u64, ..Refusal::at(number, position) });
        }
    }
    Ok(())
}

/// Check 14: composite's output maps differ in number from its outputs.
fn check_14(drawing: &Drawing, at: usize) -> bool {
    let record = &drawing.records[at];
    record.is_composite() && drawing.output_maps[at].len() != record.b as usize
}

/// Check 15: a connection yields a wire whose ends differ in width.
fn check_15(drawing: &Drawing, at: usize) -> bool {
    let record = &drawing.records[at];
    if record.kind != CONNECTION {
        return false;
    }
    drawing.wires_of(record).iter().any(|((from, _), (to, _))| {
        drawing.records[*from].fields().output_width() != drawing.records[*to].fields().input_width()
    })
}

fn is_component(drawing: &Drawing, at: usize) -> bool {
    drawing.records[at].kind == COMPONENT
}
