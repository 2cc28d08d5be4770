//! Tests: the lamp drawing, the limits, values of 64 bits, records that meet, both ways of an edit, outputs that moved, mending,
//! the slow engine, orders of wires, settling, the language, and where logix and the plain coding can be laid side by side.

mod agreement;
mod differences;
mod edits;
mod lamp;
mod language;
mod limits;
mod look;
mod marked;
mod meet;
mod mend;
mod moved;
mod net;
mod ordered;
mod satisfied;
mod settle;
mod slow;
mod votes;
mod wide;

use crate::command::Command;
use crate::gen::drawing::{blank, file_of};
use crate::plain::drawing::{Record, COMPONENT, CONNECTION, INPUT_MAP, OUTPUT_MAP};
use crate::plain::judge::{judge, words};
use crate::program::Program;

fn component(component_kind: u8, owner: u16, inputs: u16, outputs: u16, id: u32) -> Record {
    Record { component_kind, owner, a: inputs, b: outputs, id, ..blank(COMPONENT) }
}

fn connection(owner: u16, (a, b): (u16, u16), (c, d): (u16, u16)) -> Record {
    Record { owner, a, b, c, d, ..blank(CONNECTION) }
}

fn input_map(owner: u16, a: u16, (c, d): (u16, u16)) -> Record {
    Record { owner, a, c, d, ..blank(INPUT_MAP) }
}

fn output_map(owner: u16, (a, b): (u16, u16)) -> Record {
    Record { owner, a, b, ..blank(OUTPUT_MAP) }
}

/// The lamp drawing of the specification.
fn lamp() -> Vec<Record> {
    vec![
        component(0, 0, 0, 0, 100),
        component(7, 0, 0, 1, 1),
        component(7, 0, 0, 1, 2),
        component(0, 0, 2, 1, 3),
        component(5, 3, 2, 1, 4),
        Record { parameter: 1, ..component(9, 0, 1, 1, 5) },
        connection(0, (0, 0), (2, 0)),
        connection(0, (1, 0), (2, 1)),
        connection(0, (2, 0), (3, 0)),
        input_map(3, 0, (0, 0)),
        input_map(3, 1, (0, 1)),
        output_map(3, (0, 0)),
    ]
}

/// Number, position and earlier record, all 0 where the drawing is accepted.
fn told(records: &[Record]) -> (u64, u64, u64) {
    words(judge(&file_of(records))).into()
}

/// Number and position of a verdict that tells of no two records.
fn verdict(records: &[Record]) -> (u64, u64) {
    let (number, position, earlier) = told(records);
    assert_eq!(earlier, 0, "{number} names no earlier record");
    (number, position)
}

/// A program that has a drawing loaded.
fn loaded(records: &[Record]) -> Program {
    let mut program = Program::new();
    assert_eq!(answer(&mut program, Command::Load(file_of(records))), "load 0 0 0\n");
    program
}

/// The lines of one command.
fn answer(program: &mut Program, command: Command) -> String {
    let mut lines = String::new();
    program.answer(&command, &mut lines);
    lines
}
