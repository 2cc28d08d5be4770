//! The longest chain of wires, and after how many rounds a drawing is calm.

use super::{answer, component, connection, lamp, loaded};
use crate::command::Command;
use crate::plain::chains::{longest_chain, rounds_until_calm};
use crate::plain::drawing::Record;
use crate::program::Program;

fn root() -> Record {
    component(0, 0, 0, 0, 1_000)
}

fn joined(parts: Vec<Record>, wires: &[(u16, u16)]) -> Vec<Record> {
    let wires = wires.iter().map(|(from, to)| connection(0, (*from, 0), (*to, 0)));
    [root()].into_iter().chain(parts).chain(wires).collect()
}

fn nots(count: u32) -> Vec<Record> {
    (0..count).map(|id| component(3, 0, 1, 1, id)).collect()
}

fn longest(records: &[Record]) -> Option<u64> {
    longest_chain(&loaded(records).tables)
}

fn calm(program: &mut Program) -> bool {
    answer(program, Command::Calm) == "calm 0 1\n"
}

/// After how many rounds it is calm first.
fn rounds(records: &[Record]) -> u64 {
    let mut program = loaded(records);
    let mut rounds = 0;
    while !calm(&mut program) {
        answer(&mut program, Command::Round { time: 0 });
        rounds += 1;
    }
    rounds
}

#[test]
fn components_on_a_chain() {
    assert_eq!(longest(&[root()]), Some(0));
    assert_eq!(longest(&joined(nots(1), &[])), Some(1));
    assert_eq!(longest(&joined(nots(9), &[])), Some(1));
    assert_eq!(longest(&lamp()), Some(3), "Switch, Nor, Output");
    assert_eq!(longest(&joined(nots(4), &[(2, 1), (3, 2), (1, 0)])), Some(4));
    assert_eq!(
        longest(&joined(nots(6), &[(2, 1), (2, 0), (0, 4), (4, 5), (1, 3)])),
        Some(4),
        "the longer way"
    );
    let row: Vec<(u16, u16)> = (0..254).map(|at| (at, at + 1)).collect();
    assert_eq!(longest(&joined(nots(255), &row)), Some(255));
    let back: Vec<(u16, u16)> = row.iter().map(|(from, to)| (*to, *from)).collect();
    assert_eq!(longest(&joined(nots(255), &back)), Some(255));
}

#[test]
fn a_cycle_has_no_longest_chain() {
    assert_eq!(longest(&joined(nots(1), &[(0, 0)])), None);
    assert_eq!(longest(&joined(nots(5), &[(0, 1), (3, 4), (4, 3)])), None);
    let ring: Vec<(u16, u16)> = (0..255).map(|at| (at, (at + 1) % 255)).collect();
    assert_eq!(longest(&joined(nots(255), &ring)), None);
}

/// Consts stand in two lists at first, so a drawing of them is not calm after one round, though no chain has two.
#[test]
fn consts_take_two_rounds() {
    let consts = (0..3).map(|id| Record { c: 1, parameter: 1, ..component(13, 0, 0, 1, id) }).collect();
    let consts = joined(consts, &[]);
    assert_eq!(longest(&consts), Some(1));
    assert_eq!(rounds(&consts), 2);
    assert_eq!(rounds_until_calm(1), 2);
    assert_eq!(rounds(&joined(nots(3), &[])), 1);
    assert_eq!(rounds(&[root()]), 0);
    assert_eq!(rounds_until_calm(0), 2);
}

/// Nots against their row in the file are calm just when they must be; along it after two rounds.
#[test]
fn a_row_takes_as_many_rounds_as_it_has_components() {
    for count in [3, 4, 10, 255] {
        let along: Vec<(u16, u16)> = (0..count - 1).map(|at| (at, at + 1)).collect();
        let against: Vec<(u16, u16)> = along.iter().map(|(from, to)| (*to, *from)).collect();
        assert_eq!(rounds(&joined(nots(count as u32), &against)), count as u64);
        assert_eq!(rounds(&joined(nots(count as u32), &along)), 2);
        assert_eq!(rounds_until_calm(count as u64), count as u64);
    }
}
