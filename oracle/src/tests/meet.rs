//! Which two records meet: 13, 22 and 23, one check in the place of 13; who tells of
//! them, and generated files that have them.

use super::{answer, component, connection, input_map, lamp, output_map, told};
use crate::command::Command;
use crate::gen::drawing::file_of;
use crate::gen::judge::any_file;
use crate::gen::random::Random;
use crate::plain::drawing::{records, Record, CONNECTION, INPUT_MAP};
use crate::plain::host::{first_answer, second_answer};
use crate::plain::judge::{judge, words, MEETINGS};
use crate::program::Program;

/// The lamp drawing with a record put in.
fn lamp_with(position: usize, record: Record) -> Vec<Record> {
    let mut records = lamp();
    records.insert(position, record);
    records
}

/// A box whose input and whose Switch both enter its Not.
fn box_with_both() -> Vec<Record> {
    vec![
        component(0, 0, 0, 0, 10),
        component(0, 0, 1, 0, 11),
        component(7, 1, 0, 1, 12),
        component(3, 1, 1, 1, 13),
        connection(1, (0, 0), (1, 0)),
        input_map(1, 0, (1, 0)),
    ]
}

/// A root with an input, a Switch and two Nots, and lines from record 4 on.
fn two_nots(lines: &[Record]) -> Vec<Record> {
    let not = |id| component(3, 0, 1, 1, id);
    let mut records = vec![component(0, 0, 1, 0, 10), component(7, 0, 0, 1, 11), not(12), not(13)];
    records.extend(lines);
    records
}

/// A connection from the Switch, and a map from the root's input, into a child.
fn wire(child: u16) -> Record {
    connection(0, (0, 0), (child, 0))
}

fn map(child: u16) -> Record {
    input_map(0, 0, (child, 0))
}

#[test]
fn the_number_says_what_the_two_are() {
    assert_eq!(told(&lamp_with(9, connection(0, (1, 0), (2, 0)))), (13, 9, 6));
    assert_eq!(told(&lamp_with(11, input_map(3, 1, (0, 0)))), (23, 11, 9));
    assert_eq!(told(&box_with_both()), (22, 5, 4));
}

#[test]
fn the_first_record_that_meets_one_decides() {
    let cases: [(&[Record], _); 7] = [
        (&[wire(1), map(2), map(2), map(1)], (23, 6, 5)),
        (&[wire(1), map(2), map(1), map(2)], (22, 6, 4)),
        (&[wire(1), wire(2), map(2), map(1)], (22, 6, 5)),
        (&[wire(1), wire(2), map(1), map(2)], (22, 6, 4)),
        (&[wire(1), wire(2), wire(2), wire(1)], (13, 6, 5)),
        (&[wire(1), wire(2), wire(1), map(2)], (13, 6, 4)),
        (&[map(1), map(2), map(2), map(1)], (23, 6, 5)),
    ];
    for (lines, verdict) in cases {
        assert_eq!(told(&two_nots(lines)), verdict);
    }
}

#[test]
fn of_three_that_enter_one_input_the_first_two_are_told() {
    assert_eq!(told(&two_nots(&[wire(1), wire(1), wire(1)])), (13, 5, 4));
    assert_eq!(told(&two_nots(&[wire(1), wire(1), map(1)])), (13, 5, 4));
    assert_eq!(told(&two_nots(&[wire(1), map(1), map(1)])), (22, 5, 4));
    assert_eq!(told(&two_nots(&[map(1), map(1), map(1)])), (23, 5, 4));
}

#[test]
fn records_of_other_owners_do_not_meet() {
    let mut records = box_with_both();
    records[4].owner = 0;
    records[5].c = 0;
    assert_eq!(told(&records), (12, 4, 0));
    let nested = [
        component(0, 0, 0, 0, 10),
        component(0, 0, 1, 0, 11),
        component(3, 1, 1, 1, 12),
        component(7, 0, 0, 1, 13),
        connection(0, (1, 0), (0, 0)),
        input_map(1, 0, (0, 0)),
    ];
    assert_eq!(told(&nested), (0, 0, 0), "child 0, input 0 of the root and of the box");
    assert_eq!(told(&two_nots(&[wire(1), map(2)])), (0, 0, 0));
}

#[test]
fn all_three_stand_between_12_and_14() {
    assert_eq!(told(&two_nots(&[wire(1), map(1), map(3)])), (12, 6, 0), "22 at 5, 12 at 6");
    assert_eq!(told(&two_nots(&[map(1), map(1), output_map(0, (3, 0))])), (12, 6, 0), "23 at 5, 12 at 6");
    assert_eq!(told(&two_nots(&[wire(1), map(1), output_map(0, (0, 0))])), (22, 5, 4), "14 at 0");
    assert_eq!(told(&two_nots(&[map(1), map(1), output_map(0, (0, 0))])), (23, 5, 4), "14 at 0");
    let mut records = lamp_with(11, input_map(3, 1, (0, 0)));
    records[5].parameter = 2;
    assert_eq!(told(&records), (23, 11, 9), "15 at 8");
}

#[test]
fn the_hosts_first_call_says_13_for_all_three() {
    let answers = |records: &[Record]| {
        let file = file_of(records);
        (first_answer(&file), second_answer(&file))
    };
    let both = |number: u64, position: u64, earlier: u64| {
        (13 * 65_536 + position, (number << 32) + position * 65_536 + earlier)
    };
    assert_eq!(answers(&lamp_with(9, connection(0, (1, 0), (2, 0)))), both(13, 9, 6));
    assert_eq!(answers(&lamp_with(11, input_map(3, 1, (0, 0)))), both(23, 11, 9));
    assert_eq!(answers(&box_with_both()), both(22, 5, 4));
    assert_eq!(answers(&lamp()), (0, 0));
    assert_eq!(answers(&lamp()[..11]), (14 * 65_536 + 3, (14 << 32) + 3 * 65_536));
}

/// The lines of a judgement, a load and a look.
fn lines_of(program: &mut Program, file: &[u8]) -> String {
    answer(program, Command::Keep(file.to_vec()));
    let judge = answer(program, Command::Judge(file.to_vec()));
    let load = answer(program, Command::Load(file.to_vec()));
    judge + &load + &answer(program, Command::Look { path: vec![] })
}

#[test]
fn a_load_and_a_look_tell_what_a_judgement_tells() {
    let mut program = Program::new();
    answer(&mut program, Command::Load(file_of(&lamp())));
    let refused = [
        (lamp_with(9, connection(0, (1, 0), (2, 0))), "13 9 6"),
        (box_with_both(), "22 5 4"),
        (lamp_with(11, input_map(3, 1, (0, 0))), "23 11 9"),
    ];
    for (records, words) in refused {
        let file = file_of(&records);
        let lines = format!("judge {words}\nload {words}\nlook {words} 0 0\n");
        assert_eq!(lines_of(&mut program, &file), lines);
        answer(&mut program, Command::Lend { table: 1, words: 1_023 });
        let short = format!("judge {words}\nload 2 0 0\nlook 2 0 0 0 0\n");
        assert_eq!(lines_of(&mut program, &file), short, "2 comes before, and names no record");
        answer(&mut program, Command::Lend { table: 1, words: 1_024 });
        answer(&mut program, Command::SetCount { which: 1, number: 999 });
        assert_eq!(lines_of(&mut program, &file), lines, "16 comes behind");
        answer(&mut program, Command::SetCount { which: 1, number: 3 });
    }
    assert_eq!(answer(&mut program, Command::Calm), "calm 0 0\n", "the lamp's net is as it was");
}

/// Each record that enters an input that is entered already, with its number and the
/// first record that entered it; found by comparing all pairs.
fn all_meetings(records: &[Record]) -> Vec<[u64; 3]> {
    let enters = |record: &Record| record.kind == CONNECTION || record.kind == INPUT_MAP;
    let meet = |one: &Record, other: &Record| {
        enters(one) && enters(other) && (one.owner, one.c, one.d) == (other.owner, other.c, other.d)
    };
    let mut found = vec![];
    for later in 0..records.len() {
        if let Some(earlier) = (0..later).find(|at| meet(&records[*at], &records[later])) {
            let maps =
                (records[earlier].kind == INPUT_MAP) as usize + (records[later].kind == INPUT_MAP) as usize;
            found.push([MEETINGS[maps], later as u64, earlier as u64]);
        }
    }
    found
}

/// Damage aims at all three, and at several in one file: another number behind the one
/// that is told, a third record at the same input.
#[test]
fn of_all_that_meet_in_a_generated_file_the_first_is_told() {
    let mut random = Random::new(22);
    let (mut alone, mut none, mut thrice) = ([0; 3], 0, 0);
    // For each number that is told, in how many files each number stands behind it.
    let mut behind = [[0; 3]; 3];
    for _ in 0..12_000 {
        let file = any_file(&mut random);
        let verdict = words(judge(&file));
        let place = |number: u64| MEETINGS.iter().position(|meeting| *meeting == number);
        match place(verdict[0]) {
            Some(number) => {
                let meetings = all_meetings(&records(&file));
                assert_eq!(verdict, meetings[0]);
                alone[number] += (meetings.len() == 1) as u32;
                thrice += meetings[1..].iter().any(|other| other[2] == verdict[2]) as u32;
                for (other, files) in behind[number].iter_mut().enumerate() {
                    *files += meetings[1..].iter().any(|meeting| meeting[0] == MEETINGS[other]) as u32;
                }
            }
            None if [0, 14, 15].contains(&verdict[0]) => {
                assert!(all_meetings(&records(&file)).is_empty());
                none += 1;
            }
            None => {}
        }
    }
    assert!(
        none > 1_000 && thrice > 100 && alone.iter().all(|files| *files > 100),
        "{none} {thrice} {alone:?}"
    );
    let [[a, b, c], [never, d, e], [nor, f, g]] = behind;
    assert!([a, b, c, d, e, f, g].iter().all(|files| *files > 20), "{behind:?}");
    assert_eq!([never, nor], [0, 0], "a connection never stands behind a map");
}
