//! Looks: the lamp's box, the order of the checks, what matches, and logix beside the
//! plain coding on generated drawings.

use super::{answer, component, input_map, lamp, loaded, output_map};
use crate::command::Command;
use crate::engine::{nested, Engine};
use crate::gen::drawing::{boxes_profile, drawing, file_of};
use crate::gen::look::path_to;
use crate::gen::random::Random;
use crate::gen::tables::change_values;
use crate::plain::drawing::{Drawing, Id, Record, COMPONENT};
use crate::plain::judge::Refusal;
use crate::plain::look::look;
use crate::program::Program;
use crate::tables::{INPUTS, NUMBERS, WIDTHS, WIRES};
use logix::primitives::primitive::PrimitiveComponent;
use std::panic::{catch_unwind, AssertUnwindSafe};

/// A program that has a drawing loaded and keeps its file.
fn kept(records: &[Record]) -> Program {
    let mut program = loaded(records);
    assert_eq!(answer(&mut program, Command::Keep(file_of(records))), "");
    program
}

/// The line of a look along some ids, without its end.
fn looked(program: &mut Program, ids: &[u32]) -> String {
    let path = ids.iter().map(|id| Id(*id)).collect();
    answer(program, Command::Look { path }).trim_end().to_string()
}

fn write(program: &mut Program, table: usize, place: u16, word: u64) {
    answer(program, Command::WriteWord { table: table as u8, place, word });
}

#[test]
fn the_lamps_box_shows_its_nor() {
    let mut program = kept(&lamp());
    assert_eq!(looked(&mut program, &[3]), "look 0 0 0 2 1 0 1 0 1 0 1");
    answer(&mut program, Command::Run { time: 0, limit: 16 });
    assert_eq!(looked(&mut program, &[3]), "look 0 0 0 2 1 0 1 0 1 1 1");
    answer(&mut program, Command::Edit { index: 1, number: 1 });
    for _ in 0..4 {
        answer(&mut program, Command::Run { time: 0, limit: 16 });
    }
    assert_eq!(looked(&mut program, &[3]), "look 0 0 0 2 1 0 1 1 1 0 1");
    assert_eq!(looked(&mut program, &[3, 4]), "look 0 0 0 2 1 0 1 1 1 0 1");
    assert_eq!(looked(&mut program, &[2]), "look 0 0 0 0 1 1 1");
    assert_eq!(looked(&mut program, &[5]), "look 0 0 0 1 1 0 1 0 1");
    assert_eq!(looked(&mut program, &[]), "look 0 0 0 0 0");
}

#[test]
fn a_path_goes_by_ids_below_the_root() {
    let mut program = kept(&lamp());
    for path in
        [&[100][..], &[100, 3], &[4], &[3, 3], &[3, 4, 4], &[3, 4, 100], &[5, 3], &[0], &[6], &[3; 256]]
    {
        assert_eq!(looked(&mut program, path), "look 20 0 0 0 0", "{path:?}");
    }
}

/// A box whose input goes to a Not, to an inner box's Not, to an inner input that
/// reaches nothing, and an Output.
fn fanned_out(order: [usize; 3]) -> Vec<Record> {
    let maps = [input_map(1, 0, (0, 0)), input_map(1, 0, (1, 0)), input_map(1, 0, (1, 1))];
    let mut records = vec![
        component(0, 0, 0, 0, 10),
        component(0, 0, 1, 1, 11),
        component(3, 1, 1, 1, 12),
        component(0, 1, 2, 0, 13),
        component(3, 3, 1, 1, 14),
    ];
    records.extend(order.map(|at| maps[at]));
    records.extend([input_map(3, 0, (0, 0)), output_map(1, (0, 0))]);
    records
}

#[test]
fn an_input_shows_what_its_maps_reach_last() {
    for (order, last) in [([0, 1, 2], 1), ([1, 0, 2], 0), ([2, 0, 1], 1), ([1, 2, 0], 0)] {
        let mut program = kept(&fanned_out(order));
        write(&mut program, INPUTS, last, 1);
        assert_eq!(looked(&mut program, &[11]), "look 0 0 0 1 1 1 1 0 1", "{order:?}");
        assert_eq!(looked(&mut program, &[11, 13]), "look 21 0 0 0 0");
        assert_eq!(looked(&mut program, &[11, 13, 14]).split(' ').nth(6), Some(["0", "1"][last as usize]));
    }
}

#[test]
fn the_answer_is_laid_over_the_lists() {
    let mut program = kept(&lamp());
    answer(&mut program, Command::Run { time: 0, limit: 16 });
    looked(&mut program, &[3]);
    assert_eq!(program.tables.words[NUMBERS][..4], [0, 0, 1, 7]);
    assert_eq!(program.tables.words[WIDTHS][..4], [1, 1, 1, 7]);
    looked(&mut program, &[99]);
    looked(&mut program, &[]);
    assert_eq!(program.tables.words[NUMBERS][..4], [0, 0, 1, 7]);
    looked(&mut program, &[1]);
    assert_eq!(program.tables.words[NUMBERS][..4], [0, 0, 1, 7]);
    assert_eq!(program.tables.words[WIDTHS][..2], [1, 1]);
}

#[test]
fn the_checks_come_in_their_order() {
    let dangling = [component(0, 0, 1, 0, 10), component(3, 0, 1, 1, 11)];
    let mut program = kept(&dangling);
    assert_eq!(looked(&mut program, &[]), "look 21 0 0 0 0");
    assert_eq!(looked(&mut program, &[11]), "look 0 0 0 1 1 0 1 0 1");
    let shorter = [dangling[0], component(3, 0, 1, 1, 12)];
    answer(&mut program, Command::Keep(file_of(&shorter)));
    assert_eq!(looked(&mut program, &[]), "look 20 0 0 0 0", "20 before 21");
    write(&mut program, INPUTS, 0, 2);
    assert_eq!(looked(&mut program, &[]), "look 16 0 0 0 0", "16 before 20");
    answer(&mut program, Command::Keep(file_of(&[dangling[0], component(3, 0, 2, 1, 12)])));
    assert_eq!(looked(&mut program, &[]), "look 9 1 0 0 0", "9 before 16");
    for table in [0, 3, 6, NUMBERS, WIDTHS] {
        answer(&mut program, Command::Lend { table: table as u8, words: 255 });
        assert_eq!(looked(&mut program, &[]), "look 2 0 0 0 0", "2 before 9");
        answer(&mut program, Command::Keep(vec![0; 25]));
        assert_eq!(looked(&mut program, &[]), "look 1 0 0 0 0", "1 before 2");
        answer(&mut program, Command::Keep(vec![0; 24]));
        answer(&mut program, Command::Lend { table: table as u8, words: 65_535 });
        assert_eq!(looked(&mut program, &[]), "look 3 0 0 0 0");
    }
    answer(&mut program, Command::Lend { table: 7, words: 0 });
    assert_eq!(looked(&mut program, &[]), "look 3 0 0 0 0", "the list of sources is not lent to a look");
}

#[test]
fn only_components_and_wires_must_match() {
    let mut program = kept(&lamp());
    let mut other = |change: fn(&mut Vec<Record>)| {
        let mut records = lamp();
        change(&mut records);
        answer(&mut program, Command::Keep(file_of(&records)));
        looked(&mut program, &[3])
    };
    let shown = "look 0 0 0 2 1 0 1 0 1 0 1";
    assert_eq!(other(|records| records[0].id = 7), shown, "another id of the root");
    assert_eq!(other(|records| records.insert(6, component(0, 0, 0, 0, 9))), shown, "an empty box more");
    assert_eq!(other(|records| records[3].id = 7), "look 20 0 0 0 0", "no box of id 3");
    assert_eq!(other(|records| records[4].id = 7), "look 20 0 0 0 0", "another Nor");
    assert_eq!(other(|records| records[4].component_kind = 1), "look 20 0 0 0 0", "an And for the Nor");
    assert_eq!(other(|records| drop(records.drain(8..9))), "look 20 0 0 0 0", "a connection less");
    assert_eq!(other(|records| records.swap(6, 7)), "look 20 0 0 0 0", "wires in another order");
    assert_eq!(
        other(|records| records.insert(6, component(7, 0, 0, 1, 9))),
        "look 20 0 0 0 0",
        "a Switch more"
    );
    assert_eq!(other(|_| ()), shown);
    for (table, place, word) in [(0, 1, 9), (0, 16, 2), (WIRES, 0, 1)] {
        let mut program = kept(&lamp());
        write(&mut program, table, place, word);
        assert_eq!(looked(&mut program, &[3]), "look 20 0 0 0 0", "{table} {place}");
    }
}

#[test]
fn an_empty_net_is_that_of_a_root_alone() {
    let mut program = Program::new();
    assert_eq!(looked(&mut program, &[]), "look 1 0 0 0 0", "no file is kept at the start");
    answer(&mut program, Command::Keep(file_of(&[component(0, 0, 0, 0, 1)])));
    assert_eq!(looked(&mut program, &[]), "look 0 0 0 0 0");
    answer(&mut program, Command::Keep(file_of(&[component(0, 0, 1, 0, 1)])));
    assert_eq!(looked(&mut program, &[]), "look 21 0 0 0 0");
}

/// Values of their own at every port, which fit.
fn put_values(seed: u64, components: &mut [PrimitiveComponent]) {
    let mut random = Random::new(seed);
    for component in components {
        for port in component.inputs.iter_mut().chain(&mut component.outputs) {
            port.set_value(random.any() as usize);
        }
    }
}

/// Some components of thousands of drawings, after rounds or with any values that fit.
#[test]
fn logix_shows_what_the_plain_coding_shows() {
    let mut random = Random::new(20);
    let (mut boxes, mut dangling, mut wide, mut widest) = (0, 0, 0, 0);
    for _ in 0..4_000 {
        let profile = boxes_profile(&mut random);
        let drawn = drawing(&mut random, profile);
        let mut program = kept(&drawn);
        if random.once_in(3) {
            answer(&mut program, Command::Run { time: random.below(30), limit: 5 });
        } else {
            change_values(&mut random, &mut program.tables);
        }
        let plain = Drawing::new(drawn);
        let components = plain.records.iter().filter(|record| record.kind == COMPONENT).count() as u64;
        for _ in 0..components.min(6) {
            let number = random.below(components) as usize;
            let path = path_to(&plain.records, number);
            match look(&program.tables, &program.kept, &path) {
                Ok(shown) => {
                    assert_eq!(shown, Engine::look(&plain, &program.tables, &path));
                    boxes += plain.records[number].is_composite() as u32;
                    let widths = shown.inputs.iter().chain(&shown.outputs).map(|port| port.width);
                    wide += widths.clone().any(|width| width > 1) as u32;
                    widest += widths.clone().any(|width| width == 64) as u32;
                }
                Err(refused) => {
                    assert_eq!(refused, Refusal::of(21));
                    assert!(plain.records[number].is_composite());
                    dangling += 1;
                }
            }
        }
    }
    assert!(boxes > 4_000 && dangling > 1_000, "{boxes} {dangling}");
    assert!(wide > 1_000 && widest > 100, "{wide} {widest}");
}

/// The difference that `fix_inputs_data_addrs` makes where it does not panic: outputs of
/// Inputs, and nothing else.
#[test]
fn the_original_shows_the_same_but_for_outputs_of_inputs() {
    let mut random = Random::new(22);
    let (mut built, mut same, mut other) = (0, 0, 0);
    while built < 300 {
        let profile = boxes_profile(&mut random);
        let plain = Drawing::new(drawing(&mut random, profile));
        let original = AssertUnwindSafe(|| logix::original_flatten::FlattenComponent::new(nested(&plain, 0)));
        let (Ok(Ok(mut original)), Ok(mut patched)) =
            (catch_unwind(original), logix::flatten::FlattenComponent::new(nested(&plain, 0)))
        else {
            continue;
        };
        built += 1;
        let seed = random.any();
        for components in [&mut patched.components, &mut original.components] {
            put_values(seed, components);
        }
        for number in (0..plain.records.len()).filter(|at| plain.records[*at].kind == COMPONENT) {
            let record = &plain.records[number];
            let path: Vec<usize> = path_to(&plain.records, number).iter().map(|id| id.0 as usize).collect();
            let status =
                |of: &dyn Fn() -> (Vec<logix::Data>, Vec<logix::Data>)| catch_unwind(AssertUnwindSafe(of));
            let ours = status(&|| patched.get_status(&path, None).unwrap());
            let theirs = status(&|| original.get_status(&path, None).unwrap());
            let (Ok(ours), Ok(theirs)) = (ours, theirs) else {
                assert!(
                    record.is_composite() && record.a > 0,
                    "only a dangling input may have no value to show"
                );
                continue;
            };
            assert_eq!(ours.0, theirs.0);
            if record.component_kind == 8 && ours.1 != theirs.1 {
                other += 1;
            } else {
                assert_eq!(ours.1, theirs.1);
                same += 1;
            }
        }
    }
    assert!(same > 1_000 && other > 10, "{same} {other}");
}
