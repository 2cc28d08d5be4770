//! Where logix and the plain coding say the same thing, on generated drawings.

use super::{answer, lamp};
use crate::command::Command;
use crate::engine::{nested, Engine};
use crate::gen::drawing::{any_profile, drawing, file_of, running_profile};
use crate::gen::judge::any_file;
use crate::gen::random::Random;
use crate::gen::rounds::step;
use crate::plain::drawing::{records, Drawing, Record, CONNECTION, INPUT_MAP};
use crate::plain::flat::wire_words;
use crate::plain::judge::{judge, words, MEETINGS};
use crate::plain::net::{broken, is_net};
use crate::program::Program;
use crate::tables::{Tables, COMPONENTS, FULL_WORDS, INPUTS, OUTPUTS, WIRES};
use std::collections::HashSet;
use std::panic::{catch_unwind, AssertUnwindSafe};

/// What logix's `build` says where it panics.
fn build_panic(drawing: &Drawing) -> Option<String> {
    let panic = catch_unwind(AssertUnwindSafe(|| nested(drawing, 0))).err()?;
    Some(panic.downcast_ref::<String>().expect("it says why").clone())
}

/// What `build` says of an input that is entered twice, at the later of the two records.
fn two_entries(drawing: &Drawing, later: &Record) -> String {
    let id = drawing.records[later.owner as usize].id;
    let from = match later.kind {
        CONNECTION => format!("[{}; {}]", later.a, later.b),
        _ => format!("input {}", later.a),
    };
    format!("[{id}] Input {} of comp {} has two entries (one from {from})", later.d, later.c)
}

/// How many records enter an input that an earlier one has entered.
fn later_entries(drawing: &Drawing) -> usize {
    let mut entered = HashSet::new();
    let entering = drawing.records.iter().filter(|record| [CONNECTION, INPUT_MAP].contains(&record.kind));
    entering.filter(|record| !entered.insert((record.owner, record.c, record.d))).count()
}

/// `build` goes composite by composite, inner ones first, so with one meeting alone it
/// panics at the very record that is refused; with several, at one of them.
#[test]
fn build_panics_exactly_where_13_22_or_23_is_given() {
    let mut random = Random::new(13);
    let (mut met, mut alone, mut once) = ([0; 3], [0; 3], 0);
    for _ in 0..4_500 {
        let file = any_file(&mut random);
        let drawing = Drawing::new(records(&file));
        if !Engine::has_kinds_of(&drawing) {
            continue;
        }
        let [number, position, _] = words(judge(&file));
        match MEETINGS.iter().position(|meeting| *meeting == number) {
            Some(at) => {
                let said = build_panic(&drawing).expect("a panic");
                assert!(said.contains(" has two entries (one from "), "{said}");
                met[at] += 1;
                if later_entries(&drawing) == 1 {
                    assert_eq!(said, two_entries(&drawing, &drawing.records[position as usize]));
                    alone[at] += 1;
                }
            }
            None if [0, 14, 15].contains(&number) => {
                assert_eq!(build_panic(&drawing), None);
                once += 1;
            }
            None => {}
        }
    }
    assert!(met.iter().chain(&alone).all(|files| *files > 20) && once > 400, "{met:?} {alone:?} {once}");
}

#[test]
fn wires_are_those_of_the_plain_descent() {
    let mut random = Random::new(3);
    let mut several = 0;
    for _ in 0..300 {
        let profile = any_profile(&mut random);
        let drawn = drawing(&mut random, profile);
        let mut program = Program::new();
        answer(&mut program, Command::Load(file_of(&drawn)));
        let plain = Drawing::new(drawn);
        assert_eq!(program.tables.used(WIRES), wire_words(&plain));
        assert!(is_net(&program.tables));
        several += plain.records.iter().filter(|r| r.kind == 2 && plain.wires_of(r).len() > 1).count();
    }
    assert!(several > 100, "connections that give several wires: {several}");
}

/// The tables that an engine built from the tables would write.
fn rebuilt(tables: &Tables) -> Tables {
    let mut copy = Tables::new();
    Engine::of_tables(tables).write_net(&mut copy);
    copy
}

#[test]
fn an_engine_built_from_the_tables_is_the_living_one() {
    let mut random = Random::new(4);
    for _ in 0..60 {
        let profile = running_profile(&mut random);
        let file = file_of(&drawing(&mut random, profile));
        let mut program = Program::new();
        answer(&mut program, Command::Load(file));
        for time in 0..10 {
            let copy = rebuilt(&program.tables);
            assert_eq!(copy.counts, program.tables.counts);
            for table in 0..7 {
                assert_eq!(copy.used(table), program.tables.used(table));
            }
            let command = step(&mut random, &program.tables, time);
            let mut other = Program::new();
            other.tables = copy;
            assert_eq!(answer(&mut program, command.clone()), answer(&mut other, command));
        }
    }
}

#[test]
fn a_reached_state_stays_a_net() {
    let mut random = Random::new(5);
    for _ in 0..60 {
        let profile = running_profile(&mut random);
        let file = file_of(&drawing(&mut random, profile));
        let mut program = Program::new();
        answer(&mut program, Command::Load(file));
        for time in 0..12 {
            let command = step(&mut random, &program.tables, time);
            answer(&mut program, command);
            assert_eq!(broken(&program.tables), None);
        }
    }
}

#[test]
fn generated_drawings_reach_every_limit() {
    let mut random = Random::new(6);
    let mut reached = [0; 10];
    for _ in 0..1_500 {
        let profile = any_profile(&mut random);
        let drawn = drawing(&mut random, profile);
        let mut program = Program::new();
        answer(&mut program, Command::Load(file_of(&drawn)));
        let counts = program.tables.counts;
        let components = drawn.iter().filter(|record| record.kind == 1).count();
        reached[0] += (drawn.len() == 1_024) as u32;
        reached[1] += (components == 256) as u32;
        reached[2] += (counts[INPUTS] == 1_024) as u32;
        reached[3] += (counts[OUTPUTS] == 1_024) as u32;
        reached[4] += (depth(&drawn) == 16) as u32;
        reached[5] += (counts[COMPONENTS] == 255) as u32;
        reached[6] += drawn.iter().any(|r| r.is_composite() && (r.a == 64 || r.b == 64)) as u32;
        for (limit, kind) in [(7, 10), (8, 11)] {
            reached[limit] += drawn.iter().any(|r| r.component_kind == kind && r.parameter == 64) as u32;
        }
        reached[9] += drawn.iter().any(|r| r.component_kind == 13 && r.parameter == u64::MAX) as u32;
    }
    assert!(reached.iter().all(|times| *times > 0), "{reached:?}");
}

fn depth(records: &[Record]) -> usize {
    let mut depths: Vec<usize> = vec![1];
    for record in records.iter().skip(1).filter(|record| record.kind == 1) {
        depths.push(depths[record.owner as usize] + 1);
    }
    depths.into_iter().max().unwrap_or(0)
}

#[test]
fn any_tables_get_an_answer() {
    let mut random = Random::new(7);
    let mut program = Program::new();
    answer(&mut program, Command::Load(file_of(&lamp())));
    for _ in 0..20_000 {
        let table = random.below(7) as usize;
        let place = random.below(24.min(FULL_WORDS[table] as u64)) as usize;
        let word = random.pick(&[0, 1, 2, 3, 7, 256, 1_024, 65_535, u32::MAX as u64, u64::MAX]);
        program.tables.write_word(table, place, word);
        program.tables.set_count(random.below(7) as usize, word);
        is_net(&program.tables);
        if random.once_in(20) {
            answer(&mut program, Command::Load(file_of(&lamp())));
        }
    }
}

#[test]
fn any_bytes_get_an_answer() {
    let mut random = Random::new(8);
    for _ in 0..3_000 {
        let mut file = any_file(&mut random);
        for _ in 0..random.below(6) {
            if !file.is_empty() {
                let at = random.below(file.len() as u64) as usize;
                file[at] = random.pick(&[0, 1, 2, 3, 4, 255]);
            }
        }
        let [number, position, earlier] = words(judge(&file));
        assert!(position < 1_024);
        match MEETINGS.contains(&number) {
            true => assert!(0 < earlier && earlier < position),
            false => assert!(number <= 15 && number != 2 && earlier == 0),
        }
    }
}
