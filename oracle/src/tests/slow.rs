//! The slow engine: its lines on small drawings, worked out by hand, its numbers in their order, and
//! both engines side by side on generated drawings.

use super::{answer, component, connection, input_map, lamp, loaded, output_map};
use crate::command::Command;
use crate::gen::drawing::file_of;
use crate::gen::random::Random;
use crate::gen::rounds::edit;
use crate::gen::slow::any_drawing;
use crate::plain::drawing::{Drawing, Record, CONNECTION};
use crate::plain::slow::Drawn;
use crate::program::Program;
use crate::tables::{
    Tables, FLAT, FULL_WORDS, MOVED, SLOW, SLOW_CURRENT, SLOW_INPUTS, SLOW_OUTPUTS, SLOW_STANDING,
};

fn keep(program: &mut Program, records: &[Record]) {
    answer(program, Command::Keep(file_of(records)));
}

/// A program whose slow engine has a drawing loaded.
fn slow(records: &[Record]) -> Program {
    let mut program = Program::new();
    keep(&mut program, records);
    assert_eq!(answer(&mut program, Command::SlowLoad), "load 0 0 0\n");
    program
}

fn round(program: &mut Program) -> String {
    answer(program, Command::SlowRound { time: 0 })
}

fn run(program: &mut Program, limit: u16) -> String {
    answer(program, Command::SlowRun { time: 0, limit })
}

fn stand(program: &mut Program, index: u16, number: u64) -> String {
    answer(program, Command::SlowEdit { index, number })
}

fn first(program: &mut Program, index: u16, number: u64) -> String {
    answer(program, Command::SlowEditFirst { index, number })
}

fn write(program: &mut Program, table: usize, place: u16, word: u64) {
    answer(program, Command::WriteWord { table: table as u8, place, word });
}

fn count(program: &mut Program, which: usize, number: u64) {
    answer(program, Command::SetCount { which: which as u8, number });
}

fn lend(program: &mut Program, table: usize, words: u16) {
    answer(program, Command::Lend { table: table as u8, words });
}

/// The numbers of all five calls, loads first.
fn numbers(program: &mut Program) -> [u64; 5] {
    let calls = [
        Command::SlowLoad,
        Command::SlowRound { time: 0 },
        Command::SlowEdit { index: 0, number: 1 },
        Command::SlowEditFirst { index: 0, number: 1 },
        Command::SlowRun { time: 0, limit: 3 },
    ];
    calls.map(|call| answer(program, call).split_whitespace().nth(1).unwrap().parse().unwrap())
}

// ---- The lamp drawing.

const LAMP_LOADED: &str = "inputs 0 0 0\noutputs 0 0 0 0\ncurrent 0 1 2 3\nfollowing\nstanding\n";

#[test]
fn the_lamp_is_loaded_and_run() {
    let mut program = slow(&lamp());
    assert_eq!(answer(&mut program, Command::SlowState), LAMP_LOADED);
    assert_eq!(round(&mut program), "round 0 0 0 0 0 1 1\n");
    let after = "inputs 0 0 1\noutputs 0 0 1 1\ncurrent 3\nfollowing\nstanding\n";
    assert_eq!(answer(&mut program, Command::SlowState), after);
    assert_eq!(round(&mut program), "round 0 0 0 0\n", "the Output, once more");
    assert_eq!(round(&mut program), "round 0 0 0\n", "nobody");
    let mut program = slow(&lamp());
    assert_eq!(run(&mut program, 0), "run 0 0 0 0 0 0\n");
    assert_eq!(answer(&mut program, Command::SlowState), LAMP_LOADED);
    assert_eq!(run(&mut program, 65_535), "run 0 0 0 2 5 2\n");
    assert_eq!(run(&mut program, 65_535), "run 0 0 0 1 0 0\n");
}

/// The timing case of the specification, in both ways.
#[test]
fn a_switch_of_the_lamp_gets_out_as_in_the_flat_engine() {
    let mut program = slow(&lamp());
    run(&mut program, 2);
    assert_eq!(stand(&mut program, 0, 1), "edit 0 0 0\n");
    let mut lists = vec![];
    for _ in 3..=7 {
        lists.push(program.tables.used(SLOW_CURRENT).to_vec());
        round(&mut program);
    }
    assert_eq!(lists, [vec![], vec![], vec![0], vec![0, 2], vec![3]]);
    assert_eq!(first(&mut program, 0, 0), "first 0 0 0\n");
    assert_eq!(run(&mut program, 16), "run 0 0 0 3 3 2\n");
    stand(&mut program, 1, 1);
    assert_eq!(run(&mut program, 16), "run 0 0 0 5 4 2\n");
}

// ---- Boxes in boxes.

/// A Switch into a box, and its output to an Output. In the box are a Not and another box, which
/// has an Input and a Not. The box's input goes to the inner box's second input, and then to the
/// Not; the inner box's second input goes to its Not, and then to its Input; its first leads
/// nowhere, and nowhere from. Its Not is the output of both boxes.
fn boxes() -> Vec<Record> {
    vec![
        component(0, 0, 0, 0, 100),
        component(7, 0, 0, 1, 1),
        component(0, 0, 1, 1, 2),
        component(3, 2, 1, 1, 3),
        component(0, 2, 2, 1, 4),
        Record { parameter: 1, ..component(8, 4, 1, 1, 5) },
        component(3, 4, 1, 1, 6),
        Record { parameter: 1, ..component(9, 0, 1, 1, 7) },
        connection(0, (0, 0), (1, 0)),
        connection(0, (1, 0), (2, 0)),
        input_map(2, 0, (1, 1)),
        input_map(2, 0, (0, 0)),
        input_map(4, 1, (1, 0)),
        input_map(4, 1, (0, 0)),
        output_map(2, (1, 0)),
        output_map(4, (1, 0)),
    ]
}

/// Flat indexes: the Switch 0, the outer Not 1, the Input 2, the inner Not 3, the Output 4.
#[test]
fn an_input_goes_down_through_the_maps_in_their_order() {
    let mut program = slow(&boxes());
    assert_eq!(first(&mut program, 0, 1), "first 0 0 0\n");
    assert_eq!(round(&mut program), "round 0 0 0 0 0 1 0 0\n", "the Input alone moves");
    let after = "inputs 1 1 1 0\noutputs 1 0 1 0 0\ncurrent 3 2 1\nfollowing\nstanding\n";
    assert_eq!(answer(&mut program, Command::SlowState), after);
    assert_eq!(run(&mut program, 16), "run 0 0 0 1 3 0\n");
    first(&mut program, 0, 0);
    assert_eq!(round(&mut program), "round 0 0 0 0\n");
    let after = "inputs 0 0 0 0\noutputs 0 0 1 0 0\ncurrent 3 2 1\nfollowing\nstanding\n";
    assert_eq!(answer(&mut program, Command::SlowState), after);
    assert_eq!(round(&mut program), "round 0 0 0 1 1 1\n");
    let after = "inputs 0 0 0 1\noutputs 0 1 0 1 0\ncurrent 4\nfollowing\nstanding\n";
    assert_eq!(answer(&mut program, Command::SlowState), after);
    assert_eq!(round(&mut program), "round 0 0 0 1\n", "the inner Not is the box's output");
}

/// The Input in the inner box is driven through both boxes; without the connection into the outer
/// one it is not, though a map enters it. A connection within a box drives it as well.
#[test]
fn an_input_is_driven_by_connections_and_not_by_maps() {
    let mut program = slow(&boxes());
    assert_eq!(stand(&mut program, 2, 1), "edit 18 0 0\n");
    assert_eq!(first(&mut program, 2, 1), "first 18 0 0\n");
    let mut records = boxes();
    records.remove(8);
    let mut program = slow(&records);
    assert_eq!(stand(&mut program, 2, 2), "edit 19 0 0\n");
    assert_eq!(stand(&mut program, 2, 1), "edit 0 0 0\n");
    assert_eq!(first(&mut program, 2, 1), "first 0 0 0\n");
    let after = "inputs 0 1 0 0\noutputs 0 0 0 0 0\ncurrent 0 1 2 3 4\nfollowing\nstanding 2\n";
    assert_eq!(answer(&mut program, Command::SlowState), after);
    records.insert(9, connection(2, (0, 0), (1, 1)));
    records.remove(10);
    let mut program = slow(&records);
    assert_eq!(first(&mut program, 2, 1), "first 18 0 0\n", "the outer Not drives it through the inner box");
}

/// Components 0 to 14 in one another, the last of them holding a Not at depth 16, whose output goes
/// up through all boxes and back down into it.
#[test]
fn a_not_at_depth_16_drives_itself() {
    let mut records = vec![component(0, 0, 0, 0, 100)];
    records.extend((0..14).map(|owner| component(0, owner, 1, 1, owner as u32)));
    records.push(component(3, 14, 1, 1, 99));
    records.push(connection(0, (0, 0), (0, 0)));
    records.extend((1..15).map(|owner| input_map(owner, 0, (0, 0))));
    records.extend((1..15).map(|owner| output_map(owner, (0, 0))));
    let mut program = slow(&records);
    for (bit, state) in [(1, "1\noutputs 1"), (1, "0\noutputs 0"), (1, "1\noutputs 1")] {
        assert_eq!(round(&mut program), format!("round 0 0 0 {bit}\n"));
        let after = format!("inputs {state}\ncurrent 0\nfollowing\nstanding\n");
        assert_eq!(answer(&mut program, Command::SlowState), after);
    }
    assert_eq!(run(&mut program, 65_535), "run 0 0 0 65535 65535 65535\n");
}

/// A root that is a primitive has nobody around it.
#[test]
fn a_root_that_is_an_input_is_not_driven() {
    let mut program = slow(&[Record { parameter: 64, ..component(8, 0, 1, 1, 1) }]);
    assert_eq!(first(&mut program, 0, u64::MAX), "first 0 0 0\n");
    assert_eq!(round(&mut program), "round 0 0 0 1\n");
    assert_eq!(program.tables.used(SLOW_OUTPUTS), [u64::MAX]);
    assert_eq!(stand(&mut program, 1, 0), "edit 17 0 0\n");
}

/// Three masts that vote, which logix has none of.
#[test]
fn a_majority_is_run() {
    let mut records = vec![component(0, 0, 0, 0, 100)];
    records.extend((1..4).map(|id| component(7, 0, 0, 1, id)));
    records.push(component(15, 0, 3, 1, 4));
    records.extend((0..3).map(|mast| connection(0, (mast, 0), (3, mast))));
    let mut program = slow(&records);
    assert_eq!(run(&mut program, 16), "run 0 0 0 1 4 0\n");
    first(&mut program, 0, 1);
    assert_eq!(run(&mut program, 16), "run 0 0 0 2 2 0\n", "one of three");
    first(&mut program, 2, 1);
    assert_eq!(run(&mut program, 16), "run 0 0 0 2 2 1\n", "two of three");
    assert_eq!(program.tables.used(SLOW_OUTPUTS), [1, 0, 1, 1]);
}

// ---- The numbers.

#[test]
fn the_checks_come_in_their_order() {
    let mut program = slow(&lamp());
    answer(&mut program, Command::Keep(vec![1; 25]));
    lend(&mut program, SLOW_STANDING, 255);
    assert_eq!(numbers(&mut program), [1; 5], "1 before 2");
    answer(&mut program, Command::Keep(vec![0; 24]));
    assert_eq!(numbers(&mut program), [2; 5], "2 before 3");
    lend(&mut program, SLOW_STANDING, 256);
    count(&mut program, SLOW_CURRENT, 257);
    assert_eq!(numbers(&mut program), [3; 5], "3 before 20");
    let mut records = lamp();
    records.insert(11, input_map(3, 1, (0, 0)));
    keep(&mut program, &records);
    assert_eq!(round(&mut program), "round 23 11 9\n");
    assert_eq!(run(&mut program, 5), "run 23 11 9 0 0 0\n");
    assert_eq!(stand(&mut program, 9, 9), "edit 23 11 9\n");
    assert_eq!(first(&mut program, 9, 9), "first 23 11 9\n");
    assert_eq!(answer(&mut program, Command::SlowLoad), "load 23 11 9\n");
    keep(&mut program, &lamp());
    assert_eq!(stand(&mut program, 4, 2), "edit 20 0 0\n", "20 before 17");
    count(&mut program, SLOW_CURRENT, 4);
    assert_eq!(stand(&mut program, 4, 2), "edit 17 0 0\n");
    assert_eq!(stand(&mut program, 2, 2), "edit 18 0 0\n", "18 before 19");
    assert_eq!(first(&mut program, 3, 0), "first 18 0 0\n");
    assert_eq!(first(&mut program, 0, 2), "first 19 0 0\n");
    assert_eq!(first(&mut program, 0, 1), "first 0 0 0\n");
}

#[test]
fn any_of_its_tables_may_be_short_and_no_other() {
    let mut program = slow(&lamp());
    for table in SLOW {
        for words in [0, FULL_WORDS[table] as u16 - 1] {
            lend(&mut program, table, words);
            assert_eq!(numbers(&mut program), [2; 5], "table {table}");
        }
        lend(&mut program, table, FULL_WORDS[table] as u16);
    }
    lend(&mut program, MOVED, 255);
    assert_eq!(numbers(&mut program), [0, 2, 0, 0, 0], "rounds alone are lent the bits");
    count(&mut program, SLOW_CURRENT, 257);
    assert_eq!(round(&mut program), "round 2 0 0\n", "2 before 20");
    lend(&mut program, MOVED, 256);
    assert_eq!(round(&mut program), "round 20 0 0\n");
    (0..MOVED).for_each(|table| lend(&mut program, table, 0));
    assert_eq!(numbers(&mut program), [0; 5], "the flat engine's tables play no part");
}

/// Each clause of 20, one at a time; then the tables are right again.
#[test]
fn tables_that_are_not_right() {
    let mut program = slow(&boxes());
    for table in [SLOW_INPUTS, SLOW_OUTPUTS] {
        let ports = program.tables.count(table);
        for number in [ports - 1, ports + 1, 0, 1_025, ports + (1 << 32), u64::MAX] {
            count(&mut program, table, number);
            assert_eq!(run(&mut program, 0), "run 20 0 0 0 0 0\n");
        }
        count(&mut program, table, ports);
        write(&mut program, table, 3, 2);
        assert_eq!(run(&mut program, 0), "run 20 0 0 0 0 0\n", "a value that does not fit");
        write(&mut program, table, 3, 0);
        assert_eq!(run(&mut program, 0), "run 0 0 0 0 0 0\n");
    }
    for list in SLOW_CURRENT..=SLOW_STANDING {
        let length = program.tables.count(list);
        for number in [257, 65_536, length + (1 << 32), 1 << 63, u64::MAX] {
            count(&mut program, list, number);
            assert_eq!(run(&mut program, 0), "run 20 0 0 0 0 0\n");
        }
        for (names, refused) in
            [(&[4, 0][..], 0), (&[4, 5], 20), (&[4, 65_535], 20), (&[4, 0, 4], 20), (&[0, 0], 20)]
        {
            let words = names.to_vec();
            answer(&mut program, Command::WriteWords { table: list as u8, place: 0, words });
            count(&mut program, list, names.len() as u64);
            assert_eq!(run(&mut program, 0), format!("run {refused} 0 0 0 0 0\n"), "{names:?}");
        }
        count(&mut program, list, 0);
    }
    assert_eq!(run(&mut program, 0), "run 0 0 0 0 0 0\n");
}

#[test]
fn a_const_keeps_its_value() {
    let constant = Record { c: 3, parameter: 5, ..component(13, 0, 0, 1, 1) };
    let mut program = slow(&[component(0, 0, 0, 0, 100), constant]);
    let state = "inputs\noutputs 5\ncurrent 0\nfollowing 0\nstanding 0\n";
    assert_eq!(answer(&mut program, Command::SlowState), state);
    for (word, refused) in [(4, 20), (0, 20), (13, 20), (5, 0)] {
        write(&mut program, SLOW_OUTPUTS, 0, word);
        assert_eq!(
            round(&mut program),
            format!("round {refused} 0 0{}\n", if refused == 0 { " 0" } else { "" })
        );
    }
    let state = "inputs\noutputs 5\ncurrent 0\nfollowing\nstanding\n";
    assert_eq!(answer(&mut program, Command::SlowState), state);
}

/// A list of 256 names 256 components, and a file has at most 255 primitives: so a full list has a
/// repeat, and one of 255 may be right.
#[test]
fn a_list_of_256_is_never_right() {
    let mut records = vec![component(0, 0, 0, 0, 1_000)];
    records.extend((0..255).map(|id| component(7, 0, 0, 1, id)));
    let mut program = slow(&records);
    assert_eq!(round(&mut program), format!("round 0 0 0{}\n", " 0".repeat(255)));
    for index in (0..255).rev() {
        assert_eq!(first(&mut program, index, 1), "first 0 0 0\n");
    }
    let words = (0..255).rev().collect();
    assert_eq!(*program.tables.used(SLOW_CURRENT), words);
    answer(&mut program, Command::WriteWords { table: SLOW_CURRENT as u8, place: 0, words });
    assert_eq!(run(&mut program, 0), "run 0 0 0 0 0 0\n");
    for word in [0, 254, 255, 65_535] {
        write(&mut program, SLOW_CURRENT, 255, word);
        count(&mut program, SLOW_CURRENT, 256);
        assert_eq!(run(&mut program, 0), "run 20 0 0 0 0 0\n", "{word}");
    }
    count(&mut program, SLOW_CURRENT, 257);
    assert_eq!(run(&mut program, 0), "run 20 0 0 0 0 0\n");
}

#[test]
fn a_refused_call_writes_nothing() {
    let mut program = slow(&boxes());
    round(&mut program);
    write(&mut program, SLOW_INPUTS, 0, 2);
    let before = program.tables.clone();
    assert_eq!(numbers(&mut program)[1..], [0; 4], "a load repairs it");
    program.tables = before.clone();
    for call in [
        Command::SlowRound { time: 0 },
        Command::SlowEdit { index: 0, number: 1 },
        Command::SlowEditFirst { index: 0, number: 1 },
        Command::SlowRun { time: 0, limit: 9 },
    ] {
        assert!(answer(&mut program, call).contains(" 20 0 0"));
        assert_eq!(program.tables, before);
    }
    answer(&mut program, Command::Keep(vec![]));
    assert_eq!(numbers(&mut program), [1; 5]);
    assert_eq!(program.tables, before);
}

/// What is past the counts stays: a run of two rounds leaves what the first one wrote.
#[test]
fn words_past_the_counts_stay() {
    let mut program = slow(&lamp());
    assert_eq!(program.tables.words[SLOW_INPUTS][..5], [0, 0, 0, 7, 7]);
    run(&mut program, 16);
    assert_eq!(program.tables.words[SLOW_CURRENT][..5], [3, 1, 2, 3, 7]);
    assert_eq!(program.tables.counts, [0; 7]);
    assert_eq!(program.tables.words[FLAT[0]], Tables::new().words[FLAT[0]]);
    assert_eq!(program.tables.words[MOVED], Tables::new().words[MOVED], "a run is not lent the bits");
    round(&mut program);
    first(&mut program, 1, 1);
    round(&mut program);
    assert_eq!(program.tables.words[MOVED][..2], [0, 7]);
}

#[test]
fn its_counts_are_its_own() {
    let mut program = loaded(&lamp());
    keep(&mut program, &lamp());
    answer(&mut program, Command::SlowLoad);
    count(&mut program, SLOW_STANDING, 257);
    assert_eq!(answer(&mut program, Command::SlowState), "counts past the tables\n");
    assert_eq!(answer(&mut program, Command::State), LAMP_LOADED);
    count(&mut program, SLOW_STANDING, 0);
    count(&mut program, 4, 257);
    assert_eq!(answer(&mut program, Command::State), "counts past the tables\n");
    assert_eq!(answer(&mut program, Command::SlowState), LAMP_LOADED);
    for which in SLOW {
        count(&mut program, which, FULL_WORDS[which] as u64 + 1);
        assert_eq!(answer(&mut program, Command::SlowState), "counts past the tables\n");
        count(&mut program, which, 0);
    }
}

/// Tables that are right for another file as well: its calls run that file.
#[test]
fn another_file_is_run_where_the_tables_are_right_for_it() {
    let mut program = slow(&lamp());
    run(&mut program, 16);
    let mut records = lamp();
    records[4].component_kind = 2;
    keep(&mut program, &records);
    assert_eq!(first(&mut program, 0, 1), "first 0 0 0\n");
    assert_eq!(round(&mut program), "round 0 0 0 0\n");
    assert_eq!(round(&mut program), "round 0 0 0 0\n", "an Or for the Nor: it was high already");
    keep(&mut program, &lamp());
    assert_eq!(first(&mut program, 0, 0), "first 0 0 0\n");
    assert_eq!(round(&mut program), "round 0 0 0 0\n");
    assert_eq!(round(&mut program), "round 0 0 0 0\n", "the Nor is high, as the Or was");
    keep(&mut program, &records[..1]);
    assert_eq!(round(&mut program), "round 20 0 0\n");
    answer(&mut program, Command::Keep(file_of(&records[..2])));
    assert_eq!(round(&mut program), "round 20 0 0\n");
}

#[test]
fn before_any_load() {
    let mut program = Program::new();
    assert_eq!(numbers(&mut program), [1; 5], "no file is kept at the start");
    keep(&mut program, &lamp());
    assert_eq!(numbers(&mut program)[1..], [0; 4]);
    let mut program = Program::new();
    keep(&mut program, &lamp());
    assert_eq!(round(&mut program), "round 20 0 0\n");
    keep(&mut program, &[component(0, 0, 0, 0, 1)]);
    assert_eq!(round(&mut program), "round 0 0 0\n", "tables of no ports are a root's alone");
    assert_eq!(run(&mut program, 9), "run 0 0 0 1 0 0\n");
}

// ---- Both engines.

/// The ports and the lists of both engines.
fn both(tables: &Tables) -> [Vec<&[u64]>; 2] {
    [FLAT, SLOW].map(|five| five.into_iter().map(|table| tables.used(table)).collect())
}

/// A line of the slow engine as the flat one would give it.
fn as_flat(line: String) -> String {
    let words: Vec<&str> = line.split_whitespace().collect();
    let (head, rest) = match words[0] {
        "run" => (2, 4),
        _ => (3, 4),
    };
    assert!(words[head..rest].iter().all(|word| *word == "0"), "{line}");
    [&words[..head], &words[rest..]].concat().join(" ") + "\n"
}

#[test]
fn both_engines_do_the_same() {
    let mut random = Random::new(11);
    let (mut done, mut refused) = (0, 0);
    for _ in 0..300 {
        let file = file_of(&any_drawing(&mut random));
        let mut program = Program::new();
        let load = answer(&mut program, Command::Load(file.clone()));
        answer(&mut program, Command::Keep(file));
        assert_eq!(answer(&mut program, Command::SlowLoad), load);
        for time in 0..10 {
            let (call, slowly) = match random.below(4) {
                0 => (Command::Run { time, limit: 7 }, Command::SlowRun { time, limit: 7 }),
                1 => (Command::Round { time }, Command::SlowRound { time }),
                _ => match edit(&mut random, &program.tables) {
                    Command::Edit { index, number } => {
                        (Command::Edit { index, number }, Command::SlowEdit { index, number })
                    }
                    Command::EditFirst { index, number } => {
                        (Command::EditFirst { index, number }, Command::SlowEditFirst { index, number })
                    }
                    _ => unreachable!("an edit"),
                },
            };
            let line = answer(&mut program, call);
            assert_eq!(as_flat(answer(&mut program, slowly)), line);
            let [flat, slow] = both(&program.tables);
            assert_eq!(flat, slow);
            match line.contains(" 0 ") {
                true => done += 1,
                false => refused += 1,
            }
        }
    }
    assert!(done > 1_000 && refused > 100, "{done} {refused}");
}

/// How many boxes an output of the drawing comes up through, at most.
fn most_levels(drawing: &Drawing) -> usize {
    let levels = |mut port: (usize, usize)| {
        let mut levels = 0;
        while drawing.records[port.0].is_composite() {
            let map = drawing.output_maps[port.0][port.1];
            port = (drawing.child(map.owner, map.a).unwrap(), map.b as usize);
            levels += 1;
        }
        levels
    };
    let connections = drawing.records.iter().filter(|record| record.kind == CONNECTION);
    let sources = connections.map(|line| (drawing.child(line.owner, line.a).unwrap(), line.b as usize));
    sources.map(levels).max().unwrap_or(0)
}

/// Drawings in which a connection leads to several inputs, or to none, in which an output comes up
/// through several boxes, and in which a map enters an Input that is driven, or is not.
#[test]
fn generated_drawings_have_boxes_of_every_sort() {
    let mut random = Random::new(12);
    let mut found = [0; 5];
    for _ in 0..400 {
        let drawn = any_drawing(&mut random);
        let slow = Drawn::new(&file_of(&drawn));
        let drawing = Drawing::new(drawn);
        let connections = drawing.records.iter().filter(|record| record.kind == CONNECTION);
        let wires: Vec<usize> = connections.map(|line| drawing.wires_of(line).len()).collect();
        let mapped: Vec<u16> =
            slow.inputs().into_iter().filter(|(_, mapped)| *mapped).map(|(at, _)| at).collect();
        let driven = |index: &u16| slow.edit_failing(*index, 0) == [18];
        found[0] += wires.iter().any(|wires| *wires > 1) as u32;
        found[1] += wires.contains(&0) as u32;
        found[2] += (most_levels(&drawing) > 2) as u32;
        found[3] += mapped.iter().any(driven) as u32;
        found[4] += mapped.iter().any(|index| !driven(index)) as u32;
    }
    assert!(found.iter().all(|drawings| *drawings > 40), "{found:?}");
}
