//! Which outputs moved: of a single component, in rounds, and their number in runs.

use super::{answer, component, connection, lamp, loaded};
use crate::command::{Command, Single};
use crate::gen::drawing::{drawing, file_of, running_profile};
use crate::gen::random::Random;
use crate::gen::rounds::edit;
use crate::plain::drawing::Record;
use crate::plain::kinds::Fields;
use crate::plain::net::entries;
use crate::plain::single::PortValue;
use crate::program::Program;
use crate::tables::{CURRENT, FULL_WORDS, MOVED, OUTPUTS};

fn round(program: &mut Program, time: u64) -> String {
    answer(program, Command::Round { time })
}

fn run(program: &mut Program, limit: u16) -> String {
    answer(program, Command::Run { time: 0, limit })
}

fn lend(program: &mut Program, words: u16) {
    answer(program, Command::Lend { table: MOVED as u8, words });
}

fn bits(program: &Program) -> &[u64] {
    &program.tables.words[MOVED]
}

/// What an evaluation gives of a component whose values have the widths of its ports.
fn evaluated(fields: Fields, inputs: &[u64], outputs: &[u64]) -> String {
    let values = |numbers: &[u64], width: u64| -> Vec<PortValue> {
        numbers.iter().map(|number| PortValue { number: *number, width }).collect()
    };
    let (inputs, outputs) = (values(inputs, fields.input_width()), values(outputs, fields.output_width()));
    answer(&mut Program::new(), Command::Evaluate(Single { fields, time: 0, inputs, outputs }))
}

#[test]
fn a_splitter_moves_the_bits_that_differ() {
    let splitter = |bits| Fields { kind: 10, inputs: 1, outputs: bits, width: 0, parameter: bits };
    assert_eq!(evaluated(splitter(3), &[5], &[0, 0, 0]), "evaluate 0 5 1 0 1\n");
    assert_eq!(evaluated(splitter(3), &[5], &[1, 1, 0]), "evaluate 0 6 1 0 1\n");
    assert_eq!(evaluated(splitter(3), &[5], &[1, 0, 1]), "evaluate 0 0 1 0 1\n");
    assert_eq!(evaluated(splitter(3), &[5], &[0, 1, 0]), "evaluate 0 7 1 0 1\n");
    assert_eq!(evaluated(splitter(3), &[8], &[1, 1, 1]), "evaluate 19 0 1 1 1\n");
    let all = evaluated(splitter(32), &[u32::MAX as u64], &[0; 32]);
    assert!(all.starts_with("evaluate 0 4294967295 1 1 "), "{all}");
    let last = evaluated(splitter(32), &[1 << 31], &[0; 32]);
    assert!(last.starts_with("evaluate 0 2147483648 0 0 "), "{last}");
    let all = evaluated(splitter(64), &[u64::MAX], &[0; 64]);
    assert!(all.starts_with("evaluate 0 18446744073709551615 1 1 "), "{all}");
    let last = evaluated(splitter(64), &[1 << 63], &[0; 64]);
    assert!(last.starts_with("evaluate 0 9223372036854775808 0 0 ") && last.ends_with(" 0 1\n"), "{last}");
    let too_wide = evaluated(splitter(65), &[0], &[0; 65]);
    assert!(too_wide.starts_with("evaluate 9 0 0 0 "), "{too_wide}");
}

#[test]
fn values_past_the_ports_have_no_bit() {
    let or = Fields { kind: 2, inputs: 1, outputs: 1, width: 0, parameter: 0 };
    assert_eq!(evaluated(or, &[1, 0], &[0, 1]), "evaluate 0 1 1 1\n");
    assert_eq!(evaluated(or, &[0, 1], &[0, 1]), "evaluate 0 0 0 1\n");
}

#[test]
fn a_switch_and_a_const_do_not_move() {
    let switch = Fields { kind: 7, inputs: 0, outputs: 1, width: 0, parameter: 0 };
    assert_eq!(evaluated(switch, &[], &[1]), "evaluate 0 0 1\n");
    let constant = Fields { kind: 13, inputs: 0, outputs: 1, width: 3, parameter: 5 };
    assert_eq!(evaluated(constant, &[], &[2]), "evaluate 0 0 2\n");
}

/// Entry k is of the component in place k of the list; past them the table keeps its words.
#[test]
fn the_lamp_moves_in_its_first_round() {
    let mut program = loaded(&lamp());
    assert_eq!(round(&mut program, 0), "round 0 0 0 0 1 1\n");
    assert_eq!(bits(&program)[..6], [0, 0, 1, 1, 7, 7]);
    assert_eq!(round(&mut program, 0), "round 0 0 0\n", "the Output, once more");
    assert_eq!(bits(&program)[..6], [0, 0, 1, 1, 7, 7]);
    assert_eq!(round(&mut program, 0), "round 0 0\n", "nobody");
    assert_eq!(bits(&program)[..6], [0, 0, 1, 1, 7, 7]);
    assert_eq!(bits(&program)[4..], [7; 252]);
}

#[test]
fn entries_stand_in_list_order() {
    let mut program = loaded(&lamp());
    let words = vec![3, 2, 0, 1];
    answer(&mut program, Command::WriteWords { table: CURRENT as u8, place: 0, words });
    assert_eq!(round(&mut program, 0), "round 0 0 0 1 0 0\n", "the Output is evaluated before the Nor");
    assert_eq!(round(&mut program, 0), "round 0 0 1\n");
    assert_eq!(bits(&program)[..5], [1, 1, 0, 0, 7]);
}

/// In a net, too, a Splitter has a bit for each output.
#[test]
fn a_splitter_in_a_net() {
    let input = Record { parameter: 3, ..component(8, 0, 1, 1, 1) };
    let splitter = Record { parameter: 3, ..component(10, 0, 1, 3, 2) };
    let mut program = loaded(&[component(0, 0, 0, 0, 100), input, splitter, connection(0, (0, 0), (1, 0))]);
    assert_eq!(run(&mut program, 16), "run 0 1 2 0\n");
    for (number, moved) in [(5, 5), (3, 6), (7, 4), (0, 7)] {
        answer(&mut program, Command::Edit { index: 0, number });
        let lines = [0; 4].map(|time| round(&mut program, time));
        let last = format!("round 0 0 0 {moved}\n");
        assert_eq!(
            lines,
            ["round 0 0\n", "round 0 0\n", "round 0 0 1\n", &last],
            "the Input is set to {number}"
        );
    }
    answer(&mut program, Command::Edit { index: 0, number: 6 });
    assert_eq!(run(&mut program, 16), "run 0 4 3 3\n", "the Input and two outputs of the Splitter");
}

/// The edit has moved it, no evaluation.
#[test]
fn an_edited_switch_has_no_bit() {
    let mut program = loaded(&lamp());
    assert_eq!(run(&mut program, 16), "run 0 2 5 2\n");
    answer(&mut program, Command::Edit { index: 0, number: 1 });
    let lines = [0; 5].map(|time| round(&mut program, time));
    let wanted = ["round 0 0\n", "round 0 0\n", "round 0 0 0\n", "round 0 0 0 1\n", "round 0 0 1\n"];
    assert_eq!(lines, wanted, "the Switch; the Switch and the Nor; the Output");
}

#[test]
fn a_short_table_of_bits_is_2_before_16_and_keeps_everything() {
    let mut program = loaded(&lamp());
    for words in [0, 1, 255] {
        lend(&mut program, words);
        let before = program.tables.clone();
        assert_eq!(round(&mut program, 0), "round 2 0\n");
        answer(&mut program, Command::SetCount { which: CURRENT as u8, number: 257 });
        assert_eq!(round(&mut program, 0), "round 2 0\n", "the tables are no net");
        answer(&mut program, Command::SetCount { which: CURRENT as u8, number: 4 });
        assert_eq!(program.tables, before);
    }
    for words in [256, 257, 65_535] {
        lend(&mut program, words);
        answer(&mut program, Command::SetCount { which: CURRENT as u8, number: 257 });
        assert_eq!(round(&mut program, 0), "round 16 0\n");
        answer(&mut program, Command::SetCount { which: CURRENT as u8, number: 4 });
    }
    assert_eq!(bits(&program), vec![7; FULL_WORDS[MOVED]]);
    assert_eq!(round(&mut program, 0), "round 0 0 0 0 1 1\n");
}

/// It is lent to rounds alone.
#[test]
fn a_run_leaves_the_table_of_bits_alone() {
    let mut program = loaded(&lamp());
    lend(&mut program, 0);
    assert_eq!(run(&mut program, 16), "run 0 2 5 2\n");
    assert_eq!(answer(&mut program, Command::Edit { index: 0, number: 1 }), "edit 0 0\n");
    assert_eq!(answer(&mut program, Command::Calm), "calm 0 0\n");
    assert_eq!(answer(&mut program, Command::Satisfied), "satisfied 0 0\n");
    assert_eq!(answer(&mut program, Command::Index { id: 4 }), "index 0 2\n");
    assert_eq!(answer(&mut program, Command::Value { side: 1, index: 2, port: 0 }), "value 0 1 1\n");
    assert_eq!(answer(&mut program, Command::Sources { index: 3 }), "sources 0 2\n");
    assert_eq!(answer(&mut program, Command::Load(file_of(&lamp()))), "load 0 0 0\n");
    assert_eq!(bits(&program), vec![7; FULL_WORDS[MOVED]]);
    answer(&mut program, Command::SetCount { which: CURRENT as u8, number: 257 });
    assert_eq!(run(&mut program, 16), "run 16 0 0 0\n");
}

/// The numbers behind `round 0 0`.
fn bits_of(line: &str) -> Vec<u64> {
    let words = line.trim_end().strip_prefix("round 0 0").expect("a round that is done");
    words.split_whitespace().map(|word| word.parse().expect("a number")).collect()
}

/// A round evaluates each component once, and only evaluations change outputs: so the bits are
/// where the outputs differ that were there before the round from those that are there after
/// it. A run's number is theirs, over its rounds.
#[test]
fn bits_are_what_rounds_change() {
    let mut random = Random::new(7);
    let (mut seen, mut kept) = (0, 0);
    for _ in 0..120 {
        let profile = running_profile(&mut random);
        let mut program = loaded(&drawing(&mut random, profile));
        for time in 0..6 {
            let command = edit(&mut random, &program.tables);
            answer(&mut program, command);
            let before = program.tables.clone();
            let line = round(&mut program, time);
            let wanted: Vec<u64> = before
                .used(CURRENT)
                .iter()
                .map(|index| {
                    let entry = entries(&before)[*index as usize];
                    let place = |port| (entry.first_output + port) as usize;
                    let other = |port: &u64| {
                        before.words[OUTPUTS][place(*port)] != program.tables.words[OUTPUTS][place(*port)]
                    };
                    (0..entry.fields.outputs).filter(other).map(|port| 1 << port).sum()
                })
                .collect();
            assert_eq!(bits_of(&line), wanted);
            assert_eq!(bits(&program)[..wanted.len()], wanted);
            assert_eq!(bits(&program)[wanted.len()..], before.words[MOVED][wanted.len()..]);
            seen += wanted.iter().filter(|bits| **bits != 0).count();
            kept += wanted.iter().filter(|bits| **bits == 0).count();
        }
        let mut again = Program::new();
        again.tables = program.tables.clone();
        let line = answer(&mut program, Command::Run { time: 6, limit: 5 });
        let numbers: Vec<u64> = line.split_whitespace().skip(2).map(|word| word.parse().unwrap()).collect();
        let rounds = (0..numbers[0]).flat_map(|_| bits_of(&round(&mut again, 6)));
        assert_eq!(rounds.map(|bits| bits.count_ones() as u64).sum::<u64>(), numbers[2], "{line}");
    }
    assert!(seen > 1_000 && kept > 1_000, "{seen} {kept}");
}
