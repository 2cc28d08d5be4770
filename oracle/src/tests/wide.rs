//! Values of up to 64 bits: alone, in files, in evaluations, in nets that run, in edits and in the tables.

use super::{answer, component, connection, loaded, verdict};
use crate::command::{Command, Single};
use crate::plain::drawing::Record;
use crate::plain::kinds::{fits, greatest, Fields};
use crate::plain::single::PortValue;
use crate::program::Program;
use crate::tables::{COMPONENTS, INPUTS, OUTPUTS};
use logix::Data;
use std::panic::catch_unwind;

/// 2^64 - 1 and 2^63, as lines have them.
const MOST: &str = "18446744073709551615";
const HALF: &str = "9223372036854775808";

/// The kinds that have bits: Input, Output, Splitter, Joiner and Const.
const OF_BITS: [u8; 5] = [8, 9, 10, 11, 13];

/// A component of one of these kinds, with the ports that go with its bits; a Const of 0.
fn of_bits(kind: u8, bits: u16, id: u32) -> Record {
    let one_port = Record { parameter: bits as u64, ..component(kind, 0, 1, 1, id) };
    match kind {
        10 => Record { b: bits, ..one_port },
        11 => Record { a: bits, ..one_port },
        13 => Record { a: 0, c: bits, parameter: 0, ..one_port },
        _ => one_port,
    }
}

fn root() -> Record {
    component(0, 0, 0, 0, 100)
}

#[test]
fn data_holds_64_bits() {
    for bits in 1..=64 {
        let ones = Data::new(usize::MAX, bits);
        assert_eq!(ones.value as u64, greatest(bits as u64));
        assert_eq!([!Data::new(0, bits), !ones], [ones, Data::new(0, bits)]);
        assert_eq!([ones.get_bit(bits - 1), ones.get_bit(bits)], [true, false]);
    }
    assert_eq!((!Data::new(0, 64)).value, usize::MAX);
    for bits in [0, 65] {
        assert!(catch_unwind(|| Data::new(0, bits)).is_err());
    }
}

#[test]
fn every_number_fits_64_bits() {
    for width in 1..64 {
        assert!(fits(greatest(width), width));
        assert!(!fits(greatest(width) + 1, width) && !fits(u64::MAX, width));
    }
    assert_eq!(greatest(64), u64::MAX);
    assert!(fits(u64::MAX, 64));
}

#[test]
fn a_file_has_widths_of_1_to_64_bits() {
    for kind in OF_BITS {
        for bits in 1..=64 {
            assert_eq!(verdict(&[of_bits(kind, bits, 1)]), (0, 0), "kind {kind}, {bits} bits");
        }
        for bits in [0, 65, 66, 128, 65_535] {
            assert_eq!(verdict(&[of_bits(kind, bits, 1)]), (9, 0), "kind {kind}, {bits} bits");
        }
    }
}

/// The line of an evaluation of a component, its values numbers with their widths.
fn evaluated(record: Record, inputs: &[(u64, u64)], outputs: &[(u64, u64)]) -> String {
    let values = |pairs: &[(u64, u64)]| -> Vec<PortValue> {
        pairs.iter().map(|(number, width)| PortValue { number: *number, width: *width }).collect()
    };
    let (inputs, outputs) = (values(inputs), values(outputs));
    let single = Single { fields: record.fields(), time: 0, inputs, outputs };
    answer(&mut Program::new(), Command::Evaluate(single))
}

#[test]
fn evaluations_have_values_of_64_bits() {
    for kind in [8, 9] {
        let copied = |input, output| evaluated(of_bits(kind, 64, 1), &[input], &[output]);
        assert_eq!(copied((u64::MAX, 64), (0, 64)), format!("evaluate 0 1 {MOST}\n"));
        assert_eq!(copied((1 << 63, 64), (u64::MAX, 64)), format!("evaluate 0 1 {HALF}\n"));
        for width in [0, 1, 32, 63, 65, 255] {
            assert_eq!(copied((0, width), (0, 64)), "evaluate 19 0 0\n", "an input of {width} bits");
            assert_eq!(copied((0, 64), (0, width)), "evaluate 19 0 0\n", "an output of {width} bits");
        }
        let narrow = |number| evaluated(of_bits(kind, 63, 1), &[(number, 63)], &[(0, 63)]);
        assert_eq!(narrow(greatest(63)), "evaluate 0 1 9223372036854775807\n");
        assert_eq!(narrow(1 << 63), "evaluate 19 0 0\n");
    }
    let joined = |bits| evaluated(of_bits(11, bits, 1), &vec![(1, 1); bits as usize], &[(0, bits as u64)]);
    assert_eq!(joined(63), "evaluate 0 1 9223372036854775807\n");
    assert_eq!(joined(64), format!("evaluate 0 1 {MOST}\n"));
    assert_eq!(joined(65), "evaluate 9 0 0\n");
    let constant = Record { parameter: u64::MAX, ..of_bits(13, 64, 1) };
    assert_eq!(evaluated(constant, &[], &[(5, 64)]), "evaluate 0 0 5\n");
    assert_eq!(evaluated(Record { c: 63, ..constant }, &[], &[(5, 63)]), "evaluate 9 0 5\n");
}

/// The line of the value of a component's only output.
fn output(program: &mut Program, index: u16) -> String {
    answer(program, Command::Value { side: 1, index, port: 0 })
}

#[test]
fn a_const_of_2_to_the_64_less_1_reaches_an_output() {
    let constant = Record { parameter: u64::MAX, ..of_bits(13, 64, 1) };
    let mut program = loaded(&[root(), constant, of_bits(9, 64, 2), connection(0, (0, 0), (1, 0))]);
    assert_eq!(program.tables.used(COMPONENTS)[..4], [13, 1, 64, u64::MAX]);
    assert_eq!(output(&mut program, 0), format!("value 0 {MOST} 64\n"));
    assert_eq!(answer(&mut program, Command::Run { time: 0, limit: 16 }), "run 0 2 4 1\n");
    assert_eq!(output(&mut program, 1), format!("value 0 {MOST} 64\n"));
}

/// An Input of so many bits, a Splitter of them, a Joiner and an Output.
fn split_and_joined(bits: u16) -> Vec<Record> {
    let mut records = vec![root()];
    records.extend([8, 10, 11, 9].map(|kind| of_bits(kind, bits, kind as u32)));
    records.push(connection(0, (0, 0), (1, 0)));
    records.extend((0..bits).map(|bit| connection(0, (1, bit), (2, bit))));
    records.push(connection(0, (2, 0), (3, 0)));
    records
}

#[test]
fn what_is_split_and_joined_is_what_went_in() {
    for bits in [63, 64] {
        let mut program = loaded(&split_and_joined(bits));
        let mut comes_out = |edit: Command, number: u64| {
            let taken = answer(&mut program, edit);
            assert!(taken.ends_with(" 0 0\n"), "{taken}");
            answer(&mut program, Command::Run { time: 0, limit: 16 });
            assert_eq!(output(&mut program, 3), format!("value 0 {number} {bits}\n"));
            assert_eq!(answer(&mut program, Command::Satisfied), "satisfied 0 1\n");
        };
        let most = greatest(bits as u64);
        for number in [most, 1 << 62, 1 << (bits - 1), (1 << 48) - 1, most - 1, 0] {
            comes_out(Command::Edit { index: 0, number }, number);
            let number = number ^ most;
            comes_out(Command::EditFirst { index: 0, number }, number);
        }
    }
}

#[test]
fn all_64_bits_of_a_splitter_move_in_a_round() {
    let mut program = loaded(&split_and_joined(64));
    answer(&mut program, Command::Run { time: 0, limit: 16 });
    answer(&mut program, Command::EditFirst { index: 0, number: u64::MAX });
    let lines = [0; 4].map(|time| answer(&mut program, Command::Round { time }));
    let wanted = ["round 0 0 1\n", &format!("round 0 0 {MOST}\n"), "round 0 0 1\n", "round 0 0 1\n"];
    assert_eq!(lines, wanted, "the Input, the Splitter, the Joiner, the Output");
    answer(&mut program, Command::EditFirst { index: 0, number: greatest(63) });
    let lines = [0; 2].map(|time| answer(&mut program, Command::Round { time }));
    assert_eq!(lines, ["round 0 0 1\n", &format!("round 0 0 {HALF}\n")], "the highest bit alone");
}

#[test]
fn an_edit_fits_its_input() {
    for (bits, number, refused) in
        [(64, u64::MAX, 0), (64, 1 << 63, 0), (63, greatest(63), 0), (63, 1 << 63, 19), (63, u64::MAX, 19)]
    {
        let mut program = loaded(&[of_bits(8, bits, 1)]);
        let before = program.tables.clone();
        let (old, first) = (Command::Edit { index: 0, number }, Command::EditFirst { index: 0, number });
        assert_eq!(answer(&mut program, old), format!("edit {refused} 0\n"));
        assert_eq!(answer(&mut program, first), format!("first {refused} 0\n"));
        match refused {
            0 => assert_eq!(program.tables.used(INPUTS), [number]),
            _ => assert_eq!(program.tables, before),
        }
    }
}

/// Whether a round of a component's net is done or refused after a word of a table was written.
fn round_after(record: Record, table: usize, place: u16, word: u64) -> u64 {
    let mut program = loaded(&[record]);
    answer(&mut program, Command::WriteWord { table: table as u8, place, word });
    match answer(&mut program, Command::Round { time: 0 }).as_str() {
        "round 16 0\n" => 16,
        line if line.starts_with("round 0 0 ") => 0,
        line => unreachable!("{line}"),
    }
}

#[test]
fn words_of_the_tables_have_64_bits() {
    for (width, number) in [(63, 0), (64, 0), (65, 16), (128, 16), ((1 << 32) + 64, 16), (u64::MAX, 16)] {
        assert_eq!(round_after(of_bits(13, 62, 1), COMPONENTS, 2, width), number, "a Const's {width}");
        assert_eq!(round_after(of_bits(8, 62, 1), COMPONENTS, 3, width), number, "an Input's {width}");
        assert_eq!(round_after(of_bits(9, 62, 1), COMPONENTS, 3, width), number, "an Output's {width}");
    }
    for table in [INPUTS, OUTPUTS] {
        let value = |bits, word| round_after(of_bits(9, bits, 1), table, 0, word);
        assert_eq!([value(64, u64::MAX), value(64, 1 << 63)], [0, 0]);
        assert_eq!([value(63, greatest(63)), value(63, 1 << 63), value(63, u64::MAX)], [0, 16, 16]);
    }
    let id = |word| round_after(of_bits(8, 64, 1), COMPONENTS, 1, word);
    assert_eq!([id(u32::MAX as u64), id(1 << 32), id(u64::MAX)], [0, 16, 16], "an id has 32 bits");
}

/// A round of a net of one component, written word by word.
fn round_of(fields: Fields) -> String {
    let mut program = Program::new();
    let Fields { kind, inputs, outputs, width, parameter } = fields;
    program.tables.put(COMPONENTS, &[kind, 1, width, parameter, inputs, outputs, 0, 0]);
    program.tables.put(INPUTS, &vec![0; inputs as usize]);
    program.tables.put(OUTPUTS, &vec![0; outputs as usize]);
    answer(&mut program, Command::Round { time: 0 })
}

#[test]
fn tables_of_65_bits_are_no_net() {
    for kind in OF_BITS {
        assert_eq!(round_of(of_bits(kind, 64, 1).fields()), "round 0 0\n", "kind {kind}");
        assert_eq!(round_of(of_bits(kind, 65, 1).fields()), "round 16 0\n", "kind {kind}");
    }
}
