//! Mending: what is dropped and what is not, the order of the checks, what is written, and what a
//! mending must be on generated files.

use super::{answer, component, connection, input_map, lamp, output_map};
use crate::command::Command;
use crate::gen::drawing::{blank, file_of};
use crate::gen::judge::any_drawing;
use crate::gen::mend::any_file;
use crate::gen::random::Random;
use crate::plain::drawing::{records, Drawing, Record, OUTPUT_MAP};
use crate::plain::judge::{judge, MEETINGS};
use crate::plain::mend::{mend, sifted, Why};
use crate::program::Program;
use crate::tables::{Tables, DROPPED, FULL_WORDS, MENDED};

/// A program that keeps a file.
fn kept(file: &[u8]) -> Program {
    let mut program = Program::new();
    assert_eq!(answer(&mut program, Command::Keep(file.to_vec())), "");
    program
}

/// The three lines of a mending.
fn lines_of(file: &[u8]) -> String {
    answer(&mut kept(file), Command::Mend)
}

/// The three lines where positions are dropped, and these records come out.
fn done(dropped: &[u64], left: &[Record]) -> String {
    let bytes = file_of(left);
    let row = |word: &str, numbers: Vec<u64>| {
        numbers.iter().fold(word.to_string(), |line, number| format!("{line} {number}")) + "\n"
    };
    let head = vec![0, 0, bytes.len() as u64, dropped.len() as u64];
    let bytes = bytes.into_iter().map(u64::from).collect();
    row("mend", head) + &row("dropped", dropped.to_vec()) + &row("bytes", bytes)
}

/// The three lines where it is refused.
fn refused(number: u64, position: u64) -> String {
    format!("mend {number} {position} 0 0\ndropped\nbytes\n")
}

/// The records but for those at some positions.
fn without(records: &[Record], positions: &[u64]) -> Vec<Record> {
    let left = (0..records.len()).filter(|at| !positions.contains(&(*at as u64)));
    left.map(|at| records[at]).collect()
}

/// The lamp drawing with records put in before a position.
fn lamp_with(position: usize, put_in: &[Record]) -> Vec<Record> {
    let mut records = lamp();
    records.splice(position..position, put_in.iter().copied());
    records
}

#[test]
fn an_accepted_drawing_comes_out_identical() {
    assert_eq!(lines_of(&file_of(&lamp())), done(&[], &lamp()));
    let root = [component(0, 0, 0, 0, 1)];
    assert_eq!(lines_of(&file_of(&root)), done(&[], &root));
}

#[test]
fn a_part_record_is_dropped_and_counts() {
    for part in 1..24 {
        let mut file = file_of(&lamp());
        file.extend_from_within(..part);
        assert_eq!(lines_of(&file), done(&[12], &lamp()), "{part} bytes");
    }
}

/// Case (l): "a connection 1.0 to 2.0 put in as record 9 gives 13 at 9".
#[test]
fn the_second_connection_of_case_l_goes() {
    let records = lamp_with(9, &[connection(0, (1, 0), (2, 0))]);
    assert_eq!(lines_of(&file_of(&records)), done(&[9], &lamp()));
}

#[test]
fn of_two_that_meet_the_earlier_stays() {
    let other = connection(0, (1, 0), (2, 0));
    let records = lamp_with(6, &[other]);
    assert_eq!(lines_of(&file_of(&records)), done(&[7], &without(&records, &[7])));
    let records = lamp_with(11, &[input_map(3, 1, (0, 0)), input_map(3, 0, (0, 1)), input_map(3, 0, (0, 0))]);
    assert_eq!(lines_of(&file_of(&records)), done(&[11, 12, 13], &lamp()));
    // A connection and a map: the one that stands first.
    let nor_to_itself = connection(3, (0, 0), (0, 1));
    let records = lamp_with(9, &[nor_to_itself]);
    assert_eq!(lines_of(&file_of(&records)), done(&[11], &without(&records, &[11])));
}

#[test]
fn one_that_check_12_refuses_enters_nothing() {
    // From child 9, which is not there, into the input that record 7 enters then.
    let records = lamp_with(6, &[connection(0, (9, 0), (2, 0))]);
    assert_eq!(lines_of(&file_of(&records)), done(&[6], &lamp()));
    let records = lamp_with(9, &[input_map(3, 2, (0, 0)), input_map(3, 65_535, (0, 1))]);
    assert_eq!(lines_of(&file_of(&records)), done(&[9, 10], &lamp()));
}

#[test]
fn a_place_that_is_not_there_is_refused_by_12() {
    let places = [
        connection(0, (4, 0), (2, 0)),
        connection(0, (0, 1), (2, 0)),
        connection(0, (0, 0), (4, 0)),
        connection(0, (0, 0), (2, 2)),
        connection(0, (0, 0), (0, 0)),
        connection(0, (65_535, 0), (2, 0)),
    ];
    for place in places {
        let mut records = lamp();
        records[6] = place;
        assert_eq!(lines_of(&file_of(&records)), done(&[6], &without(&lamp(), &[6])), "{place:?}");
    }
    for place in [input_map(3, 2, (0, 0)), input_map(3, 0, (1, 0)), input_map(3, 0, (0, 2))] {
        let mut records = lamp();
        records[9] = place;
        assert_eq!(lines_of(&file_of(&records)), done(&[9], &without(&lamp(), &[9])), "{place:?}");
    }
}

#[test]
fn an_owner_that_is_no_composite_has_no_children() {
    // A primitive, a number past the components, one past the records.
    for owner in [1, 4, 5, 6, 11, 12, 256, 65_535] {
        let strays = [connection(owner, (0, 0), (0, 0)), input_map(owner, 0, (0, 0))];
        let records = lamp_with(9, &strays);
        assert_eq!(lines_of(&file_of(&records)), done(&[9, 10], &lamp()), "{owner}");
    }
    // A component names an And as its owner: the And has no child, and its lines go; then 5.
    let records = [
        component(0, 0, 0, 0, 1),
        component(1, 0, 1, 1, 2),
        component(3, 1, 1, 1, 3),
        connection(1, (0, 0), (0, 0)),
        input_map(1, 0, (0, 0)),
        blank(9),
    ];
    assert_eq!(lines_of(&file_of(&records)), refused(3, 3));
    assert_eq!(lines_of(&file_of(&records[..5])), refused(5, 2));
}

/// Switch 2 and its wire: its owner's later children have numbers one less.
#[test]
fn a_deleted_component_takes_its_wires_along() {
    let mut records = lamp();
    records.remove(2);
    // The box is component 2 now, and child 1: what led to child 2 leads to the Output.
    for record in &mut records {
        record.owner -= (record.owner == 3) as u16;
    }
    // 0.0 to 2.0 stays, now into the Output; 1.0 to 2.1 and 2.0 to 3.0 lead to what is not there.
    let left = without(&records, &[6, 7]);
    assert_eq!(lines_of(&file_of(&records)), done(&[6, 7], &left));
}

#[test]
fn the_root_is_nobodys_child() {
    // A root with an input and an output of its own owns a Not: 0 is the Not, and there is no 1.
    let root = component(0, 0, 1, 1, 1);
    let not = component(3, 0, 1, 1, 2);
    let lines = [connection(0, (0, 0), (0, 0)), connection(0, (1, 0), (0, 0)), connection(0, (0, 0), (1, 0))];
    let records = [&[root, not][..], &lines, &[output_map(0, (0, 0))]].concat();
    assert_eq!(lines_of(&file_of(&records)), done(&[3, 4], &without(&records, &[3, 4])));
}

#[test]
fn a_records_kind_is_its_byte_0_alone() {
    // Fields that check 3 wants to be 0, in a record that is dropped, and in one that is kept.
    let loose = |line: Record| {
        [
            Record { component_kind: 1, ..line },
            Record { id: 1 << 31, ..line },
            Record { parameter: 1 << 63, ..line },
        ]
    };
    for again in loose(connection(0, (1, 0), (2, 0))) {
        assert_eq!(lines_of(&file_of(&lamp_with(9, &[again]))), done(&[9], &lamp()));
        assert_eq!(lines_of(&file_of(&lamp_with(6, &[again]))), refused(3, 6));
    }
    for nowhere in loose(input_map(3, 0, (7, 0))) {
        let nowhere = Record { b: 5, ..nowhere };
        assert_eq!(lines_of(&file_of(&lamp_with(9, &[nowhere]))), done(&[9], &lamp()));
    }
    // A component with a D, or of no kind, still is one: the wires of what it holds stay.
    for at in [0, 3] {
        let mut records = lamp();
        records[at].d = 1;
        records.rotate_left(6);
        assert_eq!(lines_of(&file_of(&records)), refused(3, 6 + at as u64));
    }
    let mut records = lamp();
    records[4].component_kind = 77;
    records.push(blank(0));
    assert_eq!(lines_of(&file_of(&records)), refused(3, 12));
}

#[test]
fn components_count_wherever_they_stand() {
    // Lines before the components, none of which is kept, leave an accepted drawing.
    let strays = [connection(0, (9, 0), (2, 0)), input_map(7, 0, (0, 0))];
    assert_eq!(lines_of(&file_of(&lamp_with(0, &strays))), done(&[0, 1], &lamp()));
    assert_eq!(lines_of(&file_of(&lamp_with(3, &strays))), done(&[3, 4], &lamp()));
    // One that leads to components behind it is kept, and then the order is wrong.
    assert_eq!(lines_of(&file_of(&lamp_with(3, &[connection(0, (0, 0), (2, 0))]))), refused(4, 4));
}

#[test]
fn an_output_map_stays_and_12_names_it_in_the_shortened_file() {
    let mut records = lamp_with(9, &[connection(0, (9, 0), (2, 0)), connection(0, (0, 0), (2, 0))]);
    records[13] = output_map(3, (1, 0));
    assert_eq!(records[13].kind, OUTPUT_MAP);
    assert_eq!(lines_of(&file_of(&records)), refused(12, 11));
    assert_eq!(judge(&file_of(&records)).unwrap_err().position, 9, "12 as it came");
    // What other checks refuse has its position there too.
    let mut records = lamp_with(6, &[connection(9, (0, 0), (0, 0)), connection(0, (0, 0), (0, 0))]);
    records[5].parameter = 2;
    assert_eq!(lines_of(&file_of(&records)), refused(15, 8));
    records.truncate(13);
    assert_eq!(lines_of(&file_of(&records)), refused(14, 3));
}

#[test]
fn a_file_of_which_nothing_is_left_is_1() {
    let stray = file_of(&[connection(0, (0, 0), (0, 0))]);
    assert_eq!(lines_of(&stray), refused(1, 0));
    assert_eq!(lines_of(&stray.repeat(1_024)), refused(1, 0));
    assert_eq!(lines_of(&[&stray[..], &[1]].concat()), refused(1, 0));
    assert_eq!(sifted(&stray).dropped, [(0, Why::NotThere)]);
}

/// So many records: a root with an input, a Not, and connections into it, all but the first of
/// which go.
fn crowded(count: usize) -> Vec<Record> {
    let mut records = vec![component(0, 0, 1, 0, 1), component(3, 0, 1, 1, 2)];
    records.resize(count, connection(0, (0, 0), (0, 0)));
    records
}

#[test]
fn up_to_1024_whole_records_are_mended() {
    for length in [0, 1, 23] {
        assert_eq!(lines_of(&vec![1; length]), refused(1, 0), "{length} bytes");
    }
    let mut file = file_of(&crowded(1_024));
    let left = crowded(3);
    let mut dropped: Vec<u64> = (3..1_024).collect();
    assert_eq!(lines_of(&file), done(&dropped, &left));
    dropped.push(1_024);
    file.extend([0; 23]);
    assert_eq!(lines_of(&file), done(&dropped, &left));
    file.push(0);
    assert_eq!(lines_of(&file), refused(1, 0), "1,025 records");
    assert_eq!(lines_of(&[1; 30_000]), refused(1, 0));
}

#[test]
fn room_is_compared_with_the_whole_input() {
    let mut file = file_of(&lamp_with(9, &[connection(0, (1, 0), (2, 0))]));
    file.push(1);
    let mut program = kept(&file);
    let mut lent = |table: usize, words: u16| {
        answer(&mut program, Command::Lend { table: table as u8, words });
        let lines = answer(&mut program, Command::Mend);
        answer(&mut program, Command::Lend { table: table as u8, words: 65_535 });
        lines
    };
    let mended = done(&[9, 13], &lamp());
    assert_eq!(file.len(), 313);
    for (words, lines) in
        [(0, refused(2, 0)), (288, refused(2, 0)), (312, refused(2, 0)), (313, mended.clone())]
    {
        assert_eq!(lent(MENDED, words), lines, "{words} bytes");
    }
    for (words, lines) in [(0, refused(2, 0)), (1_024, refused(2, 0)), (1_025, mended.clone())] {
        assert_eq!(lent(DROPPED, words), lines, "{words} positions");
    }
    // The other tables play no part.
    for table in 0..MENDED {
        assert_eq!(lent(table, 0), mended, "table {table}");
    }
}

#[test]
fn the_checks_come_in_their_order() {
    let mut program = kept(&[1; 23]);
    for (table, words) in [(MENDED, 0), (DROPPED, 0)] {
        answer(&mut program, Command::Lend { table: table as u8, words });
    }
    assert_eq!(answer(&mut program, Command::Mend), refused(1, 0), "1 before 2");
    answer(&mut program, Command::Keep(vec![1; 24_600]));
    assert_eq!(answer(&mut program, Command::Mend), refused(1, 0), "1 before 2");
    answer(&mut program, Command::Keep(file_of(&[connection(0, (0, 0), (0, 0))])));
    assert_eq!(answer(&mut program, Command::Mend), refused(2, 0), "2 before no record left");
    answer(&mut program, Command::Keep(file_of(&[blank(9)])));
    assert_eq!(answer(&mut program, Command::Mend), refused(2, 0), "2 before 3");
    for table in [MENDED, DROPPED] {
        answer(&mut program, Command::Lend { table: table as u8, words: 65_535 });
    }
    assert_eq!(answer(&mut program, Command::Mend), refused(3, 0));
}

#[test]
fn the_answer_is_laid_over_the_tables_and_a_refusal_writes_nothing() {
    let sevens = |words: usize| vec![7; words];
    let mut program = kept(&file_of(&lamp_with(9, &[connection(9, (0, 0), (0, 0)), blank(9)])));
    assert_eq!(answer(&mut program, Command::Mend), refused(3, 9));
    assert_eq!(*program.tables.words[MENDED], sevens(30_000));
    assert_eq!(*program.tables.words[DROPPED], sevens(1_025));
    answer(&mut program, Command::Keep(file_of(&lamp_with(9, &[connection(0, (1, 0), (2, 0))]))));
    answer(&mut program, Command::Mend);
    let bytes: Vec<u64> = file_of(&lamp()).into_iter().map(u64::from).collect();
    assert_eq!(program.tables.words[MENDED][..288], bytes);
    assert_eq!(program.tables.words[MENDED][288..], sevens(30_000 - 288));
    assert_eq!(program.tables.words[DROPPED][..2], [9, 7]);
    // A shorter answer leaves the rest of a longer one.
    let root = component(0, 0, 0, 0, 258);
    answer(&mut program, Command::Keep(file_of(&[root])));
    assert_eq!(answer(&mut program, Command::Mend), done(&[], &[root]));
    assert_eq!(program.tables.words[MENDED][12..14], [2, 1]);
    assert_eq!(program.tables.words[MENDED][24..288], bytes[24..]);
    assert_eq!(program.tables.words[DROPPED][..2], [9, 7]);
    assert_eq!(FULL_WORDS[MENDED..=DROPPED], [30_000, 1_025]);
}

/// What a mending must be, on many files: it leaves accepted drawings alone; what it drops and what
/// it keeps make up the file; of the records that enter one input and that are not refused by 12 the
/// first is kept; what comes out, mended again, is the same.
#[test]
fn what_a_mending_must_be() {
    let mut random = Random::new(9);
    let tables = Tables::new();
    let (mut whole, mut mended, mut refused) = (0, 0, 0);
    for _ in 0..3_000 {
        let file = any_file(&mut random);
        let sifted = sifted(&file);
        let gone = |at: usize| sifted.dropped.iter().find(|(dropped, _)| *dropped == at).map(|(_, why)| *why);
        let all = records(&file);
        let left: Vec<Record> = (0..all.len()).filter(|at| gone(*at).is_none()).map(|at| all[at]).collect();
        assert_eq!(file_of(&left), sifted.bytes);
        assert!(sifted.dropped.windows(2).all(|pair| pair[0].0 < pair[1].0), "ascending");
        assert_eq!(gone(all.len()).is_some(), !file.len().is_multiple_of(24));
        let input = |at: usize| (all[at].owner, all[at].c, all[at].d);
        for (at, record) in all.iter().enumerate() {
            match (matches!(record.kind, 2 | 3), gone(at)) {
                (true, Some(Why::NotThere)) => {}
                (true, entered) => {
                    let first = (0..at).find(|earlier| {
                        matches!(all[*earlier].kind, 2 | 3)
                            && input(*earlier) == input(at)
                            && gone(*earlier) != Some(Why::NotThere)
                    });
                    assert_eq!(entered, first.map(|_| Why::Entered));
                }
                (false, why) => assert_eq!(why, None),
            }
        }
        assert_eq!(crate::plain::mend::sifted(&sifted.bytes).dropped, [], "mended again");
        match mend(&tables, &file) {
            Ok(result) => {
                assert_eq!(result.bytes, sifted.bytes);
                assert_eq!(judge(&result.bytes), Ok(()));
                assert_eq!(judge(&file).is_ok(), result.dropped.is_empty());
                whole += result.dropped.is_empty() as u32;
                mended += !result.dropped.is_empty() as u32;
            }
            Err(refusal) => {
                assert!(!MEETINGS.contains(&refusal.number), "no two records meet");
                if refusal.number == 12 {
                    assert_eq!(records(&sifted.bytes)[refusal.position as usize].kind, OUTPUT_MAP);
                }
                refused += 1;
            }
        }
    }
    assert!(whole > 300 && mended > 900 && refused > 900, "{whole} {mended} {refused}");
}

/// On a file that passes the checks 1 and 3 to 11, check 12 is the judge's own: the first position
/// dropped by it, or the first output map of a place that is not there, is where the judge says 12.
#[test]
fn check_12_is_the_judges_own() {
    let mut random = Random::new(12);
    let (mut found, mut passed) = (0, 0);
    while found < 500 || passed < 500 {
        let mut drawn = any_drawing(&mut random);
        for _ in 0..random.pick(&[0, 1, 3]) {
            let lines: Vec<usize> = (0..drawn.len()).filter(|at| drawn[*at].kind > 1).collect();
            if lines.is_empty() {
                break;
            }
            let line = &mut drawn[random.pick(&lines)];
            match random.below(3) {
                0 => line.a += random.pick(&[1, 2, 300]),
                1 if line.kind != OUTPUT_MAP => line.c += random.pick(&[1, 2, 300]),
                1 => line.b += 1,
                _ if line.kind != OUTPUT_MAP => line.d += random.pick(&[1, 2, 300]),
                _ => {}
            }
        }
        let file = file_of(&drawn);
        let plain = Drawing::new(drawn);
        let dropped = sifted(&file).dropped.into_iter().filter(|(_, why)| *why == Why::NotThere);
        let no_output = (0..plain.records.len()).filter(|at| {
            let map = &plain.records[*at];
            let output = plain.child(map.owner, map.a).map_or(0, |child| plain.records[child].b);
            map.kind == OUTPUT_MAP && map.b >= output
        });
        let first = dropped.map(|(position, _)| position).chain(no_output).min();
        match judge(&file) {
            Err(refusal) if refusal.number == 12 => {
                assert_eq!(Some(refusal.position as usize), first);
                found += 1;
            }
            Err(refusal) if refusal.number < 12 => panic!("{refusal:?}"),
            _ => {
                assert_eq!(first, None);
                passed += 1;
            }
        }
    }
}
