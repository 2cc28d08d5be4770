//! Satisfied or not.

use super::{answer, component, connection, lamp, loaded};
use crate::command::Command;
use crate::gen::drawing::{drawing, running_profile};
use crate::gen::random::Random;
use crate::gen::rounds::edit;
use crate::plain::drawing::Record;
use crate::program::Program;
use crate::tables::{CURRENT, FOLLOWING, INPUTS, OUTPUTS, STANDING};

const YES: &str = "satisfied 0 1\n";
const NO: &str = "satisfied 0 0\n";

fn satisfied(program: &mut Program) -> String {
    answer(program, Command::Satisfied)
}

fn round(program: &mut Program, time: u64) {
    let line = answer(program, Command::Round { time });
    assert!(line.starts_with("round 0 0"), "{line}");
}

fn write(program: &mut Program, table: usize, word: u64) {
    answer(program, Command::WriteWord { table: table as u8, place: 0, word });
}

fn count(program: &mut Program, which: usize, number: u64) {
    answer(program, Command::SetCount { which: which as u8, number });
}

/// In the lamp's timing case: a round before calm after the load; and not while its Switch
/// waits, nor until the round has ended that evaluates the Output.
#[test]
fn the_lamp_in_the_timing_case() {
    let mut program = loaded(&lamp());
    assert_eq!(satisfied(&mut program), NO, "the Nor of two low inputs is high");
    round(&mut program, 0);
    assert_eq!(satisfied(&mut program), YES);
    assert_eq!(answer(&mut program, Command::Calm), "calm 0 0\n");
    round(&mut program, 0);
    assert_eq!(answer(&mut program, Command::Edit { index: 0, number: 1 }), "edit 0 0\n");
    for _ in 3..=7 {
        assert_eq!(satisfied(&mut program), NO);
        round(&mut program, 0);
    }
    assert_eq!(satisfied(&mut program), YES, "round 7 has ended");
}

/// An edit to the number that is there leaves the net satisfied, though not calm.
#[test]
fn an_edit_that_changes_nothing_leaves_it_satisfied() {
    let mut program = loaded(&lamp());
    round(&mut program, 0);
    round(&mut program, 0);
    answer(&mut program, Command::Edit { index: 0, number: 0 });
    assert_eq!(satisfied(&mut program), YES);
    assert_eq!(answer(&mut program, Command::Calm), "calm 0 0\n");
}

/// A Clock is not judged, but the wire that leaves it is.
#[test]
fn a_clock_is_taken_at_the_last_round() {
    let clock = Record { parameter: 3, ..component(12, 0, 0, 1, 1) };
    let mut program =
        loaded(&[component(0, 0, 0, 0, 100), clock, component(3, 0, 1, 1, 2), connection(0, (0, 0), (1, 0))]);
    for (time, at_once) in [(0, YES), (4, NO), (6, NO), (9, YES), (10, NO), (4, YES)] {
        round(&mut program, time);
        assert_eq!(satisfied(&mut program), at_once, "at time {time}, which the Not may have to follow");
        round(&mut program, time);
        assert_eq!(satisfied(&mut program), YES, "at time {time}");
    }
    write(&mut program, OUTPUTS, 0);
    assert_eq!(satisfied(&mut program), NO, "the Clock is named, and its wire has two numbers");
    write(&mut program, INPUTS, 0);
    assert_eq!(satisfied(&mut program), YES, "the Not is not named");
}

/// "For other nets only its rule stands": a wire and a component that no list looks at are
/// not judged; each list looks.
#[test]
fn only_what_a_list_names_is_judged() {
    let not = [
        component(0, 0, 0, 0, 100),
        component(7, 0, 0, 1, 1),
        component(3, 0, 1, 1, 2),
        connection(0, (0, 0), (1, 0)),
    ];
    let mut program = loaded(&not);
    round(&mut program, 0);
    round(&mut program, 0);
    write(&mut program, OUTPUTS, 1);
    assert_eq!(satisfied(&mut program), YES, "no list names the Switch, whose wire has two numbers");
    for list in [CURRENT, FOLLOWING, STANDING] {
        write(&mut program, list, 0);
        count(&mut program, list, 1);
        assert_eq!(satisfied(&mut program), NO, "the wire leaves the Switch, which list {list} names");
        write(&mut program, list, 1);
        assert_eq!(satisfied(&mut program), YES, "the wire enters the Not, which list {list} names");
        count(&mut program, list, 0);
    }
    write(&mut program, INPUTS, 1);
    assert_eq!(satisfied(&mut program), YES, "no list names the Not, which is high");
    for list in [CURRENT, FOLLOWING, STANDING] {
        count(&mut program, list, 1);
        assert_eq!(satisfied(&mut program), NO, "list {list} names it");
        count(&mut program, list, 0);
    }
}

#[test]
fn it_is_refused_with_2_and_16() {
    let mut program = loaded(&lamp());
    count(&mut program, CURRENT, 257);
    assert_eq!(satisfied(&mut program), "satisfied 16 0\n");
    answer(&mut program, Command::Lend { table: 3, words: 4095 });
    assert_eq!(satisfied(&mut program), "satisfied 2 0\n");
}

/// Once a round has left a drawing satisfied, rounds at the same time change no value, and
/// three of them leave calm.
#[test]
fn three_rounds_at_the_same_time_leave_calm() {
    let mut random = Random::new(6);
    let mut settled = 0;
    for _ in 0..300 {
        let profile = running_profile(&mut random);
        let mut program = loaded(&drawing(&mut random, profile));
        let time = random.below(50);
        for _ in 0..random.below(4) {
            let command = edit(&mut random, &program.tables);
            answer(&mut program, command);
            round(&mut program, time);
        }
        for _ in 0..40 {
            round(&mut program, time);
            if satisfied(&mut program) == YES {
                break;
            }
        }
        if satisfied(&mut program) == NO {
            continue;
        }
        let values = (program.tables.used(INPUTS).to_vec(), program.tables.used(OUTPUTS).to_vec());
        for _ in 0..3 {
            round(&mut program, time);
            assert_eq!(satisfied(&mut program), YES);
        }
        assert_eq!(values, (program.tables.used(INPUTS).to_vec(), program.tables.used(OUTPUTS).to_vec()));
        assert_eq!(answer(&mut program, Command::Calm), "calm 0 1\n");
        settled += 1;
    }
    assert!(100 < settled, "{settled} of 300 settle");
}
