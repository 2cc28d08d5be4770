//! Edits that go first, edits of the old way, and mixes of both.

use super::{answer, lamp, loaded};
use crate::command::Command;
use crate::gen::drawing::{drawing, running_profile};
use crate::gen::random::Random;
use crate::gen::rounds::edit;
use crate::program::Program;
use crate::tables::{Tables, CURRENT, FOLLOWING, STANDING};

fn first(program: &mut Program, index: u16, number: u64) -> String {
    answer(program, Command::EditFirst { index, number })
}

fn stand(program: &mut Program, index: u16, number: u64) -> String {
    answer(program, Command::Edit { index, number })
}

fn lists(program: &Program) -> [Vec<u64>; 3] {
    [CURRENT, FOLLOWING, STANDING].map(|list| program.tables.used(list).to_vec())
}

/// The current list of each of some rounds.
fn current_lists(program: &mut Program, rounds: usize) -> Vec<Vec<u64>> {
    let mut lists = vec![];
    for _ in 0..rounds {
        lists.push(program.tables.used(CURRENT).to_vec());
        answer(program, Command::Round { time: 0 });
    }
    lists
}

/// The lamp drawing, its first two rounds run: no list names anything.
fn quiet_lamp() -> Program {
    let mut program = loaded(&lamp());
    current_lists(&mut program, 2);
    assert_eq!(lists(&program), [vec![], vec![], vec![]]);
    program
}

#[test]
fn a_switch_set_first_gets_out_in_the_next_round() {
    let mut program = quiet_lamp();
    assert_eq!(first(&mut program, 0, 1), "first 0 0\n");
    assert_eq!(current_lists(&mut program, 3), [vec![0], vec![2], vec![3]]);
    assert_eq!(lists(&program), [vec![], vec![], vec![]]);
    first(&mut program, 0, 0);
    assert_eq!(answer(&mut program, Command::Run { time: 0, limit: 16 }), "run 0 3 3 2\n");
}

/// It is appended to the current list alone, unless there, after what is there.
#[test]
fn no_other_list_is_written() {
    let mut program = quiet_lamp();
    first(&mut program, 1, 1);
    first(&mut program, 0, 1);
    first(&mut program, 1, 0);
    assert_eq!(lists(&program), [vec![1, 0], vec![], vec![]]);
    stand(&mut program, 1, 1);
    stand(&mut program, 0, 1);
    stand(&mut program, 1, 0);
    assert_eq!(lists(&program), [vec![1, 0], vec![], vec![1, 0]]);
}

/// A component that stands is not struck by an edit that goes first; the round that
/// evaluates it strikes it.
#[test]
fn what_stands_goes_first_and_still_stands() {
    let mut program = quiet_lamp();
    stand(&mut program, 0, 1);
    first(&mut program, 0, 1);
    assert_eq!(lists(&program), [vec![0], vec![], vec![0]]);
    answer(&mut program, Command::Round { time: 0 });
    assert_eq!(lists(&program), [vec![2], vec![], vec![]]);
    let mut program = quiet_lamp();
    stand(&mut program, 0, 1);
    answer(&mut program, Command::Round { time: 0 });
    first(&mut program, 0, 0);
    assert_eq!(lists(&program), [vec![0], vec![0], vec![0]]);
    assert_eq!(
        current_lists(&mut program, 3),
        [vec![0], vec![0], vec![]],
        "followed, so evaluated once more"
    );
}

#[test]
fn a_refused_edit_leaves_every_table() {
    let mut program = quiet_lamp();
    let before = program.tables.clone();
    for (index, number, refused) in [(4, 9, 17), (65_535, 0, 17), (2, 9, 18), (3, 0, 18), (1, 2, 19)] {
        assert_eq!(first(&mut program, index, number), format!("first {refused} 0\n"));
        assert_eq!(stand(&mut program, index, number), format!("edit {refused} 0\n"));
        assert_eq!(program.tables, before);
    }
}

/// After a load the current list names all components: an edit finds its own there.
#[test]
fn after_a_load_no_name_is_new() {
    let mut program = loaded(&lamp());
    let before = lists(&program);
    assert_eq!(first(&mut program, 1, 1), "first 0 0\n");
    assert_eq!(lists(&program), before);
    assert_eq!(current_lists(&mut program, 3), [vec![0, 1, 2, 3], vec![2], vec![]]);
}

/// The component of an edit, where it is not refused, and whether it went first.
fn taken(program: &mut Program, command: Command) -> Option<(u64, bool)> {
    let done = answer(program, command.clone()).ends_with(" 0 0\n");
    match command {
        Command::Edit { index, .. } => done.then_some((index as u64, false)),
        Command::EditFirst { index, .. } => done.then_some((index as u64, true)),
        _ => unreachable!("an edit"),
    }
}

fn names(tables: &Tables, list: usize, index: u64) -> bool {
    tables.used(list).contains(&index)
}

/// Any edits of both ways between rounds: what went first the very next round evaluates, and
/// what stood one of the next three rounds does.
#[test]
fn first_is_next_and_standing_is_third() {
    let mut random = Random::new(8);
    let (mut went_first, mut stood, mut late) = (0, 0, 0);
    for _ in 0..200 {
        let profile = running_profile(&mut random);
        let mut program = loaded(&drawing(&mut random, profile));
        // Each component of an edit of the old way, with the rounds since.
        let mut waiting: Vec<(u64, u64)> = vec![];
        for time in 0..12 {
            let mut next = vec![];
            for _ in 0..random.below(4) {
                let command = edit(&mut random, &program.tables);
                match taken(&mut program, command) {
                    Some((index, true)) => next.push(index),
                    Some((index, false)) => waiting.push((index, 1)),
                    None => {}
                }
            }
            assert!(next.iter().all(|index| names(&program.tables, CURRENT, *index)));
            went_first += next.len();
            stood += waiting.iter().filter(|(_, rounds)| *rounds == 1).count();
            waiting.retain(|(index, _)| !names(&program.tables, CURRENT, *index));
            assert!(waiting.iter().all(|(_, rounds)| *rounds < 3));
            late += waiting.iter().filter(|(_, rounds)| *rounds == 2).count();
            waiting.iter_mut().for_each(|(_, rounds)| *rounds += 1);
            answer(&mut program, Command::Round { time });
        }
    }
    assert!(went_first > 500 && stood > 500 && late > 100, "{went_first} {stood} {late}");
}
