//! Rounds that are handed an order of all wires.

use super::{answer, component, connection, lamp, loaded};
use crate::command::Command;
use crate::gen::drawing::{drawing, file_of, running_profile, voting};
use crate::gen::order::any_order;
use crate::gen::random::Random;
use crate::plain::drawing::Record;
use crate::program::Program;
use crate::tables::{COMPONENTS, CURRENT, FULL_WORDS, MOVED, ORDER, WIRES};

fn ordered(program: &mut Program, time: u64) -> String {
    answer(program, Command::RoundOrdered { time })
}

fn write(program: &mut Program, place: u16, words: &[u64]) {
    answer(program, Command::WriteWords { table: ORDER as u8, place, words: words.to_vec() });
}

fn lend(program: &mut Program, table: usize, words: usize) {
    answer(program, Command::Lend { table: table as u8, words: words as u16 });
}

/// A Const that leads to three Outputs, and a Switch that leads to the fourth.
fn fan() -> Vec<Record> {
    let output = |id| Record { parameter: 1, ..component(9, 0, 1, 1, id) };
    let constant = Record { c: 1, parameter: 1, ..component(13, 0, 0, 1, 1) };
    let parts = [constant, output(2), output(3), output(4), component(7, 0, 0, 1, 5), output(6)];
    let wires = [(0, 1), (4, 5), (0, 2), (0, 3)];
    let wires = wires.map(|(from, to)| connection(0, (from, 0), (to, 0)));
    [component(0, 0, 0, 0, 100)].into_iter().chain(parts).chain(wires).collect()
}

/// Every row of so many numbers, each below that number and none twice.
fn permutations(length: u64) -> Vec<Vec<u64>> {
    let mut rows = vec![vec![]];
    for _ in 0..length {
        let longer = |row: Vec<u64>| {
            let left: Vec<u64> = (0..length).filter(|number| !row.contains(number)).collect();
            left.into_iter().map(move |number| row.iter().copied().chain([number]).collect())
        };
        rows = rows.into_iter().flat_map(longer).collect();
    }
    rows
}

/// The targets are listed in the order in which a component's own wires stand in it; what other wires stand between
/// does not tell.
#[test]
fn each_order_is_followed() {
    let targets = [1, 5, 2, 3];
    let orders = permutations(4);
    assert_eq!(orders.len(), 24);
    for order in orders {
        let mut program = loaded(&fan());
        write(&mut program, 0, &order);
        assert_eq!(ordered(&mut program, 0), "round 0 0 0 1 1 1 0 0\n");
        let of_const = order.iter().filter(|wire| **wire != 1).map(|wire| targets[*wire as usize]);
        let listed: Vec<u64> = [0].into_iter().chain(of_const).collect();
        assert_eq!(program.tables.used(CURRENT), listed, "in the order {order:?}");
    }
}

/// The stored order, handed in, is a plain round; on any drawing.
#[test]
fn the_stored_order_is_a_plain_round() {
    let mut random = Random::new(31);
    for _ in 0..60 {
        let profile = running_profile(&mut random);
        let profile = voting(&mut random, 4, profile);
        let drawn = drawing(&mut random, profile);
        let (mut one, mut other) = (loaded(&drawn), loaded(&drawn));
        let stored: Vec<u64> = (0..one.tables.counts[WIRES]).collect();
        for program in [&mut one, &mut other] {
            write(program, 0, &stored);
        }
        for time in 0..5 {
            assert_eq!(ordered(&mut one, time), answer(&mut other, Command::Round { time }));
            assert!(one.tables == other.tables, "in {} bytes", file_of(&drawn).len());
        }
    }
}

/// A plain round, a run and the slow engine go by the stored order, whatever the table holds; so does the round after
/// one that was handed another.
#[test]
fn others_keep_to_the_stored_order() {
    let mut program = loaded(&fan());
    write(&mut program, 0, &[3, 2, 1, 0]);
    answer(&mut program, Command::Round { time: 0 });
    assert_eq!(program.tables.used(CURRENT), [0, 1, 2, 3]);
    let mut program = loaded(&fan());
    write(&mut program, 0, &[3, 2, 1, 0]);
    answer(&mut program, Command::Run { time: 0, limit: 1 });
    assert_eq!(program.tables.used(CURRENT), [0, 1, 2, 3]);
    answer(&mut program, Command::Keep(file_of(&fan())));
    answer(&mut program, Command::SlowLoad);
    answer(&mut program, Command::SlowRound { time: 0 });
    let state = answer(&mut program, Command::SlowState);
    assert!(state.contains("\ncurrent 0 1 2 3\n"), "{state}");
    let mut program = loaded(&fan());
    write(&mut program, 0, &[3, 2, 1, 0]);
    ordered(&mut program, 0);
    assert_eq!(program.tables.used(CURRENT), [0, 3, 2, 1]);
    // The Const's wires have nothing more to send, until its Outputs are as they were.
    let low = |place| Command::WriteWord { table: 1, place, word: 0 };
    (0..3).for_each(|place| drop(answer(&mut program, low(place))));
    answer(&mut program, Command::Round { time: 0 });
    assert_eq!(program.tables.used(CURRENT), [1, 2, 3]);
}

/// A refused round changes no table.
fn refused(program: &mut Program, number: u64) {
    let before = program.tables.clone();
    assert_eq!(ordered(program, 3), format!("round {number} 0\n"));
    assert!(program.tables == before, "a round that is refused with {number}");
}

#[test]
fn an_order_has_each_wire_once() {
    let mut program = loaded(&lamp());
    assert_eq!(program.tables.counts[WIRES], 3);
    refused(&mut program, 24);
    let none = [
        [0, 0, 1],
        [0, 1, 1],
        [2, 1, 2],
        [0, 1, 3],
        [3, 1, 2],
        [0, 1, 4],
        [0, 1_023, 2],
        [0, 1_024, 2],
        [0, 1, 65_535],
        [65_535, 1, 2],
        [256, 1, 2],
        [1, 2, 258],
    ];
    for order in none {
        write(&mut program, 0, &order);
        refused(&mut program, 24);
    }
    for order in permutations(3) {
        write(&mut program, 0, &order);
        assert!(ordered(&mut program, 3).starts_with("round 0 0"), "{order:?}");
    }
}

#[test]
fn words_past_the_wires_are_not_looked_at() {
    let mut program = loaded(&lamp());
    write(&mut program, 0, &[1, 0, 2, 65_535, 0, 1, 2]);
    write(&mut program, 1_023, &[0]);
    assert_eq!(ordered(&mut program, 0), "round 0 0 0 0 1 1\n");
    assert_eq!(program.tables.words[ORDER][..8], [1, 0, 2, 65_535, 0, 1, 2, 7]);
    // With a wire less the third word is past them; with none, each is.
    answer(&mut program, Command::SetCount { which: WIRES as u8, number: 2 });
    assert_eq!(ordered(&mut program, 0), "round 0 0 0\n");
    write(&mut program, 0, &[0, 2]);
    refused(&mut program, 24);
    answer(&mut program, Command::SetCount { which: WIRES as u8, number: 0 });
    assert_eq!(ordered(&mut program, 0), "round 0 0\n");
    let mut program = loaded(&[component(0, 0, 0, 0, 100)]);
    assert_eq!(ordered(&mut program, 0), "round 0 0\n", "no wires: every order is one");
}

/// 2 for each of the nine tables, before 16, before 24.
#[test]
fn numbers_in_their_order() {
    let mut program = loaded(&lamp());
    for table in (0..7).chain([MOVED, ORDER]) {
        for words in [FULL_WORDS[table] - 1, 0] {
            lend(&mut program, table, words);
            refused(&mut program, 2);
        }
        lend(&mut program, table, FULL_WORDS[table]);
        refused(&mut program, 24);
    }
    answer(&mut program, Command::SetCount { which: COMPONENTS as u8, number: 3 });
    refused(&mut program, 16);
    for table in [MOVED, ORDER, WIRES] {
        lend(&mut program, table, FULL_WORDS[table] - 1);
        refused(&mut program, 2);
        lend(&mut program, table, FULL_WORDS[table]);
        refused(&mut program, 16);
    }
    answer(&mut program, Command::SetCount { which: WIRES as u8, number: 1_025 });
    refused(&mut program, 16);
    for (which, number) in [(COMPONENTS, 4), (WIRES, 3)] {
        answer(&mut program, Command::SetCount { which: which as u8, number });
    }
    refused(&mut program, 24);
    // As many words of the order as there are wires are too few; other tables that are lent for answers play no part.
    write(&mut program, 0, &[2, 1, 0]);
    lend(&mut program, ORDER, 3);
    refused(&mut program, 2);
    lend(&mut program, ORDER, 1_024);
    [7, 8, 9, 11, 12, 13].into_iter().for_each(|table| lend(&mut program, table, 0));
    assert_eq!(ordered(&mut program, 3), "round 0 0 0 0 1 1\n");
}

/// The table is one of words of 16 bits, 1,024 of them, each 7 at first; it has no count.
#[test]
fn the_table_of_the_order() {
    let mut program = Program::new();
    assert_eq!(
        answer(&mut program, Command::Table { table: 18 }),
        format!("table 18{}\n", " 7".repeat(1_024))
    );
    write(&mut program, 1_022, &[65_535, 65_536, 3]);
    answer(&mut program, Command::WriteWord { table: 18, place: 1_024, word: 1 });
    answer(&mut program, Command::WriteWord { table: 18, place: 0, word: 65_536 });
    answer(&mut program, Command::SetCount { which: 18, number: 1 });
    let table = answer(&mut program, Command::Table { table: 18 });
    assert_eq!(table, format!("table 18{} 65535 7\n", " 7".repeat(1_022)));
    assert_eq!(program.tables.counts, [0; 7]);
    assert_eq!(program.tables.slow_counts, [0; 5]);
    assert_eq!(answer(&mut program, Command::Table { table: 19 }), "no table\n");
}

/// Fisher and Yates leave nobody out, and an order is one of its length.
#[test]
fn any_order_is_one() {
    let mut random = Random::new(5);
    for wires in [0, 1, 2, 3, 1_024] {
        for _ in 0..20 {
            let mut order = any_order(&mut random, wires);
            order.sort_unstable();
            assert!(order.into_iter().eq(0..wires));
        }
    }
}
