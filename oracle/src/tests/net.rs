//! Check 16 on the lamp's tables, and entries past the counts.

use super::{answer, component, lamp, loaded};
use crate::command::Command;
use crate::gen::drawing::file_of;
use crate::program::Program;
use crate::tables::{COMPONENTS, CURRENT, FOLLOWING, INPUTS, OUTPUTS, STANDING, WIRES};

/// The line of the lamp's first round.
const ROUND: &str = "round 0 0 0 0 1 1\n";

/// What a round gives after one word of the lamp's tables was written.
fn round_after(table: usize, place: u16, word: u64) -> String {
    let mut program = loaded(&lamp());
    answer(&mut program, Command::WriteWord { table: table as u8, place, word });
    answer(&mut program, Command::Round { time: 0 })
}

#[test]
fn each_word_of_a_component_is_looked_at_whole() {
    let (high, nor) = (1 << 32, 16);
    let faults = [(0, 0), (0, 14), (0, 263), (0, high + 7), (1, 2), (1, high), (1, high + 1), (2, 1), (3, 1)];
    for (place, word) in faults {
        assert_eq!(round_after(COMPONENTS, place, word), "round 16 0\n", "{place} {word}");
    }
    for (field, words) in
        [(4, [1, 3, high + 2]), (5, [0, 2, high + 1]), (6, [1, 2, high]), (7, [1, 3, high + 2])]
    {
        for word in words {
            assert_eq!(round_after(COMPONENTS, nor + field, word), "round 16 0\n", "{field} {word}");
        }
    }
    assert_eq!(round_after(COMPONENTS, 1, 77), ROUND, "another id");
    assert_eq!(round_after(COMPONENTS, 27, 2), "round 16 0\n", "an Output of 2 bits on a wire of 1");
    assert_eq!(round_after(COMPONENTS, 32, 0), ROUND, "past the count");
}

#[test]
fn values_wires_and_lists_are_looked_at() {
    let faults = [
        (INPUTS, 0, 2),
        (OUTPUTS, 3, u64::MAX),
        (WIRES, 0, 4),
        (WIRES, 1, 1),
        (WIRES, 2, 4),
        (WIRES, 3, 2),
        (WIRES, 7, 0),
        (CURRENT, 0, 4),
        (CURRENT, 0, 3),
    ];
    for (table, place, word) in faults {
        assert_eq!(round_after(table, place, word), "round 16 0\n", "{table} {place} {word}");
    }
    assert_eq!(round_after(INPUTS, 0, 1), ROUND, "the Switch writes its own over it");
    assert_eq!(round_after(INPUTS, 3, 9), ROUND, "past the count");
}

#[test]
fn counts_are_looked_at() {
    let round = |which: usize, number: u64| {
        let mut program = loaded(&lamp());
        answer(&mut program, Command::SetCount { which: which as u8, number });
        answer(&mut program, Command::Round { time: 0 })
    };
    for (which, number) in
        [(COMPONENTS, 3), (COMPONENTS, 5), (INPUTS, 4), (INPUTS, 2), (OUTPUTS, 5), (OUTPUTS, 3)]
    {
        assert_eq!(round(which, number), "round 16 0\n", "{which} {number}");
    }
    for list in [CURRENT, FOLLOWING, STANDING] {
        assert_eq!(round(list, 257), "round 16 0\n");
    }
    assert_eq!(round(WIRES, 1_025), "round 16 0\n");
    assert_eq!(round(WIRES, 2), "round 0 0 0 0 1 0\n", "a wire less is a net");
    assert_eq!(round(CURRENT, 2), "round 0 0 0 0\n", "a shorter list is a net");
}

#[test]
fn a_const_holds_its_value() {
    let constant = crate::plain::drawing::Record { c: 3, parameter: 5, ..component(13, 0, 0, 1, 9) };
    let mut program = Program::new();
    answer(&mut program, Command::Load(file_of(&[constant])));
    assert_eq!(answer(&mut program, Command::Round { time: 0 }), "round 0 0 0\n");
    answer(&mut program, Command::WriteWord { table: 2, place: 0, word: 4 });
    assert_eq!(answer(&mut program, Command::Round { time: 0 }), "round 16 0\n");
}

#[test]
fn entries_past_the_counts_keep_what_they_held() {
    let mut program = loaded(&lamp());
    answer(&mut program, Command::Run { time: 0, limit: 16 });
    let before = program.tables.words.clone();
    answer(&mut program, Command::Load(file_of(&[component(7, 0, 0, 1, 50)])));
    assert_eq!(program.tables.words[COMPONENTS][..8], [7, 50, 0, 0, 0, 1, 0, 0]);
    assert_eq!(program.tables.counts, [1, 0, 1, 0, 1, 0, 0]);
    for table in 0..7 {
        let used = program.tables.used(table).len();
        assert_eq!(program.tables.words[table][used..], before[table][used..]);
    }
}

#[test]
fn a_refusal_changes_no_table() {
    let mut program = loaded(&lamp());
    answer(&mut program, Command::WriteWord { table: 4, place: 3, word: 9 });
    let before = answer(&mut program, Command::All);
    answer(&mut program, Command::Round { time: 0 });
    answer(&mut program, Command::Run { time: 0, limit: 9 });
    answer(&mut program, Command::Edit { index: 0, number: 1 });
    answer(&mut program, Command::Load(vec![9; 48]));
    assert_eq!(answer(&mut program, Command::All), before);
}
