//! Majority, which logix has none of: its rule, its rows, three masts that vote.

use super::{answer, component, connection, verdict};
use crate::command::Command;
use crate::engine::Engine;
use crate::gen::drawing::{drawing, file_of, running_profile, Profile};
use crate::gen::random::Random;
use crate::gen::rounds::step;
use crate::plain::drawing::{Drawing, Record};
use crate::plain::kinds::Fields;
use crate::plain::net::broken;
use crate::plain::rules::outputs_after;
use crate::program::Program;
use crate::tables::COMPONENTS;

/// The output of a Majority of so many inputs, of which the first so many are high.
fn vote(inputs: usize, high: usize) -> Vec<u64> {
    let fields = Fields { kind: 15, inputs: inputs as u64, outputs: 1, width: 0, parameter: 0 };
    let values: Vec<u64> = (0..inputs).map(|at| (at < high) as u64).collect();
    outputs_after(&fields, &values, &[0], 0)
}

#[test]
fn it_is_high_when_twice_the_high_inputs_exceed_the_inputs() {
    for inputs in 1..=64 {
        for high in 0..=inputs {
            assert_eq!(vote(inputs, high), [(2 * high > inputs) as u64], "{high} of {inputs}");
        }
    }
}

/// Three Switches that vote on an Output.
fn masts() -> Vec<Record> {
    vec![
        component(0, 0, 0, 0, 100),
        component(7, 0, 0, 1, 1),
        component(7, 0, 0, 1, 2),
        component(7, 0, 0, 1, 3),
        component(15, 0, 3, 1, 4),
        Record { parameter: 1, ..component(9, 0, 1, 1, 5) },
        connection(0, (0, 0), (3, 0)),
        connection(0, (1, 0), (3, 1)),
        connection(0, (2, 0), (3, 2)),
        connection(0, (3, 0), (4, 0)),
    ]
}

#[test]
fn three_masts_vote() {
    assert_eq!(verdict(&masts()), (0, 0));
    assert!(!Engine::has_kinds_of(&Drawing::new(masts())));
    for setting in 0u64..8 {
        let mut program = Program::new();
        answer(&mut program, Command::Load(file_of(&masts())));
        for mast in 0..3 {
            let number = setting >> mast & 1;
            assert_eq!(answer(&mut program, Command::Edit { index: mast, number }), "edit 0 0\n");
        }
        for _ in 0..2 {
            answer(&mut program, Command::Run { time: 0, limit: 16 });
        }
        let lit = (setting.count_ones() > 1) as u64;
        let value = answer(&mut program, Command::Value { side: 1, index: 4, port: 0 });
        assert_eq!(value, format!("value 0 {lit} 1\n"), "{setting}");
    }
}

#[test]
fn a_kind_word_is_looked_at_whole() {
    let round_after = |word: u64| {
        let mut program = Program::new();
        answer(&mut program, Command::Load(file_of(&masts())));
        answer(&mut program, Command::WriteWord { table: COMPONENTS as u8, place: 24, word });
        answer(&mut program, Command::Round { time: 0 })
    };
    assert_eq!([15, 1, 6].map(round_after), ["round 0 0 0 0 0 0 0\n"; 3]);
    for word in [0, 14, 16, 255, 271, (1 << 32) + 15] {
        assert_eq!(round_after(word), "round 16 0\n", "{word}");
    }
}

#[test]
fn drawings_with_votes_stay_nets_and_logix_has_them_not() {
    let mut random = Random::new(15);
    let mut voting = 0;
    for _ in 0..60 {
        let profile = Profile { votes: true, ..running_profile(&mut random) };
        let drawn = drawing(&mut random, profile);
        voting += !Engine::has_kinds_of(&Drawing::new(drawn.clone())) as u32;
        let mut program = Program::new();
        answer(&mut program, Command::Load(file_of(&drawn)));
        for time in 0..12 {
            let command = step(&mut random, &program.tables, time);
            answer(&mut program, command);
            assert_eq!(broken(&program.tables), None);
        }
    }
    assert!(voting > 40, "{voting}");
}
