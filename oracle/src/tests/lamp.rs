//! The lamp drawing and its cases.

use super::{answer, connection, lamp, loaded, told};
use crate::command::Command;
use crate::program::Program;
use crate::tables::{COMPONENTS, CURRENT, WIRES};

const LISTING: &str = "components 4
0 Switch 1
1 Switch 2
2 Nor 4
3 Output 5
wires 3
0.0 2.0
1.0 2.1
2.0 3.0
round 1 next 3
round 2 next
calm
";

#[test]
fn is_accepted_with_its_three_wires() {
    let mut program = loaded(&lamp());
    let net = "net 4 3 4 3
component 7 1 0 0 0 1 0 0
component 7 2 0 0 0 1 0 1
component 5 4 0 0 2 1 0 2
component 9 5 0 1 1 1 2 3
wire 0 0 2 0
wire 1 0 2 1
wire 2 0 3 0
";
    assert_eq!(answer(&mut program, Command::Net), net);
    let state = "inputs 0 0 0\noutputs 0 0 0 0\ncurrent 0 1 2 3\nfollowing\nstanding\n";
    assert_eq!(answer(&mut program, Command::State), state);
}

/// What the listing program prints, from the tables.
#[test]
fn is_listed_as_the_document_says() {
    let mut program = loaded(&lamp());
    let mut text = String::new();
    let names = [(5, "Nor"), (7, "Switch"), (9, "Output")];
    text += &format!("components {}\n", program.tables.counts[COMPONENTS]);
    for (index, words) in program.tables.used(COMPONENTS).chunks_exact(8).enumerate() {
        let name = names.iter().find(|(kind, _)| *kind == words[0]).unwrap().1;
        text += &format!("{index} {name} {}\n", words[1]);
    }
    text += &format!("wires {}\n", program.tables.counts[WIRES]);
    for wire in program.tables.used(WIRES).chunks_exact(4) {
        text += &format!("{}.{} {}.{}\n", wire[0], wire[1], wire[2], wire[3]);
    }
    for round in 1..=16 {
        answer(&mut program, Command::Round { time: 0 });
        text += &format!("round {round} next{}\n", current(&program));
        if answer(&mut program, Command::Calm) == "calm 0 1\n" {
            text += "calm\n";
            break;
        }
    }
    assert_eq!(text, LISTING);
}

fn current(program: &Program) -> String {
    program.tables.used(CURRENT).iter().map(|index| format!(" {index}")).collect()
}

#[test]
fn a_switch_set_after_round_2_gets_out_in_round_5() {
    let mut program = loaded(&lamp());
    for _ in 0..2 {
        answer(&mut program, Command::Round { time: 0 });
    }
    assert_eq!(answer(&mut program, Command::Edit { index: 0, number: 1 }), "edit 0 0\n");
    let mut lists = vec![];
    for _ in 3..=7 {
        assert_eq!(answer(&mut program, Command::Calm), "calm 0 0\n");
        lists.push(current(&program));
        answer(&mut program, Command::Round { time: 0 });
    }
    assert_eq!(lists, ["", "", " 0", " 0 2", " 3"]);
    assert_eq!(answer(&mut program, Command::Calm), "calm 0 1\n", "round 7 has ended");
}

#[test]
fn run_until_calm_gives_rounds_evaluations_and_outputs_moved() {
    let mut program = loaded(&lamp());
    assert_eq!(answer(&mut program, Command::Run { time: 0, limit: 0 }), "run 0 0 0 0\n");
    assert_eq!(answer(&mut program, Command::Run { time: 0, limit: 16 }), "run 0 2 5 2\n");
    assert_eq!(answer(&mut program, Command::Run { time: 0, limit: 16 }), "run 0 1 0 0\n");
    answer(&mut program, Command::Edit { index: 0, number: 1 });
    assert_eq!(
        answer(&mut program, Command::Run { time: 0, limit: 16 }),
        "run 0 5 4 2\n",
        "the edit is waited for"
    );
}

#[test]
fn a_second_entry_as_record_9_gives_13_at_9_against_6() {
    let mut records = lamp();
    records.insert(9, connection(0, (1, 0), (2, 0)));
    assert_eq!(told(&records), (13, 9, 6), "(l)");
}
