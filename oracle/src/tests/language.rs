//! The command language: bad commands, counts, and what is lent.

use super::{answer, input_map, lamp};
use crate::command::Command;
use crate::gen::drawing::file_of;
use crate::plain::drawing::Id;
use crate::program::{run, Program};
use crate::tables::FULL_WORDS;

/// What the program prints for these bytes.
fn printed(input: &[u8]) -> String {
    let mut output = vec![];
    run(input, &mut output).unwrap();
    String::from_utf8(output).unwrap()
}

#[test]
fn bad_commands_end_the_program() {
    assert_eq!(printed(b""), "");
    assert_eq!(printed(b"?"), "bad command\n");
    assert_eq!(printed(b"CR\0\0\0"), "calm 0 1\nbad command\n");
    assert_eq!(printed(b"J\x05\0\0\0abc"), "bad command\n");
    assert_eq!(printed(b"H\x05\0\0\0abc"), "bad command\n");
    assert_eq!(printed(b"C?C"), "calm 0 1\nbad command\n");
    let mut evaluate = vec![b'X', 7, 0, 0, 1, 0, 0, 0];
    evaluate.extend([0; 16]);
    evaluate.extend([1, 1]);
    assert_eq!(printed(&evaluate), "bad command\n");
}

#[test]
fn the_first_tables_are_an_empty_net_of_sevens() {
    assert_eq!(printed(b"N"), "net 0 0 0 0\n");
    assert_eq!(printed(b"P"), "inputs\noutputs\ncurrent\nfollowing\nstanding\n");
    assert_eq!(printed(b"R\0\0\0\0\0\0\0\0"), "round 0 0\n");
    let all = printed(b"A");
    let words: Vec<usize> = all.lines().map(|line| line.split(' ').count() - 1).collect();
    assert_eq!(words, [2_048, 1_024, 1_024, 4_096, 256, 256, 256]);
    assert!(all.lines().all(|line| line.split(' ').skip(1).all(|word| word == "7")));
}

#[test]
fn a_long_file_is_read_to_its_end() {
    for (letter, line) in [(b'J', "judge 1 0 0"), (b'L', "load 1 0 0"), (b'H', "host 65536 4294967296")] {
        let mut input = vec![letter, 0x40, 0x9c, 0, 0];
        input.extend(vec![1; 40_000]);
        input.push(b'C');
        assert_eq!(printed(&input), format!("{line}\ncalm 0 1\n"));
    }
}

#[test]
fn the_earlier_record_stands_behind_the_position() {
    let mut records = lamp();
    records.insert(11, input_map(3, 1, (0, 0)));
    let file = file_of(&records);
    let mut bytes = vec![];
    for command in [
        Command::Judge(file.clone()),
        Command::Load(file.clone()),
        Command::Host(file.clone()),
        Command::Keep(file),
        Command::Look { path: vec![Id(3)] },
        Command::Host(file_of(&lamp())),
        Command::Host(vec![]),
    ] {
        command.write(&mut bytes);
    }
    let lines = "judge 23 11 9\nload 23 11 9\nhost 851979 98784968713\nlook 23 11 9 0 0\n\
                 host 0 0\nhost 65536 4294967296\n";
    assert_eq!(printed(&bytes), lines);
}

#[test]
fn counts_are_kept_whole() {
    let mut program = Program::new();
    answer(&mut program, Command::SetCount { which: 4, number: 257 });
    assert_eq!(answer(&mut program, Command::Net), "counts past the tables\n");
    assert_eq!(answer(&mut program, Command::State), "counts past the tables\n");
    assert_eq!(answer(&mut program, Command::Calm), "calm 16 0\n");
    answer(&mut program, Command::SetCount { which: 4, number: 1 << 32 });
    assert_eq!(answer(&mut program, Command::Round { time: 0 }), "round 16 0\n");
    answer(&mut program, Command::SetCount { which: 7, number: 9 });
    answer(&mut program, Command::SetCount { which: 4, number: 0 });
    assert_eq!(answer(&mut program, Command::Calm), "calm 0 1\n");
}

#[test]
fn a_short_table_is_2_before_16_and_after_1() {
    let mut program = Program::new();
    answer(&mut program, Command::SetCount { which: 0, number: 999 });
    for table in 0..7 {
        answer(&mut program, Command::Lend { table, words: 255 });
        assert_eq!(answer(&mut program, Command::Round { time: 0 }), "round 2 0\n");
        assert_eq!(answer(&mut program, Command::Sources { index: 0 }), "sources 2\n");
        assert_eq!(answer(&mut program, Command::Load(vec![])), "load 1 0 0\n");
        assert_eq!(answer(&mut program, Command::Load(vec![0; 24])), "load 2 0 0\n");
        assert_eq!(answer(&mut program, Command::Judge(vec![0; 24])), "judge 3 0 0\n");
        answer(&mut program, Command::Lend { table, words: 65_535 });
    }
    assert_eq!(answer(&mut program, Command::Round { time: 0 }), "round 16 0\n");
}

#[test]
fn the_answer_list_is_lent_to_sources_and_targets_only() {
    let mut program = Program::new();
    answer(&mut program, Command::Load(file_of(&lamp())));
    answer(&mut program, Command::Lend { table: 7, words: 255 });
    assert_eq!(answer(&mut program, Command::Sources { index: 2 }), "sources 2\n");
    assert_eq!(answer(&mut program, Command::Targets { index: 9 }), "targets 2\n");
    assert_eq!(answer(&mut program, Command::Calm), "calm 0 0\n");
    answer(&mut program, Command::Lend { table: 7, words: 256 });
    assert_eq!(answer(&mut program, Command::Sources { index: 2 }), "sources 0 0 1\n");
    assert_eq!(answer(&mut program, Command::Targets { index: 2 }), "targets 0 3\n");
    assert_eq!(answer(&mut program, Command::Targets { index: 4 }), "targets 17\n");
}

#[test]
fn questions_and_edits_on_the_lamp() {
    let mut program = Program::new();
    answer(&mut program, Command::Load(file_of(&lamp())));
    assert_eq!(answer(&mut program, Command::Index { id: 4 }), "index 0 2\n");
    assert_eq!(answer(&mut program, Command::Index { id: 3 }), "index 17 0\n");
    assert_eq!(answer(&mut program, Command::Value { side: 1, index: 0, port: 0 }), "value 0 0 1\n");
    assert_eq!(answer(&mut program, Command::Value { side: 0, index: 0, port: 0 }), "value 17 0 0\n");
    assert_eq!(answer(&mut program, Command::Edit { index: 4, number: 9 }), "edit 17 0\n");
    assert_eq!(answer(&mut program, Command::Edit { index: 2, number: 9 }), "edit 18 0\n");
    assert_eq!(answer(&mut program, Command::Edit { index: 1, number: 2 }), "edit 19 0\n");
    assert_eq!(answer(&mut program, Command::Edit { index: 1, number: 1 }), "edit 0 0\n");
    assert_eq!(answer(&mut program, Command::EditFirst { index: 4, number: 9 }), "first 17 0\n");
    assert_eq!(answer(&mut program, Command::EditFirst { index: 2, number: 9 }), "first 18 0\n");
    assert_eq!(answer(&mut program, Command::EditFirst { index: 1, number: 2 }), "first 19 0\n");
    assert_eq!(answer(&mut program, Command::EditFirst { index: 1, number: 1 }), "first 0 0\n");
}

#[test]
fn words_that_do_not_fit_are_left_out() {
    let mut program = Program::new();
    let word = |table, place, word| Command::WriteWord { table, place, word };
    answer(&mut program, word(4, 0, 65_536));
    answer(&mut program, word(4, 256, 1));
    answer(&mut program, word(18, 0, 1));
    answer(&mut program, word(1, 1, u64::MAX));
    answer(&mut program, word(7, 0, 65_536));
    answer(&mut program, word(8, 255, u64::MAX));
    answer(&mut program, word(9, 256, 1));
    answer(&mut program, word(10, 0, u64::MAX));
    answer(&mut program, word(10, 256, 1));
    answer(&mut program, word(11, 0, 255));
    answer(&mut program, word(11, 1, 256));
    answer(&mut program, word(11, 30_000, 1));
    answer(&mut program, word(12, 1_024, 65_535));
    answer(&mut program, word(12, 1_023, 65_536));
    answer(&mut program, word(12, 1_025, 1));
    answer(&mut program, word(13, 1_023, u64::MAX));
    answer(&mut program, word(14, 1_024, 1));
    answer(&mut program, word(15, 255, 65_535));
    answer(&mut program, word(16, 255, 65_536));
    answer(&mut program, word(17, 256, 1));
    answer(&mut program, word(18, 1_023, 65_535));
    answer(&mut program, word(18, 1_022, 65_536));
    answer(&mut program, word(18, 1_024, 1));
    assert_eq!(*program.tables.words[4], vec![7; 256]);
    assert_eq!(program.tables.words[1][..3], [7, u64::MAX, 7]);
    assert_eq!(*program.tables.words[7], vec![7; 256]);
    assert_eq!(program.tables.words[8][254..], [7, u64::MAX]);
    assert_eq!(*program.tables.words[9], vec![7; 256]);
    assert_eq!(program.tables.words[10][..2], [u64::MAX, 7]);
    assert_eq!(program.tables.words[11][..2], [255, 7]);
    assert_eq!(program.tables.words[12][1_022..], [7, 7, 65_535]);
    assert_eq!(program.tables.words[13][1_022..], [7, u64::MAX]);
    assert_eq!(program.tables.words[15][254..], [7, 65_535]);
    assert_eq!(program.tables.words[18][1_021..], [7, 7, 65_535]);
    for table in [14, 16, 17] {
        assert_eq!(*program.tables.words[table], vec![7; FULL_WORDS[table]]);
    }
}

#[test]
fn words_are_written_one_after_the_other() {
    let mut program = Program::new();
    let words = |table, place, words: &[u64]| Command::WriteWords { table, place, words: words.to_vec() };
    assert_eq!(answer(&mut program, words(7, 254, &[65_535, 65_536, 1])), "");
    assert_eq!(program.tables.words[7][253..], [7, 65_535, 7]);
    answer(&mut program, words(8, 254, &[u64::MAX, 1, 2]));
    assert_eq!(program.tables.words[8][253..], [7, u64::MAX, 1]);
    answer(&mut program, words(4, 65_535, &[1; 3]));
    answer(&mut program, words(19, 0, &[1; 3]));
    answer(&mut program, words(15, 254, &[65_535, 65_536, 1]));
    assert_eq!(program.tables.words[15][253..], [7, 65_535, 7]);
    answer(&mut program, words(11, 29_998, &[255, 256, 1]));
    assert_eq!(program.tables.words[11][29_997..], [7, 255, 7]);
    answer(&mut program, words(4, 0, &[]));
    assert_eq!(*program.tables.words[4], vec![7; 256]);
}

#[test]
fn a_table_is_shown_whole_whatever_is_lent() {
    let mut program = Program::new();
    let shown = |program: &mut Program, table| answer(program, Command::Table { table });
    for (table, words) in FULL_WORDS.into_iter().enumerate() {
        answer(&mut program, Command::Lend { table: table as u8, words: 0 });
        let line = format!("table {table}{}\n", " 7".repeat(words));
        assert_eq!(shown(&mut program, table as u8), line);
    }
    assert_eq!(shown(&mut program, 19), "no table\n");
    assert_eq!(shown(&mut program, 255), "no table\n");
}

#[test]
fn sources_and_targets_are_laid_over_their_list() {
    let mut program = Program::new();
    answer(&mut program, Command::Load(file_of(&lamp())));
    answer(&mut program, Command::Sources { index: 2 });
    assert_eq!(program.tables.words[7][..3], [0, 1, 7]);
    answer(&mut program, Command::Targets { index: 2 });
    assert_eq!(program.tables.words[7][..3], [3, 1, 7]);
    answer(&mut program, Command::Targets { index: 9 });
    answer(&mut program, Command::Sources { index: 0 });
    assert_eq!(program.tables.words[7][..3], [3, 1, 7]);
}

#[test]
fn of_a_long_file_30000_bytes_are_kept() {
    let mut program = Program::new();
    for length in [0, 1, 30_000, 30_001] {
        answer(&mut program, Command::Keep(vec![1; length]));
        assert_eq!(program.kept.len(), length.min(30_000));
    }
    let mut input = b"F\x40\x9c\0\0".to_vec();
    input.extend(vec![1; 40_000]);
    input.extend(b"B\0\0C");
    assert_eq!(printed(&input), "look 1 0 0 0 0\ncalm 0 1\n");
}

#[test]
fn a_path_has_at_most_256_ids() {
    let path = |ids: u16| [&b"B"[..], &ids.to_le_bytes(), &vec![0; 4 * ids as usize], b"C"].concat();
    assert_eq!(printed(&path(256)), "look 1 0 0 0 0\ncalm 0 1\n");
    assert_eq!(printed(&path(257)), "bad command\n");
    assert_eq!(printed(b"B\x02\0\0\0\0\0"), "bad command\n");
    assert_eq!(printed(b"Y\x08\0\0\x01\0"), "bad command\n");
    assert_eq!(printed(b"F\x01\0\0\0"), "bad command\n");
    assert_eq!(printed(b"D"), "bad command\n");
}

/// Each command is read as it was written.
#[test]
fn commands_are_read_as_written() {
    let mut bytes = vec![];
    let commands = [
        Command::Judge(vec![1, 2, 3]),
        Command::Host(vec![1, 2, 3, 4]),
        Command::Round { time: u64::MAX - 3 },
        Command::RoundOrdered { time: u64::MAX - 4 },
        Command::Edit { index: 513, number: 1 << 63 },
        Command::EditFirst { index: 514, number: 1 << 62 },
        Command::Run { time: 5, limit: 258 },
        Command::Index { id: 0x0102_0304 },
        Command::Value { side: 2, index: 3, port: 772 },
        Command::Lend { table: 9, words: 1 },
        Command::SetCount { which: 8, number: 1 },
        Command::WriteWord { table: 8, place: 1, word: 1 },
        Command::Keep(vec![1; 24]),
        Command::WriteWords { table: 9, place: 258, words: vec![1, 1 << 40] },
        Command::Look { path: vec![Id(0x0102_0304), Id(5)] },
        Command::Table { table: 77 },
        Command::Mend,
        Command::Net,
        Command::SlowLoad,
        Command::SlowRound { time: u64::MAX - 3 },
        Command::SlowEdit { index: 513, number: 1 << 63 },
        Command::SlowEditFirst { index: 514, number: 1 << 62 },
        Command::SlowRun { time: 5, limit: 258 },
        Command::SlowState,
    ];
    for command in &commands {
        command.write(&mut bytes);
    }
    let lines =
        "judge 1 0 0\nhost 65536 4294967296\nround 0 0\nround 0 0\nedit 17 0\nfirst 17 0\nrun 0 1 0 0\nindex 17 0\nvalue 17 0 0\n\
                 look 2 0 0 0 0\nno table\nmend 3 0 0 0\ndropped\nbytes\nnet 0 0 0 0\nload 3 0 0\nround 3 0 0\n\
                 edit 3 0 0\nfirst 3 0 0\nrun 3 0 0 0 0 0\ninputs\noutputs\ncurrent\nfollowing\nstanding\n";
    assert_eq!(printed(&bytes), lines);
}
