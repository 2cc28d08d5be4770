//! The program from outside: pipes, streams that repeat, and the patches.

use std::io::{BufRead, BufReader, Write};
use std::process::{Command, Stdio};

#[test]
fn a_command_is_answered_before_the_next_is_read() {
    let mut child = Command::new(env!("CARGO_BIN_EXE_oracle"))
        .stdin(Stdio::piped())
        .stdout(Stdio::piped())
        .spawn()
        .unwrap();
    let mut input = child.stdin.take().unwrap();
    let mut lines = BufReader::new(child.stdout.take().unwrap());
    for _ in 0..3 {
        input.write_all(b"C").unwrap();
        let mut line = String::new();
        lines.read_line(&mut line).unwrap();
        assert_eq!(line, "calm 0 1\n");
    }
    drop(input);
    assert!(child.wait().unwrap().success());
}

fn generated(what: &str, seed: &str) -> Vec<u8> {
    let words = ["gen", what, seed, "20"];
    let output = Command::new(env!("CARGO_BIN_EXE_oracle")).args(words).output().unwrap();
    assert!(output.status.success());
    output.stdout
}

#[test]
fn a_seed_gives_the_same_stream_each_time() {
    for what in ["evaluate", "judge", "load", "run", "tables", "look", "votes", "mend", "slow"] {
        assert!(generated(what, "1") == generated(what, "1"), "{what}");
        assert!(generated(what, "1") != generated(what, "2"), "{what}");
    }
}

#[test]
fn the_patches_are_the_marked_lines() {
    let status = Command::new("./check-patches").current_dir(env!("CARGO_MANIFEST_DIR")).status().unwrap();
    assert!(status.success());
}
