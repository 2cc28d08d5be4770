//! The answers of the host's calls that judge a file.

use super::judge::{judge, words, MEETINGS, TWO_CONNECTIONS};

/// The host's first call: "number times 65,536 plus position"; for two records that
/// meet it "goes on answering 13 for all three".
pub fn first_answer(file: &[u8]) -> u64 {
    let [number, position, _] = words(judge(file));
    let number = if MEETINGS.contains(&number) { TWO_CONNECTIONS } else { number };
    number * 65_536 + position
}

/// Its second: "number times 2^32 plus position times 65,536 plus earlier record".
pub fn second_answer(file: &[u8]) -> u64 {
    let [number, position, earlier] = words(judge(file));
    (number << 32) + position * 65_536 + earlier
}
