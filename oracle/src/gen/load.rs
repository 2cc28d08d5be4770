//! Loads, with the net, the state and every question.

use super::judge::{bad_file, good_file};
use super::random::Random;
use super::Stream;
use crate::command::Command;
use crate::plain::net::entries;
use std::io::{Result, Write};

pub fn one<W: Write>(random: &mut Random, stream: &mut Stream<W>) -> Result<()> {
    let file = good_file(random);
    load(random, stream, file)
}

/// One accepted file, and all that can be asked of it.
pub fn load<W: Write>(random: &mut Random, stream: &mut Stream<W>, file: Vec<u8>) -> Result<()> {
    stream.put(Command::Load(file))?;
    stream.put_all([Command::Net, Command::State])?;
    if random.once_in(8) {
        stream.put(Command::All)?;
    }
    if random.once_in(8) {
        stream.put(Command::Load(bad_file(random)))?;
        stream.put_all([Command::Net, Command::State])?;
    }
    questions(random, stream)
}

/// Every component is asked for, and some that do not exist.
fn questions<W: Write>(random: &mut Random, stream: &mut Stream<W>) -> Result<()> {
    let entries = entries(&stream.program.tables);
    for (index, entry) in entries.iter().enumerate() {
        let index = index as u16;
        stream.put(Command::Index { id: entry.id as u32 })?;
        stream.put_all([Command::Sources { index }, Command::Targets { index }])?;
        for (side, ports) in [(0, entry.fields.inputs), (1, entry.fields.outputs)] {
            let port = match random.below(4) {
                0 => ports,
                _ => random.below(ports.max(1)),
            };
            let port = port as u16;
            stream.put(Command::Value { side, index, port })?;
        }
    }
    missing(random, stream, entries.len() as u16)
}

/// Ids, indexes and ports that are mostly none.
fn missing<W: Write>(random: &mut Random, stream: &mut Stream<W>, count: u16) -> Result<()> {
    for index in [count, count + 1, 255, 256, 65_535] {
        let side = random.pick(&[0, 1, 255]);
        let port = random.pick(&[0, 1, 64, 65_535]);
        stream.put_all([
            Command::Value { side, index, port },
            Command::Sources { index },
            Command::Targets { index },
            Command::Index { id: random.any_size() as u32 },
        ])?;
    }
    let index = random.below(count.max(1) as u64) as u16;
    let port = random.pick(&[64, 65, 256, 65_535]);
    stream.put(Command::Value { side: random.below(2) as u8, index, port })?;
    stream.put_all([Command::Calm, Command::Satisfied])
}
