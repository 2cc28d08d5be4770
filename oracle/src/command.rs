//! The commands of the trace language: reading and writing their bytes.

use crate::io::{Channel, Stop};
use crate::plain::drawing::Id;
use crate::plain::kinds::Fields;
use crate::plain::single::PortValue;
use std::io::{Read, Write};

/// The most bytes of a file that are kept; a longer one is too long already.
const FILE_READ: usize = 30_001;
/// The most bytes of a file that `F` keeps.
pub const FILE_KEPT: usize = 30_000;
/// The most values on one side that `X` takes.
pub const VALUES_MAX: u64 = 256;
/// The most ids of a path that `B` takes.
pub const PATH_MAX: usize = 256;

/// One component, handed in with its ports' values and a time.
#[derive(Clone, Debug)]
pub struct Single {
    pub fields: Fields,
    pub time: u64,
    pub inputs: Vec<PortValue>,
    pub outputs: Vec<PortValue>,
}

#[derive(Clone, Debug)]
pub enum Command {
    Judge(Vec<u8>),
    Host(Vec<u8>),
    Load(Vec<u8>),
    Net,
    State,
    All,
    Round { time: u64 },
    RoundOrdered { time: u64 },
    Edit { index: u16, number: u64 },
    EditFirst { index: u16, number: u64 },
    Run { time: u64, limit: u16 },
    Calm,
    Satisfied,
    Index { id: u32 },
    Value { side: u8, index: u16, port: u16 },
    Sources { index: u16 },
    Targets { index: u16 },
    Evaluate(Single),
    WriteWord { table: u8, place: u16, word: u64 },
    SetCount { which: u8, number: u64 },
    Lend { table: u8, words: u16 },
    Keep(Vec<u8>),
    Table { table: u8 },
    WriteWords { table: u8, place: u16, words: Vec<u64> },
    Look { path: Vec<Id> },
    Mend,
    SlowLoad,
    SlowRound { time: u64 },
    SlowEdit { index: u16, number: u64 },
    SlowEditFirst { index: u16, number: u64 },
    SlowRun { time: u64, limit: u16 },
    SlowState,
}

impl Command {
    /// Reads one command. There is at least one byte of input.
    pub fn read<R: Read, W: Write>(from: &mut Channel<R, W>) -> Result<Command, Stop> {
        let command = match from.number::<1>()? as u8 {
            b'J' => Command::Judge(read_file(from)?),
            b'H' => Command::Host(read_file(from)?),
            b'L' => Command::Load(read_file(from)?),
            b'N' => Command::Net,
            b'P' => Command::State,
            b'A' => Command::All,
            b'R' => Command::Round { time: from.number::<8>()? },
            b'O' => Command::RoundOrdered { time: from.number::<8>()? },
            b'E' => Command::Edit { index: from.number::<2>()? as u16, number: from.number::<8>()? },
            b'G' => Command::EditFirst { index: from.number::<2>()? as u16, number: from.number::<8>()? },
            b'U' => Command::Run { time: from.number::<8>()?, limit: from.number::<2>()? as u16 },
            b'C' => Command::Calm,
            b'Q' => Command::Satisfied,
            b'I' => Command::Index { id: from.number::<4>()? as u32 },
            b'V' => Command::Value {
                side: from.number::<1>()? as u8,
                index: from.number::<2>()? as u16,
                port: from.number::<2>()? as u16,
            },
            b'S' => Command::Sources { index: from.number::<2>()? as u16 },
            b'T' => Command::Targets { index: from.number::<2>()? as u16 },
            b'X' => Command::Evaluate(read_single(from)?),
            b'W' => Command::WriteWord {
                table: from.number::<1>()? as u8,
                place: from.number::<2>()? as u16,
                word: from.number::<8>()?,
            },
            b'K' => Command::SetCount { which: from.number::<1>()? as u8, number: from.number::<8>()? },
            b'Z' => Command::Lend { table: from.number::<1>()? as u8, words: from.number::<2>()? as u16 },
            b'F' => Command::Keep(read_file(from)?),
            b'D' => Command::Table { table: from.number::<1>()? as u8 },
            b'Y' => Command::WriteWords {
                table: from.number::<1>()? as u8,
                place: from.number::<2>()? as u16,
                words: read_words(from)?,
            },
            b'B' => Command::Look { path: read_path(from)? },
            b'M' => Command::Mend,
            b'l' => Command::SlowLoad,
            b'r' => Command::SlowRound { time: from.number::<8>()? },
            b'e' => Command::SlowEdit { index: from.number::<2>()? as u16, number: from.number::<8>()? },
            b'g' => Command::SlowEditFirst { index: from.number::<2>()? as u16, number: from.number::<8>()? },
            b'u' => Command::SlowRun { time: from.number::<8>()?, limit: from.number::<2>()? as u16 },
            b'p' => Command::SlowState,
            _ => return Err(Stop::Bad),
        };
        Ok(command)
    }

    /// Appends the command's bytes.
    pub fn write(&self, to: &mut Vec<u8>) {
        match self {
            Command::Judge(file) => write_file(to, b'J', file),
            Command::Host(file) => write_file(to, b'H', file),
            Command::Load(file) => write_file(to, b'L', file),
            Command::Net => to.push(b'N'),
            Command::State => to.push(b'P'),
            Command::All => to.push(b'A'),
            Command::Calm => to.push(b'C'),
            Command::Satisfied => to.push(b'Q'),
            Command::Mend => to.push(b'M'),
            Command::SlowLoad => to.push(b'l'),
            Command::SlowState => to.push(b'p'),
            Command::Round { time } => words(to, b'R', &[(*time, 8)]),
            Command::RoundOrdered { time } => words(to, b'O', &[(*time, 8)]),
            Command::Edit { index, number } => words(to, b'E', &[(*index as u64, 2), (*number, 8)]),
            Command::EditFirst { index, number } => words(to, b'G', &[(*index as u64, 2), (*number, 8)]),
            Command::Run { time, limit } => words(to, b'U', &[(*time, 8), (*limit as u64, 2)]),
            Command::SlowRound { time } => words(to, b'r', &[(*time, 8)]),
            Command::SlowEdit { index, number } => words(to, b'e', &[(*index as u64, 2), (*number, 8)]),
            Command::SlowEditFirst { index, number } => words(to, b'g', &[(*index as u64, 2), (*number, 8)]),
            Command::SlowRun { time, limit } => words(to, b'u', &[(*time, 8), (*limit as u64, 2)]),
            Command::Index { id } => words(to, b'I', &[(*id as u64, 4)]),
            Command::Value { side, index, port } => {
                words(to, b'V', &[(*side as u64, 1), (*index as u64, 2), (*port as u64, 2)])
            }
            Command::Sources { index } => words(to, b'S', &[(*index as u64, 2)]),
            Command::Targets { index } => words(to, b'T', &[(*index as u64, 2)]),
            Command::Evaluate(single) => write_single(to, single),
            Command::WriteWord { table, place, word } => {
                words(to, b'W', &[(*table as u64, 1), (*place as u64, 2), (*word, 8)])
            }
            Command::SetCount { which, number } => words(to, b'K', &[(*which as u64, 1), (*number, 8)]),
            Command::Lend { table, words: lent } => words(to, b'Z', &[(*table as u64, 1), (*lent as u64, 2)]),
            Command::Keep(file) => write_file(to, b'F', file),
            Command::Table { table } => words(to, b'D', &[(*table as u64, 1)]),
            Command::WriteWords { table, place, words: written } => {
                words(to, b'Y', &[(*table as u64, 1), (*place as u64, 2), (written.len() as u64, 2)]);
                written.iter().for_each(|word| to.extend_from_slice(&word.to_le_bytes()));
            }
            Command::Look { path } => {
                assert!(path.len() <= PATH_MAX, "a longer path is a bad command");
                words(to, b'B', &[(path.len() as u64, 2)]);
                path.iter().for_each(|id| to.extend_from_slice(&id.0.to_le_bytes()));
            }
        }
    }
}

/// A length and that many bytes.
fn read_file<R: Read, W: Write>(from: &mut Channel<R, W>) -> Result<Vec<u8>, Stop> {
    let length = from.number::<4>()? as usize;
    from.bytes(length, FILE_READ)
}

/// How many, and that many words.
fn read_words<R: Read, W: Write>(from: &mut Channel<R, W>) -> Result<Vec<u64>, Stop> {
    let how_many = from.number::<2>()?;
    (0..how_many).map(|_| from.number::<8>()).collect()
}

/// How many, at most 256, and that many ids.
fn read_path<R: Read, W: Write>(from: &mut Channel<R, W>) -> Result<Vec<Id>, Stop> {
    let how_many = from.number::<2>()?;
    if how_many > PATH_MAX as u64 {
        return Err(Stop::Bad);
    }
    (0..how_many).map(|_| Ok(Id(from.number::<4>()? as u32))).collect()
}

fn read_single<R: Read, W: Write>(from: &mut Channel<R, W>) -> Result<Single, Stop> {
    let fields = Fields {
        kind: from.number::<1>()?,
        inputs: from.number::<2>()?,
        outputs: from.number::<2>()?,
        width: from.number::<2>()?,
        parameter: from.number::<8>()?,
    };
    let time = from.number::<8>()?;
    let inputs = read_values(from)?;
    let outputs = read_values(from)?;
    Ok(Single { fields, time, inputs, outputs })
}

/// How many, at most 256, and that many values.
fn read_values<R: Read, W: Write>(from: &mut Channel<R, W>) -> Result<Vec<PortValue>, Stop> {
    let how_many = from.number::<2>()?;
    if how_many > VALUES_MAX {
        return Err(Stop::Bad);
    }
    let mut values = Vec::new();
    for _ in 0..how_many {
        let number = from.number::<8>()?;
        let width = from.number::<1>()?;
        values.push(PortValue { number, width });
    }
    Ok(values)
}

/// A letter, then each number in its bytes, the lowest first.
fn words(to: &mut Vec<u8>, letter: u8, numbers: &[(u64, usize)]) {
    to.push(letter);
    for (number, bytes) in numbers {
        to.extend_from_slice(&number.to_le_bytes()[..*bytes]);
    }
}

fn write_file(to: &mut Vec<u8>, letter: u8, file: &[u8]) {
    words(to, letter, &[(file.len() as u64, 4)]);
    to.extend_from_slice(file);
}

fn write_single(to: &mut Vec<u8>, single: &Single) {
    let fields = &single.fields;
    let head = [
        (fields.kind, 1),
        (fields.inputs, 2),
        (fields.outputs, 2),
        (fields.width, 2),
        (fields.parameter, 8),
        (single.time, 8),
    ];
    words(to, b'X', &head);
    for values in [&single.inputs, &single.outputs] {
        assert!(values.len() as u64 <= VALUES_MAX, "more values are a bad command");
        to.extend_from_slice(&(values.len() as u16).to_le_bytes());
        for value in values {
            to.extend_from_slice(&value.number.to_le_bytes());
            to.push(value.width as u8);
        }
    }
}
