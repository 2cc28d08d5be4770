//! Input and output of the program.
//!
//! Output is kept back while input is at hand, and written out before the next
//! read that may wait: files go fast, and the far end of a pipe never waits.

use std::io::{BufRead, BufReader, BufWriter, Error, Read, Result, Write};

/// Why no command could be read.
#[derive(Debug)]
pub enum Stop {
    /// The input ends here, or what stands here is no command.
    Bad,
    Io(Error),
}

impl From<Error> for Stop {
    fn from(error: Error) -> Self {
        Stop::Io(error)
    }
}

pub struct Channel<R: Read, W: Write> {
    input: BufReader<R>,
    output: BufWriter<W>,
}

impl<R: Read, W: Write> Channel<R, W> {
    pub fn new(input: R, output: W) -> Self {
        Channel {
            input: BufReader::with_capacity(1 << 16, input),
            output: BufWriter::with_capacity(1 << 16, output),
        }
    }

    /// The bytes at hand, at least one unless the input ends.
    fn at_hand(&mut self) -> Result<&[u8]> {
        if self.input.buffer().is_empty() {
            self.output.flush()?;
        }
        self.input.fill_buf()
    }

    /// Whether the input ends here.
    pub fn at_end(&mut self) -> Result<bool> {
        Ok(self.at_hand()?.is_empty())
    }

    /// Reads `length` bytes and hands them on part by part.
    fn parts(&mut self, length: usize, mut take: impl FnMut(&[u8])) -> std::result::Result<(), Stop> {
        let mut left = length;
        while left > 0 {
            let at_hand = self.at_hand()?;
            if at_hand.is_empty() {
                return Err(Stop::Bad);
            }
            let taken = left.min(at_hand.len());
            take(&at_hand[..taken]);
            self.input.consume(taken);
            left -= taken;
        }
        Ok(())
    }

    /// Reads `length` bytes and keeps the first `kept` of them.
    pub fn bytes(&mut self, length: usize, kept: usize) -> std::result::Result<Vec<u8>, Stop> {
        let mut bytes = Vec::new();
        self.parts(length, |part| {
            let room = kept - bytes.len();
            bytes.extend_from_slice(&part[..room.min(part.len())]);
        })?;
        Ok(bytes)
    }

    /// Reads a number of `N` bytes, the lowest first.
    pub fn number<const N: usize>(&mut self) -> std::result::Result<u64, Stop> {
        let mut number = 0;
        let mut place = 0;
        self.parts(N, |part| {
            for byte in part {
                number |= (*byte as u64) << (8 * place);
                place += 1;
            }
        })?;
        Ok(number)
    }

    pub fn write(&mut self, text: &str) -> Result<()> {
        self.output.write_all(text.as_bytes())
    }

    pub fn flush(&mut self) -> Result<()> {
        self.output.flush()
    }
}
