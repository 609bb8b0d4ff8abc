//! Lines of an input, whatever bytes come: none can be so long or so odd that the next one is not read.
use std::io::{self, BufRead, Read};

/// The longest line: two hex digits and a separator for each of 1,025 chip bytes are 3,075; the rest is room.
pub const LONGEST: usize = 16_384;

/// How much is read, and written, at once.
pub const AT_ONCE: usize = 65_536;

pub enum Line<'a> {
    Bytes(&'a [u8]),
    TooLong,
}

/// Why there is no next line: the input cannot be read, or what was to be done before waiting for it failed.
pub enum Broken {
    Input(io::Error),
    Pause(io::Error),
}

/// An input, the line that it stands at, and that line's number.
pub struct Lines<R> {
    input: io::BufReader<R>,
    kept: Vec<u8>,
    number: u64,
}

const BYTE_ORDER_MARK: &[u8] = b"\xEF\xBB\xBF";

impl<R: Read> Lines<R> {
    pub fn of(input: R) -> Lines<R> {
        Lines { input: io::BufReader::with_capacity(AT_ONCE, input), kept: Vec::new(), number: 0 }
    }

    /// The next line with its number, from 1, without its line feed and carriage return; or nothing at the end of the input.
    /// Before it has to wait for more bytes it calls `pause`, so that whoever asks sees all answers before he is waited for.
    pub fn next(&mut self, mut pause: impl FnMut() -> io::Result<()>) -> Result<Option<(u64, Line<'_>)>, Broken> {
        self.kept.clear();
        let mut length = 0usize;
        loop {
            if self.input.buffer().is_empty() {
                pause().map_err(Broken::Pause)?;
            }
            let buffer = match self.input.fill_buf() {
                Err(why) if why.kind() == io::ErrorKind::Interrupted => continue,
                other => other.map_err(Broken::Input)?,
            };
            if buffer.is_empty() {
                return Ok((length > 0).then(|| self.line(length)));
            }
            let end = buffer.iter().position(|&b| b == b'\n');
            let part = &buffer[..end.unwrap_or(buffer.len())];
            self.kept.extend_from_slice(&part[..part.len().min((LONGEST + 1).saturating_sub(self.kept.len()))]);
            length += part.len();
            let used = part.len() + usize::from(end.is_some());
            self.input.consume(used);
            if end.is_some() {
                return Ok(Some(self.line(length)));
            }
        }
    }

    fn line(&mut self, length: usize) -> (u64, Line<'_>) {
        self.number += 1;
        if length > LONGEST {
            return (self.number, Line::TooLong);
        }
        let first = if self.number == 1 { self.kept.strip_prefix(BYTE_ORDER_MARK) } else { None };
        let line = first.unwrap_or(&self.kept);
        (self.number, Line::Bytes(line.strip_suffix(b"\r").unwrap_or(line)))
    }
}
