//! Output in lines, and the two sources of a trace.

use std::fs::File;
use std::io::{ErrorKind, Read, Write};

/// Where lines go. The calls that add to a line give the sink again, `end` ends the line.
pub trait Lines {
    fn text(&mut self, text: &str) -> &mut Self {
        self.bytes(text.as_bytes())
    }
    fn bytes(&mut self, bytes: &[u8]) -> &mut Self;
    fn number(&mut self, number: u64) -> &mut Self;
    fn end(&mut self);
}

/// Takes nothing; for `soak`.
pub struct Silent;

impl Lines for Silent {
    fn bytes(&mut self, _: &[u8]) -> &mut Self { self }
    fn number(&mut self, _: u64) -> &mut Self { self }
    fn end(&mut self) {}
}

const ROOM: usize = 1 << 16;

pub struct WriteFault;

/// Standard output behind one buffer, which is written when it is full and before each read.
pub struct Output {
    file: File,
    buffer: Vec<u8>,
    failed: bool,
}

impl Output {
    pub fn new(file: File) -> Output {
        Output { file, buffer: Vec::with_capacity(ROOM + 256), failed: false }
    }

    pub fn flush(&mut self) -> Result<(), WriteFault> {
        if !self.failed && self.file.write_all(&self.buffer).is_err() {
            self.failed = true;
        }
        self.buffer.clear();
        if self.failed { Err(WriteFault) } else { Ok(()) }
    }
}

impl Lines for Output {
    #[inline]
    fn bytes(&mut self, bytes: &[u8]) -> &mut Self {
        self.buffer.extend_from_slice(bytes);
        self
    }

    #[inline]
    fn number(&mut self, number: u64) -> &mut Self {
        push_number(&mut self.buffer, number);
        self
    }

    #[inline]
    fn end(&mut self) {
        self.buffer.push(b'\n');
        if self.buffer.len() >= ROOM {
            let _ = self.flush();
        }
    }
}

#[inline]
pub fn push_number(out: &mut Vec<u8>, mut number: u64) {
    let mut digits = [0u8; 20];
    let mut at = 20;
    loop {
        at -= 1;
        digits[at] = b'0' + (number % 10) as u8;
        number /= 10;
        if number == 0 {
            break;
        }
    }
    out.extend_from_slice(&digits[at..]);
}

pub struct ReadFault;

pub trait Source {
    /// Gives 0 at the end; `room` isn't empty.
    fn read(&mut self, room: &mut [u8]) -> Result<usize, ReadFault>;
}

impl Source for File {
    fn read(&mut self, room: &mut [u8]) -> Result<usize, ReadFault> {
        loop {
            match Read::read(self, room) {
                Ok(n) => return Ok(n),
                Err(e) if e.kind() == ErrorKind::Interrupted => {}
                Err(_) => return Err(ReadFault),
            }
        }
    }
}

/// A line has at most this many bytes, LF not counted.
pub const LINE_BYTES: usize = 65_536;

/// Lines of a source, through one buffer of the greatest line and its LF.
pub struct Reader<S> {
    source: S,
    buffer: Box<[u8]>,
    from: usize,
    to: usize,
    /// Bytes from `from` that are known to hold no LF.
    searched: usize,
    /// A byte outside 0x20 to 0x7E stands in the searched bytes.
    odd: bool,
    ended: bool,
}

/// `plain` says that every byte is in 0x20 to 0x7E.
pub struct Line<'b> {
    pub bytes: &'b [u8],
    pub plain: bool,
}

pub enum Next<'b> { Line(Line<'b>), TooLong, End }

impl<S: Source> Reader<S> {
    pub fn new(source: S) -> Reader<S> {
        Reader {
            source,
            buffer: vec![0; LINE_BYTES + 1].into_boxed_slice(),
            from: 0,
            to: 0,
            searched: 0,
            odd: false,
            ended: false,
        }
    }

    /// The place of the next LF in the buffer.
    #[inline]
    fn search(&mut self) -> Option<usize> {
        let mut at = self.from + self.searched;
        while let Some(k) = first_odd(&self.buffer[at..self.to]) {
            at += k;
            if self.buffer[at] == b'\n' {
                self.searched = at - self.from;
                return Some(at);
            }
            self.odd = true;
            at += 1;
        }
        self.searched = self.to - self.from;
        None
    }

    /// Calls `before_read` before each read of the source.
    #[inline]
    pub fn next<E: From<ReadFault>>(&mut self, mut before_read: impl FnMut() -> Result<(), E>) -> Result<Next<'_>, E> {
        loop {
            if let Some(lf) = self.search() {
                let line = Line { bytes: &self.buffer[self.from..lf], plain: !self.odd };
                self.from = lf + 1;
                self.searched = 0;
                self.odd = false;
                return Ok(Next::Line(line));
            }
            if self.to - self.from > LINE_BYTES {
                return Ok(Next::TooLong);
            }
            if self.ended {
                if self.from == self.to {
                    return Ok(Next::End);
                }
                let line = Line { bytes: &self.buffer[self.from..self.to], plain: !self.odd };
                self.from = self.to;
                self.searched = 0;
                self.odd = false;
                return Ok(Next::Line(line));
            }
            before_read()?;
            self.buffer.copy_within(self.from..self.to, 0);
            self.to -= self.from;
            self.from = 0;
            match self.source.read(&mut self.buffer[self.to..])? {
                0 => self.ended = true,
                n => self.to += n,
            }
        }
    }

    /// True where at least one byte is left. Reads where the buffer is empty.
    pub fn has_more<E: From<ReadFault>>(&mut self, mut before_read: impl FnMut() -> Result<(), E>) -> Result<bool, E> {
        if self.from == self.to && !self.ended {
            before_read()?;
            self.from = 0;
            match self.source.read(&mut self.buffer)? {
                0 => self.ended = true,
                n => self.to = n,
            }
            if self.ended {
                self.to = 0;
            }
        }
        Ok(self.from < self.to)
    }
}

/// The first byte outside 0x20 to 0x7E, eight at a time.
#[inline(always)]
fn first_odd(bytes: &[u8]) -> Option<usize> {
    const ONES: u64 = 0x0101_0101_0101_0101;
    const TOPS: u64 = 0x8080_8080_8080_8080;
    let (chunks, tail) = bytes.as_chunks::<8>();
    let mut at = 0;
    for chunk in chunks {
        let x = u64::from_le_bytes(*chunk);
        // The top bit of a byte is set where it is below 0x20 or above 0x7E. A borrow can only set
        // such a bit above one that is rightly set, and the lowest is taken.
        let odd = (x.wrapping_sub(ONES * 0x20) | x | x.wrapping_add(ONES)) & TOPS;
        if odd != 0 {
            return Some(at + odd.trailing_zeros() as usize / 8);
        }
        at += 8;
    }
    tail.iter().position(|b| b.wrapping_sub(0x20) >= 0x5f).map(|k| at + k)
}
