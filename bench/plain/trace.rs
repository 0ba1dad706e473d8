//! The grammar of one line, with the faults that a line has by itself.

use crate::out::Line;
use crate::table::{self, Cmd, Code, Results, ROWS, VERSION_ONE, VK_SUCCESS, VOID};

#[derive(Clone, Copy, PartialEq, Eq, Debug)]
pub enum Fault {
    Header, NotAscii, Letter, Thread, Command, Parameter, Argument, Results, Code, Busy, Idle,
    Unknown, WrongType, Sequence, Instance, OpenAtEnd,
}

#[derive(Clone, Copy, PartialEq, Eq, Debug)]
pub enum Version { One, Two }

pub const MAX_THREAD: u32 = 1024;
pub const MAX_NUMBER: u32 = 4_194_304;
pub const MAX_LIST: usize = 1024;

/// "Stands for no object", and in a trace's lines "not looked up".
pub const NONE: u32 = u32::MAX;

/// A written argument; `thread` 0 is null.
#[derive(Clone, Copy)]
pub struct Arg {
    pub thread: u16,
    pub number: u32,
    /// The object that the name stands for, filled in by the session.
    pub object: u32,
}

impl Arg {
    pub fn is_null(&self) -> bool {
        self.thread == 0
    }
}

/// The arguments of one call, flat, with the place at which each parameter starts; the starts
/// past the row's parameters are the number of arguments.
#[derive(Default)]
pub struct Args {
    pub flat: Vec<Arg>,
    starts: [u32; 7],
}

impl Args {
    #[inline]
    pub fn start(&self, param: usize) -> usize {
        self.starts[param] as usize
    }

    #[inline]
    pub fn range(&self, param: usize) -> std::ops::Range<usize> {
        self.start(param)..self.start(param + 1)
    }

    #[inline]
    pub fn of(&self, param: usize) -> &[Arg] {
        &self.flat[self.range(param)]
    }

    /// The parameter at which a flat place stands.
    pub fn param_of(&self, place: usize) -> usize {
        (0..6).find(|p| place < self.start(p + 1)).unwrap_or(5)
    }
}

pub struct Begin<'l> {
    pub thread: u32,
    pub cmd: Cmd,
    pub results: u32,
    /// The first result's number where the names are of this thread and follow each other.
    pub first_result: Option<u32>,
    pub code: Code,
    pub payload: &'l [u8],
}

pub enum Event<'l> {
    Begin(Begin<'l>),
    Return(u32),
    Comment,
}

struct Cursor<'l> {
    rest: &'l [u8],
}

impl<'l> Cursor<'l> {
    #[inline(always)]
    fn eat(&mut self, byte: u8) -> bool {
        match self.rest.split_first() {
            Some((b, rest)) if *b == byte => {
                self.rest = rest;
                true
            }
            _ => false,
        }
    }

    #[inline(always)]
    fn eat_text(&mut self, text: &[u8]) -> bool {
        match self.rest.strip_prefix(text) {
            Some(rest) => {
                self.rest = rest;
                true
            }
            None => false,
        }
    }

    /// A decimal number from 1 to `max` without leading zeros; `max` has at most 7 digits.
    #[inline(always)]
    fn number(&mut self, max: u32) -> Option<u32> {
        let mut value = u32::from(self.rest.first()?.wrapping_sub(b'0'));
        if value == 0 || value > 9 {
            return None;
        }
        let mut n = 1;
        while let Some(b) = self.rest.get(n) {
            let digit = u32::from(b.wrapping_sub(b'0'));
            if digit > 9 {
                break;
            }
            if n == 7 {
                return None;
            }
            value = value * 10 + digit;
            n += 1;
        }
        self.rest = &self.rest[n..];
        (value <= max).then_some(value)
    }

    #[inline(always)]
    fn name(&mut self) -> Option<(u16, u32)> {
        if !self.eat(b'%') {
            return None;
        }
        let thread = self.number(MAX_THREAD)?;
        if !self.eat(b'.') {
            return None;
        }
        Some((thread as u16, self.number(MAX_NUMBER)?))
    }

    #[inline]
    fn one(&mut self) -> Option<Arg> {
        let (thread, number) = if self.eat_text(b"null") { (0, 0) } else { self.name()? };
        Some(Arg { thread, number, object: NONE })
    }

    #[inline]
    fn at_word_end(&self) -> bool {
        matches!(self.rest.first(), None | Some(b' '))
    }

    /// The bytes up to the next space or the end.
    #[inline(always)]
    fn word(&mut self) -> &'l [u8] {
        let (word, rest) = self.rest.split_at(first_space(self.rest));
        self.rest = rest;
        word
    }

    #[inline(always)]
    fn arg(&mut self, many: bool, flat: &mut Vec<Arg>) -> Option<()> {
        if !self.eat(b' ') {
            return None;
        }
        if !many {
            flat.push(self.one()?);
        } else {
            if !self.eat(b'[') {
                return None;
            }
            if !self.eat(b']') {
                let mut places = 0;
                loop {
                    places += 1;
                    if places > MAX_LIST {
                        return None;
                    }
                    flat.push(self.one()?);
                    if self.eat(b']') {
                        break;
                    }
                    if !self.eat(b',') {
                        return None;
                    }
                }
            }
        }
        self.at_word_end().then_some(())
    }
}

/// The place of the first space, or the length; eight bytes at a time.
#[inline(always)]
fn first_space(bytes: &[u8]) -> usize {
    const ONES: u64 = 0x0101_0101_0101_0101;
    let (chunks, tail) = bytes.as_chunks::<8>();
    let mut at = 0;
    for chunk in chunks {
        let x = u64::from_le_bytes(*chunk) ^ (ONES * 0x20);
        // The lowest top bit that is set is that of the first zero byte.
        let zero = x.wrapping_sub(ONES) & !x & (ONES * 0x80);
        if zero != 0 {
            return at + zero.trailing_zeros() as usize / 8;
        }
        at += 8;
    }
    at + tail.iter().position(|b| *b == b' ').unwrap_or(tail.len())
}

/// Which fault stands where the arguments didn't parse: `Parameter` where there are fewer words.
#[cold]
fn argument_fault(mut rest: Cursor, params: usize) -> Fault {
    for _ in 0..params {
        if !rest.eat(b' ') || rest.word().is_empty() {
            return Fault::Parameter;
        }
    }
    Fault::Argument
}

pub fn parse<'l>(version: Version, line: Line<'l>, args: &mut Args) -> Result<Event<'l>, Fault> {
    if !line.plain {
        return Err(Fault::NotAscii);
    }
    let mut c = Cursor { rest: line.bytes };
    let begins = match line.bytes {
        [b'b', b' ', ..] => true,
        [b'r', b' ', ..] => false,
        [b'#', ..] if version == Version::Two => return Ok(Event::Comment),
        _ => return Err(Fault::Letter),
    };
    c.rest = &c.rest[2..];
    let thread = c.number(MAX_THREAD).ok_or(Fault::Thread)?;
    if !begins {
        return if c.rest.is_empty() { Ok(Event::Return(thread)) } else { Err(Fault::Thread) };
    }
    if !c.eat(b' ') {
        return Err(Fault::Thread);
    }
    let rows = if version == Version::One { VERSION_ONE } else { ROWS.len() };
    let cmd = table::find(c.word(), rows).ok_or(Fault::Command)?;
    let row = &ROWS[cmd as usize];

    args.flat.clear();
    let before = Cursor { rest: c.rest };
    for (p, param) in row.params.iter().enumerate() {
        if c.arg(param.many, &mut args.flat).is_none() || (p == 0 && args.flat[0].is_null()) {
            return Err(argument_fault(before, row.params.len()));
        }
        args.starts[p + 1] = args.flat.len() as u32;
    }
    args.starts[row.params.len() + 1..].fill(args.flat.len() as u32);

    let mut results = 0;
    let mut first_result = None;
    if c.eat_text(b" = ") {
        if row.results == Results::Zero {
            return Err(Fault::Results);
        }
        let mut in_order = true;
        let mut next = 0;
        loop {
            let (t, n) = c.name().ok_or(Fault::Results)?;
            if results == 0 {
                first_result = Some(n);
                next = n;
            }
            in_order &= u32::from(t) == thread && n == next;
            next += 1;
            results += 1;
            if results as usize > MAX_LIST {
                return Err(Fault::Results);
            }
            if !c.eat(b',') {
                break;
            }
        }
        if !c.at_word_end() || (row.results == Results::One && results != 1) {
            return Err(Fault::Results);
        }
        if !in_order {
            first_result = None;
        }
    } else if row.results == Results::One {
        return Err(Fault::Results);
    }

    if !c.eat(b' ') {
        return Err(Fault::Code);
    }
    let code = if !row.returns {
        if !c.eat_text(b"void") {
            return Err(Fault::Code);
        }
        VOID
    } else if c.eat_text(b"VK_SUCCESS") {
        VK_SUCCESS
    } else {
        table::find_code(c.word()).ok_or(Fault::Code)?
    };
    let mut payload: &[u8] = &[];
    if !c.rest.is_empty() {
        if !c.eat_text(b" : ") || c.rest.is_empty() {
            return Err(Fault::Code);
        }
        payload = c.rest;
    }
    Ok(Event::Begin(Begin { thread, cmd, results, first_result, code, payload }))
}
