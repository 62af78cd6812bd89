//! Counts the rows, the fields and the bytes of the fields of a CSV file: a state machine over bytes, with one buffer
//! for a row and any delimiter.

use crate::records::bad;
use std::fs::File;
use std::io::{self, Read, Write};

const PIECE: usize = 65_536;

#[derive(Clone, Copy, PartialEq)]
enum State {
    Start,
    Plain,
    Quoted,
    Closed,
}

#[derive(Default)]
struct Counts {
    rows: u64,
    fields: u64,
    bytes: u64,
}

/// A reader. `ONE` is true if its delimiter has one byte.
struct Reader<'a, const ONE: bool> {
    state: State,
    after_cr: bool,
    delimiter: &'a [u8],
    first: u8,
    matched: usize,
    text: Vec<u8>,
    ends: Vec<usize>,
    counts: Counts,
}

impl<const ONE: bool> Reader<'_, ONE> {
    fn end_field(&mut self) {
        self.ends.push(self.text.len());
        self.state = State::Start;
    }

    fn end_row(&mut self) -> io::Result<()> {
        self.end_field();
        std::str::from_utf8(&self.text).map_err(|_| bad("no UTF-8"))?;
        self.counts.rows += 1;
        self.counts.fields += self.ends.len() as u64;
        self.counts.bytes += self.text.len() as u64;
        self.text.clear();
        self.ends.clear();
        Ok(())
    }

    /// Takes a byte outside quotes that has no meaning.
    fn keep(&mut self, b: u8) -> io::Result<()> {
        match self.state {
            State::Closed => Err(bad("text after a quote")),
            State::Start | State::Plain | State::Quoted => {
                self.text.push(b);
                self.state = State::Plain;
                Ok(())
            }
        }
    }

    /// Takes the part of the delimiter that was read as text.
    fn keep_matched(&mut self) -> io::Result<()> {
        let matched = self.matched;
        self.matched = 0;
        (0..matched).try_for_each(|i| self.keep(self.delimiter[i]))
    }

    /// Takes a byte after a part of the delimiter.
    fn go_on(&mut self, b: u8) -> io::Result<()> {
        if b != self.delimiter[self.matched] {
            self.keep_matched()?;
            return self.step(b);
        }
        self.matched += 1;
        if self.matched == self.delimiter.len() {
            self.matched = 0;
            self.end_field();
        }
        Ok(())
    }

    fn step(&mut self, b: u8) -> io::Result<()> {
        if !ONE && self.matched > 0 {
            return self.go_on(b);
        }
        if self.after_cr {
            self.after_cr = false;
            if b != b'\n' {
                self.keep(b'\r')?;
            }
        }
        match (self.state, b) {
            (State::Quoted, b'"') => self.state = State::Closed,
            (State::Quoted, _) => self.text.push(b),
            (State::Closed, b'"') => {
                self.text.push(b);
                self.state = State::Quoted;
            }
            (_, _) if b == self.first => {
                if ONE {
                    self.end_field();
                } else {
                    self.matched = 1;
                }
            }
            (_, b'\n') => self.end_row()?,
            (_, b'\r') => self.after_cr = true,
            (State::Start, b'"') => self.state = State::Quoted,
            (State::Plain, b'"') | (State::Closed, _) => return Err(bad("a quote")),
            (State::Start | State::Plain, _) => {
                self.text.push(b);
                self.state = State::Plain;
            }
        }
        Ok(())
    }

    fn end(mut self) -> io::Result<Counts> {
        self.keep_matched()?;
        if self.after_cr {
            self.keep(b'\r')?;
        }
        match self.state {
            State::Quoted => Err(bad("an open quote")),
            State::Start if self.ends.is_empty() => Ok(self.counts),
            _ => self.end_row().map(|()| self.counts),
        }
    }
}

fn read<const ONE: bool>(mut input: impl Read, delimiter: &[u8]) -> io::Result<Counts> {
    let mut buffer = vec![0; PIECE];
    let mut reader = Reader::<ONE> {
        state: State::Start,
        after_cr: false,
        delimiter,
        first: delimiter[0],
        matched: 0,
        text: Vec::new(),
        ends: Vec::new(),
        counts: Counts::default(),
    };
    loop {
        let n = input.read(&mut buffer)?;
        if n == 0 {
            return reader.end();
        }
        for b in &buffer[..n] {
            reader.step(*b)?;
        }
    }
}

/// Writes the counts of a file with this delimiter.
pub fn count(delimiter: &str, file: &str, mut out: impl Write) -> io::Result<()> {
    let input = File::open(file)?;
    let Counts { rows, fields, bytes } = match delimiter.as_bytes() {
        [] => return Err(bad("no delimiter")),
        one @ [_] => read::<true>(input, one)?,
        more => read::<false>(input, more)?,
    };
    writeln!(out, "{rows} rows, {fields} fields, {bytes} bytes")
}
