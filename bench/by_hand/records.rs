//! The records of a CSV file: a state machine over its bytes, with one buffer for a row.

use std::fs::File;
use std::io::{self, Read};

const PIECE: usize = 65_536;
const ROW_LIMIT: usize = 1_048_576;

/// What is done with the rows of a file.
pub trait Job {
    /// The header row.
    fn header(&mut self, fields: &[&str]) -> io::Result<()>;

    /// A data row; both numbers are from 1, the source's over rows of all kinds.
    fn row(&mut self, row: &Row, number: u64, source: u64) -> io::Result<()>;

    /// The end of the file.
    fn end(&mut self) -> io::Result<()>;
}

enum State {
    FieldStart,
    Unquoted,
    Quoted,
    AfterQuote,
    Comment,
}

/// The row so far: its fields' bytes, one after the other, and where each ends.
pub struct Row {
    text: Vec<u8>,
    ends: Vec<usize>,
    length: usize,
}

struct Records<J: Job> {
    job: J,
    columns: usize,
    number: u64,
    source: u64,
    state: State,
    after_cr: bool,
    row: Row,
}

pub fn bad(what: &str) -> io::Error {
    io::Error::new(io::ErrorKind::InvalidData, what)
}

impl Row {
    /// The fields, in order.
    pub fn fields(&self) -> impl Iterator<Item = &[u8]> {
        let mut start = 0;
        self.ends.iter().map(move |end| {
            let field = &self.text[start..*end];
            start = *end;
            field
        })
    }

    fn push(&mut self, b: u8) {
        self.text.push(b);
    }

    fn end_field(&mut self) {
        self.ends.push(self.text.len());
    }

    fn clear(&mut self) {
        self.text.clear();
        self.ends.clear();
        self.length = 0;
    }
}

impl<J: Job> Records<J> {
    fn take_header(&mut self) -> io::Result<()> {
        self.columns = self.row.ends.len();
        let text = str::from_utf8(&self.row.text).map_err(|_| bad("NotUtf8"))?;
        let mut start = 0;
        let mut fields = Vec::new();
        for end in &self.row.ends {
            fields.push(&text[start..*end]);
            start = *end;
        }
        self.job.header(&fields)
    }

    fn end_row(&mut self) -> io::Result<()> {
        self.source += 1;
        if !matches!(self.state, State::Comment) {
            self.row.end_field();
            if self.columns == 0 {
                self.take_header()?;
            } else {
                str::from_utf8(&self.row.text).map_err(|_| bad("NotUtf8"))?;
                if self.row.ends.len() != self.columns {
                    return Err(bad("RaggedRow"));
                }
                self.number += 1;
                self.job.row(&self.row, self.number, self.source)?;
            }
        }
        self.row.clear();
        self.state = State::FieldStart;
        Ok(())
    }

    /// Takes a byte that ends no row; a CR before a line feed doesn't come here.
    fn take_text(&mut self, b: u8) -> io::Result<()> {
        self.row.length += 1;
        if self.row.length > ROW_LIMIT {
            return Err(bad("RowTooLong"));
        }
        match self.state {
            State::FieldStart => match b {
                b'#' if self.row.length == 1 => self.state = State::Comment,
                b'"' => self.state = State::Quoted,
                b',' => self.row.end_field(),
                _ => {
                    self.state = State::Unquoted;
                    self.row.push(b);
                }
            },
            State::Unquoted => match b {
                b'"' => return Err(bad("BadQuote")),
                b',' => {
                    self.row.end_field();
                    self.state = State::FieldStart;
                }
                _ => self.row.push(b),
            },
            State::Quoted => match b {
                b'"' => self.state = State::AfterQuote,
                _ => self.row.push(b),
            },
            State::AfterQuote => match b {
                b'"' => {
                    self.state = State::Quoted;
                    self.row.push(b);
                }
                b',' => {
                    self.row.end_field();
                    self.state = State::FieldStart;
                }
                _ => return Err(bad("TextAfterQuote")),
            },
            State::Comment => {}
        }
        Ok(())
    }

    fn take(&mut self, b: u8) -> io::Result<()> {
        let quoted = matches!(self.state, State::Quoted);
        if self.after_cr {
            self.after_cr = false;
            if b == b'\n' {
                return self.end_row();
            }
            self.take_text(b'\r')?;
        }
        if quoted {
            return self.take_text(b);
        }
        match b {
            b'\n' => self.end_row(),
            b'\r' => {
                self.after_cr = true;
                Ok(())
            }
            _ => self.take_text(b),
        }
    }

    fn end(&mut self) -> io::Result<()> {
        if self.after_cr {
            self.after_cr = false;
            self.take_text(b'\r')?;
        }
        if matches!(self.state, State::Quoted) {
            return Err(bad("UnclosedQuote"));
        }
        if self.row.length > 0 {
            self.end_row()?;
        }
        self.job.end()
    }
}

/// Gives the rows of a file to a job.
pub fn read<J: Job>(file: &str, job: J) -> io::Result<()> {
    let mut input = File::open(file)?;
    let mut records = Records {
        job,
        columns: 0,
        number: 0,
        source: 0,
        state: State::FieldStart,
        after_cr: false,
        row: Row { text: Vec::new(), ends: Vec::new(), length: 0 },
    };
    let mut piece = vec![0; PIECE];
    loop {
        let n = input.read(&mut piece)?;
        if n == 0 {
            return records.end();
        }
        for b in &piece[..n] {
            records.take(*b)?;
        }
    }
}
