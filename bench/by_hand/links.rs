//! Minimal mode with links: `aboutUrl` is `#{id}` of the first column, and the third column has the `valueUrl`
//! `http://example.org/x/{place}`.

use crate::records::{Job, Row};
use crate::terms::{predicates, write_encoded, write_escaped};
use std::io::{self, Write};

const ID: usize = 0;
const PLACE: usize = 2;

pub struct Links<W: Write> {
    pub out: W,
    pub url: String,
    pub predicates: Vec<String>,
    pub subject: Vec<u8>,
}

impl<W: Write> Job for Links<W> {
    fn header(&mut self, titles: &[&str]) -> io::Result<()> {
        self.predicates = predicates(&self.url, titles)?;
        Ok(())
    }

    fn row(&mut self, row: &Row, _: u64, _: u64) -> io::Result<()> {
        self.subject.clear();
        write!(self.subject, "<{}#", self.url)?;
        if let Some(id) = row.fields().nth(ID) {
            write_encoded(&mut self.subject, id)?;
        }
        self.subject.extend_from_slice(b"> ");
        for (i, (predicate, value)) in self.predicates.iter().zip(row.fields()).enumerate() {
            if value.is_empty() {
                continue;
            }
            self.out.write_all(&self.subject)?;
            self.out.write_all(predicate.as_bytes())?;
            if i == PLACE {
                self.out.write_all(b" <http://example.org/x/")?;
                write_encoded(&mut self.out, value)?;
                self.out.write_all(b"> .\n")?;
            } else {
                self.out.write_all(b" \"")?;
                write_escaped(&mut self.out, value)?;
                self.out.write_all(b"\" .\n")?;
            }
        }
        Ok(())
    }

    fn end(&mut self) -> io::Result<()> {
        self.out.flush()
    }
}
