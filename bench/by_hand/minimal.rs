//! Minimal mode: a triple for each cell that isn't empty.

use crate::records::{Job, Row};
use crate::terms::{predicates, write_escaped};
use std::io::{self, Write};

pub struct Minimal<W: Write> {
    pub out: W,
    pub url: String,
    pub predicates: Vec<String>,
}

impl<W: Write> Job for Minimal<W> {
    fn header(&mut self, titles: &[&str]) -> io::Result<()> {
        self.predicates = predicates(&self.url, titles)?;
        Ok(())
    }

    fn row(&mut self, row: &Row, number: u64, _: u64) -> io::Result<()> {
        let label = format!("_:t1r{number}s ");
        for (predicate, value) in self.predicates.iter().zip(row.fields()) {
            if value.is_empty() {
                continue;
            }
            self.out.write_all(label.as_bytes())?;
            self.out.write_all(predicate.as_bytes())?;
            self.out.write_all(b" \"")?;
            write_escaped(&mut self.out, value)?;
            self.out.write_all(b"\" .\n")?;
        }
        Ok(())
    }

    fn end(&mut self) -> io::Result<()> {
        self.out.flush()
    }
}
