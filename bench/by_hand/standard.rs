//! Standard mode: the triples about the group, its table and each row, and the triples of minimal mode.

use crate::records::{Job, Row};
use crate::terms::{CSVW, RDF_TYPE, XSD, predicates, write_escaped};
use std::io::{self, Write};

pub struct Standard<W: Write> {
    pub out: W,
    pub url: String,
    pub predicates: Vec<String>,
}

impl<W: Write> Standard<W> {
    fn open(&mut self) -> io::Result<()> {
        let url = &self.url;
        writeln!(self.out, "_:g <{RDF_TYPE}> <{CSVW}TableGroup> .")?;
        writeln!(self.out, "_:g <{CSVW}table> _:t1 .")?;
        writeln!(self.out, "_:t1 <{RDF_TYPE}> <{CSVW}Table> .")?;
        writeln!(self.out, "_:t1 <{CSVW}url> <{url}> .")
    }

    fn open_row(&mut self, number: u64, source: u64) -> io::Result<()> {
        let url = &self.url;
        writeln!(
            self.out,
            "_:t1 <{CSVW}row> _:t1r{number} .\n\
             _:t1r{number} <{RDF_TYPE}> <{CSVW}Row> .\n\
             _:t1r{number} <{CSVW}rownum> \"{number}\"^^<{XSD}integer> .\n\
             _:t1r{number} <{CSVW}url> <{url}#row={source}> .\n\
             _:t1r{number} <{CSVW}describes> _:t1r{number}s ."
        )
    }
}

impl<W: Write> Job for Standard<W> {
    fn header(&mut self, titles: &[&str]) -> io::Result<()> {
        self.predicates = predicates(&self.url, titles)?;
        self.open()
    }

    fn row(&mut self, row: &Row, number: u64, source: u64) -> io::Result<()> {
        self.open_row(number, source)?;
        let label = format!("_:t1r{number}s ");
        for (predicate, value) in self.predicates.iter().zip(row.fields()) {
            if value.is_empty() {
                continue;
            }
            self.out.write_all(label.as_bytes())?;
            self.out.write_all(predicate.as_bytes())?;
            self.out.write_all(b" \"")?;
            write_escaped(&mut self.out, value)?;
            self.out.write_all(b"\" .\n")?;
        }
        Ok(())
    }

    fn end(&mut self) -> io::Result<()> {
        self.out.flush()
    }
}
