//! The keys of two tables: each has an integer in its first column, which is its primary key; that of the first table has an
//! integer in its second column, which refers to the first column of the second table. What is wrong goes to a report.

use crate::records::{self, Job, Row};
use std::collections::{BTreeMap, HashMap};
use std::io::{self, Write};

/// How often each number came.
pub trait Counts {
    /// Counts a number, and returns how often it came before.
    fn count(&mut self, number: i128) -> u32;

    /// How often a number came.
    fn times(&self, number: i128) -> u32;
}

impl Counts for BTreeMap<i128, u32> {
    fn count(&mut self, number: i128) -> u32 {
        let times = self.entry(number).or_insert(0);
        *times += 1;
        *times - 1
    }

    fn times(&self, number: i128) -> u32 {
        self.get(&number).copied().unwrap_or(0)
    }
}

impl Counts for HashMap<i128, u32> {
    fn count(&mut self, number: i128) -> u32 {
        let times = self.entry(number).or_insert(0);
        *times += 1;
        *times - 1
    }

    fn times(&self, number: i128) -> u32 {
        self.get(&number).copied().unwrap_or(0)
    }
}

/// A fault of a row: table, source number, column, and the name of its code.
type Fault = (u32, u64, u32, &'static str);

#[derive(Default)]
struct Referring {
    numbers: Vec<(i128, u64)>,
}

struct Rows<'a, C: Counts> {
    table: u32,
    keys: C,
    referring: &'a mut Referring,
    faults: &'a mut Vec<Fault>,
    counted: &'a mut Option<C>,
}

fn number(text: &[u8]) -> io::Result<i128> {
    let text = str::from_utf8(text).map_err(|_| records::bad("NotUtf8"))?;
    text.parse().map_err(|_| records::bad("BadInteger"))
}

impl<C: Counts + Default> Job for Rows<'_, C> {
    fn header(&mut self, _: &[&str]) -> io::Result<()> {
        Ok(())
    }

    fn row(&mut self, row: &Row, _: u64, source: u64) -> io::Result<()> {
        let mut fields = row.fields();
        let key = number(fields.next().unwrap_or(b""))?;
        if self.keys.count(key) > 0 {
            self.faults.push((self.table, source, 1, "DuplicateKey"));
        }
        if self.table == 1 {
            self.referring.numbers.push((number(fields.next().unwrap_or(b""))?, source));
        }
        Ok(())
    }

    fn end(&mut self) -> io::Result<()> {
        *self.counted = Some(std::mem::take(&mut self.keys));
        Ok(())
    }
}

fn counted<C: Counts + Default>(
    table: u32,
    file: &str,
    referring: &mut Referring,
    faults: &mut Vec<Fault>,
) -> io::Result<C> {
    let mut counted = None;
    let keys = C::default();
    let rows = Rows { table, keys, referring, faults, counted: &mut counted };
    records::read(file, rows)?;
    Ok(counted.unwrap_or_default())
}

/// Writes the report of two tables.
pub fn report<C: Counts + Default, W: Write>(first: &str, second: &str, mut out: W) -> io::Result<()> {
    let mut referring = Referring::default();
    let mut faults = Vec::new();
    let _own: C = counted(1, first, &mut referring, &mut faults)?;
    let referenced: C = counted(2, second, &mut referring, &mut faults)?;
    for (number, source) in &referring.numbers {
        match referenced.times(*number) {
            0 => faults.push((1, *source, 2, "NoReferencedRow")),
            1 => {}
            _ => faults.push((1, *source, 2, "ManyReferencedRows")),
        }
    }
    faults.sort();
    writeln!(out, "kind,code,table,row,column")?;
    for (table, row, column, code) in &faults {
        writeln!(out, "error,{code},{table},{row},{column}")?;
    }
    out.flush()
}
