//! Minimal mode with datatypes: the columns are an integer, a decimal, a date, a truth and a string. What is no value of
//! its datatype stays a string, and is reported on standard error.

use crate::records::{Job, Row};
use crate::terms::{XSD, predicates, write_escaped};
use std::io::{self, Write};

const NAMES: [&str; 5] = ["integer", "decimal", "date", "boolean", "string"];

pub struct Datatypes<W: Write> {
    pub out: W,
    pub url: String,
    pub predicates: Vec<String>,
    pub value: Vec<u8>,
}

/// The digits without leading zeros; one zero if nothing is left.
fn whole(digits: &[u8]) -> &[u8] {
    let zeros = digits.iter().take_while(|b| **b == b'0').count();
    if zeros == digits.len() { b"0" } else { &digits[zeros..] }
}

fn split_sign(text: &[u8]) -> (bool, &[u8]) {
    match text {
        [b'-', rest @ ..] => (true, rest),
        [b'+', rest @ ..] => (false, rest),
        _ => (false, text),
    }
}

fn are_digits(text: &[u8]) -> bool {
    text.iter().all(u8::is_ascii_digit)
}

/// Puts the lexical form of an integer; false if the text is none.
fn integer(text: &[u8], value: &mut Vec<u8>) -> bool {
    let (minus, digits) = split_sign(text);
    if digits.is_empty() || !are_digits(digits) {
        return false;
    }
    let digits = whole(digits);
    if digits.len() > 20 {
        return false;
    }
    if minus && digits != b"0" {
        value.push(b'-');
    }
    value.extend_from_slice(digits);
    true
}

/// Puts the lexical form of a decimal; false if the text is none.
fn decimal(text: &[u8], value: &mut Vec<u8>) -> bool {
    let (minus, rest) = split_sign(text);
    let point = rest.iter().position(|b| *b == b'.').unwrap_or(rest.len());
    let (front, behind) = rest.split_at(point);
    let fraction = behind.get(1..).unwrap_or(b"");
    if !are_digits(front) || !are_digits(fraction) || front.len() + fraction.len() == 0 {
        return false;
    }
    let front = if front.is_empty() { b"0" } else { whole(front) };
    let zeros = fraction.iter().rev().take_while(|b| **b == b'0').count();
    let fraction = &fraction[..fraction.len() - zeros];
    if front.len() > 20 || fraction.len() > 18 {
        return false;
    }
    if minus && !(front == b"0" && fraction.is_empty()) {
        value.push(b'-');
    }
    value.extend_from_slice(front);
    if !fraction.is_empty() {
        value.push(b'.');
        value.extend_from_slice(fraction);
    }
    true
}

fn number(digits: &[u8]) -> u32 {
    digits.iter().fold(0, |n, b| n * 10 + u32::from(b - b'0'))
}

/// Puts a date; false if the text is none.
fn date(text: &[u8], value: &mut Vec<u8>) -> bool {
    let [y @ .., b'-', m1, m2, b'-', d1, d2] = text else {
        return false;
    };
    if y.len() != 4 || !are_digits(y) || !are_digits(&[*m1, *m2, *d1, *d2]) {
        return false;
    }
    let (year, month, day) = (number(y), number(&[*m1, *m2]), number(&[*d1, *d2]));
    let leap = year % 4 == 0 && (year % 100 != 0 || year % 400 == 0);
    let days = match month {
        2 if leap => 29,
        2 => 28,
        4 | 6 | 9 | 11 => 30,
        1..=12 => 31,
        _ => return false,
    };
    if year == 0 || day == 0 || day > days {
        return false;
    }
    value.extend_from_slice(text);
    true
}

/// Puts a truth; false if the text is none.
fn truth(text: &[u8], value: &mut Vec<u8>) -> bool {
    let form: &[u8] = match text {
        b"true" | b"1" => b"true",
        b"false" | b"0" => b"false",
        _ => return false,
    };
    value.extend_from_slice(form);
    true
}

impl<W: Write> Job for Datatypes<W> {
    fn header(&mut self, titles: &[&str]) -> io::Result<()> {
        self.predicates = predicates(&self.url, titles)?;
        Ok(())
    }

    fn row(&mut self, row: &Row, number: u64, source: u64) -> io::Result<()> {
        let label = format!("_:t1r{number}s ");
        for (i, (predicate, text)) in self.predicates.iter().zip(row.fields()).enumerate() {
            let text = if i < 4 { text.trim_ascii() } else { text };
            if text.is_empty() {
                continue;
            }
            self.value.clear();
            let read = match i {
                0 => integer(text, &mut self.value),
                1 => decimal(text, &mut self.value),
                2 => date(text, &mut self.value),
                3 => truth(text, &mut self.value),
                _ => false,
            };
            self.out.write_all(label.as_bytes())?;
            self.out.write_all(predicate.as_bytes())?;
            self.out.write_all(b" \"")?;
            if read {
                self.out.write_all(&self.value)?;
                self.out.write_all(b"\"^^<")?;
                self.out.write_all(XSD.as_bytes())?;
                self.out.write_all(NAMES[i].as_bytes())?;
                self.out.write_all(b"> .\n")?;
            } else {
                if i < 4 {
                    eprintln!("row {source}, column {}", i + 1);
                }
                write_escaped(&mut self.out, text)?;
                self.out.write_all(b"\" .\n")?;
            }
        }
        Ok(())
    }

    fn end(&mut self) -> io::Result<()> {
        self.out.flush()
    }
}
