//! Terms of N-Triples.

use std::io::{self, Write};

pub const CSVW: &str = "http://www.w3.org/ns/csvw#";
pub const RDF_TYPE: &str = "http://www.w3.org/1999/02/22-rdf-syntax-ns#type";
pub const XSD: &str = "http://www.w3.org/2001/XMLSchema#";

/// The name of a column, numbered from 1.
pub fn name_of(number: usize, title: &str) -> String {
    if title.is_empty() {
        return format!("_col.{number}");
    }
    let mut name = String::new();
    for b in title.bytes() {
        if b.is_ascii_alphanumeric() || b"-._~".contains(&b) {
            name.push(b as char);
        } else {
            name.push_str(&format!("%{b:02X}"));
        }
    }
    name
}

/// The predicate of each column.
pub fn predicates(url: &str, titles: &[&str]) -> io::Result<Vec<String>> {
    let names: Vec<String> = titles.iter().enumerate().map(|(i, title)| name_of(i + 1, title)).collect();
    for (i, name) in names.iter().enumerate() {
        if names[..i].contains(name) {
            return Err(crate::records::bad("DuplicateName"));
        }
    }
    Ok(names.iter().map(|name| format!("<{url}#{name}>")).collect())
}

/// Writes the text of a literal.
pub fn write_escaped<W: Write>(out: &mut W, text: &[u8]) -> io::Result<()> {
    let mut start = 0;
    for (i, b) in text.iter().enumerate() {
        let escape: &[u8] = match b {
            b'"' => b"\\\"",
            b'\\' => b"\\\\",
            b'\n' => b"\\n",
            b'\r' => b"\\r",
            _ => continue,
        };
        out.write_all(&text[start..i])?;
        out.write_all(escape)?;
        start = i + 1;
    }
    out.write_all(&text[start..])
}

/// Writes a text as a template encodes a variable's value.
pub fn write_encoded<W: Write>(out: &mut W, text: &[u8]) -> io::Result<()> {
    const DIGITS: &[u8; 16] = b"0123456789ABCDEF";
    for b in text {
        if b.is_ascii_alphanumeric() || b"-._~".contains(b) {
            out.write_all(&[*b])?;
        } else {
            out.write_all(&[b'%', DIGITS[(b >> 4) as usize], DIGITS[(b & 15) as usize]])?;
        }
    }
    Ok(())
}
