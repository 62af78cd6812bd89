//! The jobs of `csvw`, written by hand for speed's sake: a state machine over the bytes of a CSV file, and N-Triples
//! through a buffered writer. Usage, one of these:
//!
//! - by_hand JOB URL FILE converts a file. JOB is minimal, standard, links or datatypes.
//! - by_hand JOB FILE FILE reports on the keys of two files. JOB is keys or hashed_keys.
//! - by_hand rows DELIMITER FILE counts the rows of a file, their fields and the bytes of the fields.

mod datatypes;
mod keys;
mod links;
mod minimal;
mod records;
mod rows;
mod standard;
mod terms;

use datatypes::Datatypes;
use links::Links;
use minimal::Minimal;
use standard::Standard;
use std::collections::{BTreeMap, HashMap};
use std::env;
use std::io::{self, BufWriter};
use std::process::ExitCode;

const PIECE: usize = 65_536;

fn run(job: &str, first: &str, file: &str) -> io::Result<()> {
    let out = BufWriter::with_capacity(PIECE, io::stdout().lock());
    let url = first.to_string();
    let predicates = Vec::new();
    match job {
        "minimal" => records::read(file, Minimal { out, url, predicates }),
        "standard" => records::read(file, Standard { out, url, predicates }),
        "links" => records::read(file, Links { out, url, predicates, subject: Vec::new() }),
        "datatypes" => records::read(file, Datatypes { out, url, predicates, value: Vec::new() }),
        "keys" => keys::report::<BTreeMap<i128, u32>, _>(first, file, out),
        "hashed_keys" => keys::report::<HashMap<i128, u32>, _>(first, file, out),
        "rows" => rows::count(first, file, out),
        _ => Err(records::bad("JOB")),
    }
}

fn main() -> ExitCode {
    let words: Vec<String> = env::args().collect();
    let [_, job, first, file] = words.as_slice() else {
        eprintln!("usage: by_hand JOB URL FILE, by_hand JOB FILE FILE, or by_hand rows DELIMITER FILE");
        return ExitCode::from(2);
    };
    match run(job, first, file) {
        Ok(()) => ExitCode::SUCCESS,
        Err(error) => {
            eprintln!("by_hand: {error}");
            ExitCode::from(3)
        }
    }
}
