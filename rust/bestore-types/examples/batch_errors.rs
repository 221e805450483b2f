//! Reads a batch in hexadecimal from each line of standard input. Writes a line for each: `ok`, or the offset at which the batch is
//! refused, and why. `python/test_batches_alike.py` compares these lines with what C and Python find.

use bestore_types::{Batch, Error};
use std::io::{self, BufRead, Write};

fn bytes_of(digits: &str) -> Vec<u8> {
    let pairs = (0..digits.len()).step_by(2).map(|at| &digits[at..at + 2]);
    pairs
        .map(|pair| u8::from_str_radix(pair, 16).expect("a byte has two hexadecimal digits"))
        .collect()
}

fn main() -> io::Result<()> {
    let mut to = io::BufWriter::new(io::stdout().lock());
    for line in io::stdin().lock().lines() {
        match Batch::from_bytes(&bytes_of(&line?)) {
            Ok(_) => writeln!(to, "ok")?,
            Err(Error::BadBatch { offset, why }) => writeln!(to, "{offset} {why}")?,
            Err(error) => writeln!(to, "{error}")?,
        }
    }
    to.flush()
}
