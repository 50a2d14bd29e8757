//! The same protocol as `rme run`, by a plain program with no contract, for comparison: lines of JSON in, read by
//! serde_json into a value, and lines of JSON out, written together and before the input is waited for.

mod steps;
mod world;

use serde_json::Value;
use std::io::{self, BufRead, BufReader, Write};
use world::{Refusal, World};

/// The most bytes of a line, without its newline.
const LINE_LIMIT: usize = 65_536;

/// Answers are written once they are as many bytes.
const MOST_PENDING: usize = 65_536;

/// Reads the next line into `line`, or answers false at the end.
fn next_line(reader: &mut impl BufRead, line: &mut Vec<u8>) -> io::Result<bool> {
    line.clear();
    let count = reader.read_until(b'\n', line)?;
    if line.last() == Some(&b'\n') {
        line.pop();
    }
    Ok(count > 0)
}

fn answer(open: &mut Option<World>, line: &[u8], out: &mut Vec<u8>) {
    let refused = if line.len() > LINE_LIMIT {
        Err(Refusal::LineTooLong)
    } else {
        match serde_json::from_slice::<Value>(line) {
            Ok(value) => world::obey(open, &value, out),
            Err(_) => Err(Refusal::BadLine),
        }
    };
    if let Err(refusal) = refused {
        let _ = write!(out, "{{\"code\":{},\"error\":\"{:?}\"}}", refusal as u32, refusal);
    }
    out.push(b'\n');
}

fn main() -> io::Result<()> {
    let mut reader = BufReader::with_capacity(65_536, io::stdin().lock());
    let mut writer = io::stdout().lock();
    let mut line = Vec::new();
    let mut pending = Vec::with_capacity(2 * MOST_PENDING);
    let mut open = None;
    loop {
        if pending.len() >= MOST_PENDING || !reader.buffer().contains(&b'\n') {
            writer.write_all(&pending)?;
            writer.flush()?;
            pending.clear();
        }
        if !next_line(&mut reader, &mut line)? {
            return Ok(());
        }
        answer(&mut open, &line, &mut pending);
    }
}
