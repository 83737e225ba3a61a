//! Reads document 01's lines on standard input and prints for each what the Rust of wgsl-types 0.3.2 answers:
//! the value in 01's spelling, `refused`, or `panic`.

use rustlines::{answer, quiet_panics};
use std::io::{self, BufRead, BufReader, Write};

const BLOCK: usize = 1 << 16;

fn main() -> io::Result<()> {
    quiet_panics();
    let mut input = BufReader::with_capacity(BLOCK, io::stdin().lock());
    let mut output = io::stdout().lock();
    let mut line = Vec::new();
    let mut answers = Vec::with_capacity(2 * BLOCK);
    while input.read_until(b'\n', &mut line)? > 0 {
        if line.last() == Some(&b'\n') {
            line.pop();
        }
        answer(&line, &mut answers);
        answers.push(b'\n');
        line.clear();
        if answers.len() >= BLOCK {
            output.write_all(&answers)?;
            answers.clear();
        }
    }
    output.write_all(&answers)?;
    output.flush()
}
