//! A reader of the same texts in plain Rust, for comparison: what `bench/lp` runs beside the program. It answers the
//! `READ` of a session on standard input, by the whole grammar with its limits and faults, and proves nothing.
//!
//! It has the program's own algorithms: one pass over each run, a table of names with a fast hash, and for the open row a
//! list of terms with the place of each variable in it, which is sorted at the row's end where it doesn't rise.
#[path = "../frac.d/fraction.rs"]
#[allow(dead_code)]
mod fraction;
mod lexer;
mod model;
mod parser;

use parser::parse;
use std::io::{self, BufRead, Read, Write};

fn main() -> io::Result<()> {
    let mut input = io::BufReader::with_capacity(1 << 16, io::stdin().lock());
    let mut output = io::stdout().lock();
    let (mut line, mut block) = (String::new(), Vec::new());
    let mut kept = None;
    while input.read_line(&mut line)? > 0 {
        let length = line.trim_end().strip_prefix("READ ").and_then(|digits| digits.parse().ok());
        block.resize(length.expect("READ and a length"), 0);
        input.read_exact(&mut block)?;
        match parse(&block) {
            Ok(model) => {
                kept = Some(model);
                output.write_all(b"OK\n")?;
            }
            Err(fault) => writeln!(output, "ERR 4 MODEL {} {} {:?}", fault.line, fault.column, fault.word)?,
        }
        line.clear();
    }
    // What was read last is looked at, so that no reading can be left out.
    if let Some(model) = kept {
        eprintln!("{} {} {}", model.vars.len(), model.rows.len(), model.checksum());
    }
    Ok(())
}
