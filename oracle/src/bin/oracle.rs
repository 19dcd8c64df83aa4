//! Reads a script on standard input and writes its answers, as the published Rust and the refusals of documents 01 and 02 give them.
//! With --table, what was met goes to standard error at the end: count, call (on a side with @ before it, on the f32 filter with @w), number, and the stage,
//! the step, the sizes or how things stood before the call.

use std::io::{self, BufRead, Write};
use std::process::ExitCode;

use oracle::script::Reader;

fn main() -> ExitCode {
    let table = std::env::args().skip(1).any(|word| word == "--table");
    match run(table) {
        Ok(()) => ExitCode::SUCCESS,
        Err(why) => {
            eprintln!("{why}");
            ExitCode::FAILURE
        }
    }
}

fn run(table: bool) -> Result<(), String> {
    let trouble = |error: io::Error| error.to_string();
    let (mut input, mut output) = (io::stdin().lock(), io::BufWriter::new(io::stdout().lock()));
    let mut reader = Reader::default();
    let (mut line, mut number) = (Vec::new(), 0);
    while input.read_until(b'\n', &mut line).map_err(trouble)? > 0 {
        number += 1;
        if line.last() == Some(&b'\n') {
            line.pop();
        }
        let answer = reader.answer(&line).map_err(|why| format!("line {number}: {why}"))?;
        if let Some(answer) = answer {
            writeln!(output, "{answer}").map_err(trouble)?;
        }
        line.clear();
    }
    output.flush().map_err(trouble)?;
    if table {
        for ((call, refusal, more), count) in &reader.table {
            eprintln!("{count} {call} {refusal} {more}");
        }
    }
    Ok(())
}
