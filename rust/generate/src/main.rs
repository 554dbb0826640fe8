//! `generate SEED COUNT` writes so many requests, one a line; `generate pairs SEED COUNT` so many pairs of one table in two orders,
//! `generate restricted SEED COUNT` so many of two files that differ only in restricted clauses.

use std::io::{self, BufWriter, Write};
use std::process::ExitCode;

fn main() -> ExitCode {
    let mut arguments: Vec<String> = std::env::args().skip(1).collect();
    let named = |word: &String| word == "pairs" || word == "restricted";
    let kind = arguments.first().is_some_and(named).then(|| arguments.remove(0));
    let numbers: Option<Vec<u64>> = arguments.iter().map(|argument| argument.parse().ok()).collect();
    let Some(&[seed, count]) = numbers.as_deref() else {
        eprintln!("usage: generate [pairs | restricted] SEED COUNT");
        return ExitCode::FAILURE;
    };
    let count = count as usize;
    let printed = match kind.as_deref() {
        Some("pairs") => print(generate::pairs::pairs(seed, count)),
        Some(_) => print(generate::restricted::pairs(seed, count)),
        None => print(generate::requests(seed, count)),
    };
    match printed {
        Ok(()) => ExitCode::SUCCESS,
        Err(_) => ExitCode::FAILURE,
    }
}

fn print(lines: impl Iterator<Item = String>) -> io::Result<()> {
    let mut output = BufWriter::new(io::stdout().lock());
    for line in lines {
        writeln!(output, "{line}")?;
    }
    output.flush()
}
