//! The line protocol: one request a line, one result line each.

mod base;
mod buffers;
mod desk;
mod line;
mod listing;
mod season;
mod slim;
mod smallest;
mod tptp;

use engine::{Asker, Desk, Reading, Report};
use line::Line;
use std::io::{self, BufRead, BufWriter, Write};
use std::ops::Range;

/// What an implementation has to offer to be called by lines.
pub trait Engine {
    /// Which words of the file are the clause's; nothing where the file or the number is refused.
    fn lookup(&mut self, file: &[u32], number: u32) -> Option<Range<usize>>;

    fn search(&mut self, asker: Asker, file: &[u32], bound: u32, budget: u32, lent: Lent) -> Report;

    /// The proof buffer is not used.
    fn check(&mut self, asker: Asker, file: &[u32], offered: &[u32], bound: u32, lent: Lent) -> Report;
}

pub struct Lent<'a> {
    pub work: &'a mut [u32],
    pub proof: &'a mut [u32],
    pub answer: &'a mut [u32],
}

/// The engine written from document 01.
pub struct Plain;

impl Engine for Plain {
    fn lookup(&mut self, file: &[u32], number: u32) -> Option<Range<usize>> {
        engine::clause_range(file, number)
    }

    fn search(&mut self, asker: Asker, file: &[u32], bound: u32, budget: u32, lent: Lent) -> Report {
        engine::search_for(asker, file, bound, budget, lent.work, lent.proof, lent.answer)
    }

    fn check(&mut self, asker: Asker, file: &[u32], offered: &[u32], bound: u32, lent: Lent) -> Report {
        engine::check_for(asker, file, offered, bound, lent.work, lent.answer)
    }
}

/// Answers every line of the input. The last line may lack its line feed.
pub fn serve(engine: &mut impl Engine, input: impl BufRead, output: impl Write) -> io::Result<()> {
    let mut output = BufWriter::new(output);
    for line in input.split(b'\n') {
        if let Some(result) = respond(engine, &line?) {
            writeln!(output, "{result}")?;
        }
    }
    output.flush()
}

/// The result line, without its line feed; nothing for a line that is skipped.
pub fn respond(engine: &mut impl Engine, line: &[u8]) -> Option<String> {
    if line.is_empty() || line.starts_with(b"#") {
        return None;
    }
    let result = line::take_apart(line).and_then(|line| perform(engine, &line));
    Some(result.unwrap_or("error".to_owned()))
}

const RESTART_FOR_EDUCATION: Asker = Asker { desk: Desk::Education, reading: Reading::Restart };

/// Each verb is a row here and a function of its own.
fn perform(engine: &mut impl Engine, line: &Line) -> Option<String> {
    match line.verb {
        "lookup" => base::lookup(engine, line),
        "search" => base::search(engine, Asker::BASE, line),
        "check" => base::check(engine, Asker::BASE, line),
        "desk" => desk::respond(line),
        "edu-check" => base::check(engine, Desk::Education.into(), line),
        "edu-search" => base::search(engine, Desk::Education.into(), line),
        "listing" => listing::respond(line),
        "restart-check" => base::check(engine, Reading::Restart.into(), line),
        "restart-edu-check" => base::check(engine, RESTART_FOR_EDUCATION, line),
        "restart-edu-search" => base::search(engine, RESTART_FOR_EDUCATION, line),
        "restart-search" => base::search(engine, Reading::Restart.into(), line),
        "season" => season::respond(engine, line),
        "slim" => slim::respond(line),
        "smallest" => smallest::respond(engine, line),
        "tptp-in" => tptp::respond_in(line),
        "tptp-out" => tptp::respond_out(line),
        _ => None,
    }
}
