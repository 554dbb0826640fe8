//! Order 2: a question file as TPTP clause text, one clause a line.

use engine::file;
use engine::syntax::{Clause, Literal, Table, Term};
use engine::{Report, Status};

#[derive(Clone, Copy, Debug, PartialEq, Eq)]
pub struct TextWritten {
    pub status: Status,
    pub place: u32,
    pub bytes: u32,
}

impl TextWritten {
    pub fn refused(status: Status, place: u32) -> TextWritten {
        TextWritten { status, place, bytes: 0 }
    }

    /// Writes the text at the front of the buffer, if it fits.
    pub fn of(text: &str, buffer: &mut [u8]) -> TextWritten {
        let Some(front) = buffer.get_mut(..text.len()) else {
            return TextWritten::refused(Status::AnswerTooLong, 0);
        };
        front.copy_from_slice(text.as_bytes());
        TextWritten { status: Status::Proved, place: 0, bytes: text.len() as u32 }
    }
}

pub fn write(file: &[u32], buffer: &mut [u8]) -> TextWritten {
    match file::read(file) {
        Ok(read) => TextWritten::of(&text(&read.table), buffer),
        Err(Report { status, place, .. }) => TextWritten::refused(status, place),
    }
}

pub fn text(table: &Table) -> String {
    (0..table.clauses.len()).map(|number| line(table, number)).collect()
}

/// The clause's line, with its line feed.
pub fn line(table: &Table, number: usize) -> String {
    let role = if number == table.question_number() { "negated_conjecture" } else { "axiom" };
    format!("cnf(c{number},{role},({})).\n", disjunction(&table.clauses[number]))
}

fn disjunction(clause: &Clause) -> String {
    clause.literals.iter().map(literal).collect::<Vec<_>>().join(" | ")
}

fn literal(literal: &Literal) -> String {
    let sign = if literal.negative { "~ " } else { "" };
    format!("{sign}p{}{}", literal.predicate.number, arguments(&literal.arguments))
}

fn arguments(terms: &[Term]) -> String {
    if terms.is_empty() {
        return String::new();
    }
    format!("({})", terms.iter().map(term).collect::<Vec<_>>().join(","))
}

fn term(term: &Term) -> String {
    match term {
        Term::Variable(number) => format!("X{number}"),
        Term::Application(symbol, terms) => format!("f{}{}", symbol.number, arguments(terms)),
    }
}
