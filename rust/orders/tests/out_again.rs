//! Order 2: what is written, worked out by hand, and what reading it back gives.

use engine::Status;
use engine::file::{self, write};
use engine::syntax::{Clause, Literal, Table, Term};
use engine::word::Symbol;
use orders::tptp::read;
use orders::tptp::writer::{self, TextWritten, text};

fn literal(negative: bool, number: u32, arguments: Vec<Term>) -> Literal {
    Literal { negative, predicate: Symbol { number, arity: arguments.len() as u32 }, arguments }
}

fn application(number: u32, arguments: Vec<Term>) -> Term {
    Term::Application(Symbol { number, arity: arguments.len() as u32 }, arguments)
}

/// The order's own clause, a clause with nested terms and gaps in every number, and a question of two literals.
fn table() -> Table {
    let variable = Term::Variable;
    let order = vec![
        literal(false, 1, vec![application(1, vec![]), application(2, vec![])]),
        literal(true, 2, vec![variable(0)]),
    ];
    let nested = application(4095, vec![variable(15), application(0, vec![variable(3)]), application(4095, vec![])]);
    let gaps = vec![literal(true, 4095, vec![nested, variable(15)]), literal(false, 0, vec![])];
    let question = vec![literal(true, 1, vec![variable(1), variable(0)]), literal(true, 1, vec![])];
    let clause = |variables, literals| Clause::open(variables, literals);
    Table { clauses: vec![clause(1, order), clause(16, gaps), clause(2, question)] }
}

const TEXT: &str = "cnf(c0,axiom,(p1(f1,f2) | ~ p2(X0))).\n\
                    cnf(c1,axiom,(~ p4095(f4095(X15,f0(X3),f4095),X15) | p0)).\n\
                    cnf(c2,negated_conjecture,(~ p1(X1,X0) | ~ p1)).\n";

fn written(status: Status, place: u32, bytes: usize) -> TextWritten {
    TextWritten { status, place, bytes: bytes as u32 }
}

#[test]
fn one_clause_a_line() {
    assert_eq!(text(&table()), TEXT);
    let mut buffer = vec![7; TEXT.len() + 1];
    assert_eq!(writer::write(&write(&table()), &mut buffer), written(Status::Proved, 0, TEXT.len()));
    assert_eq!(buffer, [TEXT.as_bytes(), &[7]].concat());
}

#[test]
fn refusals_leave_the_buffer() {
    let mut file = write(&table());
    let mut short = vec![7; TEXT.len() - 1];
    assert_eq!(writer::write(&file, &mut short), written(Status::AnswerTooLong, 0, 0));
    assert_eq!(writer::write(&file[1..], &mut short), written(Status::Trailer, 0, 0));
    file[1] = 0;
    let body = file.len() - 4;
    file[body + 2] = file::fingerprint(&file[..body]);
    assert_eq!(writer::write(&file, &mut short), written(Status::MalformedBody, 1, 0));
    assert_eq!(short, vec![7; TEXT.len() - 1]);
}

/// Numbers by first use: predicates p1, p2, p4095, p0; functions f1, f2, f4095, f0; one number at two arities stays one.
#[test]
fn read_back_by_first_use() {
    let variable = Term::Variable;
    let first = vec![
        literal(false, 0, vec![application(0, vec![]), application(1, vec![])]),
        literal(true, 1, vec![variable(0)]),
    ];
    let nested = application(2, vec![variable(0), application(3, vec![variable(1)]), application(2, vec![])]);
    let second = vec![literal(true, 2, vec![nested, variable(0)]), literal(false, 3, vec![])];
    let question = vec![literal(true, 0, vec![variable(0), variable(1)]), literal(true, 0, vec![])];
    let clause = |variables, literals| Clause::open(variables, literals);
    let renumbered = write(&Table { clauses: vec![clause(1, first), clause(2, second), clause(2, question)] });
    assert_eq!(reread(&write(&table())), renumbered);
    assert_eq!(reread(&renumbered), renumbered);
}

fn reread(file: &[u32]) -> Vec<u32> {
    let mut buffer = vec![0; 65_536];
    let bytes = writer::write(file, &mut buffer).bytes as usize;
    let mut file = vec![0; 16_000];
    let read = read(&buffer[..bytes], &mut file);
    assert_eq!(read.status, 0);
    file.truncate(read.words as usize);
    file
}
