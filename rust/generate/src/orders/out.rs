//! Order 2: tables with gaps in their numbers, one number at two arities and unused variables, damaged files, texts about as long as
//! can be read back, and what is written read again.

use super::{room, tptp};
use crate::damage::damaged;
use crate::lines::Spelling;
use crate::random::Random;
use crate::tables;
use engine::file::write;
use engine::syntax::{Clause, Literal, Table, Term};
use engine::word::Symbol;
use orders::tptp::writer::{self, text};

const TEXT_ROOM: usize = 131_072;
const FILE_ROOM: usize = 16_100;

fn line(file: &[u32], text_room: usize, spelling: Spelling) -> String {
    format!("tptp-out {text_room} / {}", spelling.words(file))
}

pub fn request(random: &mut Random, spelling: Spelling) -> String {
    let mut table = tables::any(random).table;
    if !random.once_in(4) {
        rename(random, &mut table);
    }
    if random.once_in(4) {
        return tptp::line(text(&table).as_bytes(), FILE_ROOM);
    }
    let mut file = write(&table);
    if random.once_in(8) {
        file = damaged(random, &file);
    }
    let needed = writer::write(&file, &mut [0; TEXT_ROOM]).bytes as usize;
    line(&file, room(random, needed, TEXT_ROOM), spelling)
}

/// Other numbers for symbols, two of which may become one, and for variables, of which some may go unused.
pub fn rename(random: &mut Random, table: &mut Table) {
    let step = random.pick(&[1, 3, 10, 100, 1_365]);
    let from = random.below(4_096) as u32;
    let number = |old: u32| (from + old * step) % 4_096;
    for clause in &mut table.clauses {
        let spare = random.below(17 - clause.variables as usize) as u32;
        let turned = random.once_in(2);
        clause.variables += spare;
        let last = clause.variables;
        let variable = |old: u32| if turned { last - 1 - old } else { old };
        for literal in &mut clause.literals {
            literal.predicate.number = number(literal.predicate.number);
            literal.arguments.iter_mut().for_each(|term| rename_term(term, &number, &variable));
        }
    }
}

fn rename_term(term: &mut Term, number: &impl Fn(u32) -> u32, variable: &impl Fn(u32) -> u32) {
    match term {
        Term::Variable(old) => *old = variable(*old),
        Term::Application(symbol, arguments) => {
            symbol.number = number(symbol.number);
            arguments.iter_mut().for_each(|argument| rename_term(argument, number, variable));
        }
    }
}

fn fact(predicate: u32, function: u32, height: usize, constant: u32) -> Clause {
    let end = Term::Application(Symbol { number: constant, arity: 0 }, Vec::new());
    let tower = (0..height).fold(end, |term, _| Term::Application(Symbol { number: function, arity: 1 }, vec![term]));
    let predicate = Symbol { number: predicate, arity: 1 };
    Clause::open(0, vec![Literal { negative: false, predicate, arguments: vec![tower] }])
}

/// A table whose text has just so many bytes: five for each height of a fact, and one for each digit of its two numbers.
fn of_length(bytes: usize) -> Table {
    let question = Literal { negative: true, predicate: Symbol { number: 1, arity: 0 }, arguments: Vec::new() };
    let question = Clause::open(0, vec![question]);
    let table = |height: usize, [predicate, constant]: [u32; 2]| {
        let mut clauses = vec![fact(1, 10, 250, 1); bytes / 1_280];
        clauses.extend([fact(predicate, 10, height, constant), question.clone()]);
        Table { clauses }
    };
    let missing = bytes - text(&table(0, [1, 1])).len();
    let digits = [[1, 1], [10, 1], [100, 1], [1_000, 1], [1_000, 10]][missing % 5];
    table(missing / 5, digits)
}

pub fn borders() -> Vec<String> {
    let file = |text: &str| write(&tables::written(text));
    let order = file("p(a,b) | ~ q(X)\n? q(Y), q(Z)");
    let needed = writer::write(&order, &mut [0; TEXT_ROOM]).bytes as usize;
    let rooms = [0, 1, needed - 1, needed, needed + 1, TEXT_ROOM, TEXT_ROOM + 1];
    let mut lines: Vec<String> = rooms.map(|room| line(&order, room, Spelling::Full)).to_vec();
    lines.push(line(&[], 0, Spelling::Full));
    lines.push(line(&order[1..], TEXT_ROOM, Spelling::Full));
    for bytes in [65_535, 65_536, 65_537] {
        let table = of_length(bytes);
        assert_eq!(text(&table).len(), bytes);
        lines.push(line(&write(&table), bytes, Spelling::Short));
        lines.push(line(&write(&table), bytes - 1, Spelling::Short));
        lines.push(tptp::line(text(&table).as_bytes(), FILE_ROOM));
    }
    // The longest names, as many of them as a file holds.
    let mut longest = Table { clauses: vec![fact(4_095, 4_095, 253, 4_095); 62] };
    longest.clauses.push(longest_question());
    lines.push(line(&write(&longest), TEXT_ROOM, Spelling::Short));
    lines
}

/// Seven literals with as many of the variables 0 to 15 as they hold.
fn longest_question() -> Clause {
    let literal = |from: u32| Literal {
        negative: true,
        predicate: Symbol { number: 4_095, arity: 4 },
        arguments: (0..4).map(|next| Term::Variable((from * 4 + next) % 16)).collect(),
    };
    Clause::open(16, (0..7).map(literal).collect())
}
