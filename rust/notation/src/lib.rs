//! Tables written as text.
//!
//! A clause is a line `p(X,f(a)) | ~ q(X)`; the question is the last line, `? r(X), s(X)`. Variables begin upper-case. A line that begins
//! with `!` is a restricted clause.
//! Predicates and functions are each numbered from 1, variables from 0 within a clause, by a name's first use.
//! Empty lines and lines that begin with `%` are skipped.

use engine::syntax::{Clause, Literal, Table, Term};
use engine::word::{self, Symbol, Word};
use std::iter::Peekable;
use std::str::Chars;

#[derive(Default)]
struct Names(Vec<String>);

impl Names {
    fn number(&mut self, name: &str) -> u32 {
        let known = self.0.iter().position(|other| other == name);
        let position = known.unwrap_or_else(|| {
            self.0.push(name.to_owned());
            self.0.len() - 1
        });
        position as u32
    }
}

#[derive(Default)]
struct Symbols {
    predicates: Names,
    functions: Names,
}

/// A table with its names.
pub struct Sheet {
    pub table: Table,
    symbols: Symbols,
}

impl Sheet {
    pub fn read(text: &str) -> Result<Sheet, String> {
        let mut symbols = Symbols::default();
        let lines = text.lines().map(str::trim).filter(|line| !line.is_empty() && !line.starts_with('%'));
        let clauses: Vec<Clause> = lines.map(|line| clause(line, &mut symbols)).collect::<Result<_, _>>()?;
        if clauses.is_empty() {
            return Err("no clause".to_owned());
        }
        Ok(Sheet { table: Table { clauses }, symbols })
    }

    /// An answer of the table in its names, a text for each disjunct: `p(a), d(a,X0)`.
    pub fn disjuncts(&self, answer: &[u32]) -> Vec<String> {
        let mut words = answer.iter().copied();
        let mut atoms = Vec::new();
        while let Some(word) = words.next() {
            atoms.push(self.show(word, &mut words));
        }
        atoms.chunks(self.table.question().literals.len()).map(|atoms| atoms.join(", ")).collect()
    }

    fn show(&self, word: u32, rest: &mut impl Iterator<Item = u32>) -> String {
        let (names, symbol) = match word::decode(word) {
            Some(Word::Variable(number)) => return format!("X{number}"),
            Some(Word::Function(symbol)) => (&self.symbols.functions, symbol),
            Some(Word::Literal { predicate, .. }) => (&self.symbols.predicates, predicate),
            _ => panic!("{word:08X} in an answer"),
        };
        let name = &names.0[symbol.number as usize - 1];
        let arguments: Vec<String> = (0..symbol.arity)
            .map(|_| {
                let argument = rest.next().expect("an argument");
                self.show(argument, rest)
            })
            .collect();
        if arguments.is_empty() { name.clone() } else { format!("{name}({})", arguments.join(",")) }
    }
}

pub fn table(text: &str) -> Result<Table, String> {
    Sheet::read(text).map(|sheet| sheet.table)
}

/// The words of a question file for the table.
pub fn file(text: &str) -> Result<Vec<u32>, String> {
    table(text).map(|table| engine::file::write(&table))
}

fn clause(line: &str, symbols: &mut Symbols) -> Result<Clause, String> {
    let mut parser = Parser { rest: line.chars().peekable(), symbols, variables: Names::default() };
    let restricted = parser.eat('!');
    let question = parser.eat('?');
    let separator = if question { ',' } else { '|' };
    let mut literals = vec![parser.literal(question)?];
    while parser.eat(separator) {
        literals.push(parser.literal(question)?);
    }
    match parser.peek() {
        None => Ok(Clause { restricted, variables: parser.variables.0.len() as u32, literals }),
        Some(left_over) => Err(format!("{left_over:?} in {line:?}")),
    }
}

struct Parser<'a> {
    rest: Peekable<Chars<'a>>,
    symbols: &'a mut Symbols,
    variables: Names,
}

impl Parser<'_> {
    fn literal(&mut self, question: bool) -> Result<Literal, String> {
        let negative = question || self.eat('~');
        let name = self.name()?;
        let number = 1 + self.symbols.predicates.number(&name);
        let arguments = self.arguments()?;
        Ok(Literal { negative, predicate: Symbol { number, arity: arguments.len() as u32 }, arguments })
    }

    fn arguments(&mut self) -> Result<Vec<Term>, String> {
        if !self.eat('(') {
            return Ok(Vec::new());
        }
        let mut arguments = vec![self.term()?];
        while self.eat(',') {
            arguments.push(self.term()?);
        }
        if self.eat(')') { Ok(arguments) } else { Err("a parenthesis is missing".to_owned()) }
    }

    fn term(&mut self) -> Result<Term, String> {
        let name = self.name()?;
        if name.starts_with(char::is_uppercase) {
            return Ok(Term::Variable(self.variables.number(&name)));
        }
        let number = 1 + self.symbols.functions.number(&name);
        let arguments = self.arguments()?;
        Ok(Term::Application(Symbol { number, arity: arguments.len() as u32 }, arguments))
    }

    fn name(&mut self) -> Result<String, String> {
        self.peek();
        let mut name = String::new();
        while let Some(letter) = self.rest.next_if(|letter| letter.is_alphanumeric() || *letter == '_') {
            name.push(letter);
        }
        if name.is_empty() { Err("a name is missing".to_owned()) } else { Ok(name) }
    }

    fn eat(&mut self, wanted: char) -> bool {
        self.peek() == Some(wanted) && self.rest.next().is_some()
    }

    fn peek(&mut self) -> Option<char> {
        while self.rest.next_if(|letter| letter.is_whitespace()).is_some() {}
        self.rest.peek().copied()
    }
}
