//! Clauses as plain values.

use crate::word::Symbol;

#[derive(Clone, Debug, PartialEq, Eq)]
pub enum Term {
    Variable(u32),
    Application(Symbol, Vec<Term>),
}

#[derive(Clone, Debug, PartialEq, Eq)]
pub struct Literal {
    pub negative: bool,
    pub predicate: Symbol,
    pub arguments: Vec<Term>,
}

/// `variables` is the count that the clause word states: some of them may go unused. A restricted clause is not for education.
#[derive(Clone, Debug, PartialEq, Eq)]
pub struct Clause {
    pub restricted: bool,
    pub variables: u32,
    pub literals: Vec<Literal>,
}

impl Clause {
    /// A clause that everybody may read.
    pub fn open(variables: u32, literals: Vec<Literal>) -> Clause {
        Clause { restricted: false, variables, literals }
    }
}

/// One clause or more; the last is the question.
#[derive(Clone, Debug, PartialEq, Eq)]
pub struct Table {
    pub clauses: Vec<Clause>,
}

impl Table {
    pub fn question(&self) -> &Clause {
        &self.clauses[self.question_number()]
    }

    pub fn question_number(&self) -> usize {
        self.clauses.len() - 1
    }

    /// Without the restricted clauses.
    pub fn unrestricted(&self) -> Table {
        Table { clauses: self.clauses.iter().filter(|clause| !clause.restricted).cloned().collect() }
    }
}
