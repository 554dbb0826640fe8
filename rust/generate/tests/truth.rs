//! Every answer is true in every interpretation over one and two elements where all clauses but the question hold.

use engine::Reading;
use engine::file::write;
use engine::owned::{check_for, search_for};
use engine::syntax::{Clause, Literal, Table, Term};
use engine::word::{self, Symbol, Word};
use generate::proofs::wandering_by;
use generate::random::Random;
use generate::tables::{Asked, conclude, small};
use std::collections::BTreeMap;

/// Disjuncts, each a list of atoms.
struct Answer {
    disjuncts: Vec<Vec<Literal>>,
    variables: u32,
}

impl Answer {
    fn read(words: &[u32], goals: usize) -> Answer {
        let mut words = words.iter().copied().peekable();
        let mut atoms = Vec::new();
        while words.peek().is_some() {
            atoms.push(atom(&mut words));
        }
        let variables = atoms.iter().flat_map(|atom| &atom.arguments).map(variables_in).max().unwrap_or(0);
        Answer { disjuncts: atoms.chunks(goals).map(<[Literal]>::to_vec).collect(), variables }
    }
}

fn atom(words: &mut impl Iterator<Item = u32>) -> Literal {
    let Some(Some(Word::Literal { predicate, negative: false })) = words.next().map(word::decode) else {
        panic!("a disjunct begins with an atom");
    };
    Literal { negative: false, predicate, arguments: (0..predicate.arity).map(|_| term(words)).collect() }
}

fn term(words: &mut impl Iterator<Item = u32>) -> Term {
    match words.next().and_then(word::decode) {
        Some(Word::Variable(number)) => Term::Variable(number),
        Some(Word::Function(symbol)) => Term::Application(symbol, (0..symbol.arity).map(|_| term(words)).collect()),
        other => panic!("{other:?} for a term"),
    }
}

fn variables_in(term: &Term) -> u32 {
    match term {
        Term::Variable(number) => number + 1,
        Term::Application(_, arguments) => arguments.iter().map(variables_in).max().unwrap_or(0),
    }
}

/// The symbols of a table, and where each one's table of values begins among the digits of an interpretation.
struct Signature {
    elements: usize,
    functions: BTreeMap<Symbol, usize>,
    predicates: BTreeMap<Symbol, usize>,
    bases: Vec<usize>,
}

impl Signature {
    fn of(table: &Table, elements: usize) -> Signature {
        let mut signature =
            Signature { elements, functions: BTreeMap::new(), predicates: BTreeMap::new(), bases: Vec::new() };
        for literal in table.clauses.iter().flat_map(|clause| &clause.literals) {
            signature.add_predicate(literal.predicate);
            literal.arguments.iter().for_each(|term| signature.add_functions(term));
        }
        signature
    }

    fn add_predicate(&mut self, symbol: Symbol) {
        if !self.predicates.contains_key(&symbol) {
            self.predicates.insert(symbol, self.bases.len());
            self.bases.extend(vec![2; self.elements.pow(symbol.arity)]);
        }
    }

    fn add_functions(&mut self, term: &Term) {
        let Term::Application(symbol, arguments) = term else {
            return;
        };
        if !self.functions.contains_key(symbol) {
            self.functions.insert(*symbol, self.bases.len());
            self.bases.extend(vec![self.elements; self.elements.pow(symbol.arity)]);
        }
        arguments.iter().for_each(|argument| self.add_functions(argument));
    }

    fn interpretations(&self) -> f64 {
        self.bases.iter().map(|&base| base as f64).product()
    }
}

/// The next list of digits in these bases; false after the last.
fn advance(digits: &mut [usize], bases: &[usize]) -> bool {
    for (digit, base) in digits.iter_mut().zip(bases) {
        *digit += 1;
        if *digit < *base {
            return true;
        }
        *digit = 0;
    }
    false
}

struct Interpretation<'a> {
    signature: &'a Signature,
    digits: Vec<usize>,
}

impl Interpretation<'_> {
    fn table_holds(&self, table: &Table) -> bool {
        table.clauses[..table.question_number()].iter().all(|clause| self.clause_holds(clause))
    }

    fn clause_holds(&self, clause: &Clause) -> bool {
        self.every_assignment(clause.variables, |elements| {
            clause.literals.iter().any(|literal| self.atom_holds(literal, elements) != literal.negative)
        })
    }

    fn answer_holds(&self, answer: &Answer) -> bool {
        self.every_assignment(answer.variables, |elements| {
            answer.disjuncts.iter().any(|atoms| atoms.iter().all(|atom| self.atom_holds(atom, elements)))
        })
    }

    fn every_assignment(&self, variables: u32, holds: impl Fn(&[usize]) -> bool) -> bool {
        let mut elements = vec![0; variables as usize];
        let bases = vec![self.signature.elements; variables as usize];
        loop {
            if !holds(&elements) {
                return false;
            }
            if !advance(&mut elements, &bases) {
                return true;
            }
        }
    }

    fn atom_holds(&self, atom: &Literal, elements: &[usize]) -> bool {
        self.digits[self.signature.predicates[&atom.predicate] + self.row(&atom.arguments, elements)] == 1
    }

    fn value(&self, term: &Term, elements: &[usize]) -> usize {
        match term {
            Term::Variable(number) => elements[*number as usize],
            Term::Application(symbol, arguments) => {
                self.digits[self.signature.functions[symbol] + self.row(arguments, elements)]
            }
        }
    }

    fn row(&self, arguments: &[Term], elements: &[usize]) -> usize {
        arguments.iter().fold(0, |row, argument| row * self.signature.elements + self.value(argument, elements))
    }
}

/// Whether the answer holds wherever the table does, and how many such interpretations there were.
fn follows(table: &Table, answer: &Answer, elements: usize) -> (bool, usize) {
    let signature = Signature::of(table, elements);
    let mut interpretation = Interpretation { digits: vec![0; signature.bases.len()], signature: &signature };
    let mut models = 0;
    loop {
        if interpretation.table_holds(table) {
            models += 1;
            if !interpretation.answer_holds(answer) {
                return (false, models);
            }
        }
        if !advance(&mut interpretation.digits, &signature.bases) {
            return (true, models);
        }
    }
}

#[derive(Default)]
struct Count {
    answers: usize,
    models: usize,
    indefinite: usize,
    needed_disjuncts: usize,
}

impl Count {
    fn examine(&mut self, table: &Table, words: &[u32]) {
        let mut answer = Answer::read(words, table.question().literals.len());
        if words.is_empty() || answer.variables > 6 || Signature::of(table, 2).interpretations() > 20_000.0 {
            return;
        }
        self.answers += 1;
        for elements in [1, 2] {
            let (true_everywhere, models) = follows(table, &answer, elements);
            assert!(true_everywhere, "{table:?} does not give {words:08X?}");
            self.models += models;
        }
        if answer.disjuncts.len() > 1 {
            self.indefinite += 1;
            answer.disjuncts.pop();
            self.needed_disjuncts += usize::from(!follows(table, &answer, 2).0);
        }
    }
}

fn answers_are_true(reading: Reading) -> Count {
    let mut random = Random::new(36);
    let mut count = Count::default();
    for _ in 0..3_000 {
        let Asked { mut table, bound } = small(&mut random);
        if reading == Reading::Restart {
            let question = table.question_number();
            table.clauses[..question].iter_mut().for_each(|clause| conclude(&mut random, clause));
        }
        let file = write(&table);
        count.examine(&table, &search_for(reading, &file, bound, 300).answer);
        let offered = wandering_by(reading, &mut random, &table, bound);
        count.examine(&table, &check_for(reading, &file, &offered, bound).answer);
    }
    println!("{} answers in {} interpretations", count.answers, count.models);
    println!("{} indefinite, {} of them false without the last disjunct", count.indefinite, count.needed_disjuncts);
    assert!(count.answers > 500 && count.models > 10_000);
    count
}

#[test]
fn answers_of_the_base_are_true() {
    let count = answers_are_true(Reading::Base);
    assert!(count.indefinite > 50 && count.needed_disjuncts > 20);
}

#[test]
fn answers_with_restarts_are_true() {
    let count = answers_are_true(Reading::Restart);
    assert!(count.indefinite > 50 && count.needed_disjuncts > 20);
}
