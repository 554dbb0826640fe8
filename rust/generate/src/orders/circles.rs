//! Order 5: checks whose step swallows itself, clashes after circles and circles after clashes, through bindings made in the same
//! comparison and before it.

use crate::lines::{Check, Spelling};
use crate::random::Random;
use crate::{proofs, tables};
use engine::file::write;
use engine::owned;
use engine::syntax::{Clause, Literal, Table, Term};
use engine::word::Symbol;
use engine::{LARGEST_BOUND, Status};

const ATTEMPTS: usize = 12;
const VARIABLES: u32 = 6;

/// A check that ends as is wanted, if one is met.
pub fn request(random: &mut Random, spelling: Spelling) -> String {
    let wanted = random.pick(&[Status::Circle, Status::Circle, Status::Clash]);
    let kind = random.pick(&[within_one_step, within_one_step, after_steps]);
    let ends_so = |check: &Check| owned::check(&check.file, &check.offered, check.bound).report.status == wanted;
    let mut check = kind(random);
    for _ in 1..ATTEMPTS {
        if ends_so(&check) {
            break;
        }
        check = kind(random);
    }
    check.line(spelling)
}

/// same(Z,Z), asking same(left,right): the two terms are compared in one step, and share their variables.
fn within_one_step(random: &mut Random) -> Check {
    let predicate = Symbol { number: 1, arity: 2 };
    let one =
        |negative, variables, arguments| Clause::open(variables, vec![Literal { negative, predicate, arguments }]);
    let (left, right) = pair(random, 3);
    let sides = if random.once_in(2) { vec![left, right] } else { vec![right, left] };
    let clauses = vec![one(false, 1, vec![Term::Variable(0); 2]), one(true, VARIABLES, sides)];
    Check::ordinary(&write(&Table { clauses }), &[0x4000_0000], 1)
}

/// Two terms that differ in few places: by a symbol, by an arity, or by a variable against a term, which may hold it.
fn pair(random: &mut Random, depth: u32) -> (Term, Term) {
    if depth > 0 && !random.once_in(4) {
        let symbol = Symbol { number: 1, arity: random.between(1, 4) as u32 };
        let (left, right) = (0..symbol.arity).map(|_| pair(random, depth - 1)).unzip();
        return (Term::Application(symbol, left), Term::Application(symbol, right));
    }
    let (variable, other) = (Term::Variable(variable(random)), Term::Variable(variable(random)));
    let inside = random.pick(&[&variable, &other]).clone();
    let around = application(random.pick(&[1, 2]), vec![inside]);
    let deeper = application(random.pick(&[1, 2]), vec![around.clone()]);
    match random.below(24) {
        0 => (application(2, vec![]), application(3, vec![])),
        1 => (application(2, vec![]), around),
        2 => (application(1, vec![other.clone()]), application(1, vec![variable, other])),
        3..=5 => (application(2, vec![]), variable),
        6..=9 => (variable, application(random.pick(&[2, 3]), vec![])),
        10..=13 => (variable, around),
        14..=16 => (around, other),
        17 => (deeper, variable),
        18 => (around.clone(), around),
        _ => (variable, other),
    }
}

fn variable(random: &mut Random) -> u32 {
    random.below(VARIABLES as usize) as u32
}

fn application(number: u32, arguments: Vec<Term>) -> Term {
    Term::Application(Symbol { number, arity: arguments.len() as u32 }, arguments)
}

/// Steps that work on any table, then one that does not.
fn after_steps(random: &mut Random) -> Check {
    let tables::Asked { table, bound } =
        if random.once_in(2) { tables::equations(random) } else { tables::any(random) };
    let bound = if random.once_in(4) { LARGEST_BOUND } else { bound };
    Check::ordinary(&write(&table), &proofs::failing(random, &table, bound), bound)
}

pub fn borders() -> Vec<String> {
    let check = |table: &str, steps: &[u32]| {
        let table = notation::table(table).expect("a table written here can be read");
        Check::ordinary(&write(&table), steps, 9).line(Spelling::Full)
    };
    let mut lines = vec![
        check("parent(X,mother(X))\n? parent(Y,Y)", &[0x4000_0000]),
        check("parent(mother(X),X)\n? parent(Y,Y)", &[0x4000_0000]),
        check("p(f(X,g(X),b))\n? p(f(a,g(Z),Z))", &[0x4000_0000]),
        check("p(X,X) | ~ p(f(X),X)\n? p(a,Y)", &[0x4000_0000, 1]),
        check("p(X,Y) | p(X,f(X))\n? p(Z,Z)", &[0x4000_0000, 1]),
        check("p(X,Y) | ~ p(Y,f(X))\n p(Z,Z)\n? p(A,A)", &[0x4000_0000, 0x4000_0001]),
    ];
    for (left, right) in [
        ("X", "f(X)"),
        ("X", "X"),
        ("f(X)", "f(f(X))"),
        ("f(X,a)", "f(g(X),b)"),
        ("f(a,X)", "f(b,g(X))"),
        ("f(X,Y)", "f(g(Y),g(X))"),
        ("f(X,Y,X)", "f(Y,g(X),a)"),
        ("f(X,Y,Z,X)", "f(g(Y),g(Z),g(X),a)"),
        ("f(X,X)", "f(g(Y),g(g(X)))"),
        ("f(X,Y,g(X,a))", "f(Y,X,g(Y,b))"),
        ("f(g(X,X),a)", "f(g(Y,h(Y)),b)"),
        ("f(X,g(X))", "f(g(Y),g(a))"),
        ("f(X,f(Y,Z))", "f(f(Y,Z),X)"),
        ("f(X,f(Y,X))", "f(f(Y,Z),Z)"),
        ("f(X,f(a,X))", "f(f(b,Z),Z)"),
    ] {
        for (one, other) in [(left, right), (right, left)] {
            lines.push(check(&format!("same(Z,Z)\n? same({one},{other})"), &[0x4000_0000]));
        }
    }
    lines
}
