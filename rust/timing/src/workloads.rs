//! Questions to measure by.

use engine::file::write;
use engine::syntax::{Clause, Literal, Table, Term};
use engine::word::Symbol;

const PRIM: &str = include_str!("../../examples/prim.table");
const GROUP2: &str = include_str!("../../examples/group2.table");
const KNIGHTS: &str = include_str!("../../examples/knights-yes.table");
/// A season of playbills as clause text: facts by the hundred of few predicates, alternatives, rules about casts and understudies.
const SEASON: &str = include_str!("../../examples/season.tptp");

pub struct Workload {
    pub name: String,
    pub bound: u32,
    pub budget: u32,
    pub file: Vec<u32>,
}

/// The questions that every comparison shows.
pub fn main() -> Vec<Workload> {
    vec![
        workload("prim", PRIM, 11, 1_000_000),
        workload("group2", GROUP2, 10, u32::MAX),
        workload("knights K=6", KNIGHTS, 6, u32::MAX),
        season(8),
        season(10),
        wide(400),
        facts(400),
        deep(200),
        longest_file(),
        workload("case 1", "at(e,mat) | at(e,eve)\n? at(e,X)", 2, 3),
        workload("case 2", "at(e,mat) | at(e,eve)\n? at(e,X)", 1, u32::MAX),
        workload("case 7", "p(f(X,g(Y)))\n? p(f(g(Z),Z))", 1, u32::MAX),
        workload("case 9", "p | q\np | ~ q\n? p", 2, u32::MAX),
    ]
}

pub fn all() -> Vec<Workload> {
    main().into_iter().chain(growth()).collect()
}

/// How cost grows with the table, the bound and the size of terms.
pub fn growth() -> Vec<Workload> {
    let tables = [50, 100, 200, 400, 500].map(wide).into_iter().chain([50, 100, 200, 400, 500].map(facts));
    let bounds = [6, 7, 8, 9].map(|bound| workload(&format!("group2 K={bound}"), GROUP2, bound, u32::MAX));
    let terms = [10, 25, 50, 100, 200, 250].map(deep);
    tables.chain(bounds).chain(terms).collect()
}

fn workload(name: &str, table: &str, bound: u32, budget: u32) -> Workload {
    let file = notation::file(table).expect("a table written here can be read");
    Workload { name: name.to_owned(), bound, budget, file }
}

/// Two rules for each of a few predicates, spread over a table of other facts: every leaf looks through all of it for two tries.
fn wide(clauses: usize) -> Workload {
    const LEVELS: usize = 12;
    let stride = (clauses - 1) / (2 * LEVELS);
    let line = |number: usize| {
        let (level, branch) = (number / stride / 2, number / stride % 2);
        if number.is_multiple_of(stride) && level < LEVELS {
            return format!("q{level}(X) | ~ q{}({}(X))", level + 1, ["f", "g"][branch]);
        }
        format!("seen{}(n{},h{})", number % 19, number / 20, number % 7)
    };
    let lines: Vec<String> = (0..clauses - 1).map(line).chain(["? q0(a)".to_owned()]).collect();
    workload(&format!("wide {clauses}"), &lines.join("\n"), LEVELS as u32, u32::MAX)
}

/// A way from the first of many facts of one predicate to the next, which ends nowhere: every leaf tries all of them, and one fits.
fn facts(clauses: usize) -> Workload {
    let mut lines = vec!["way(X,Z) | ~ step(X,Z)".to_owned(), "way(X,Z) | ~ step(X,Y) | ~ way(Y,Z)".to_owned()];
    lines.extend((0..clauses - 3).map(|number| format!("step(n{number},n{})", number + 1)));
    lines.push("? way(n0,nowhere)".to_owned());
    workload(&format!("facts {clauses}"), &lines.join("\n"), 12, u32::MAX)
}

fn season(bound: u32) -> Workload {
    let mut file = vec![0; 16_000];
    let read = orders::tptp::read(SEASON.as_bytes(), &mut file);
    assert_eq!(read.status, 0);
    file.truncate(read.words as usize);
    Workload { name: format!("season K={bound}"), bound, budget: u32::MAX, file }
}

/// Each try at p(…) goes through a term of this many words before it fits or does not.
fn deep(size: usize) -> Workload {
    let tower = |end: &str| format!("{}{end}{}", "s(".repeat(size - 1), ")".repeat(size - 1));
    let facts = ["a", "b", "c", "d"].map(|end| format!("p({})", tower(end)));
    let table = format!("{}\nq(X) | ~ p(X) | ~ q(X)\n? q({})", facts.join("\n"), tower("Z"));
    workload(&format!("deep {size}"), &table, 32, 1_000_000)
}

/// A file of 16,000 words, judged and then asked nothing.
fn longest_file() -> Workload {
    let fact = |words: usize| {
        let constant = Term::Application(Symbol { number: 1, arity: 0 }, Vec::new());
        let term = (3..words).fold(constant, |term, _| Term::Application(Symbol { number: 1, arity: 1 }, vec![term]));
        let predicate = Symbol { number: 1, arity: 1 };
        Clause::open(0, vec![Literal { negative: false, predicate, arguments: vec![term] }])
    };
    let mut clauses = vec![fact(256); 62];
    clauses.push(fact(16_000 - 62 * 256 - 7));
    clauses.extend(notation::table("? p(X)").expect("a table written here can be read").clauses);
    let file = write(&Table { clauses });
    Workload { name: "16000 words".to_owned(), bound: 0, budget: 0, file }
}
