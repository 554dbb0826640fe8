//! Families of random tables.

use crate::random::Random;
use engine::syntax::{Clause, Literal, Table, Term};
use engine::word::Symbol;

/// A table, and a bound at which something interesting may happen.
pub struct Asked {
    pub table: Table,
    pub bound: u32,
}

type Family = fn(&mut Random) -> Asked;

const FAMILIES: [(usize, Family); 14] = [
    (8, propositional),
    (18, horn),
    (22, mixed),
    (16, contradictory),
    (12, alternatives),
    (8, season),
    (6, sums),
    (3, deep),
    (3, extremes),
    (3, chain),
    (2, doubling),
    (4, equations),
    (2, wide),
    (3, facts),
];

/// Now and then some of the clauses are restricted.
pub fn any(random: &mut Random) -> Asked {
    let mut asked = unmarked(random);
    if random.once_in(6) {
        mark(random, &mut asked.table);
    }
    asked
}

/// A table in which every clause but the question has a positive literal, so that the restart reading takes it.
pub fn with_conclusions(random: &mut Random) -> Asked {
    let family = random.pick(&[any, any, small, contradictory, alternatives]);
    let mut asked = family(random);
    let question = asked.table.question_number();
    asked.table.clauses[..question].iter_mut().for_each(|clause| conclude(random, clause));
    asked
}

/// Turns a literal where all are negative.
pub fn conclude(random: &mut Random, clause: &mut Clause) {
    if clause.literals.iter().all(|literal| literal.negative) {
        let place = random.below(clause.literals.len());
        clause.literals[place].negative = false;
    }
}

/// Restricts some of the clauses before the question.
pub fn mark(random: &mut Random, table: &mut Table) {
    let question = table.question_number();
    let share = random.pick(&[1, 2, 2, 3, 6]);
    for clause in &mut table.clauses[..question] {
        clause.restricted = random.once_in(share);
    }
}

fn unmarked(random: &mut Random) -> Asked {
    let total = FAMILIES.iter().map(|(weight, _)| weight).sum();
    let mut rest = random.below(total);
    for (weight, family) in FAMILIES {
        if rest < weight {
            return family(random);
        }
        rest -= weight;
    }
    unreachable!("the weights add up to the total")
}

/// Small enough that every interpretation over two elements can be looked at.
pub fn small(random: &mut Random) -> Asked {
    match random.below(4) {
        0 => propositional(random),
        1 => alternatives(random),
        _ => {
            let vocabulary = Vocabulary::small(random);
            let signs = random.pick(&[Signs::Horn, Signs::Free]);
            vocabulary.asked(random, signs, 5)
        }
    }
}

fn propositional(random: &mut Random) -> Asked {
    let predicates = (0..random.between(1, 4) as u32).map(|number| Symbol { number, arity: 0 }).collect();
    let vocabulary = Vocabulary { predicates, functions: Vec::new() };
    vocabulary.asked(random, Signs::Free, 7)
}

fn horn(random: &mut Random) -> Asked {
    Vocabulary::small(random).asked(random, Signs::Horn, 7)
}

fn mixed(random: &mut Random) -> Asked {
    Vocabulary::small(random).asked(random, Signs::Free, 7)
}

/// Every choice of signs for two or three atoms, the question being the one with all of them negative: there always is a proof,
/// and it goes through reductions.
fn contradictory(random: &mut Random) -> Asked {
    let vocabulary = Vocabulary::small(random);
    let atoms: Vec<Literal> = (0..random.between(2, 3) as u32)
        .map(|number| {
            let predicate = Symbol { number, arity: random.pick(&[0, 1, 1, 2]) };
            vocabulary.literal(random, true, 2, Some(predicate))
        })
        .collect();
    let mut clauses: Vec<Clause> = (0..(1 << atoms.len()) - 1).map(|signs| signed(random, &atoms, signs)).collect();
    random.shuffle(&mut clauses);
    clauses.push(signed(random, &atoms, (1 << atoms.len()) - 1));
    Asked { table: Table { clauses }, bound: random.between(2, 9) as u32 }
}

/// The atoms with these signs, in any order, and now and then a term made more general.
fn signed(random: &mut Random, atoms: &[Literal], signs: u32) -> Clause {
    let mut literals: Vec<Literal> = atoms.to_vec();
    for (place, literal) in literals.iter_mut().enumerate() {
        literal.negative = signs >> place & 1 == 1;
        literal.arguments = literal.arguments.iter().map(|term| loosened(random, term)).collect();
    }
    random.shuffle(&mut literals);
    Clause::open(4, literals)
}

/// p(…) or p(…) or …, asking for any: one disjunct for each alternative.
pub fn alternatives(random: &mut Random) -> Asked {
    let vocabulary = Vocabulary::small(random);
    let predicate = random.pick(&vocabulary.predicates);
    let count = random.between(2, 4);
    let mut clauses = vec![vocabulary.clause(random, &[false, false, false, false][..count], Some(predicate))];
    for _ in 0..random.below(4) {
        let positive = random.between(0, 2);
        let signs: Vec<bool> = (0..positive).map(|_| false).chain((0..random.between(1, 2)).map(|_| true)).collect();
        clauses.push(vocabulary.clause(random, &signs, None));
    }
    let fresh = (0..predicate.arity).map(Term::Variable).collect();
    let mut literals = vec![Literal { negative: true, predicate, arguments: fresh }];
    if random.once_in(3) {
        literals.push(vocabulary.literal(random, true, predicate.arity.max(1), None));
    }
    clauses.push(Clause::open(predicate.arity.max(1), literals));
    Asked { table: Table { clauses }, bound: (count + random.below(3)) as u32 }
}

/// at(day,house,slot) as facts, as alternatives and in rules.
fn season(random: &mut Random) -> Asked {
    let name = |number: usize| Term::Application(Symbol { number: number as u32, arity: 0 }, Vec::new());
    let at = |negative, day: Term, house: Term, slot: Term| Literal {
        negative,
        predicate: Symbol { number: 1, arity: 3 },
        arguments: vec![day, house, slot],
    };
    let (matinee, evening) = (name(1), name(2));
    let mut clauses = Vec::new();
    for _ in 0..random.between(2, 8) {
        let (day, house) = (name(random.between(3, 5)), name(random.between(6, 7)));
        let slots = random.pick(&[vec![&matinee], vec![&evening], vec![&matinee, &evening]]);
        let literals = slots.into_iter().map(|slot| at(false, day.clone(), house.clone(), slot.clone())).collect();
        clauses.push(Clause::open(0, literals));
    }
    if random.once_in(2) {
        let (from, to) = (name(random.between(6, 7)), name(random.between(6, 8)));
        let rule =
            vec![at(true, Term::Variable(0), from, Term::Variable(1)), at(false, Term::Variable(0), to, evening)];
        clauses.insert(random.below(clauses.len() + 1), Clause::open(2, rule));
    }
    let day = random.pick(&[name(3), name(4), Term::Variable(1)]);
    let mut asked = vec![at(true, day.clone(), name(6), Term::Variable(0))];
    if random.once_in(3) {
        asked.push(at(true, day, name(random.between(7, 8)), Term::Variable(2)));
    }
    clauses.push(Clause::open(3, asked));
    Asked { table: Table { clauses }, bound: random.between(1, 5) as u32 }
}

/// Sums of numbers written with a successor: add(0,Y,Y); add(s(X),Y,s(Z)) if add(X,Y,Z).
fn sums(random: &mut Random) -> Asked {
    let numeral = |n: usize| format!("{}z{}", "s(".repeat(n), ")".repeat(n));
    let most = if random.once_in(6) { 31 } else { 6 };
    let left = random.between(0, most);
    let right = random.between(0, 9);
    let (asked, need) = match random.below(4) {
        0 => (format!("add({},{},R)", numeral(left), numeral(right)), left + 1),
        1 => (format!("add(A,{},{})", numeral(right), numeral(right + left)), left + 1),
        2 => (format!("add(A,B,{}), add(B,A,C)", numeral(left.min(8))), 3),
        _ => (format!("add(A,{},A)", numeral(right)), left.min(6)),
    };
    let mut rules = vec!["add(z,Y,Y)", "add(s(X),Y,s(Z)) | ~ add(X,Y,Z)"];
    if random.once_in(2) {
        rules.reverse();
    }
    if random.once_in(4) {
        rules.push("~ add(X,Y,Z) | add(Y,X,Z)");
    }
    let text = format!("{}\n? {asked}", rules.join("\n"));
    let bound = (need + random.below(3)).saturating_sub(random.below(2)).min(32) as u32;
    Asked { table: written(&text), bound }
}

/// Facts and a question whose terms take most of the 255 words that a clause may have.
fn deep(random: &mut Random) -> Asked {
    let words = if random.once_in(4) { 240 } else { 60 };
    let vocabulary = Vocabulary::with_functions();
    let general = vocabulary.large_term(random, words, 4);
    let predicate = Symbol { number: 1, arity: 1 };
    let fact = |negative, variables, term| {
        Clause::open(variables, vec![Literal { negative, predicate, arguments: vec![term] }])
    };
    let mut clauses: Vec<Clause> = (0..random.between(0, 2))
        .map(|_| {
            let other = random.between(1, 30);
            fact(false, 4, vocabulary.large_term(random, other, 4))
        })
        .collect();
    clauses.push(fact(false, 4, loosened(random, &general)));
    clauses.push(fact(true, 4, loosened(random, &general)));
    Asked { table: Table { clauses }, bound: random.between(1, 2) as u32 }
}

/// The same term, with a few subterms replaced by variables.
fn loosened(random: &mut Random, term: &Term) -> Term {
    match term {
        _ if random.once_in(12) => Term::Variable(random.below(4) as u32),
        Term::Variable(number) => Term::Variable(*number),
        Term::Application(symbol, arguments) => {
            Term::Application(*symbol, arguments.iter().map(|argument| loosened(random, argument)).collect())
        }
    }
}

/// Largest numbers, arities and counts.
fn extremes(random: &mut Random) -> Asked {
    let predicates =
        vec![Symbol { number: 4095, arity: 4 }, Symbol { number: 4095, arity: 3 }, Symbol { number: 0, arity: 4 }];
    let functions = vec![
        Symbol { number: 4095, arity: 0 },
        Symbol { number: 0, arity: 0 },
        Symbol { number: 4095, arity: 4 },
        Symbol { number: 4095, arity: 1 },
    ];
    let vocabulary = Vocabulary { predicates, functions };
    let full = |negative: &mut dyn FnMut() -> bool, random: &mut Random| {
        let literals = (0..random.between(1, 7)).map(|_| vocabulary.literal(random, negative(), 16, None)).collect();
        Clause::open(16, literals)
    };
    let mut clauses = Vec::new();
    for _ in 0..random.between(1, 5) {
        let mut sign = random.number();
        let mut signs = || {
            sign >>= 1;
            sign & 1 == 1
        };
        clauses.push(full(&mut signs, random));
    }
    clauses.push(full(&mut || true, random));
    Asked {
        table: Table { clauses: clauses.into_iter().map(within_a_clause).collect() },
        bound: random.between(1, 6) as u32,
    }
}

/// Drops literals at the end until the clause's words can be counted in its clause word.
fn within_a_clause(mut clause: Clause) -> Clause {
    let words = |clause: &Clause| clause.literals.iter().map(|literal| 1 + sizes(&literal.arguments)).sum::<usize>();
    while words(&clause) > 255 {
        clause.literals.pop();
    }
    clause
}

fn sizes(terms: &[Term]) -> usize {
    terms
        .iter()
        .map(|term| match term {
            Term::Variable(_) => 1,
            Term::Application(_, arguments) => 1 + sizes(arguments),
        })
        .sum()
}

/// p0 if p1 if p2 …, with the last a fact or missing.
fn chain(random: &mut Random) -> Asked {
    let length = random.pick(&[3, 8, 30, 31, 32]);
    let mut lines: Vec<String> = (0..length).map(|link| format!("p{link}(X) | ~ p{}(f(X))", link + 1)).collect();
    lines.push(format!("p{}(Y)", length - random.below(2)));
    lines.push("? p0(X)".to_owned());
    Asked { table: written(&lines.join("\n")), bound: 32 - random.below(3) as u32 }
}

/// Terms that double at each step: comparing, looking for a variable or writing them out word by word would never end.
fn doubling(random: &mut Random) -> Asked {
    let depth = random.pick(&[2, 5, 12, 25, 29]);
    let base = random.pick(&["e(X,Y)", "e(X,X)", "e(a,a)", "e(a,b)"]);
    let asked = random.pick(&[
        "? e(P,Q), same(P,Q)",
        "? e(P,Q), hold(P,R,R)",
        "? e(P,Q)",
        "? e(P,Q), same(P,f(Q,Q))",
        "? e(P,Q), same(f(P,Q),f(Q,P))",
    ]);
    let rules = "same(Z,Z)\nhold(Z,W,f(Z,W))\nhold(Z,W,f(Z,Z))";
    let text = format!("e(f(X,X),f(Y,Y)) | ~ e(X,Y)\n{base}\n{rules}\n{asked}");
    Asked { table: written(&text), bound: depth + 2 }
}

/// Random systems of equations in up to 16 variables, each goal one equation: shared terms, clashes and circles of every kind.
pub fn equations(random: &mut Random) -> Asked {
    let functions = [(0, 2), (0, 2), (1, 1), (0, 0)].map(|(number, arity)| Symbol { number, arity }).to_vec();
    let predicate = Symbol { number: 1, arity: 2 };
    let vocabulary = Vocabulary { predicates: vec![predicate], functions };
    let twice = vec![Term::Variable(0), Term::Variable(0)];
    let same = Clause::open(1, vec![Literal { negative: false, predicate, arguments: twice }]);
    let variables = random.pick(&[3, 6, 10, 16]);
    let goals: Vec<Literal> = (0..random.between(2, 7))
        .map(|_| {
            let size = random.pick(&[1, 6, 12]);
            let left = vocabulary.large_term(random, size, variables);
            let right = vocabulary.large_term(random, size, variables);
            Literal { negative: true, predicate, arguments: vec![left, right] }
        })
        .collect();
    let bound = goals.len() as u32;
    Asked { table: Table { clauses: vec![same, Clause::open(variables, goals)] }, bound }
}

/// Many clauses, few of them fitting.
fn wide(random: &mut Random) -> Asked {
    let edges = if random.once_in(8) { random.between(200, 480) } else { random.between(15, 60) };
    let mut lines = vec!["path(X,Y) | ~ edge(X,Y)".to_owned(), "path(X,Z) | ~ edge(X,Y) | ~ path(Y,Z)".to_owned()];
    for edge in 0..edges {
        let node = edge % 40;
        match random.below(5) {
            0 => lines.push(format!("edge(n{node},n{}) | edge(n{node},n{})", node + 1, random.below(40))),
            1 => lines.push(format!("other{}(n{node})", random.below(30))),
            _ => lines.push(format!("edge(n{node},n{})", random.between(node, 40))),
        }
    }
    lines.push(format!("? path(n{},n{})", random.below(5), random.below(40)));
    Asked { table: written(&lines.join("\n")), bound: random.between(1, 6) as u32 }
}

/// Many facts of few predicates, their first arguments constants, terms and now and then a variable, between rules of the same predicates.
pub fn facts(random: &mut Random) -> Asked {
    let names = random.pick(&[2, 5, 20]);
    let first = |random: &mut Random| match random.below(12) {
        0 => "X".to_owned(),
        1 => format!("f(n{})", random.below(names)),
        2 => "f(X)".to_owned(),
        _ => format!("n{}", random.below(names)),
    };
    let count = if random.once_in(4) { random.between(60, 200) } else { random.between(10, 40) };
    let mut lines: Vec<String> = (0..count)
        .map(|_| {
            let (from, to) = (first(random), first(random));
            match random.below(16) {
                0 => format!("step({from},{to}) | step({to},{from})"),
                1 => format!("step({from},X) | ~ step({to},X)"),
                2 | 3 => format!("seen({from})"),
                _ => format!("step({from},{to})"),
            }
        })
        .collect();
    let rules = ["way(X,Z) | ~ step(X,Z)", "way(X,Z) | ~ step(X,Y) | ~ way(Y,Z)", "way(X,X) | ~ seen(X)"];
    for rule in rules {
        lines.insert(random.below(lines.len() + 1), rule.to_owned());
    }
    let (from, to) = (first(random), random.pick(&["Z", "n1", "nowhere", "f(Z)"]));
    lines.push(random.pick(&[format!("? way({from},{to})"), format!("? step({from},Y), seen(Y)")]));
    Asked { table: written(&lines.join("\n")), bound: random.between(1, 6) as u32 }
}

pub fn written(text: &str) -> Table {
    notation::table(text).expect("a table written here can be read")
}

#[derive(Clone, Copy)]
enum Signs {
    Horn,
    Free,
}

struct Vocabulary {
    predicates: Vec<Symbol>,
    functions: Vec<Symbol>,
}

impl Vocabulary {
    /// One to three predicates, one to three constants, and at times a function.
    fn small(random: &mut Random) -> Vocabulary {
        let arity = |random: &mut Random| random.pick(&[0, 1, 1, 1, 2, 2, 3]);
        let predicates =
            (0..random.between(1, 3) as u32).map(|number| Symbol { number, arity: arity(random) }).collect();
        let mut functions: Vec<Symbol> =
            (0..random.between(1, 3) as u32).map(|number| Symbol { number, arity: 0 }).collect();
        if random.once_in(2) {
            functions.push(Symbol { number: 0, arity: 1 });
        }
        if random.once_in(5) {
            functions.push(Symbol { number: 1, arity: 2 });
        }
        Vocabulary { predicates, functions }
    }

    fn with_functions() -> Vocabulary {
        let functions = [(0, 0), (1, 0), (0, 1), (0, 2), (1, 2), (2, 3)];
        let functions = functions.map(|(number, arity)| Symbol { number, arity }).to_vec();
        Vocabulary { predicates: vec![Symbol { number: 1, arity: 1 }], functions }
    }

    fn asked(&self, random: &mut Random, signs: Signs, most: usize) -> Asked {
        let mut clauses: Vec<Clause> =
            (0..random.between(1, most)).map(|_| self.signed_clause(random, signs)).collect();
        let asked = random.pick(&[1, 1, 1, 2, 2, 3]);
        clauses.push(self.clause(random, &[true, true, true][..asked], None));
        Asked { table: Table { clauses }, bound: random.pick(&[0, 1, 2, 3, 3, 4, 4, 5, 5, 6, 7, 8]) }
    }

    fn signed_clause(&self, random: &mut Random, signs: Signs) -> Clause {
        let signs: Vec<bool> = match signs {
            Signs::Free => (0..random.pick(&[1, 1, 2, 2, 2, 3])).map(|_| random.once_in(2)).collect(),
            Signs::Horn => {
                let length = random.pick(&[1, 1, 1, 2, 2, 3]);
                let head = random.below(length);
                (0..length).map(|place| place != head).collect()
            }
        };
        self.clause(random, &signs, None)
    }

    fn clause(&self, random: &mut Random, signs: &[bool], predicate: Option<Symbol>) -> Clause {
        let variables = random.pick(&[0, 1, 1, 2, 2, 3]);
        let literals = signs.iter().map(|&negative| self.literal(random, negative, variables, predicate)).collect();
        Clause::open(variables, literals)
    }

    fn literal(&self, random: &mut Random, negative: bool, variables: u32, predicate: Option<Symbol>) -> Literal {
        let predicate = predicate.unwrap_or_else(|| random.pick(&self.predicates));
        let arguments = (0..predicate.arity).map(|_| self.term(random, variables, 2)).collect();
        Literal { negative, predicate, arguments }
    }

    fn term(&self, random: &mut Random, variables: u32, depth: u32) -> Term {
        if variables > 0 && random.once_in(2) {
            return Term::Variable(random.below(variables as usize) as u32);
        }
        let fitting: Vec<Symbol> =
            self.functions.iter().copied().filter(|symbol| depth > 0 || symbol.arity == 0).collect();
        let symbol = random.pick(&fitting);
        Term::Application(symbol, (0..symbol.arity).map(|_| self.term(random, variables, depth - 1)).collect())
    }

    /// A term of at most so many words, mostly near it.
    fn large_term(&self, random: &mut Random, words: usize, variables: u32) -> Term {
        if words < 5 {
            return self.term(random, variables, 0);
        }
        let symbol = random.pick(&self.functions);
        let share = (words - 1) / symbol.arity.max(1) as usize;
        if symbol.arity == 0 {
            return self.large_term(random, words, variables);
        }
        Term::Application(symbol, (0..symbol.arity).map(|_| self.large_term(random, share, variables)).collect())
    }
}
