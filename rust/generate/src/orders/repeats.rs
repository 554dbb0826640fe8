//! Order 3: alternatives that come up again, alike in every word, but for a variable's name, or in all but the last place.

use crate::lines::{Check, Search, Spelling};
use crate::random::Random;
use crate::tables::{self, Asked};
use crate::{answer_room, proofs};
use engine::LARGEST_BOUND;
use engine::file::write;
use engine::owned;
use engine::syntax::Table;

const ALLOWED: u32 = 1_000;

/// A closed proof with its table, and how many copies of the question its answer does not name.
pub struct Closed {
    pub file: Vec<u32>,
    pub proof: Vec<u32>,
    pub bound: u32,
    words: usize,
    repeats: usize,
}

/// The proof with the most repeats, of a few.
pub fn request(random: &mut Random, spelling: Spelling) -> String {
    let attempts = random.pick(&[1, 2, 4, 8]);
    let closed =
        (0..attempts).map(|_| closed(random)).max_by_key(|closed| closed.repeats).expect("one attempt at least");
    let Closed { file, proof, bound, words, .. } = closed;
    let answer = answer_room(random, words);
    if random.once_in(3) {
        return Search { answer, ..Search::ordinary(&file, bound, ALLOWED) }.line(spelling);
    }
    Check { answer, ..Check::ordinary(&file, &proof, bound) }.line(spelling)
}

pub fn closed(random: &mut Random) -> Closed {
    let family = random.pick(&[alternatives, alternatives, with_a_second_goal, doubling, tables::any]);
    let Asked { table, bound } = family(random);
    let file = write(&table);
    let mut proof = owned::search(&file, bound, ALLOWED).proof;
    if proof.is_empty() || !random.once_in(4) {
        proof = extended(random, &table, bound);
    }
    let outcome = owned::check(&file, &proof, bound);
    let copies = 1 + proof.iter().filter(|&&step| is_copy(step, &table)).count();
    let repeats = outcome.report.disjuncts.checked_sub(1).map_or(0, |others| copies - 1 - others as usize);
    Closed { file, proof, bound, words: outcome.answer.len(), repeats }
}

fn is_copy(step: u32, table: &Table) -> bool {
    step >> 30 == 1 && (step & 511) as usize == table.question_number()
}

/// A proof by any steps that work, better one that extends where a reduction would do: a reduction makes no copy.
fn extended(random: &mut Random, table: &Table, bound: u32) -> Vec<u32> {
    let proofs: Vec<Vec<u32>> = (0..3).map(|_| proofs::wandering(random, table, bound)).collect();
    let copies = |proof: &Vec<u32>| proof.iter().filter(|&&step| is_copy(step, table)).count();
    proofs.into_iter().max_by_key(copies).expect("three proofs")
}

const TERMS: [&str; 9] = ["a", "b", "X", "Y", "f(a)", "f(X)", "f(Y)", "g(X,Y)", "g(Y,X)"];

/// p(…) or p(…) or …, of few different terms.
fn alternatives(random: &mut Random) -> Asked {
    let line = |random: &mut Random, terms: &[&str]| {
        let count = random.between(1, 7);
        (0..count).map(|_| format!("p({})", random.pick(terms))).collect::<Vec<_>>().join(" | ")
    };
    let terms: Vec<&str> = (0..random.between(1, 3)).map(|_| random.pick(&TERMS)).collect();
    let mut lines = vec![line(random, &terms)];
    if random.once_in(2) {
        lines.push(line(random, &TERMS));
    }
    let variable = random.pick(&["? p(Z)", "? p(Z), p(Z)", "? p(Z), p(W)", "? p(f(Z))"]);
    lines.push(variable.to_owned());
    Asked { table: tables::written(&lines.join("\n")), bound: random.between(3, 20) as u32 }
}

/// As in the order's own example.
fn with_a_second_goal(random: &mut Random) -> Asked {
    let terms: Vec<&str> = (0..random.between(1, 2)).map(|_| random.pick(&TERMS)).collect();
    let mut lines: Vec<String> = (0..random.between(1, 2)).map(|_| format!("p({})", random.pick(&terms))).collect();
    for _ in 0..random.between(1, 3) {
        let r = random.pick(&["r", "r", "r(X)", "r(a)"]);
        let p = random.pick(&terms);
        lines.push(format!("{r} | p({p})"));
    }
    lines.extend(["r | s", "r(X) | s", "~ s"].map(str::to_owned));
    lines.push(random.pick(&["? p(X), r", "? p(X), r(X)", "? p(X), r(Y)", "? r, p(X)"]).to_owned());
    Asked { table: tables::written(&lines.join("\n")), bound: random.between(3, 9) as u32 }
}

/// Terms that double at each step, alike or unlike in the last place.
fn doubling(random: &mut Random) -> Asked {
    let terms: Vec<String> = (0..random.between(2, 6))
        .map(|_| format!("p({})", random.pick(&["P", "Q", "f(P,Q)", "f(Q,P)", "f(P,P)"])))
        .collect();
    let base = random.pick(&["d(a,a)", "d(a,b)", "d(X,X)", "d(X,Y)"]);
    let text = format!("{} | ~ d(P,Q)\nd(f(X,X),f(Y,Y)) | ~ d(X,Y)\n{base}\n? p(Z)", terms.join(" | "));
    let depth = random.pick(&[3, 6, 9, 10, 11, 12, 13, 20]);
    Asked { table: tables::written(&text), bound: (terms.len() as u32 + 1 + depth).min(LARGEST_BOUND) }
}

pub fn borders() -> Vec<String> {
    let file = |text: &str| write(&tables::written(text));
    let order = file("p(a)\nr | p(a)\nr | s\n~ s\n? p(X), r");
    let proof = [0x4000_0000, 0x4000_0001, 0x4000_0004, 0x4000_0002, 0x4000_0003];
    let mut lines = Vec::new();
    for answer in [0, 2, 3, 4, 6, 4_096] {
        lines.push(Check { answer, ..Check::ordinary(&order, &proof, 5) }.line(Spelling::Full));
        lines.push(Search { answer, ..Search::ordinary(&order, 5, u32::MAX) }.line(Spelling::Full));
    }
    for base in ["d(a,a)", "d(a,b)", "d(X,X)", "d(X,Y)"] {
        let file = file(&format!("p(P) | p(Q) | p(P) | p(Q) | ~ d(P,Q)\nd(f(X,X),f(Y,Y)) | ~ d(X,Y)\n{base}\n? p(Z)"));
        for doublings in [0, 1, 12, 27] {
            let steps =
                [vec![0x4000_0000], vec![0x4000_0003; 3], vec![0x4000_0001; doublings], vec![0x4000_0002]].concat();
            let words = 1 << (doublings.min(13) + 1);
            for answer in [words - 1, words, 2 * words - 1, 2 * words].map(|room| room.min(20_000)) {
                lines.push(Check { answer, ..Check::ordinary(&file, &steps, 32) }.line(Spelling::Full));
            }
        }
    }
    // 33 copies of the question, whose terms no two of which are alike, and all of which are.
    for (first, second) in [("f(X)", "X"), ("X", "X"), ("a", "a")] {
        let file = file(&format!("p({first}) | ~ q({second})\nq({first}) | p({second})\n? p(Z)"));
        let steps = [vec![0x4000_0000], [0x4000_0001, 0x4000_0002, 0x4000_0000].repeat(10), vec![0x4000_0001]].concat();
        lines.push(Check::ordinary(&file, &steps, 32).line(Spelling::Full));
    }
    lines
}
