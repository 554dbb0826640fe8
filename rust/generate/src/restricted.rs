//! Two files that differ only in restricted clauses: in their number, their places and their words. Education's results are the same.

use crate::lines::{Check, Search, Spelling};
use crate::random::Random;
use crate::tables::{self, Asked};
use crate::{answer_room, proof_room, proofs, work_room};
use engine::file::{clause_words, write};
use engine::owned;
use engine::syntax::{Clause, Table};
use engine::{Asker, Desk, Reading, Status};

const ALLOWED: u32 = 1_000;
const MOST_CLAUSES: usize = 512;
const MOST_WORDS: usize = 15_996;

/// Requests in twos: a search or a check by education, and the same of a file with other restricted clauses.
pub fn pairs(seed: u64, count: usize) -> impl Iterator<Item = String> {
    let mut random = Random::new(seed);
    std::iter::repeat_with(move || pair(&mut random)).take(count).flatten()
}

fn pair(random: &mut Random) -> [String; 2] {
    let (reading, family): (Reading, fn(&mut Random) -> Asked) = match random.below(3) {
        0 => (Reading::Base, tables::any),
        1 => (Reading::Base, tables::small),
        _ => (Reading::Restart, tables::with_conclusions),
    };
    let Asked { table, bound } = family(random);
    let seen = table.unrestricted();
    let files = [hiding(reading, random, &seen), hiding(reading, random, &seen)].map(|table| write(&table));
    let asker = Asker { desk: Desk::Education, reading };
    if random.once_in(2) {
        let search = search(reading, random, &seen, bound);
        files.map(|file| Search { file, ..search.clone() }.line_for(asker, Spelling::Full))
    } else {
        let check = check(reading, random, &seen, bound);
        files.map(|file| Check { file, ..check.clone() }.line_for(asker, Spelling::Full))
    }
}

/// A search of what education sees, its budget and its answer buffer at and beside what is needed.
pub fn search(reading: Reading, random: &mut Random, seen: &Table, bound: u32) -> Search {
    let file = write(seen);
    let outcome = owned::search_for(reading, &file, bound, ALLOWED);
    let tries = outcome.report.tries;
    let budget = match outcome.report.status {
        Status::RanOut => ALLOWED,
        _ => random.pick(&[tries, tries, tries.saturating_sub(1), tries + 1, ALLOWED]),
    };
    let answer = answer_room(random, outcome.answer.len());
    Search { bound, budget, work: work_room(random), proof: proof_room(reading, random), answer, file }
}

/// A proof over what education sees, or something like one.
pub fn check(reading: Reading, random: &mut Random, seen: &Table, bound: u32) -> Check {
    let file = write(seen);
    let found = owned::search_for(reading, &file, bound, ALLOWED).proof;
    let wander = found.is_empty() || random.once_in(3);
    let proof = if wander { proofs::wandering_by(reading, random, seen, bound) } else { found };
    let offered = if random.once_in(2) { proof } else { proofs::altered(random, &proof) };
    let needed = owned::check_for(reading, &file, &offered, bound).answer.len();
    Check { bound, work: work_room(random), answer: answer_room(random, needed), offered, file }
}

/// The table with restricted clauses put in before the question, as far as a file has room and the reading takes them.
pub fn hiding(reading: Reading, random: &mut Random, seen: &Table) -> Table {
    let mut table = seen.clone();
    let count = random.pick(&[0, 1, 1, 2, 3, 5, 9, MOST_CLAUSES]);
    let mut words = table.clauses.iter().map(|clause| clause_words(clause).len()).sum::<usize>();
    for _ in 0..count {
        let mut hidden = Clause { restricted: true, ..secret(random, &table) };
        if reading == Reading::Restart {
            tables::conclude(random, &mut hidden);
        }
        words += clause_words(&hidden).len();
        if table.clauses.len() == MOST_CLAUSES || words > MOST_WORDS {
            break;
        }
        let place = random.below(table.clauses.len());
        table.clauses.insert(place, hidden);
    }
    table
}

/// The answer itself, a clause of the table or of another, or one that would change a proof.
fn secret(random: &mut Random, table: &Table) -> Clause {
    let mut clause = table.clauses[random.below(table.clauses.len())].clone();
    match random.below(6) {
        0 => {
            clause = table.question().clone();
            let goal = random.below(clause.literals.len());
            clause.literals = vec![clause.literals.swap_remove(goal)];
            clause.literals[0].negative = false;
        }
        1 => clause.literals.iter_mut().for_each(|literal| literal.negative = !literal.negative),
        2 => clause.literals.truncate(1),
        3 => random.shuffle(&mut clause.literals),
        4 => clause = tables::small(random).table.question().clone(),
        _ => {}
    }
    clause
}
