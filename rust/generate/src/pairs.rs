//! One table typed in two orders: of the clauses before the question, and of the literals within each clause.

use crate::lines::{Search, Spelling};
use crate::random::Random;
use crate::tables::{self, Asked};
use engine::Reading;
use engine::file::write;
use engine::syntax::Table;

const ALLOWED: u32 = 3_000;

/// Requests in twos: a search, and the same of the table in another order.
pub fn pairs(seed: u64, count: usize) -> impl Iterator<Item = String> {
    let mut random = Random::new(seed);
    std::iter::repeat_with(move || pair(&mut random)).take(count).flatten()
}

fn pair(random: &mut Random) -> [String; 2] {
    let (reading, family): (Reading, fn(&mut Random) -> Asked) = match random.below(3) {
        0 => (Reading::Base, tables::any),
        1 => (Reading::Base, tables::small),
        _ => (Reading::Restart, tables::with_conclusions),
    };
    let Asked { table, bound } = family(random);
    let other = reordered(random, &table);
    [table, other].map(|table| {
        let search = Search::ordinary(&write(&table), bound, ALLOWED);
        Search { proof: reading.proof_words(), ..search }.line_for(reading, Spelling::Full)
    })
}

pub fn reordered(random: &mut Random, table: &Table) -> Table {
    let mut other = table.clone();
    let question = other.question_number();
    random.shuffle(&mut other.clauses[..question]);
    for clause in &mut other.clauses {
        random.shuffle(&mut clause.literals);
    }
    other
}
