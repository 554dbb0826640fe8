//! Requests for comparing two implementations of the calls: the same for the same seed.

mod borders;
mod damage;
mod lines;
mod noise;
mod orders;
pub mod pairs;
pub mod proofs;
pub mod random;
pub mod restricted;
pub mod tables;

use damage::damaged;
use engine::file::write;
use engine::owned::{self, Outcome};
use engine::syntax::Table;
use engine::{LARGEST_BOUND, Reading, Report, Status};
use lines::{Check, Search, Spelling, lookup};
use random::Random;
use tables::Asked;

/// Request lines: first every border, then random ones. At times a comment or an empty line, which has no result, stands before one.
pub fn requests(seed: u64, count: usize) -> impl Iterator<Item = String> {
    let mut random = Random::new(seed);
    let borders = [borders::all(), orders::borders()].concat();
    let endless = std::iter::repeat_with(move || with_skipped_lines(&mut random));
    borders.into_iter().chain(endless).take(count)
}

fn with_skipped_lines(random: &mut Random) -> String {
    let line = request(random);
    match random.below(100) {
        0 => format!("\n{line}"),
        1 => format!("# {line}\n{line}"),
        _ => line,
    }
}

fn request(random: &mut Random) -> String {
    let spelling = Spelling::any(random);
    if random.once_in(4) {
        return orders::any(random, spelling);
    }
    match random.below(100) {
        0..=39 => search(random).line(spelling),
        40..=74 => check(random).line(spelling),
        75..=88 => on_damaged_file(random, spelling),
        89..=95 => look_up(random, spelling),
        _ => {
            let Asked { table, bound } = tables::any(random);
            // A small budget, for one more digit may still be a request.
            let good = Search::ordinary(&write(&table), bound, 50).line(Spelling::Short);
            noise::any(random, &good)
        }
    }
}

/// The most tries that a request may take.
fn allowance(random: &mut Random) -> u32 {
    random.pick(&[100, 300, 300, 300, 300, 300, 300, 1_000, 1_000, 3_000])
}

fn asked(random: &mut Random) -> Asked {
    let mut asked = tables::any(random);
    match random.below(20) {
        0 => asked.bound = LARGEST_BOUND,
        1 => asked.bound = (asked.bound + 1).min(LARGEST_BOUND),
        2 => asked.bound = asked.bound.saturating_sub(1),
        _ => {}
    }
    asked
}

/// A question with what a search of at most so many tries makes of it.
struct Tried {
    table: Table,
    file: Vec<u32>,
    bound: u32,
    allowed: u32,
    outcome: Outcome,
}

/// The hardest of a few questions: one with a proof before one without, then the one that took the most tries.
fn tried(random: &mut Random) -> Tried {
    let attempts = random.pick(&[1, 2, 4, 8]);
    let hardness = |tried: &Tried| {
        let Report { status, tries, .. } = tried.outcome.report;
        (status == Status::Proved, tries)
    };
    (0..attempts).map(|_| try_once(random)).max_by_key(hardness).expect("one question at least")
}

fn try_once(random: &mut Random) -> Tried {
    let Asked { table, bound } = asked(random);
    let file = write(&table);
    let allowed = allowance(random);
    let outcome = owned::search(&file, bound, allowed);
    Tried { table, file, bound, allowed, outcome }
}

fn search(random: &mut Random) -> Search {
    let Tried { file, bound, allowed, outcome, .. } = tried(random);
    let tries = outcome.report.tries;
    let budget = if outcome.report.status == Status::RanOut {
        random.pick(&[allowed, allowed - 1, allowed / 2])
    } else {
        random.pick(&[tries, tries, tries.saturating_sub(1), tries + 1, allowed, u32::MAX])
    };
    let answer = answer_room(random, outcome.answer.len());
    let (work, proof) = (work_room(random), proof_room(Reading::Base, random));
    let bound = if random.once_in(100) { random.pick(&[33, 63, 64, u32::MAX]) } else { bound };
    Search { bound, budget, work, proof, answer, file }
}

fn check(random: &mut Random) -> Check {
    let Tried { table, file, bound, outcome, .. } = tried(random);
    let wander = outcome.proof.is_empty() || random.once_in(3);
    let proof = if wander { proofs::wandering(random, &table, bound) } else { outcome.proof };
    let offered = match random.below(20) {
        0..=8 => proof,
        9..=15 => proofs::altered(random, &proof),
        16..=18 => proofs::failing(random, &table, bound),
        _ => proofs::random_steps(random),
    };
    let extensions = offered.iter().filter(|&&step| step >> 30 == 1).count() as u32;
    let close = [extensions, extensions.saturating_sub(1), LARGEST_BOUND, LARGEST_BOUND + 1];
    let bound = if random.once_in(6) { random.pick(&close) } else { bound };
    let needed = owned::check(&file, &offered, bound).answer.len();
    Check { bound, work: work_room(random), answer: answer_room(random, needed), offered, file }
}

fn on_damaged_file(random: &mut Random, spelling: Spelling) -> String {
    let Asked { table, bound } = tables::any(random);
    let file = damaged(random, &write(&table));
    let allowed = allowance(random).min(300);
    match random.below(5) {
        0 => lookup(&file, random.below(table.clauses.len() + 1) as u32, spelling),
        1 => Check::ordinary(&file, &proofs::wandering(random, &table, bound), bound).line(spelling),
        _ => Search::ordinary(&file, bound, allowed).line(spelling),
    }
}

fn look_up(random: &mut Random, spelling: Spelling) -> String {
    let table = tables::any(random).table;
    let count = table.clauses.len() as u32;
    let inside = random.below(table.clauses.len()) as u32;
    let outside = random.pick(&[count, count + 1, 511, 512, u32::MAX]);
    let number = random.pick(&[0, inside, inside, count - 1, outside]);
    lookup(&write(&table), number, spelling)
}

fn answer_room(random: &mut Random, needed: usize) -> usize {
    let close = random.pick(&[needed, needed, needed + 1, needed.saturating_sub(1), 0]).min(20_000);
    random.pick(&[close, 4_096])
}

fn work_room(random: &mut Random) -> usize {
    if random.once_in(30) { random.pick(&[0, 16_383, 16_385, 20_000]) } else { 16_384 }
}

fn proof_room(reading: Reading, random: &mut Random) -> usize {
    let needed = reading.proof_words();
    if random.once_in(30) { random.pick(&[0, 199, needed - 1, needed + 1, 300]) } else { needed }
}
