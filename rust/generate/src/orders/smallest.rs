//! Order 6: the least bound at 0, in the middle, at the limit and past it; budgets just enough and one short.

use crate::lines::{Search, Spelling};
use crate::random::Random;
use crate::{answer_room, proof_room, tables, work_room};
use engine::file::write;
use engine::owned::{self, Outcome};
use engine::{LARGEST_BOUND, Reading, Report, Status};

fn line(search: &Search, spelling: Spelling) -> String {
    search.line(spelling).replacen("search", "smallest", 1)
}

pub fn request(random: &mut Random, spelling: Spelling) -> String {
    let asked = tables::any(random);
    let file = write(&asked.table);
    let allowed = random.pick(&[100, 300, 1_000]);
    let (least, needed, words) = least(&file, asked.bound, allowed);
    let close = [least, least, least + 1, least.saturating_sub(1), asked.bound, asked.bound];
    let mut bound = random.pick(&close).min(LARGEST_BOUND);
    if random.once_in(60) {
        bound = random.pick(&[33, 34, u32::MAX]);
    }
    let budget = random.pick(&[needed, needed, needed.saturating_sub(1), needed + 1, needed / 2]);
    let (work, proof) = (work_room(random), proof_room(Reading::Base, random));
    let answer = answer_room(random, words);
    line(&Search { bound, budget, work, proof, answer, file }, spelling)
}

/// The least bound with a proof, or the highest that was tried; the tries up to it; and the words of its answer.
fn least(file: &[u32], highest: u32, allowed: u32) -> (u32, u32, usize) {
    let mut used = 0;
    for bound in 0..=highest {
        let Outcome { report: Report { status, tries, .. }, answer, .. } = owned::search(file, bound, allowed - used);
        used += tries;
        if status != Status::NoProof {
            return (bound, used, answer.len());
        }
    }
    (highest, used, 0)
}

pub fn borders() -> Vec<String> {
    let file = |text: &str| write(&notation::table(text).expect("a table written here can be read"));
    let found = file("at(e,mat) | at(e,eve)\n? at(e,X)");
    let none = file("p | q\n p | ~ q\n ? r");
    let mut lines = Vec::new();
    for limit in [0, 1, 2, 3, 32, 33, u32::MAX] {
        for budget in [0, 1, 4, 5, 6, 7, 8, u32::MAX] {
            lines.push(line(&Search::ordinary(&found, limit, budget), Spelling::Full));
        }
        lines.push(line(&Search::ordinary(&none, limit, 9), Spelling::Full));
    }
    let search = Search::ordinary(&found, 2, 9);
    for work in [0, 16_383, 16_384, 20_000] {
        lines.push(line(&Search { work, ..search.clone() }, Spelling::Full));
    }
    for proof in [0, 198, 199, 300] {
        lines.push(line(&Search { proof, ..search.clone() }, Spelling::Full));
    }
    for answer in [0, 5, 6, 7] {
        lines.push(line(&Search { answer, ..search.clone() }, Spelling::Full));
    }
    lines.push(line(&Search { work: 0, proof: 0, bound: 33, file: vec![], ..search.clone() }, Spelling::Full));
    lines.push(line(&Search { proof: 0, bound: 33, file: vec![], ..search.clone() }, Spelling::Full));
    lines.push(line(&Search { bound: 33, file: vec![], ..search.clone() }, Spelling::Full));
    lines.push(line(&Search { file: vec![], ..search }, Spelling::Full));
    lines
}
