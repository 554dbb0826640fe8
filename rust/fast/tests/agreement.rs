//! The measured engine gives the plain engine's result on every request.

use calls::{Plain, respond};
use engine::file::write;
use engine::owned::{self, ANSWER_WORDS};
use engine::{PROOF_WORDS, WORK_WORDS};
use fast::Fast;
use generate::random::Random;
use generate::tables::{Asked, any, facts};

fn agree_on(lines: impl Iterator<Item = String>) {
    for line in lines {
        for line in line.lines() {
            let expected = respond(&mut Plain, line.as_bytes());
            assert_eq!(respond(&mut Fast, line.as_bytes()), expected, "{line}");
        }
    }
}

#[test]
fn on_generated_requests() {
    agree_on(generate::requests(7, 20_000));
}

/// Where tries are counted by the dozen, the border of the budget is where a mistake would show.
#[test]
fn on_budgets_beside_the_tries_needed() {
    let mut random = Random::new(11);
    for _ in 0..2_000 {
        let Asked { table, bound } = random.pick(&[any, facts])(&mut random);
        let file = write(&table);
        let tries = owned::search(&file, bound, 1_000).report.tries;
        let within = random.below(tries as usize + 1) as u32;
        for budget in [tries.saturating_sub(1), tries, tries + 1, within] {
            let expected = owned::search(&file, bound, budget);
            let mut lent = (vec![0; WORK_WORDS], vec![0; PROOF_WORDS], vec![0; ANSWER_WORDS]);
            let report = fast::search(&file, bound, budget, &mut lent.0, &mut lent.1, &mut lent.2);
            assert_eq!(report, expected.report, "{table:?} {bound} {budget}");
            assert_eq!(lent.1[..report.proof_words as usize], expected.proof);
        }
    }
}

#[test]
fn on_the_examples() {
    for requests in [
        include_str!("../../examples/document.txt"),
        include_str!("../../examples/prim.txt"),
        include_str!("../../examples/group2.txt"),
        include_str!("../../examples/knights.txt"),
    ] {
        agree_on(requests.lines().map(str::to_owned));
    }
}
