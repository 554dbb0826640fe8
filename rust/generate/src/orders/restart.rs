//! Order 11: Horn and other tables read one way, with and without clauses that have no positive literal, by both desks; proofs with restarts
//! where they may be, where they may not, past the bound, and offered to the base; proofs as long as there are.

use crate::damage::{RESTRICTED, damaged, mend_all};
use crate::lines::{Check, Search, Spelling};
use crate::random::Random;
use crate::restricted::{check, hiding, search};
use crate::tables::{self, Asked};
use crate::{answer_room, proofs};
use engine::file::write;
use engine::{Asker, Desk, LARGEST_BOUND, Reading, owned};

const RESTART: u32 = 0x8000_0000;
const EXTENSION: u32 = 0x4000_0000;
const ALLOWED: u32 = 300;
const DESKS: [Desk; 2] = [Desk::Collections, Desk::Education];

pub fn request(random: &mut Random, spelling: Spelling) -> String {
    let family = if random.once_in(6) { tables::any } else { tables::with_conclusions };
    let Asked { table, bound } = family(random);
    let desk = random.pick(&[Desk::Collections, Desk::Collections, Desk::Education]);
    let whole = if random.once_in(3) { hiding(Reading::Restart, random, &table.unrestricted()) } else { table };
    let seen = if desk == Desk::Education { whole.unrestricted() } else { whole.clone() };
    let file = write(&whole);
    let file = if random.once_in(20) { damaged(random, &file) } else { file };
    let reading = if random.once_in(12) { Reading::Base } else { Reading::Restart };
    let asker = Asker { desk, reading };
    if random.once_in(2) {
        let search = Search { file, ..search(Reading::Restart, random, &seen, bound) };
        return Search { budget: search.budget.min(ALLOWED), ..search }.line_for(asker, spelling);
    }
    let mut check = Check { file, ..check(Reading::Restart, random, &seen, bound) };
    match random.below(8) {
        0 => misplace(random, &mut check.offered),
        1 => check.offered = owned::search_for(desk, &check.file, bound, ALLOWED).proof,
        2 => check.offered = proofs::failing_by(Reading::Restart, random, &seen, bound),
        3 => check.bound = copies(&check.offered).saturating_sub(random.below(2) as u32).min(LARGEST_BOUND),
        _ => {}
    }
    let needed = owned::check_for(asker, &check.file, &check.offered, check.bound).answer.len();
    Check { answer: answer_room(random, needed), ..check }.line_for(asker, spelling)
}

/// A restart, or something like one, where no proof had it.
fn misplace(random: &mut Random, proof: &mut Vec<u32>) {
    let word = random.pick(&[RESTART, RESTART, RESTART | 1, RESTART | 1 << 9, RESTART | 1 << 29, RESTART | 1 << 30]);
    let place = random.below(proof.len() + 1);
    if random.once_in(2) && place < proof.len() {
        proof[place] = word;
    } else {
        proof.insert(place, word);
    }
}

/// What a proof needs of the bound.
fn copies(proof: &[u32]) -> u32 {
    proof.iter().filter(|&&step| step >> 30 == 1 || step == RESTART).count() as u32
}

pub fn borders() -> Vec<String> {
    [case_1(), rooms(), refusals(), steps(), longest()].concat()
}

fn file(text: &str) -> Vec<u32> {
    write(&tables::written(text))
}

fn restarting(desk: Desk) -> Asker {
    Asker { desk, reading: Reading::Restart }
}

fn ordinary(file: &[u32], bound: u32, budget: u32) -> Search {
    Search { proof: Reading::Restart.proof_words(), ..Search::ordinary(file, bound, budget) }
}

const CASE_1: &str = "at(e,mat) | at(e,eve)\n? at(e,X)";
const CASE_1_PROOF: [u32; 3] = [EXTENSION, RESTART, 1];

/// At every bound and budget, by both desks; and tables that the two readings treat alike or not.
fn case_1() -> Vec<String> {
    let mut lines = Vec::new();
    for table in [CASE_1, "!r\nat(e,mat) | at(e,eve)\n!at(e,mat)\n? at(e,X)", "p | q\n p | ~ q\n ? p", "? p"] {
        for bound in [0, 1, 2, 3, 32] {
            for budget in [0, 1, 2, 3, 4, 5, 99] {
                for desk in DESKS {
                    lines.push(ordinary(&file(table), bound, budget).line_for(restarting(desk), Spelling::Full));
                }
            }
        }
    }
    lines
}

fn rooms() -> Vec<String> {
    let search = ordinary(&file(CASE_1), 2, 9);
    let proofs = [0, 198, 199, 230, 231, 232, 300].map(|proof| Search { proof, ..search.clone() });
    let works = [0, 16_383, 16_384, 16_385].map(|work| Search { work, ..search.clone() });
    let answers = [0, 5, 6, 7].map(|answer| Search { answer, ..search.clone() });
    let faults = [
        Search { work: 16_383, proof: 230, bound: 33, ..search.clone() },
        Search { proof: 230, bound: 33, ..search.clone() },
        Search { bound: 33, file: vec![], ..search.clone() },
    ];
    let searches = [proofs.as_slice(), &works, &answers, &faults].concat();
    let of = |desk| searches.iter().map(move |search| search.line_for(restarting(desk), Spelling::Full));
    DESKS.into_iter().flat_map(of).collect()
}

/// 22 at the first clause without a positive literal, restricted or not, after 21; the question is none of them.
fn refusals() -> Vec<String> {
    let mut lines = Vec::new();
    for text in [
        "p(a)\n~ p(X) | ~ q\n~ q\n? p(X)",
        "~ p(a)\n? p(X)",
        "p(a)\n!~ p(b)\n? p(X)",
        "!~ p(a)\np(b)\n~ p(c)\n? p(X)",
        "p(a)\n~ p(b) | p(b)\n? p(X)",
        "? p(X)",
    ] {
        let accepted = file(text);
        let question = accepted[accepted.len() - 4] as usize;
        let [mut restricted, mut positive] = [accepted.clone(), accepted.clone()];
        restricted[question] |= RESTRICTED;
        mend_all(&mut restricted);
        positive[question + 1] ^= 1 << 15;
        mend_all(&mut positive);
        for file in [accepted, restricted, positive] {
            for desk in DESKS {
                lines.push(ordinary(&file, 2, 9).line_for(restarting(desk), Spelling::Full));
                lines.push(Check::ordinary(&file, &[0], 2).line_for(restarting(desk), Spelling::Full));
            }
            lines.push(Search::ordinary(&file, 2, 9).line(Spelling::Full));
        }
    }
    lines
}

/// Steps that the leaf's sign does not allow, words that are no steps, and restarts at and past the bound.
fn steps() -> Vec<String> {
    let file = file(CASE_1);
    let offers = [
        CASE_1_PROOF.to_vec(),
        CASE_1_PROOF[..2].to_vec(),
        CASE_1_PROOF[..1].to_vec(),
        [CASE_1_PROOF.as_slice(), &[RESTART]].concat(),
        vec![RESTART],
        vec![EXTENSION, EXTENSION | 1],
        vec![EXTENSION, EXTENSION],
        vec![EXTENSION, RESTART, RESTART],
        vec![EXTENSION, RESTART, 2],
        vec![EXTENSION, RESTART, 3],
        vec![EXTENSION, RESTART, EXTENSION, 1],
        vec![EXTENSION, RESTART, EXTENSION | 1 << 9, 1],
        vec![EXTENSION, RESTART, EXTENSION, RESTART, 1],
        vec![EXTENSION, RESTART, EXTENSION, RESTART, 3],
        vec![EXTENSION, RESTART | 1],
        vec![EXTENSION, RESTART | 1 << 9],
        vec![EXTENSION, RESTART | 1 << 15],
        vec![EXTENSION, RESTART | 1 << 29],
        vec![EXTENSION, 0xC000_0000],
        vec![EXTENSION, 0],
    ];
    let mut lines = Vec::new();
    for offered in offers {
        for bound in [1, 2, 3, 4] {
            lines.push(Check::ordinary(&file, &offered, bound).line_for(Reading::Restart, Spelling::Full));
        }
        lines.push(Check::ordinary(&file, &offered, 4).line(Spelling::Full));
        lines.push(Check::ordinary(&file, &offered, 4).line_for(Desk::Education, Spelling::Full));
        lines.push(Check::ordinary(&file, &offered, 4).line_for(restarting(Desk::Education), Spelling::Full));
    }
    lines
}

/// Seven goals, all q(X). Every leaf of the start has to be extended, so at least seven of the 32 are extensions: 7 + 6 × 7 + 7 × 25 = 224
/// steps are the most that a closed proof has.
fn longest() -> Vec<String> {
    let positive = |names: [u32; 7]| names.map(|name| format!("q(n{name})")).join(" | ");
    let clauses = [[1, 2, 3, 4, 5, 6, 7], [1, 1, 1, 1, 1, 1, 2], [1; 7]].map(positive);
    let table = |clauses: &[String]| file(&format!("{}\n? q(X){}", clauses.join("\n"), ", q(X)".repeat(6)));
    let restarted: Vec<u32> = [RESTART].into_iter().chain([1; 7]).collect();
    let first = [vec![EXTENSION], restarted.repeat(6)].concat();
    let fifth = [vec![EXTENSION | 1], vec![1; 5], restarted].concat();
    let last = [vec![EXTENSION | 2], vec![1; 6]].concat();
    let proof = [first.repeat(4), fifth, last.repeat(2)].concat();
    let all = table(&clauses);
    let offers = [proof.clone(), proof[..223].to_vec(), [proof.as_slice(), &[1]].concat()];
    let mut lines: Vec<String> = offers
        .iter()
        .flat_map(|offered| [32, 31].map(|bound| Check::ordinary(&all, offered, bound)))
        .map(|check| check.line_for(Reading::Restart, Spelling::Full))
        .collect();
    let found = table(&[clauses[0].clone(), clauses[2].clone()]);
    for (bound, budget) in [(31, 1_769), (31, 1_770), (32, 2_000)] {
        lines.push(ordinary(&found, bound, budget).line_for(Reading::Restart, Spelling::Full));
    }
    lines
}
