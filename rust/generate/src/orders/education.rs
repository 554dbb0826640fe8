//! Order 8: files with restricted clauses before, between and after the others, asked by education; the proofs of both desks offered to
//! it, with numbers among the unrestricted clauses, among all, and past them; restricted questions in every call that reads a file.

use crate::damage::{RESTRICTED, damaged, mend_all};
use crate::lines::{Check, Search, Spelling, lookup};
use crate::random::Random;
use crate::restricted::{check, hiding, search};
use crate::tables::{self, Asked};
use engine::file::write;
use engine::{Desk, Reading, owned};

const ALLOWED: u32 = 300;

pub fn request(random: &mut Random, spelling: Spelling) -> String {
    let Asked { table, bound } = tables::any(random);
    let seen = table.unrestricted();
    let hiding = if random.once_in(2) { hiding(Reading::Base, random, &seen) } else { table };
    let file = write(&hiding);
    let file = if random.once_in(15) { damaged(random, &file) } else { file };
    // Of the other desk too: it sees all, so its budget is what is allowed.
    let desk = if random.once_in(8) { Desk::Collections } else { Desk::Education };
    if random.once_in(2) {
        let search = Search { file, ..search(Reading::Base, random, &seen, bound) };
        return Search { budget: search.budget.min(ALLOWED), ..search }.line_for(desk, spelling);
    }
    let mut check = Check { file, ..check(Reading::Base, random, &seen, bound) };
    if random.once_in(3) {
        check.offered = owned::search(&check.file, bound, ALLOWED).proof;
    }
    check.line_for(desk, spelling)
}

pub fn borders() -> Vec<String> {
    let mut lines = restricted_questions();
    lines.extend(hidden());
    lines.extend(numbers());
    lines
}

/// at(e,mat) or at(e,eve); at(e,mat) once more; ask at(e,X), with marks at these clauses.
fn marked(clauses: &[usize]) -> Vec<u32> {
    let mut table = tables::written("at(e,mat) | at(e,eve)\nat(e,mat)\n? at(e,X)");
    clauses.iter().for_each(|&clause| table.clauses[clause].restricted = true);
    write(&table)
}

const PROOF: [u32; 2] = [0x4000_0000, 0x4000_0002];

/// 21 in every call, after 9 and before everything else.
fn restricted_questions() -> Vec<String> {
    let file = marked(&[2]);
    let question = file[file.len() - 4] as usize;
    let mut positive = file.clone();
    positive[question + 1] ^= 1 << 15;
    mend_all(&mut positive);
    let mut further = marked(&[0]);
    further[0] |= RESTRICTED << 1;
    mend_all(&mut further);
    let mut lines = Vec::new();
    for file in [file, positive, further, marked(&[0, 1, 2]), marked(&[1])] {
        let words = Spelling::Full.words(&file);
        for desk in [Desk::Collections, Desk::Education] {
            for bound in [2, 33] {
                lines.push(Search::ordinary(&file, bound, 9).line_for(desk, Spelling::Full));
                lines.push(Check::ordinary(&file, &PROOF, bound).line_for(desk, Spelling::Full));
            }
            lines.push(Search { proof: 198, ..Search::ordinary(&file, 2, 9) }.line_for(desk, Spelling::Full));
            lines.push(Search { work: 16_383, ..Search::ordinary(&file, 2, 9) }.line_for(desk, Spelling::Full));
            lines.push(Check::ordinary(&file, &[0], 2).line_for(desk, Spelling::Full));
        }
        lines.extend((0..4).map(|number| lookup(&file, number, Spelling::Full)));
        lines.push(format!("smallest 2 99 16384 199 99 / {words}"));
        lines.push(format!("listing 2 16384 999 / {} / {words}", Spelling::Full.words(&PROOF)));
        lines.push(format!("slim 99 9 / {words}"));
        lines.push(format!("slim 0 0 / {words}"));
        lines.push(format!("tptp-out 999 / {words}"));
        lines.push(format!("tptp-out 0 / {words}"));
        lines.push(format!("season 16384 199 99 / - / - / {words}"));
        lines.push(format!("season 16384 199 99 / 1 / - / {words}"));
    }
    lines
}

/// Nothing hidden, each clause hidden, all hidden, by both desks at every budget.
fn hidden() -> Vec<String> {
    let mut lines = Vec::new();
    for clauses in [[].as_slice(), &[0], &[1], &[0, 1]] {
        let file = marked(clauses);
        for budget in 0..7 {
            lines.push(Search::ordinary(&file, 2, budget).line_for(Desk::Education, Spelling::Full));
        }
        lines.push(Search::ordinary(&file, 2, 9).line(Spelling::Full));
    }
    // A file of 512 clauses with one, two and 511 of them restricted, and of a single clause.
    let mut table = tables::written("p(a)\n? p(X)");
    table.clauses.splice(..1, vec![table.clauses[0].clone(); 511]);
    for restricted in [1, 2, 511] {
        table.clauses[..restricted].iter_mut().for_each(|clause| clause.restricted = true);
        lines.push(Search::ordinary(&write(&table), 1, 9).line_for(Desk::Education, Spelling::Short));
        for number in [0, 511 - restricted as u32, 510, 511] {
            let check = Check::ordinary(&write(&table), &[0x4000_0000 | number], 1);
            lines.push(check.line_for(Desk::Education, Spelling::Short));
        }
    }
    let alone = write(&tables::written("? p(X)"));
    lines.push(Search::ordinary(&alone, 1, 9).line_for(Desk::Education, Spelling::Full));
    lines
}

/// Steps that name clauses by their numbers among all and among the unrestricted ones.
fn numbers() -> Vec<String> {
    let mut lines = Vec::new();
    for clauses in [[].as_slice(), &[0], &[1], &[0, 1]] {
        let file = marked(clauses);
        for first in 0..4 {
            for offered in [vec![first], vec![first, first + 1], vec![first, 2], vec![first, 1]] {
                let offered: Vec<u32> = offered.iter().map(|clause| 0x4000_0000 | clause).collect();
                lines.push(Check::ordinary(&file, &offered, 2).line_for(Desk::Education, Spelling::Full));
            }
        }
    }
    lines
}
