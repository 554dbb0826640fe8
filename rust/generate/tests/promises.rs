//! What the request promises of any two calls, on generated tables.

use engine::file::write;
use engine::owned::{check, check_for, search, search_for};
use engine::syntax::{Clause, Table};
use engine::{Asker, Desk, LARGEST_BOUND, Reading, Status};
use generate::proofs::{wandering, wandering_by};
use generate::random::Random;
use generate::restricted::hiding;
use generate::tables::{Asked, any, conclude, small, with_conclusions};

const ALLOWED: u32 = 2_000;

fn questions(seed: u64, count: usize) -> impl Iterator<Item = (Random, Asked)> {
    let mut random = Random::new(seed);
    std::iter::repeat_with(move || {
        let own = Random::new(random.number());
        (own, if random.once_in(2) { any(&mut random) } else { small(&mut random) })
    })
    .take(count)
}

/// Tables that the restart reading takes, to be read either way.
fn read_either_way(seed: u64, count: usize) -> impl Iterator<Item = (Random, Reading, Asked)> {
    let mut random = Random::new(seed);
    std::iter::repeat_with(move || {
        let own = Random::new(random.number());
        (own, random.pick(&[Reading::Base, Reading::Restart, Reading::Restart]), with_conclusions(&mut random))
    })
    .take(count)
}

#[test]
fn either_reading_accepts_what_it_finds_and_finds_what_can_be_made() {
    let (mut restarts, mut nones) = (0, 0);
    for (mut random, reading, Asked { table, bound }) in read_either_way(9, 3_000) {
        let file = write(&table);
        let found = search_for(reading, &file, bound, ALLOWED);
        match found.report.status {
            Status::Proved => {
                let accepted = check_for(reading, &file, &found.proof, bound);
                assert_eq!((accepted.report.status, &accepted.answer), (Status::Proved, &found.answer));
                assert_eq!(accepted.report.disjuncts, found.report.disjuncts);
                let tries = found.report.tries;
                assert_eq!(search_for(reading, &file, bound, tries), found);
                assert_eq!(search_for(reading, &file, bound, tries - 1).report.status, Status::RanOut);
                restarts += usize::from(found.proof.contains(&0x8000_0000));
            }
            Status::NoProof => {
                nones += 1;
                for _ in 0..5 {
                    let offered = wandering_by(reading, &mut random, &table, bound);
                    assert_eq!(check_for(reading, &file, &offered, bound).report.status, Status::LeavesOpen);
                }
            }
            status => assert!(matches!(status, Status::RanOut | Status::AnswerTooLong)),
        }
    }
    assert!(restarts > 100 && nones > 300, "{restarts} {nones}");
}

/// More clauses, a higher bound and another order take nothing back.
#[test]
fn either_reading_takes_nothing_back() {
    for (mut random, reading, Asked { table, bound }) in read_either_way(10, 2_000) {
        let found = search_for(reading, &write(&table), bound, ALLOWED);
        if found.report.status != Status::Proved || table.clauses.len() > 400 {
            continue;
        }
        let (mut grown, numbers) = with_more_clauses(&mut random, &table);
        let question = grown.question_number();
        grown.clauses[..question].iter_mut().for_each(|clause| conclude(&mut random, clause));
        let file = write(&grown);
        for bound in [bound, (bound + 1).min(LARGEST_BOUND)] {
            assert_ne!(search_for(reading, &file, bound, ALLOWED).report.status, Status::NoProof);
        }
        let moved: Vec<u32> = found.proof.iter().map(|&step| moved(step, &numbers)).collect();
        assert_eq!(check_for(reading, &file, &moved, bound).answer, found.answer);
        let reordered = write(&generate::pairs::reordered(&mut random, &table));
        assert_ne!(search_for(reading, &reordered, bound, ALLOWED).report.status, Status::NoProof);
    }
}

/// The least bounds with a proof are mostly the same, whichever is smaller where they are not.
#[test]
fn the_readings_mostly_need_the_same_bound() {
    let (mut same, mut different) = (0, 0);
    for (_, _, Asked { table, .. }) in read_either_way(12, 1_000) {
        let file = write(&table);
        let least = |reading| {
            let statuses = (0..6).map(|bound| search_for(reading, &file, bound, ALLOWED).report.status);
            statuses.take_while(|&status| status != Status::RanOut).position(|status| status == Status::Proved)
        };
        match [Reading::Base, Reading::Restart].map(least) {
            [Some(base), Some(restart)] if base == restart => same += 1,
            [Some(_), Some(_)] => different += 1,
            _ => {}
        }
    }
    assert!(same > 300 && different * 100 < same, "{same} {different}");
}

/// Where no clause has two positive literals, no leaf is positive: the readings are one.
#[test]
fn horn_tables_are_read_alike() {
    let mut alike = 0;
    for (_, _, Asked { table, bound }) in read_either_way(11, 4_000) {
        let positive = |clause: &Clause| clause.literals.iter().filter(|literal| !literal.negative).count();
        if table.clauses.iter().all(|clause| positive(clause) < 2) {
            let file = write(&table);
            assert_eq!(search_for(Reading::Restart, &file, bound, ALLOWED), search(&file, bound, ALLOWED));
            alike += 1;
        }
    }
    assert!(alike > 500, "{alike}");
}

#[test]
fn a_found_proof_is_accepted_with_its_answer() {
    for (_, Asked { table, bound }) in questions(1, 2_000) {
        let file = write(&table);
        let found = search(&file, bound, ALLOWED);
        if found.report.status == Status::Proved {
            let accepted = check(&file, &found.proof, bound);
            assert_eq!(accepted.answer, found.answer);
            assert_eq!(accepted.report.disjuncts, found.report.disjuncts);
        }
    }
}

#[test]
fn ran_out_exactly_below_the_tries_needed() {
    for (_, Asked { table, bound }) in questions(2, 2_000) {
        let file = write(&table);
        let outcome = search(&file, bound, ALLOWED);
        if outcome.report.status == Status::RanOut {
            continue;
        }
        let tries = outcome.report.tries;
        assert_eq!(search(&file, bound, tries), outcome);
        assert_eq!(search(&file, bound, u32::MAX), outcome);
        if tries > 0 {
            let short = search(&file, bound, tries - 1).report;
            assert_eq!((short.status, short.tries), (Status::RanOut, tries - 1));
        }
    }
}

#[test]
fn none_means_that_no_proof_can_be_made() {
    let mut nones = 0;
    for (mut random, Asked { table, bound }) in questions(3, 2_000) {
        let file = write(&table);
        if search(&file, bound, ALLOWED).report.status != Status::NoProof {
            continue;
        }
        nones += 1;
        for _ in 0..10 {
            let offered = wandering(&mut random, &table, bound);
            assert_eq!(check(&file, &offered, bound).report.status, Status::LeavesOpen);
        }
    }
    assert!(nones > 300);
}

#[test]
fn a_higher_bound_takes_nothing_back() {
    for (_, Asked { table, bound }) in questions(4, 2_000) {
        let file = write(&table);
        if search(&file, bound, ALLOWED).report.status == Status::Proved {
            for higher in [bound + 1, LARGEST_BOUND] {
                let again = search(&file, higher.min(LARGEST_BOUND), ALLOWED).report.status;
                assert_ne!(again, Status::NoProof);
            }
        }
    }
}

#[test]
fn more_clauses_take_nothing_back() {
    for (mut random, Asked { table, bound }) in questions(5, 2_000) {
        let found = search(&write(&table), bound, ALLOWED);
        if found.report.status != Status::Proved || table.clauses.len() > 400 {
            continue;
        }
        let (grown, numbers) = with_more_clauses(&mut random, &table);
        let file = write(&grown);
        assert_ne!(search(&file, bound, ALLOWED).report.status, Status::NoProof);
        let moved: Vec<u32> = found.proof.iter().map(|&step| moved(step, &numbers)).collect();
        assert_eq!(check(&file, &moved, bound).answer, found.answer);
    }
}

/// The table with clauses of another put in before the question, and the new number of each old clause.
fn with_more_clauses(random: &mut Random, table: &Table) -> (Table, Vec<u32>) {
    let mut clauses: Vec<_> =
        table.clauses.iter().cloned().enumerate().map(|(number, clause)| (Some(number), clause)).collect();
    let mut others = small(random).table.clauses;
    others.pop();
    for other in others {
        clauses.insert(random.below(clauses.len()), (None, other));
    }
    let mut numbers = vec![0; table.clauses.len()];
    for (new, (old, _)) in clauses.iter().enumerate() {
        if let Some(old) = old {
            numbers[*old] = new as u32;
        }
    }
    (Table { clauses: clauses.into_iter().map(|(_, clause)| clause).collect() }, numbers)
}

fn moved(step: u32, numbers: &[u32]) -> u32 {
    if step >> 30 == 1 { step & !511 | numbers[(step & 511) as usize] } else { step }
}

#[test]
fn education_learns_nothing_from_restricted_clauses() {
    for (mut random, reading, Asked { table, bound }) in read_either_way(6, 2_000) {
        let seen = table.unrestricted();
        let mut hide = || write(&hiding(reading, &mut random, &seen));
        let (one, other) = (hide(), hide());
        let budget = random.below(ALLOWED as usize) as u32;
        let education = Asker { desk: Desk::Education, reading };
        let found = search_for(education, &one, bound, budget);
        assert_eq!(found, search_for(education, &other, bound, budget));
        // It is as if the restricted clauses were not there, for both desks.
        assert_eq!(found, search_for(reading, &write(&seen), bound, budget));
        let offered = wandering_by(reading, &mut random, &seen, bound);
        let checked = check_for(education, &one, &offered, bound);
        assert_eq!(checked, check_for(education, &other, &offered, bound));
        assert_eq!(checked, check_for(reading, &write(&seen), &offered, bound));
    }
}

#[test]
fn with_its_numbers_moved_back_an_education_proof_is_accepted_by_collections() {
    let mut moved_back = 0;
    for (mut random, Asked { table, bound }) in questions(7, 2_000) {
        let whole = hiding(Reading::Base, &mut random, &table.unrestricted());
        let found = search_for(Desk::Education, &write(&whole), bound, ALLOWED);
        if found.report.status != Status::Proved {
            continue;
        }
        let all = (0..).zip(&whole.clauses);
        let numbers: Vec<u32> = all.filter(|(_, clause)| !clause.restricted).map(|(number, _)| number).collect();
        let back: Vec<u32> = found.proof.iter().map(|&step| moved(step, &numbers)).collect();
        let accepted = check(&write(&whole), &back, bound);
        assert_eq!((accepted.report.status, accepted.answer), (Status::Proved, found.answer));
        moved_back += usize::from(back != found.proof);
    }
    assert!(moved_back > 200);
}

#[test]
fn the_pairs_of_files_differ_and_are_accepted() {
    let lines: Vec<String> = generate::restricted::pairs(8, 500).collect();
    let pairs: Vec<&[String]> = lines.chunks(2).collect();
    let differing = pairs.iter().filter(|pair| pair[0] != pair[1]).count();
    assert!(differing > 300, "{differing}");
    for line in &lines {
        let result = calls::respond(&mut calls::Plain, line.as_bytes()).expect("a result");
        let status: u32 = result.split(' ').nth(1).and_then(|word| word.parse().ok()).expect("an outcome");
        assert!(!(4..=9).contains(&status) && ![21, 22].contains(&status), "{result}");
    }
}

#[test]
fn the_same_seed_gives_the_same_requests() {
    // More than the borders, which are the same for every seed.
    let lines = |seed| generate::requests(seed, 3_000).collect::<Vec<_>>();
    assert!(lines(1) == lines(1));
    assert!(lines(1) != lines(2));
}
