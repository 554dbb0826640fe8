//! Order 11, worked out by hand from document 02 and source 000.

use engine::file::{TRAILER, fingerprint, write};
use engine::owned::{Outcome, check_for, search, search_for};
use engine::{Asker, Desk, PROOF_WORDS, RESTART_PROOF_WORDS, Reading, Report, Status, WORK_WORDS};

const AMPLE: u32 = u32::MAX;
const RESTART: u32 = 0x8000_0000;
const CASE_1: &str = "at(e,mat) | at(e,eve)\n? at(e,X)";

fn file(text: &str) -> Vec<u32> {
    write(&notation::table(text).unwrap())
}

fn restart(text: &str, bound: u32) -> Outcome {
    search_for(Reading::Restart, &file(text), bound, AMPLE)
}

fn offered(text: &str, steps: &[u32], bound: u32) -> Report {
    check_for(Reading::Restart, &file(text), steps, bound).report
}

fn desks() -> [Asker; 2] {
    [Desk::Collections, Desk::Education].map(|desk| Asker { desk, reading: Reading::Restart })
}

#[test]
fn case_1_is_found_in_4_tries_and_3_are_not_enough() {
    let found = restart(CASE_1, 2);
    assert_eq!(found.proof, [0x4000_0000, RESTART, 1]);
    let report = Report { proof_words: 3, disjuncts: 2, answer_words: 6, tries: 4, ..Report::of(Status::Proved) };
    assert_eq!(found.report, report);
    assert_eq!(found.answer, search(&file(CASE_1), 2, AMPLE).answer);
    let short = search_for(Reading::Restart, &file(CASE_1), 2, 3).report;
    assert_eq!(short, Report::after(Status::RanOut, 3));
    // A restart counts as an extension. At K = 1 each of the two literals is entered, and its other is not reduced.
    assert_eq!(restart(CASE_1, 1).report, Report::after(Status::NoProof, 4));
    assert_eq!(offered(CASE_1, &found.proof, 2), Report { tries: 0, ..report });
    assert_eq!(offered(CASE_1, &found.proof, 1), Report::at(Status::StepNotAllowed, 1));
}

/// Each restart gives a disjunct, in step order, and equal ones are said once.
#[test]
fn every_restart_gives_a_disjunct() {
    let found = restart("p(a) | p(b) | p(c)\n? p(X)", 3);
    assert_eq!(found.proof, [0x4000_0000, RESTART, 1, RESTART, 1]);
    let atoms = [0x8000_1001, 0x4000_0001, 0x8000_1001, 0x4000_0002, 0x8000_1001, 0x4000_0003];
    assert_eq!((found.report.disjuncts, found.answer.as_slice()), (3, atoms.as_slice()));
    let twice = restart("p(a) | q\np(a) | ~ q\n? p(X)", 3);
    assert_eq!(twice.report.disjuncts, 1);
}

/// The positive leaf is the parent of the new literals, and all older ancestors stay in reach.
#[test]
fn older_ancestors_stay_in_reach() {
    // ~ p; q beside it; restarted: ~ p; ~ t; p, whose ancestors are ~ t, ~ p, q and ~ p.
    let reducing =
        |height| offered("p | q\np | ~ t\nt | p\n? p", &[0x4000_0000, RESTART, 0x4000_0001, 0x4000_0002, height], 4);
    assert_eq!([2, 4].map(|height| reducing(height).status), [Status::Proved; 2]);
    for height in [1, 3, 5] {
        assert_eq!(reducing(height), Report::at(Status::StepNotAllowed, 4));
    }
    // ~ q under the restarted ~ p is reduced by the leaf q that was restarted.
    let report = offered("p | q\np | ~ q\n? p", &[0x4000_0000, RESTART, 0x4000_0001, 2], 3);
    assert_eq!((report.status, report.disjuncts), (Status::Proved, 1));
}

#[test]
fn a_positive_leaf_is_never_extended_and_a_negative_one_never_restarted() {
    assert_eq!(offered(CASE_1, &[RESTART], 9), Report::at(Status::StepNotAllowed, 0));
    assert_eq!(offered(CASE_1, &[0x4000_0000, 0x4000_0001], 9), Report::at(Status::StepNotAllowed, 1));
    assert_eq!(offered(CASE_1, &[0x4000_0000, RESTART, RESTART], 9), Report::at(Status::StepNotAllowed, 2));
    assert_eq!(offered(CASE_1, &[0x4000_0000, RESTART, 1, RESTART], 9), Report::at(Status::StepNotAllowed, 3));
}

#[test]
fn other_words_of_kind_2_are_malformed_and_in_the_base_all_are() {
    for bit in 0..30 {
        let steps = [0x4000_0000, RESTART | 1 << bit];
        assert_eq!(offered(CASE_1, &steps, 9), Report::at(Status::MalformedStep, 1));
    }
    for asker in [Desk::Collections, Desk::Education] {
        let checked = check_for(asker, &file(CASE_1), &[0x4000_0000, RESTART, 1], 9).report;
        assert_eq!(checked, Report::at(Status::MalformedStep, 1));
    }
}

/// Tried after the reductions: with p at hand the leaf ~ p is reduced first.
#[test]
fn reductions_come_before_the_restart() {
    let found = restart("p | ~ q\np | q\n? p", 3);
    // ~ q under ~ p is entered by p or q; its p is reduced by the older ~ p, not restarted.
    assert_eq!((found.proof, found.report.tries), (vec![0x4000_0000, 0x4000_0201, 2], 3));
}

#[test]
fn the_first_clause_without_a_positive_literal_is_22_for_both_desks() {
    for asker in desks() {
        let status = |text: &str| search_for(asker, &file(text), 1, AMPLE).report;
        assert_eq!(status("p(a)\n~ p(b) | ~ q\n~ q\n? p(X)"), Report::at(Status::NoPositiveLiteral, 3));
        assert_eq!(status("~ q\np(a)\n? p(X)"), Report::at(Status::NoPositiveLiteral, 0));
        assert_eq!(status("p(a)\n!~ q\n? p(X)"), Report::at(Status::NoPositiveLiteral, 3), "restricted ones count");
        assert_eq!(status("p(a)\n~ q\n!? p(X)"), Report::of(Status::RestrictedQuestion));
        assert_eq!(status("~ q | p(a)\n? p(X)").status, Status::NoProof);
        assert_eq!(status("? p(X)"), Report::of(Status::NoProof));
        let checked = check_for(asker, &file("~ q\n? p(X)"), &[0], 1).report;
        assert_eq!(checked, Report::at(Status::NoPositiveLiteral, 0));
        assert_eq!(search_for(asker, &file("~ q\n? p(X)"), 33, 0).report, Report::of(Status::BoundTooLarge));
    }
    let mut positive = file("~ q\n? p");
    positive[3] ^= 1 << 15;
    let body = positive.len() - TRAILER;
    positive[body + 2] = fingerprint(&positive[..body]);
    assert_eq!(search_for(Reading::Restart, &positive, 1, 0).report, Report::of(Status::PositiveQuestion));
}

#[test]
fn a_search_wants_231_words_for_its_proof() {
    assert_eq!(RESTART_PROOF_WORDS, 7 + 7 * 32);
    let status = |asker, words: usize| {
        engine::search_for(asker, &file(CASE_1), 2, 9, &mut [0; WORK_WORDS], &mut vec![0; words], &mut [0; 6]).status
    };
    for asker in desks() {
        assert_eq!(status(asker, RESTART_PROOF_WORDS - 1), Status::ProofTooShort);
        assert_eq!(status(asker, RESTART_PROOF_WORDS), Status::Proved);
    }
    assert_eq!(status(Asker::BASE, PROOF_WORDS), Status::Proved);
}

#[test]
fn education_restarts_over_what_it_sees() {
    let text = "!p(c)\np(a) | p(b)\n? p(X)";
    let asker = Asker { desk: Desk::Education, reading: Reading::Restart };
    let found = search_for(asker, &file(text), 2, AMPLE);
    assert_eq!(found.proof, [0x4000_0000, RESTART, 1]);
    assert_eq!(restart(text, 2).proof, [0x4000_0000]);
}

/// Source 000, example 1: P or Q; not P or Q; not Q or P; asking for P and Q.
#[test]
fn source_000_example_1() {
    let text = "p | q\n~ p | q\n~ q | p\n? p, q";
    for reading in [Reading::Base, Reading::Restart] {
        let found = search_for(reading, &file(text), 9, AMPLE);
        assert_eq!((found.report.status, found.report.disjuncts), (Status::Proved, 1));
    }
    assert!(restart(text, 9).proof.contains(&RESTART));
}

/// docs/CATALOGUER.md: one play on an open bill, whatever the time.
#[test]
fn the_base_may_find_a_proof_at_a_smaller_bound() {
    let text = "given(P) | ~ bill(T,P) | ~ on(T)\non(matinee) | on(evening)\nbill(matinee,othello)\nbill(evening,othello)\n\
                ? given(P)";
    let base = |bound| search(&file(text), bound, AMPLE).report;
    assert_eq!((base(4).status, base(5).status, base(5).tries), (Status::NoProof, Status::Proved, 8));
    let (none, found) = (restart(text, 5), restart(text, 6));
    assert_eq!((none.report.status, found.report.status, found.report.tries), (Status::NoProof, Status::Proved, 10));
    assert_eq!(found.answer, search(&file(text), 5, AMPLE).answer);
}

/// docs/CATALOGUER.md: rules that a base search enters by their conditions.
#[test]
fn the_restart_reading_may_need_fewer_tries() {
    let text = "on(matinee) | on(evening)\nlit(T) | ~ on(T)\nheated(T) | ~ lit(T)\nopen(T) | ~ on(T)\nstaffed(T) | ~ open(T)\n? on(T)";
    let tries = [search(&file(text), 4, AMPLE), restart(text, 4)].map(|outcome| outcome.report.tries);
    assert_eq!(tries, [7, 4]);
    let prim = include_str!("../../examples/prim.table");
    let tries = [search(&file(prim), 9, AMPLE), restart(prim, 9)].map(|outcome| outcome.report.tries);
    assert_eq!(tries, [26_680, 7_111]);
}
