//! Order 8, worked out by hand from document 02.

use engine::file::{TRAILER, fingerprint, write};
use engine::owned::{Outcome, check, check_for, search, search_for};
use engine::{Desk, Report, Status};

const AMPLE: u32 = u32::MAX;

fn file(text: &str) -> Vec<u32> {
    write(&notation::table(text).unwrap())
}

/// Makes the fingerprint fit again.
fn mend(file: &mut [u32]) {
    let body = file.len() - TRAILER;
    file[body + 2] = fingerprint(&file[..body]);
}

fn education(text: &str, bound: u32) -> Outcome {
    search_for(Desk::Education, &file(text), bound, AMPLE)
}

#[test]
fn the_mark_is_bit_16_of_the_clause_word() {
    let (open, marked) = (file("p(a)\n? p(X)"), file("!p(a)\n? p(X)"));
    assert_eq!((open[0], marked[0]), (0xC000_0201, 0xC001_0201));
    assert_eq!(open[1..6], marked[1..6]);
    assert_ne!(open[8], marked[8], "the fingerprint is over the words with their marks");
    for bit in 17..30 {
        let mut file = open.clone();
        file[0] |= 1 << bit;
        mend(&mut file);
        assert_eq!(search(&file, 1, AMPLE).report, Report::at(Status::MalformedBody, 0));
    }
}

#[test]
fn education_passes_over_restricted_clauses() {
    let text = "!p(a)\np(b)\n? p(X)";
    assert_eq!(search(&file(text), 1, AMPLE).answer, [0x8000_1001, 0x4000_0001]);
    assert_eq!(education(text, 1).answer, [0x8000_1001, 0x4000_0002]);
    assert_eq!(education("!p(a)\n!p(b)\n? p(X)", 1).report, Report::of(Status::NoProof));
}

#[test]
fn the_others_are_numbered_from_0_the_question_last() {
    let text = "!r\nat(e,mat) | at(e,eve)\n!r\n? at(e,X)";
    let found = education(text, 2);
    assert_eq!(found.proof, [0x4000_0000, 0x4000_0001]);
    assert_eq!(search(&file(text), 2, AMPLE).proof, [0x4000_0001, 0x4000_0003]);
    let offered = |steps: &[u32]| check_for(Desk::Education, &file(text), steps, 2).report;
    assert_eq!(offered(&found.proof), Report { tries: 0, ..found.report });
    // Nothing has a number past the question's.
    assert_eq!(offered(&[0x4000_0002]), Report::at(Status::StepNotAllowed, 0));
    assert_eq!(offered(&[0x4000_0000, 0x4000_0003]), Report::at(Status::StepNotAllowed, 1));
}

#[test]
fn with_its_numbers_moved_back_the_proof_is_collections() {
    let text = "!p(c) | ~ q(c)\np(X) | ~ q(X)\n!q(b)\nq(a)\n? p(X)";
    let found = education(text, 2);
    assert_eq!(found.proof, [0x4000_0000, 0x4000_0001]);
    let accepted = check(&file(text), &[0x4000_0001, 0x4000_0003], 2);
    assert_eq!((accepted.report.status, accepted.answer), (Status::Proved, found.answer));
}

#[test]
fn a_restricted_question_is_21_after_9_for_both_desks() {
    let restricted = file("p(a)\n!? p(X)");
    let mut positive = restricted.clone();
    positive[4] ^= 1 << 15;
    mend(&mut positive);
    for desk in [Desk::Collections, Desk::Education] {
        let status = |file: &[u32], bound| search_for(desk, file, bound, AMPLE).report;
        assert_eq!(status(&restricted, 1), Report::of(Status::RestrictedQuestion));
        assert_eq!(status(&restricted, 33), Report::of(Status::BoundTooLarge));
        assert_eq!(status(&positive, 1), Report::of(Status::PositiveQuestion));
        // Before any step is looked at.
        let checked = check_for(desk, &restricted, &[0], 1).report;
        assert_eq!(checked, Report::of(Status::RestrictedQuestion));
    }
    assert!((0..3).all(|number| engine::lookup(&restricted, number).is_empty()));
    assert_eq!(engine::lookup(&file("!p(a)\n? p(X)"), 0), [0xC001_0201, 0x8000_1001, 0x4000_0001]);
}

/// The whole file is judged for education too: a malformed restricted clause is told, at its place in the file.
#[test]
fn statuses_4_to_9_depend_on_the_whole_file() {
    let mut file = file("!p(a)\np(b)\n? p(X)");
    file[2] = 0;
    mend(&mut file);
    assert_eq!(search_for(Desk::Education, &file, 1, AMPLE).report, Report::at(Status::MalformedBody, 2));
}
