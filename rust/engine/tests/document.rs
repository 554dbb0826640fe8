//! The questions to try of document 01, and its tables of words, refusals and buffers.

use engine::file::{clause_words, fingerprint, fnv1a, with_trailer, write};
use engine::owned::{Outcome, check, search};
use engine::syntax::{Clause, Literal, Table, Term};
use engine::word::Symbol;
use engine::{Report, Status, lookup};

const AMPLE: u32 = u32::MAX;

const MATINEE_OR_EVENING: [u32; 11] = [
    0xC000_0602,
    0x8000_2001,
    0x4000_0001,
    0x4000_0002,
    0x8000_2001,
    0x4000_0001,
    0x4000_0003,
    0xC000_0309,
    0x8000_A001,
    0x4000_0001,
    0x0000_0000,
];

fn case_1() -> Vec<u32> {
    with_trailer(MATINEE_OR_EVENING.to_vec(), 7, 2)
}

fn file(text: &str) -> Vec<u32> {
    notation::file(text).unwrap()
}

fn found(outcome: &Outcome, proof: &[u32], answer: &[u32], disjuncts: u32, tries: u32) {
    let expected = Report {
        proof_words: proof.len() as u32,
        disjuncts,
        answer_words: answer.len() as u32,
        ..Report::after(Status::Proved, tries)
    };
    assert_eq!(outcome.report, expected);
    assert_eq!(outcome.proof, proof);
    assert_eq!(outcome.answer, answer);
}

fn none(outcome: &Outcome, tries: u32) {
    assert_eq!(outcome.report, Report::after(Status::NoProof, tries));
    assert!(outcome.proof.is_empty() && outcome.answer.is_empty());
}

#[test]
fn the_notation_gives_the_words_of_case_1() {
    assert_eq!(file("at(e,mat) | at(e,eve)\n ? at(e,X)"), case_1());
}

#[test]
fn case_1_matinee_or_evening() {
    let answer = [0x8000_2001, 0x4000_0001, 0x4000_0002, 0x8000_2001, 0x4000_0001, 0x4000_0003];
    found(&search(&case_1(), 2, 3), &[0x4000_0000, 0x4000_0001], &answer, 2, 3);
}

#[test]
fn case_2_one_extension_is_too_few() {
    none(&search(&case_1(), 1, AMPLE), 4);
}

#[test]
fn case_3_nothing_to_try() {
    none(&search(&case_1(), 0, 0), 0);
}

#[test]
fn case_4_ran_out() {
    assert_eq!(search(&case_1(), 2, 2).report, Report::after(Status::RanOut, 2));
}

#[test]
fn case_5_nobody_is_their_own_mother() {
    none(&search(&file("parent(X,mother(X))\n ? parent(Y,Y)"), 1, AMPLE), 1);
}

#[test]
fn case_6_the_time_counts() {
    none(&search(&file("showing(d,h,mat)\n ? showing(d,h,eve)"), 1, AMPLE), 1);
}

#[test]
fn case_7_most_general() {
    let answer = [0x8000_1001, 0x4000_2001, 0x4000_1002, 0x4000_1002, 0, 0x4000_1002, 0];
    found(&search(&file("p(f(X,g(Y)))\n ? p(f(g(Z),Z))"), 1, AMPLE), &[0x4000_0000], &answer, 1, 1);
}

#[test]
fn case_8_clash_behind_a_shared_variable() {
    none(&search(&file("p(f(X,g(X),b))\n ? p(f(a,g(Z),Z))"), 1, AMPLE), 1);
}

#[test]
fn case_9_a_reduction_two_levels_up() {
    let file = file("p | q\n p | ~ q\n ? p");
    found(&search(&file, 2, AMPLE), &[0x4000_0000, 0x4000_0201, 0x0000_0002], &[0x8000_0001], 1, 3);
    none(&search(&file, 1, AMPLE), 2);
}

#[test]
fn case_10_steps_too_many_and_too_few() {
    let longer = check(&case_1(), &[0x4000_0000, 0x4000_0001, 1], 2);
    assert_eq!(longer.report, Report::at(Status::StepNotAllowed, 2));
    let shorter = check(&case_1(), &[0x4000_0000], 2);
    assert_eq!(shorter.report, Report::at(Status::LeavesOpen, 1));
}

#[test]
fn case_11_malformed_and_a_clash() {
    assert_eq!(check(&case_1(), &[0x8000_0000], 2).report, Report::at(Status::MalformedStep, 0));
    let other_time = file("showing(d,h,mat)\n ? showing(d,h,eve)");
    assert_eq!(check(&other_time, &[0x4000_0000], 2).report, Report::at(Status::Clash, 0));
}

#[test]
fn case_12_bound() {
    assert_eq!(search(&case_1(), 32, AMPLE).report.status, Status::Proved);
    assert_eq!(search(&case_1(), 33, AMPLE).report, Report::of(Status::BoundTooLarge));
    assert_eq!(check(&case_1(), &[], 33).report, Report::of(Status::BoundTooLarge));
}

/// A clause p(f(f(…f(a)…))) of the given number of words, 3 to 256.
fn long_fact(words: usize) -> Clause {
    let constant = Term::Application(Symbol { number: 1, arity: 0 }, Vec::new());
    let term = (3..words).fold(constant, |term, _| Term::Application(Symbol { number: 1, arity: 1 }, vec![term]));
    let predicate = Symbol { number: 1, arity: 1 };
    Clause::open(0, vec![Literal { negative: false, predicate, arguments: vec![term] }])
}

fn asking_anything(mut clauses: Vec<Clause>) -> Table {
    let question = notation::table("? p(X)").unwrap();
    clauses.extend(question.clauses);
    Table { clauses }
}

/// A file of 62 × 255 words, then a rest, the question's 3 and the trailer's 4.
fn file_of_words(words: usize) -> Vec<u32> {
    let mut clauses = vec![long_fact(255); 62];
    clauses.push(long_fact(words - 62 * 255 - 7));
    let file = write(&asking_anything(clauses));
    assert_eq!(file.len(), words);
    file
}

#[test]
fn case_12_file_length() {
    let outcome = search(&file_of_words(16_000), 1, AMPLE);
    assert_eq!((outcome.report.status, outcome.answer.len()), (Status::Proved, 254));
    assert_eq!(search(&file_of_words(16_001), 1, AMPLE).report, Report::of(Status::FileLength));
}

#[test]
fn case_12_clauses() {
    let at_most = write(&asking_anything(vec![long_fact(3); 511]));
    assert_eq!(search(&at_most, 1, AMPLE).report.status, Status::Proved);
    assert_eq!(lookup(&at_most, 511).len(), 3);
    let mut too_many = write(&asking_anything(vec![long_fact(3); 512]));
    assert_eq!(search(&too_many, 1, AMPLE).report, Report::of(Status::Trailer));
    let count_at = too_many.len() - 3;
    too_many[count_at] = 512;
    assert_eq!(search(&too_many, 1, AMPLE).report, Report::of(Status::ClauseCount));
}

#[test]
fn case_12_variables() {
    let asked = |number| {
        let mut question = notation::table("? p(X)").unwrap().clauses.remove(0);
        question.variables = 16;
        question.literals[0].arguments = vec![Term::Variable(number)];
        write(&Table { clauses: vec![long_fact(3), question] })
    };
    assert_eq!(search(&asked(15), 1, AMPLE).report.status, Status::Proved);
    assert_eq!(search(&asked(16), 1, AMPLE).report, Report::at(Status::MalformedBody, 5));
}

#[test]
fn case_12_work_buffer() {
    let file = case_1();
    for (length, status) in [(16_383, Status::WorkTooShort), (16_384, Status::Proved), (16_385, Status::Proved)] {
        let mut work = vec![7; length];
        let (mut proof, mut answer) = ([7; 199], [7; 6]);
        let report = engine::search(&file, 2, 3, &mut work, &mut proof, &mut answer);
        assert_eq!(report.status, status);
        let wiped = if status == Status::Proved { 16_384 } else { 0 };
        assert!(work[..wiped].iter().all(|&word| word == 0) && work[wiped..].iter().all(|&word| word == 7));
        assert_eq!(answer == [7; 6], status != Status::Proved);
    }
}

#[test]
fn refusals_come_in_order() {
    let (mut work, mut proof) = (vec![7; 16_384], [7; 198]);
    let report = engine::search(&[], 33, 0, &mut work[..16_383], &mut proof, &mut []);
    assert_eq!(report, Report::of(Status::WorkTooShort));
    assert!(work.iter().all(|&word| word == 7));
    let report = engine::search(&[], 33, 0, &mut work, &mut proof, &mut []);
    assert_eq!(report, Report::of(Status::ProofTooShort));
    assert!(work.iter().all(|&word| word == 0) && proof == [7; 198]);
    let report = engine::search(&[], 33, 0, &mut work, &mut [7; 199], &mut []);
    assert_eq!(report, Report::of(Status::BoundTooLarge));
    let report = engine::search(&[], 32, 0, &mut work, &mut [7; 199], &mut []);
    assert_eq!(report, Report::of(Status::FileLength));
}

#[test]
fn trailer_then_fingerprint() {
    for (place, wrong, status) in [
        (3, 10, Status::Trailer),
        (1, 0, Status::Trailer),
        (1, 513, Status::Trailer),
        (0, 11, Status::Trailer),
        (2, 0, Status::Fingerprint),
        (1, 1, Status::ClauseCount),
        (1, 512, Status::ClauseCount),
        (0, 0, Status::ClauseCount),
    ] {
        let mut file = case_1();
        file[11 + place] = wrong;
        assert_eq!(search(&file, 2, AMPLE).report, Report::of(status), "trailer word {place} is {wrong}");
    }
}

#[test]
fn a_positive_literal_in_the_question() {
    assert_eq!(search(&file("p\n ~ p | q"), 2, AMPLE).report, Report::of(Status::PositiveQuestion));
}

#[test]
fn places_of_malformed_clauses() {
    let whole = MATINEE_OR_EVENING;
    let with = |place: usize, word: u32| {
        let mut body = whole.to_vec();
        body[place] = word;
        body
    };
    for (body, place) in [
        (with(0, 0x8000_0602), 0),                            // not a clause word
        (with(0, 0xC000_0600), 0),                            // no literals
        (with(0, 0xC000_068A), 0),                            // 17 variables
        (with(0, 0xC002_0602), 0),                            // a bit without a name
        (with(0, 0xC000_0002), 0),                            // no words follow
        (with(0, 0xC000_0B02), 0),                            // past the body
        (with(7, 0xC000_0409), 7),                            // past the body
        (with(0, 0xC000_0502), 6),                            // stops short
        (with(0, 0xC000_0702), 7),                            // a word left over
        (with(0, 0xC000_0601), 4),                            // a literal left over
        (with(0, 0xC000_0603), 7),                            // a literal missing
        (with(1, 0x4000_2001), 1),                            // a function for a literal
        (with(1, 0x8000_5001), 1),                            // arity 5
        (with(1, 0x8001_2001), 1),                            // a bit without a name
        (with(2, 0x8000_0001), 2),                            // a literal for a term
        (with(2, 0x4000_8001), 2),                            // a bit without a name
        (with(2, 0x4000_5001), 2),                            // arity 5
        (with(2, 0), 2),                                      // a variable without count
        (with(10, 1), 10),                                    // variable 1 of 1
        (with(10, 0x400), 10),                                // a bit without a name
        (with(10, 0x4000_1001), 11),                          // an argument short at the body's end
        ([whole.as_slice(), &[0]].concat(), 11),              // a third clause that is none
        ([whole.as_slice(), &[0xC000_0101, 0]].concat(), 12), // a third clause without literal
    ] {
        let file = with_trailer(body.clone(), 7, 2);
        assert_eq!(search(&file, 2, AMPLE).report, Report::at(Status::MalformedBody, place), "{body:08X?}");
        assert!(lookup(&file, 0).is_empty());
    }
}

#[test]
fn steps_that_are_not_allowed() {
    let file = case_1();
    for (steps, place) in [
        (vec![0x4000_0002], 0),              // no such clause
        (vec![0x4000_0400], 0),              // no such literal
        (vec![0x4000_0001], 0),              // same sign
        (vec![1], 0),                        // no ancestor
        (vec![0x4000_0000, 2], 1),           // no such ancestor
        (vec![0x4000_0000, 63], 1),          // no such ancestor
        (vec![0x4000_0000, 0x4000_0E01], 1), // literal 7
    ] {
        assert_eq!(check(&file, &steps, 2).report, Report::at(Status::StepNotAllowed, place), "{steps:X?}");
    }
    let over_bound = check(&file, &[0x4000_0000, 0x4000_0001], 1);
    assert_eq!(over_bound.report, Report::at(Status::StepNotAllowed, 1));
    assert_eq!(check(&file, &[0x4000_0000, 1], 2).report, Report::at(Status::Clash, 1));
}

#[test]
fn malformed_steps() {
    for word in [0, 64, 0x80, 0x4000_1000, 0x6000_0000, 0x8000_0001, 0xC000_0000, u32::MAX] {
        assert_eq!(check(&case_1(), &[word], 2).report, Report::at(Status::MalformedStep, 0), "{word:X}");
    }
}

#[test]
fn an_answer_that_just_fits_and_just_does_not() {
    let file = case_1();
    let run = |room: usize| {
        let mut answer = vec![7; room];
        let report = engine::search(&file, 2, AMPLE, &mut [0; 16_384], &mut [0; 199], &mut answer);
        (report, answer)
    };
    assert_eq!(run(5), (Report::after(Status::AnswerTooLong, 3), vec![7; 5]));
    assert_eq!(run(7).1[6], 7);
    assert_eq!(run(6).0.status, Status::Proved);
    let mut answer = [7; 5];
    let report = engine::check(&file, &[0x4000_0000, 0x4000_0001], 2, &mut [0; 16_384], &mut answer);
    assert_eq!((report, answer), (Report::of(Status::AnswerTooLong), [7; 5]));
}

#[test]
fn an_accepted_proof() {
    let outcome = check(&case_1(), &[0x4000_0000, 0x4000_0001], 2);
    let expected = Report { proof_words: 2, disjuncts: 2, answer_words: 6, ..Report::of(Status::Proved) };
    assert_eq!(outcome.report, expected);
}

#[test]
fn looking_up_clauses() {
    let file = case_1();
    assert_eq!(lookup(&file, 0), &file[..7]);
    assert_eq!(lookup(&file, 1), &file[7..11]);
    assert!(lookup(&file, 2).is_empty() && lookup(&file, u32::MAX).is_empty());
    assert!(lookup(&file[1..], 0).is_empty());
}

/// The vectors that the authors of FNV publish.
#[test]
fn published_fingerprints() {
    for (text, expected) in [
        ("", 0x811C_9DC5),
        ("a", 0xE40C_292C),
        ("b", 0xE70C_2DE5),
        ("c", 0xE60C_2C52),
        ("fo", 0x6222_E842),
        ("foo", 0xA9F3_7ED7),
        ("foob", 0x3F5076EF),
        ("fooba", 0x39AA_A18A),
        ("foobar", 0xBF9C_F968),
    ] {
        assert_eq!(fnv1a(text.bytes()), expected, "{text}");
    }
    assert_eq!(fingerprint(&[u32::from_le_bytes(*b"foob")]), 0x3F50_76EF);
}

#[test]
fn a_clause_is_written_as_it_was_read() {
    let read = engine::file::read(&case_1()).unwrap();
    assert_eq!(clause_words(&read.table.clauses[0]), &MATINEE_OR_EVENING[..7]);
    assert_eq!(write(&read.table), case_1());
}
