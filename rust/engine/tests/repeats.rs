//! Order 3: disjuncts equal in every word appear once.

use engine::Status;
use engine::owned::{Outcome, check, search};

const ORDER: &str = "p(a)\nr | p(a)\nr | s\n~ s\n? p(X), r";
const PROOF: [u32; 5] = [0x4000_0000, 0x4000_0001, 0x4000_0004, 0x4000_0002, 0x4000_0003];

fn file(text: &str) -> Vec<u32> {
    notation::file(text).unwrap()
}

fn disjuncts(text: &str, outcome: &Outcome) -> Vec<String> {
    let disjuncts = notation::Sheet::read(text).unwrap().disjuncts(&outcome.answer);
    assert_eq!(outcome.report.disjuncts as usize, disjuncts.len());
    disjuncts
}

fn answered(text: &str, bound: u32) -> Vec<String> {
    disjuncts(text, &search(&file(text), bound, u32::MAX))
}

#[test]
fn the_orders_example() {
    let file = file(ORDER);
    let checked = check(&file, &PROOF, 5);
    assert_eq!(disjuncts(ORDER, &checked), ["p(a), r"]);
    let found = search(&file, 5, u32::MAX);
    assert_eq!((&found.proof[..], &found.answer), (&PROOF[..], &checked.answer));
}

#[test]
fn its_answer_fits_where_one_disjunct_does() {
    let file = file(ORDER);
    for (room, status) in [(3, Status::Proved), (2, Status::AnswerTooLong)] {
        let mut answer = vec![7; room];
        let report = engine::check(&file, &PROOF, 5, &mut [0; 16_384], &mut answer);
        assert_eq!(report.status, status);
    }
}

#[test]
fn the_first_place_is_kept() {
    assert_eq!(answered("p(b) | p(a) | p(b) | p(c) | p(a)\n? p(X)", 5), ["p(b)", "p(a)", "p(c)"]);
}

#[test]
fn variables_are_told_apart_by_what_they_are_not_by_name() {
    let checked = |text: &str, steps: &[u32]| disjuncts(text, &check(&file(text), steps, 9));
    let by_question = [0x4000_0000, 0x4000_0001, 0x4000_0001];
    assert_eq!(checked("p(X) | p(Y)\n? p(Z)", &by_question[..2]), ["p(X0)", "p(X1)"]);
    assert_eq!(checked("p(X) | p(X)\n? p(Z)", &by_question[..2]), ["p(X0)"]);
    let turned = "p(f(X,Y)) | p(f(Y,X)) | p(f(X,Y))\n? p(Z)";
    assert_eq!(checked(turned, &by_question), ["p(f(X0,X1))", "p(f(X1,X0))"]);
    let made_equal = "p(X) | p(Y) | ~ same(X,Y)\nsame(Z,Z)\n? p(Z)";
    assert_eq!(checked(made_equal, &[0x4000_0000, 0x4000_0002, 0x4000_0001]), ["p(X0)"]);
}

/// Two disjuncts of doubling terms, equal or unequal in the last place alone: 2^13 words each after 12 steps, 2^29 after 28.
#[test]
fn terms_too_long_to_be_written() {
    let run = |base: &str, doublings: usize| {
        let file = file(&format!("p(P) | p(Q) | ~ d(P,Q)\nd(f(X,X),f(Y,Y)) | ~ d(X,Y)\n{base}\n? p(Z)"));
        let steps = [vec![0x4000_0000, 0x4000_0003], vec![0x4000_0001; doublings], vec![0x4000_0002]].concat();
        check(&file, &steps, 32).report
    };
    for (base, disjuncts) in [("d(a,a)", 1), ("d(a,b)", 2), ("d(X,X)", 1), ("d(X,Y)", 2)] {
        let short = run(base, 12);
        assert_eq!((short.disjuncts, short.answer_words), (disjuncts, disjuncts << 13), "{base}");
        assert_eq!(run(base, 28).status, Status::AnswerTooLong);
    }
}
