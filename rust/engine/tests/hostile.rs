//! Terms that double at every step: word by word, none of these would ever end.

use engine::owned::search;
use engine::{Report, Status};

const AMPLE: u32 = u32::MAX;

fn run(base: &str, asked: &str, bound: u32) -> Report {
    let rules = "e(f(X,X),f(Y,Y)) | ~ e(X,Y)\n same(Z,Z)\n hold(Z,W,f(Z,W))\n hold(Z,W,f(Z,Z))";
    let file = notation::file(&format!("{rules}\n{base}\n? {asked}")).unwrap();
    search(&file, bound, AMPLE).report
}

#[test]
fn comparing() {
    assert_eq!(run("e(X,Y)", "e(P,Q), same(P,Q)", 32).status, Status::AnswerTooLong);
    assert_eq!(run("e(a,a)", "e(P,Q), same(P,Q)", 32).status, Status::AnswerTooLong);
    assert_eq!(run("e(a,b)", "e(P,Q), same(P,Q)", 32).status, Status::NoProof);
}

#[test]
fn looking_for_a_variable() {
    assert_eq!(run("e(X,Y)", "e(P,Q), hold(P,R,R)", 32).status, Status::AnswerTooLong);
}

#[test]
fn meeting_a_variable_again() {
    assert_eq!(run("e(X,X)", "e(P,Q), same(P,f(Q,Q))", 32).status, Status::NoProof);
}

#[test]
fn writing() {
    assert_eq!(run("e(X,Y)", "e(P,Q)", 12).status, Status::Proved);
    assert_eq!(run("e(X,Y)", "e(P,Q)", 32).status, Status::AnswerTooLong);
}
