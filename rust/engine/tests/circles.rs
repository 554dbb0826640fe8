//! Order 5: the reason that the first pair that cannot be made equal gives, worked out by hand.

use engine::Report;
use engine::Status::{self, Circle, Clash, Proved};
use engine::owned::check;

fn judged(table: &str, steps: &[u32]) -> Report {
    check(&notation::file(table).unwrap(), steps, 9).report
}

/// One step compares the two terms, which share their variables.
fn compared(left: &str, right: &str) -> Status {
    judged(&format!("same(Z,Z)\n? same({left},{right})"), &[0x4000_0000]).status
}

#[test]
fn the_documents_cases() {
    assert_eq!(judged("parent(X,mother(X))\n? parent(Y,Y)", &[0x4000_0000]), Report::at(Circle, 0));
    assert_eq!(judged("p(f(X,g(X),b))\n? p(f(a,g(Z),Z))", &[0x4000_0000]), Report::at(Clash, 0));
    assert_eq!(judged("showing(d,h,mat)\n? showing(d,h,eve)", &[0x4000_0000]), Report::at(Clash, 0));
}

#[test]
fn the_first_pair_counts_whichever_side_it_stands_on() {
    for (left, right, status) in [
        ("X", "X", Proved),
        ("X", "f(X)", Circle),
        ("f(X)", "f(f(X))", Circle),
        ("f(X,a)", "f(g(X),b)", Circle),
        ("f(a,X)", "f(b,g(X))", Clash),
        ("f(X,g(X))", "f(g(Y),g(a))", Clash),
        ("f(g(X,X),a)", "f(g(Y,h(Y)),b)", Circle),
        ("f(X,Y,g(X,a))", "f(Y,X,g(Y,b))", Clash),
        ("g(X)", "g(X,X)", Clash),
    ] {
        assert_eq!(compared(left, right), status, "{left} {right}");
        assert_eq!(compared(right, left), status, "{right} {left}");
    }
}

#[test]
fn through_bindings_of_the_same_comparison() {
    for (left, right, status) in [
        ("f(X,Y)", "f(g(Y),g(X))", Circle),
        ("f(X,Y,X)", "f(Y,g(X),a)", Circle),
        ("f(X,Y,Z,X)", "f(g(Y),g(Z),g(X),a)", Circle),
        ("f(X,X)", "f(g(Y),g(g(X)))", Circle),
        ("f(X,f(Y,Z))", "f(f(Y,Z),X)", Proved),
        ("f(X,f(Y,X))", "f(f(Y,Z),Z)", Circle),
        ("f(X,f(a,X))", "f(f(b,Z),Z)", Circle),
        ("f(X,f(a,X))", "f(f(b,Z),f(Z,Z))", Clash),
    ] {
        assert_eq!(compared(left, right), status, "{left} {right}");
        assert_eq!(compared(right, left), status, "{right} {left}");
    }
}

#[test]
fn against_an_ancestor_and_after_other_steps() {
    let swallowed = "p(X,f(X)) | ~ q(X)\nq(Y) | ~ r(Y)\nr(Z) | p(Z,Z)\n? p(A,B)";
    assert_eq!(judged(swallowed, &[0x4000_0000, 0x4000_0001, 0x4000_0002, 3]), Report::at(Circle, 3));
    let clash = "p(a,b) | ~ q(X)\nq(Y) | ~ r(Y)\nr(Z) | p(Z,Z)\n? p(A,B)";
    assert_eq!(judged(clash, &[0x4000_0000, 0x4000_0001, 0x4000_0002, 3]), Report::at(Clash, 3));
}
