//! The worked examples of sources 000 and 001.

use engine::Status;
use engine::owned::{check, search};
use notation::Sheet;

const AMPLE: u32 = u32::MAX;

struct Example {
    sheet: Sheet,
    file: Vec<u32>,
}

fn example(text: &str) -> Example {
    let sheet = Sheet::read(text).unwrap();
    let file = engine::file::write(&sheet.table);
    Example { sheet, file }
}

impl Example {
    fn none_within(&self, bounds: std::ops::RangeInclusive<u32>) {
        for bound in bounds {
            assert_eq!(search(&self.file, bound, AMPLE).report.status, Status::NoProof, "K = {bound}");
        }
    }

    fn finds(&self, bound: u32, steps: &[u32]) -> Vec<String> {
        let outcome = search(&self.file, bound, AMPLE);
        assert_eq!(outcome.proof, steps);
        self.sheet.disjuncts(&outcome.answer)
    }

    fn accepts(&self, bound: u32, steps: &[u32]) -> Vec<String> {
        let outcome = check(&self.file, steps, bound);
        assert_eq!(outcome.report.status, Status::Proved);
        self.sheet.disjuncts(&outcome.answer)
    }
}

/// An extension with the paper's clause number, from 1, and literal, a to g.
fn enter(clause: u32, literal: char) -> u32 {
    0x4000_0000 | (u32::from(literal) - u32::from('a')) << 9 | (clause - 1)
}

/// Source 001, section 8: the proof as the paper prints it, line by line.
#[test]
fn prim() {
    let prim = example(include_str!("../../examples/prim.table"));
    let proof = [
        enter(4, 'a'),
        enter(6, 'a'),
        enter(5, 'b'),
        3,
        enter(9, 'a'),
        enter(2, 'c'),
        enter(7, 'c'),
        4,
        enter(5, 'b'),
        6,
        enter(3, 'b'),
        5,
        enter(1, 'a'),
    ];
    prim.none_within(0..=8);
    let answer = prim.finds(9, &proof);
    assert_eq!(answer, ["p(a), d(a,a)", "p(f(g(a))), d(f(g(a)),a)"]);
    assert_eq!(prim.accepts(9, &proof), answer);
}

/// Source 001, section 8. Extensions are counted and not subgoals, so the paper's proof needs K = 10.
#[test]
fn group2() {
    let group2 = example(include_str!("../../examples/group2.table"));
    let proof = [3, 5, 4, 3, 5, 6, 2, 5, 1, 2].map(|clause| enter(clause, 'a'));
    group2.none_within(0..=9);
    assert_eq!(group2.finds(10, &proof), ["p(b,a,c)"]);
}

const PROOF_OF_THE_TRIVIAL_ANSWER: [u32; 10] =
    [0x4000_0000, 0x4000_000A, 0x4000_0000, 0x4000_020A, 3, 0x4000_0000, 0x4000_020A, 0x4000_0000, 0x4000_000A, 3];

fn sorted_types(disjuncts: Vec<String>) -> Vec<String> {
    let mut types: Vec<String> = disjuncts
        .iter()
        .map(|disjunct| {
            let (asked, other) = disjunct.split_once(", ").unwrap();
            let kind = |atom: &str, person: &str| {
                let of_person = atom.strip_prefix("true(isa(").and_then(|rest| rest.strip_prefix(person));
                of_person.unwrap().trim_matches([',', ')']).to_owned()
            };
            format!("{}/{}", kind(asked, "asked"), kind(other, "other"))
        })
        .collect();
    types.sort();
    types.dedup();
    types
}

/// Source 000, Fig. 7: the trivial answer is the first in both cases.
#[test]
fn knights_and_knaves() {
    for text in [include_str!("../../examples/knights-yes.table"), include_str!("../../examples/knights-no.table")] {
        let knights = example(text);
        knights.none_within(0..=7);
        let answer = knights.finds(8, &PROOF_OF_THE_TRIVIAL_ANSWER);
        assert_eq!(sorted_types(answer), ["knave/knave", "knave/knight", "knight/knave", "knight/knight"]);
    }
}

/// Source 000, Fig. 7: the indefinite answer, case (a) only.
#[test]
fn three_possibilities_after_yes() {
    let proof = [
        enter(1, 'a'),
        enter(11, 'a'),
        enter(1, 'b'),
        enter(10, 'b'),
        enter(3, 'b'),
        enter(5, 'a'),
        enter(2, 'a'),
        5,
        enter(1, 'a'),
        enter(11, 'b'),
        enter(1, 'a'),
        enter(11, 'a'),
        3,
    ];
    let answer = example(include_str!("../../examples/knights-yes.table")).accepts(11, &proof);
    assert_eq!(sorted_types(answer), ["knave/knave", "knight/knave", "knight/knight"]);
}

/// Source 000, Fig. 7: the definite answer, case (b) only.
#[test]
fn certainty_after_no() {
    let refute_knight = [enter(4, 'c'), enter(5, 'a'), enter(7, 'a'), enter(9, 'a'), 3];
    let proof = [
        [enter(1, 'b')].as_slice(),
        &refute_knight,
        &[enter(8, 'c'), enter(6, 'b'), enter(3, 'b'), enter(5, 'a'), enter(9, 'b'), 3],
        &refute_knight,
    ]
    .concat();
    let answer = example(include_str!("../../examples/knights-no.table")).accepts(14, &proof);
    assert_eq!(sorted_types(answer), ["knave/knight"]);
}
