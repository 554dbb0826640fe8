//! Order 13: reports worked out by hand.

use engine::file::{clause_words, write};
use orders::season::{Asked, Season, season};

const TABLE: &str = "at(e,mat) | at(e,eve)\nat(d,mat)";

struct Run {
    report: Season,
    work: Vec<u32>,
    proof: Vec<u32>,
    answer: Vec<u32>,
}

/// at = 1; e = 1, mat = 2, eve = 3, d = 4.
fn run(questions: &[&str], bounds_and_budgets: &[[u32; 2]], lengths: [usize; 3]) -> Run {
    let mut list = Vec::new();
    let mut entries = Vec::new();
    for (question, asked) in questions.iter().zip(bounds_and_budgets) {
        let table = notation::table(&format!("{TABLE}\n? {question}")).unwrap();
        let words = clause_words(table.question());
        entries.extend([list.len() as u32, words.len() as u32, asked[0], asked[1]]);
        list.extend(words);
    }
    let table = write(&notation::table(&format!("{TABLE}\n? at(X,Y)")).unwrap());
    run_words(&table, &entries, &list, lengths)
}

fn run_words(table: &[u32], entries: &[u32], list: &[u32], lengths: [usize; 3]) -> Run {
    let [mut work, mut proof, mut answer] = lengths.map(|length| vec![7; length]);
    let asked = Asked { table, entries, list };
    let report = season(asked, &mut work, &mut proof, &mut answer, engine::search);
    Run { report, work, proof, answer }
}

const ORDINARY: [usize; 3] = [16_384, 199, 6];

#[test]
fn each_fate_once() {
    let questions = ["at(d,X)", "at(e,X)", "at(e,d)", "at(e,X)", "at(e,X), at(d,Y)", "at(e,X)"];
    let asked = [[2, 99], [2, 99], [2, 99], [2, 2], [4, 99], [33, 99]];
    let Run { report, work, proof, answer } = run(&questions, &asked, ORDINARY);
    let Season { status, place, definite, indefinite, none, ran_out, too_long, refused, .. } = report;
    assert_eq!([status, place, definite, indefinite, none, ran_out, too_long, refused], [0, 0, 1, 1, 1, 1, 1, 1]);
    assert!(work.iter().all(|&word| word == 0));
    // The runs before it wrote their proofs and answers; the longest, of at(e,X), was the last of them.
    assert_eq!(proof[..3], [0x4000_0000, 0x4000_0002, 7]);
    assert_eq!(answer, [0x8000_2001, 0x4000_0001, 0x4000_0002, 0x8000_2001, 0x4000_0001, 0x4000_0003]);
}

#[test]
fn a_shorter_run_over_a_longer_one() {
    // Three tries for at(e,X), as case 1; two clashes and a fit for at(d,X).
    let Run { report, proof, answer, .. } = run(&["at(e,X)", "at(d,X)"], &[[2, 99], [2, 99]], ORDINARY);
    assert_eq!((report.definite, report.indefinite, report.tries), (1, 1, 3 + 3));
    assert_eq!(proof[..3], [0x4000_0001, 0x4000_0002, 7]);
    assert_eq!(answer, [0x8000_2001, 0x4000_0004, 0x4000_0002, 0x8000_2001, 0x4000_0001, 0x4000_0003]);
}

#[test]
fn questions_past_the_list_do_not_stop_the_rest() {
    let table = write(&notation::table(&format!("{TABLE}\n? at(X,Y)")).unwrap());
    let list = clause_words(notation::table(&format!("{TABLE}\n? at(d,X)")).unwrap().question());
    let entries = [[1, 4, 2, 9], [u32::MAX, 5, 2, 9], [4, u32::MAX, 2, 9], [4, 0, 2, 9], [0, 4, 2, 9]].concat();
    let report = run_words(&table, &entries, &list, ORDINARY).report;
    assert_eq!(report, Season { definite: 1, refused: 4, tries: 3, ..Season::default() });
}

#[test]
fn refusals_in_order() {
    let table = write(&notation::table(&format!("{TABLE}\n? at(X,Y)")).unwrap());
    let refused = |status| Season { status, ..Season::default() };
    let left_over = [0; 5];
    let short = run_words(&[], &left_over, &[], [16_383, 0, 0]);
    assert_eq!(short.report, refused(1));
    assert!(short.work.iter().all(|&word| word == 7));
    assert_eq!(run_words(&[], &left_over, &[], [16_384, 198, 0]).report, refused(2));
    assert_eq!(run_words(&[], &left_over, &[], ORDINARY).report, refused(4));
    assert_eq!(run_words(&table, &left_over, &[], ORDINARY).report, refused(23));
    assert_eq!(run_words(&table, &vec![0; 4 * 4_097], &[], ORDINARY).report, refused(23));
    assert_eq!(run_words(&table, &vec![0; 4 * 4_096], &[], ORDINARY).report.refused, 4_096);
    let none = run_words(&table, &[], &[], ORDINARY);
    assert_eq!(none.report, refused(0));
    assert!(none.work.iter().all(|&word| word == 0));
}
