//! Order 7: listings worked out by hand.

use engine::Status;
use engine::file::write;
use orders::listing::listing;
use orders::tptp::writer::TextWritten;

fn file(text: &str) -> Vec<u32> {
    write(&notation::table(text).unwrap())
}

fn listed(text: &str, steps: &[u32]) -> String {
    let mut buffer = vec![0; 1_000];
    let TextWritten { status, bytes, .. } = listing(&file(text), 9, steps, &mut [0; 16_384], &mut buffer);
    assert_eq!(status, Status::Proved);
    String::from_utf8(buffer[..bytes as usize].to_vec()).unwrap()
}

#[test]
fn case_1_copies_the_question_twice() {
    assert_eq!(
        listed("at(e,mat) | at(e,eve)\n? at(e,X)", &[0x4000_0000, 0x4000_0001]),
        "0 1 cnf(c0,axiom,(p1(f1,f2) | p1(f1,f3))).\n1 2 cnf(c1,negated_conjecture,(~ p1(f1,X0))).\n"
    );
}

#[test]
fn a_clause_often_and_a_clause_not_at_all() {
    assert_eq!(
        listed("q\np\nr\n? p, p, r, p", &[0x4000_0001, 0x4000_0001, 0x4000_0002, 0x4000_0001]),
        "1 3 cnf(c1,axiom,(p2)).\n2 1 cnf(c2,axiom,(p3)).\n\
         3 1 cnf(c3,negated_conjecture,(~ p2 | ~ p2 | ~ p3 | ~ p2)).\n"
    );
}

#[test]
fn refusals_leave_the_buffer() {
    let case_1 = file("at(e,mat) | at(e,eve)\n? at(e,X)");
    let mut work = [7; 16_384];
    let run = |steps: &[u32], bound, work: &mut [u32], room| {
        let mut buffer = vec![7; room];
        let TextWritten { status, place, bytes } = listing(&case_1, bound, steps, work, &mut buffer);
        assert!(bytes > 0 || buffer.iter().all(|&byte| byte == 7));
        (status, place)
    };
    let proof = [0x4000_0000, 0x4000_0001];
    assert_eq!(run(&proof, 2, &mut work[1..], 200), (Status::WorkTooShort, 0));
    assert!(work.iter().all(|&word| word == 7));
    assert_eq!(run(&proof, 33, &mut work, 200), (Status::BoundTooLarge, 0));
    assert!(work.iter().all(|&word| word == 0));
    assert_eq!(run(&proof, 1, &mut work, 200), (Status::StepNotAllowed, 1));
    assert_eq!(run(&proof[..1], 2, &mut work, 200), (Status::LeavesOpen, 1));
    assert_eq!(run(&[0x4000_0000, 1], 2, &mut work, 200), (Status::Clash, 1));
    let needed = "0 1 cnf(c0,axiom,(p1(f1,f2) | p1(f1,f3))).\n1 2 cnf(c1,negated_conjecture,(~ p1(f1,X0))).\n".len();
    assert_eq!(run(&proof, 2, &mut work, needed), (Status::Proved, 0));
    assert_eq!(run(&proof, 2, &mut work, needed - 1), (Status::AnswerTooLong, 0));
}
