//! The program's output, to the letter.

fn input(bound: u32, budget: u32, file: &[u32]) -> Vec<u8> {
    [&[bound, budget], file].concat().iter().flat_map(|word| word.to_le_bytes()).collect()
}

fn case_1() -> Vec<u32> {
    notation::file("at(e,mat) | at(e,eve)\n ? at(e,X)").unwrap()
}

#[test]
fn case_1_as_printed() {
    assert_eq!(
        ask::run(&input(2, 3, &case_1())),
        "status 0 place 0 tries 3\n\
         proof 40000000 40000001\n\
         or 80002001 40000001 40000002\n\
         or 80002001 40000001 40000003\n"
    );
}

#[test]
fn a_disjunct_of_two_goals_is_one_line() {
    let file = notation::file("p(a)\n q(b,Y)\n ? p(X), q(X2,Y)").unwrap();
    assert_eq!(
        ask::run(&input(2, 9, &file)),
        "status 0 place 0 tries 2\nproof 40000000 40000001\nor 80001001 40000001 80002002 40000002 00000000\n"
    );
}

#[test]
fn without_an_answer_one_line() {
    assert_eq!(ask::run(&input(1, 9, &case_1())), "status 10 place 0 tries 4\n");
    assert_eq!(ask::run(&input(2, 2, &case_1())), "status 11 place 0 tries 2\n");
    assert_eq!(ask::run(&input(33, 2, &case_1())), "status 3 place 0 tries 0\n");
    let mut malformed = case_1();
    malformed[0] = 0;
    malformed[13] = engine::file::fingerprint(&malformed[..11]);
    assert_eq!(ask::run(&input(2, 3, &malformed)), "status 7 place 0 tries 0\n");
}

#[test]
fn input_of_a_wrong_length() {
    let refused = "status 4 place 0 tries 0\n";
    let whole = input(2, 3, &case_1());
    assert_eq!(ask::run(&[]), refused);
    assert_eq!(ask::run(&whole[..4]), refused);
    assert_eq!(ask::run(&whole[..8]), refused);
    assert_eq!(ask::run(&whole[..whole.len() - 1]), refused);
    assert_eq!(ask::run(&input(33, 3, &[0; 16_001])), refused);
    assert_eq!(ask::run(&input(33, 3, &[0; 16_000])), "status 3 place 0 tries 0\n");
    assert_eq!(ask::run(&input(33, 3, &[])), "status 3 place 0 tries 0\n");
}
