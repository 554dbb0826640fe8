//! The line protocol, its edges, and the example files.

use calls::{Plain, respond, serve};

const CASE_1: &str = "C0000602 80002001 40000001 40000002 80002001 40000001 40000003 \
                      C0000309 8000A001 40000001 00000000 00000007 00000002 1AE33758 0000000B";

fn result(line: &str) -> String {
    respond(&mut Plain, line.as_bytes()).expect("a result")
}

fn served(input: &str) -> String {
    let mut output = Vec::new();
    serve(&mut Plain, input.as_bytes(), &mut output).unwrap();
    String::from_utf8(output).unwrap()
}

#[test]
fn a_lookup() {
    assert_eq!(result(&format!("lookup 1 / {CASE_1}")), "start 7 length 4 / C0000309 8000A001 40000001 00000000");
    assert_eq!(result(&format!("lookup 2 / {CASE_1}")), "start - length 0 / -");
    assert_eq!(result("lookup 0 / -"), "start - length 0 / -");
}

#[test]
fn a_search() {
    assert_eq!(
        result(&format!("search 2 3 16384 199 6 / {CASE_1}")),
        "status 0 place 0 proof 2 disjuncts 2 answer 6 tries 3 / 40000000 40000001 / \
         80002001 40000001 40000002 80002001 40000001 40000003"
    );
    assert_eq!(
        result(&format!("search 1 9 16384 199 6 / {CASE_1}")),
        "status 10 place 0 proof 0 disjuncts 0 answer 0 tries 4 / - / -"
    );
}

#[test]
fn a_check() {
    assert_eq!(
        result(&format!("check 2 20000 9 / 40000000 40000001 / {CASE_1}")),
        "status 0 place 0 proof 2 disjuncts 2 answer 6 tries 0 / - / \
         80002001 40000001 40000002 80002001 40000001 40000003"
    );
    assert_eq!(
        result(&format!("check 2 16384 9 / - / {CASE_1}")),
        "status 15 place 0 proof 0 disjuncts 0 answer 0 tries 0 / - / -"
    );
}

#[test]
fn education_asks_by_verbs_of_its_own() {
    // The only clause is restricted: there is nothing to enter, and the question has number 0.
    let marked = CASE_1.replace("C0000602", "C0010602").replace("1AE33758", "2763BFA1");
    assert!(result(&format!("search 2 3 16384 199 6 / {marked}")).starts_with("status 0 "));
    assert_eq!(
        result(&format!("edu-search 2 3 16384 199 6 / {marked}")),
        "status 10 place 0 proof 0 disjuncts 0 answer 0 tries 0 / - / -"
    );
    assert_eq!(
        result(&format!("edu-check 2 16384 9 / 40000000 40000001 / {marked}")),
        "status 13 place 0 proof 0 disjuncts 0 answer 0 tries 0 / - / -"
    );
    for verb in ["search 2 3 16384 199 6", "check 2 16384 9 / 40000000 40000001"] {
        assert_eq!(result(&format!("edu-{verb} / {CASE_1}")), result(&format!("{verb} / {CASE_1}")));
    }
}

#[test]
fn rules_read_one_way_have_verbs_of_their_own() {
    let found = "status 0 place 0 proof 3 disjuncts 2 answer 6 tries 4 / 40000000 80000000 00000001 / \
                 80002001 40000001 40000002 80002001 40000001 40000003";
    for desk in ["restart", "restart-edu"] {
        assert_eq!(result(&format!("{desk}-search 2 4 16384 231 6 / {CASE_1}")), found);
        assert!(result(&format!("{desk}-search 2 4 16384 230 6 / {CASE_1}")).starts_with("status 2 "));
        assert!(result(&format!("{desk}-check 2 16384 6 / 40000000 80000000 1 / {CASE_1}")).starts_with("status 0 "));
    }
    assert!(result(&format!("check 2 16384 6 / 40000000 80000000 1 / {CASE_1}")).starts_with("status 12 place 1 "));
}

#[test]
fn words_of_one_to_eight_digits_in_either_case() {
    let short =
        CASE_1.split(' ').map(|word| word.trim_start_matches('0')).map(|word| if word.is_empty() { "0" } else { word });
    let short = short.collect::<Vec<_>>().join(" ").to_lowercase();
    assert_eq!(result(&format!("lookup 0 / {short}")), result(&format!("lookup 0 / {CASE_1}")));
}

#[test]
fn lines_without_a_result() {
    assert_eq!(served("\n# lookup 0 / -\n#\n\nlookup 0 / -"), "start - length 0 / -\n");
    assert_eq!(served("nonsense\n\nlookup 0 / -\n"), "error\nstart - length 0 / -\n");
    assert_eq!(served(""), "");
}

#[test]
fn numbers_by_value() {
    for line in
        ["lookup 4294967295 / -", "lookup 0004294967295 / -", "lookup 00 / -", "search 007 09 016384 0199 08 / -"]
    {
        assert_ne!(result(line), "error", "{line}");
    }
    for line in [
        "lookup 4294967296 / -",
        "lookup 99999999999999999999999 / -",
        "lookup +1 / -",
        "lookup -1 / -",
        "lookup 0x1 / -",
    ] {
        assert_eq!(result(line), "error", "{line}");
    }
}

#[test]
fn lines_that_cannot_be_read() {
    for line in [
        " ",
        "/",
        "lookup",
        "lookup 0",
        "lookup 0 /",
        "lookup 0 / ",
        "lookup 0 / - ",
        "lookup 0 / - -",
        "lookup 0 / 1 -",
        "lookup 0 / - / -",
        "lookup 0  / -",
        "lookup 0 /  -",
        "lookup  0 / -",
        " lookup 0 / -",
        "lookup 0 / -\r",
        "lookup 0 / 1  2",
        "lookup 0 / 123456789",
        "lookup 0 / 000000000",
        "lookup 0 / g",
        "lookup 0 / +1",
        "lookup / -",
        "lookup 0 0 / -",
        "Lookup 0 / -",
        "find 0 / -",
        "search 1 1 16384 199 / -",
        "check 1 16384 8 / -",
    ] {
        assert_eq!(result(line), "error", "{line:?}");
    }
    assert_eq!(respond(&mut Plain, b"lookup 0 / \xFF").as_deref(), Some("error"));
    assert_eq!(respond(&mut Plain, b"lookup 0 / \0").as_deref(), Some("error"));
}

#[test]
fn room() {
    let steps = |count| vec!["1"; count].join(" ");
    for (line, readable) in [
        ("search 1 1 20000 300 20000 / -".to_owned(), true),
        ("search 1 1 20001 300 20000 / -".to_owned(), false),
        ("search 1 1 20000 301 20000 / -".to_owned(), false),
        ("search 1 1 20000 300 20001 / -".to_owned(), false),
        ("check 1 20000 20000 / - / -".to_owned(), true),
        ("check 1 20001 20000 / - / -".to_owned(), false),
        ("check 1 20000 20001 / - / -".to_owned(), false),
        (format!("check 1 16384 8 / {} / -", steps(1_024)), true),
        (format!("check 1 16384 8 / {} / -", steps(1_025)), false),
        (format!("lookup 1 / {}", steps(16_100)), true),
        (format!("lookup 1 / {}", steps(16_101)), false),
    ] {
        assert_eq!(result(&line) != "error", readable, "{}", &line[..line.len().min(40)]);
    }
}

/// The example files with the results beside them; their words are those of the tables beside them.
#[test]
fn examples() {
    for (requests, results, tables) in [
        (include_str!("../../examples/document.txt"), include_str!("../../examples/document.out"), vec![]),
        (
            include_str!("../../examples/prim.txt"),
            include_str!("../../examples/prim.out"),
            vec![include_str!("../../examples/prim.table")],
        ),
        (
            include_str!("../../examples/group2.txt"),
            include_str!("../../examples/group2.out"),
            vec![include_str!("../../examples/group2.table")],
        ),
        (
            include_str!("../../examples/knights.txt"),
            include_str!("../../examples/knights.out"),
            vec![include_str!("../../examples/knights-yes.table"), include_str!("../../examples/knights-no.table")],
        ),
    ] {
        assert_eq!(served(requests), results);
        for table in tables {
            let words = notation::file(table).unwrap().iter().map(|word| format!("{word:08X}")).collect::<Vec<_>>();
            assert!(requests.contains(&words.join(" ")));
        }
    }
}
