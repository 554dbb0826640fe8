//! Order 1: permitted texts with every blank and comment in every place, texts damaged by one byte, texts cut, both sides of every limit.

use super::room;
use crate::lines::Spelling;
use crate::random::Random;
use crate::tables;
use engine::syntax::{Clause, Literal, Table, Term};
use orders::tptp::read;

const FILE_ROOM: usize = 16_100;

pub fn line(text: &[u8], file_room: usize) -> String {
    let bytes: String = text.iter().map(|byte| format!("{byte:02X}")).collect();
    format!("tptp-in {file_room} / {}", if bytes.is_empty() { "-" } else { &bytes })
}

pub fn request(random: &mut Random, _: Spelling) -> String {
    let mut text = permitted(random);
    match random.below(10) {
        0..=2 => damage(random, &mut text),
        3 => text.truncate(random.below(text.len() + 1)),
        _ => {}
    }
    let needed = read(&text, &mut [0; FILE_ROOM]).words as usize;
    line(&text, room(random, needed, FILE_ROOM))
}

fn permitted(random: &mut Random) -> Vec<u8> {
    let table = tables::any(random).table;
    let mut formulas: Vec<Vec<String>> = table.clauses.iter().map(|clause| tokens(random, &table, clause)).collect();
    match random.below(12) {
        0 => drop(formulas.pop()),
        1 => formulas.push(formulas[formulas.len() - 1].clone()),
        2 => formulas.clear(),
        3..=6 => random.shuffle(&mut formulas),
        _ => {}
    }
    let gaps = random.pick(&[0, 2, 10, 40]);
    let mut text = Vec::new();
    for token in formulas.iter().flatten() {
        text.extend(gap(random, gaps));
        text.extend(token.bytes());
    }
    text.extend(gap(random, gaps));
    if gaps > 0 && random.once_in(4) {
        text.extend(b"% the last comment may lack its line feed");
    }
    text
}

/// Between two tokens, so often in a hundred.
fn gap(random: &mut Random, often: usize) -> Vec<u8> {
    if random.below(100) >= often {
        return Vec::new();
    }
    let pieces: [&[u8]; 9] =
        [b" ", b"\t", b"\r\n", b"\n", b"  ", b"%\n", b"% cnf(a,axiom,p). ~|\r\n", b"%%\xFF\x00\n", b" \n \r"];
    (0..random.between(1, 3)).flat_map(|_| random.pick(&pieces)).copied().collect()
}

fn tokens(random: &mut Random, table: &Table, clause: &Clause) -> Vec<String> {
    let question = std::ptr::eq(clause, table.question());
    let role = if question { "negated_conjecture" } else { random.pick(&["axiom", "axiom", "hypothesis"]) };
    let name = random.pick(&["a", "cnf", "axiom", "negated_conjecture", "bill_7", "zZ9_"]);
    let mut tokens: Vec<String> = ["cnf", "(", name, ",", role, ","].map(str::to_owned).to_vec();
    let enclosed = random.once_in(2);
    tokens.extend(enclosed.then(|| "(".to_owned()));
    for (place, literal) in clause.literals.iter().enumerate() {
        tokens.extend((place > 0).then(|| "|".to_owned()));
        literal_tokens(literal, &mut tokens);
    }
    tokens.extend(enclosed.then(|| ")".to_owned()));
    tokens.extend([")", "."].map(str::to_owned));
    if question && random.once_in(20) {
        tokens.retain(|token| token != "~");
    }
    tokens
}

fn literal_tokens(literal: &Literal, tokens: &mut Vec<String>) {
    tokens.extend(literal.negative.then(|| "~".to_owned()));
    // One name may stand for a predicate and for a function.
    tokens.push(spelt("n", literal.predicate.number));
    arguments_tokens(&literal.arguments, tokens);
}

fn arguments_tokens(arguments: &[Term], tokens: &mut Vec<String>) {
    for (place, argument) in arguments.iter().enumerate() {
        tokens.push(if place == 0 { "(" } else { "," }.to_owned());
        match argument {
            Term::Variable(number) => tokens.push(spelt("X", *number)),
            Term::Application(symbol, arguments) => {
                tokens.push(spelt("n", symbol.number));
                arguments_tokens(arguments, tokens);
            }
        }
    }
    tokens.extend((!arguments.is_empty()).then(|| ")".to_owned()));
}

/// Names of several shapes, the same for the same number.
fn spelt(first: &str, number: u32) -> String {
    match number % 4 {
        0 => format!("{first}{number}"),
        1 => format!("{first}_{number}"),
        2 => format!("{first}Aa{number}_"),
        _ => format!("{first}{}", "n".repeat(number as usize % 19)),
    }
}

fn damage(random: &mut Random, text: &mut Vec<u8>) {
    let place = random.below(text.len() + 1);
    let byte = random.pick(b" \n%()|~,.aXc_9\x00\xFF-'\"=!");
    if place == text.len() || random.once_in(3) {
        text.insert(place, byte);
    } else if random.once_in(2) {
        text.remove(place);
    } else {
        text[place] = byte;
    }
}

pub fn borders() -> Vec<String> {
    let texts = [small(), limits(), long()].concat();
    let mut lines: Vec<String> = texts.iter().map(|text| line(text.as_bytes(), FILE_ROOM)).collect();
    let fits = "cnf(a,axiom,p).cnf(b,negated_conjecture,~p).";
    lines.extend([0, 7, 8, 9, 16_101].map(|room| line(fits.as_bytes(), room)));
    // Every byte of a text taken away, and every beginning of it.
    let text = b"cnf(a,axiom,(p(X,f(a))|~q)). % c\ncnf(b,negated_conjecture,~p(a,Y)).";
    for place in 0..text.len() {
        lines.push(line(&text[..place], FILE_ROOM));
        lines.push(line(&[&text[..place], &text[place + 1..]].concat(), FILE_ROOM));
        for byte in *b" %()|~,.aX\n" {
            lines.push(line(&[&text[..place], &[byte], &text[place..]].concat(), FILE_ROOM));
        }
    }
    lines.push("tptp-in 16100 / 6".to_owned());
    lines.push("tptp-in 16100 / 6G".to_owned());
    lines
}

fn small() -> Vec<String> {
    [
        "",
        "%",
        "\n",
        "cnff",
        "cnf(a,axiomx",
        "cnf(a,axio,",
        "cnf(a,axiom,p())",
        "cnf(a,axiom,((p)))",
        "cnf(a,axiom,(p)|q)",
        "cnf(a,axiom,~(p))",
        "cnf(a,axiom,~~p)",
        "cnf(A,axiom,p)",
        "cnf(a,axiom,X)",
        "cnf(a,axiom,p(X(a)))",
        "cnf(a,axiom,p(a b))",
        "cnf(a,plain,p).",
        "cnf(a,negated_conjecture,p).",
        "cnf(a,negated_conjecture,p|~q).",
        "cnf(a,negated_conjecture,~p).cnf(a,negated_conjecture,~p).",
        "cnf(a,axiom,p).",
        "cnf(a,axiom,p(b)).cnf(a,negated_conjecture,~p(a,b)).cnf(c,hypothesis,p(a)|b(p)).",
    ]
    .map(str::to_owned)
    .to_vec()
}

/// Each limit of document 01 kept and passed, alone and with a question too many.
fn limits() -> Vec<String> {
    const QUESTION: &str = "cnf(q,negated_conjecture,~p).";
    let list = |name: &str, count: usize| (0..count).map(|n| format!("{name}{n}")).collect::<Vec<_>>().join(",");
    let tower = |height: usize| format!("{}a{}", "f(".repeat(height), ")".repeat(height));
    let named = |count: usize| {
        let clause = |from: usize| {
            let terms: Vec<String> =
                (0..63).map(|at| from + at).filter(|&n| n < count).map(|n| format!("f{n}")).collect();
            let literals: Vec<String> = terms.chunks(4).map(|four| format!("p({})", four.join(","))).collect();
            literals.chunks(7).map(|seven| format!("cnf(a,axiom,{}).", seven.join("|"))).collect::<String>()
        };
        (0..count).step_by(63).map(clause).collect::<String>()
    };
    let mut texts = Vec::new();
    for (kept, passed) in [
        (format!("cnf(a,axiom,p({})).", list("c", 4)), format!("cnf(a,axiom,p({})).", list("c", 5))),
        (format!("cnf(a,axiom,p(f({}))).", list("c", 4)), format!("cnf(a,axiom,p(f({}))).", list("c", 5))),
        (format!("cnf(a,axiom,p{}).", "|p".repeat(6)), format!("cnf(a,axiom,p{}).", "|p".repeat(7))),
        (variables(16), variables(17)),
        (format!("cnf(a,axiom,p({})).", tower(253)), format!("cnf(a,axiom,p({})).", tower(254))),
        ("cnf(a,axiom,p).".repeat(511), "cnf(a,axiom,p).".repeat(512)),
        (named(4_096), named(4_097)),
        (predicates(511 * 7), predicates(511 * 7 + 1)),
        (format!("cnf(a,axiom,p({})).", tower(21_000)), format!("cnf(a,axiom,p({}).", tower(21_000))),
    ] {
        texts.push(format!("{kept}{QUESTION}"));
        texts.push(format!("{passed}{QUESTION}"));
        texts.push(format!("{passed}{QUESTION}{QUESTION}"));
    }
    texts
}

/// So many variables in one clause.
fn variables(count: usize) -> String {
    let names: Vec<String> = (0..count).map(|n| format!("X{n}")).collect();
    let literals: Vec<String> = names.chunks(4).map(|four| format!("p({})", four.join(","))).collect();
    format!("cnf(a,axiom,{}).", literals.join("|"))
}

/// So many predicates beside the question's.
fn predicates(count: usize) -> String {
    let names: Vec<String> = (0..count).map(|n| format!("r{n}")).collect();
    names.chunks(7).map(|seven| format!("cnf(a,axiom,{}).", seven.join("|"))).collect()
}

/// Texts and files at their greatest length.
fn long() -> Vec<String> {
    const QUESTION: &str = "cnf(q,negated_conjecture,~p(a)).";
    let comment = |length: usize| format!("{QUESTION}%{}", "c".repeat(length - QUESTION.len() - 1));
    let wrong = |length: usize| format!("x{}", comment(length - 1));
    let fact = |words: usize| format!("cnf(a,axiom,p({}a{})).", "f(".repeat(words - 3), ")".repeat(words - 3));
    // 62 clauses of 256 words and the question's 3, with one clause that fills the file up.
    let filled = |last: usize| [fact(256).repeat(62), fact(last), QUESTION.to_owned()].concat();
    vec![
        comment(65_536),
        comment(65_537),
        wrong(65_536),
        wrong(65_537),
        "cnf(a,axiom,".repeat(5_461),
        filled(16_000 - 4 - 3 - 62 * 256),
        filled(16_001 - 4 - 3 - 62 * 256),
    ]
}
