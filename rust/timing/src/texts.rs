//! Reading clause text (order 1): the proved call beside the Rust side, on the longest texts of each kind.

use crate::clock;
use std::time::Duration;

const ROUNDS: usize = 20;
const QUESTION: &str = "cnf(q,negated_conjecture,~p(a)).";

pub fn show() {
    println!("Best of {ROUNDS} calls of each side, in milliseconds of processor time.\n");
    println!("| text | bytes | status | proved | Rust | / Rust |");
    println!("|---|---|---|---|---|---|");
    for (name, text) in texts() {
        let (mut proved_file, mut rust_file) = (vec![0; 16_000], vec![0; 16_000]);
        let proved = best(|| hukolearu::read(text.as_bytes(), &mut proved_file).status);
        let rust = best(|| orders::tptp::read(text.as_bytes(), &mut rust_file).status);
        assert!(proved.0 == rust.0 && proved_file == rust_file, "{name}: the sides differ");
        let [one, other] = [proved.1, rust.1].map(|time| time.as_secs_f64() * 1e3);
        println!("| {name} | {} | {} | {one:.2} | {other:.2} | {:.2} |", text.len(), proved.0, one / other);
    }
}

fn best(mut call: impl FnMut() -> u32) -> (u32, Duration) {
    let mut best = Duration::MAX;
    let mut status = 0;
    for _ in 0..ROUNDS {
        let started = clock::processor_time();
        status = call();
        best = best.min(clock::processor_time() - started);
    }
    (status, best)
}

fn texts() -> Vec<(&'static str, String)> {
    let filled = |piece: &str| format!("{}\n{QUESTION}", piece.repeat(65_535 - QUESTION.len()));
    vec![
        ("4,096 different names", names()),
        ("4,095 names, alike in ten bits of their fingerprints", alike_names()),
        ("3,969 names, each stem with 63 others beside it", wide_names()),
        ("few tokens, thousands of times", few_names()),
        ("arguments within arguments", nested()),
        ("one comment", filled("%")),
        ("clauses without end", "cnf(a,axiom,p).".repeat(4_369)),
        ("blanks", filled(" ")),
    ]
}

/// Clauses of seven literals with four constants each, each constant a name of its own as long as there are new ones.
fn names() -> String {
    facts(|number| format!("n{:x}", number % 4_095))
}

/// Names that would stand in one list of a table by fingerprints.
fn alike_names() -> String {
    let fingerprint = |name: &str| name.bytes().fold(0x811C_9DC5_u32, |sum, byte| (sum ^ u32::from(byte)).wrapping_mul(0x0100_0193));
    let alike: Vec<String> = (0..).map(|number: u32| format!("a{number:x}")).filter(|name| fingerprint(name) % 1_024 == 7).take(4_095).collect();
    facts(|number| alike[4_094 - number % 4_095].clone())
}

/// Names of three letters, then the first of them again and again: it is the last in the list of each of its stems.
fn wide_names() -> String {
    let letters: Vec<char> = ('a'..='z').chain('A'..='Z').chain('0'..='9').chain(['_']).collect();
    facts(|number| {
        let name = if number < 63 * 63 { number } else { 0 };
        format!("a{}{}", letters[name / 63], letters[name % 63])
    })
}

fn few_names() -> String {
    facts(|number| format!("n{:x}", number % 20))
}

fn facts(name: impl Fn(usize) -> String) -> String {
    let mut text = String::new();
    for clause in 0.. {
        let literal = |at: usize| {
            let constants: Vec<String> = (0..4).map(|argument| name((clause * 7 + at) * 4 + argument)).collect();
            format!("p({})", constants.join(","))
        };
        let line = format!("cnf(a,axiom,{}).", (0..7).map(literal).collect::<Vec<_>>().join("|"));
        if text.len() + line.len() + QUESTION.len() > 65_536 || (clause + 2) * 36 > 15_990 {
            return text + QUESTION;
        }
        text += &line;
    }
    unreachable!("the text ends when it is full")
}

fn nested() -> String {
    let depth = 21_000;
    format!("cnf(a,axiom,p({}a{})).{QUESTION}", "f(".repeat(depth), ")".repeat(depth))
}
