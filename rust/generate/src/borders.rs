//! Both sides of every border that document 01 names.

use crate::damage::mend_all;
use crate::lines::{Check, Search, Spelling, lookup};
use crate::noise;
use engine::file::{with_trailer, write};
use engine::syntax::{Clause, Literal, Table, Term};
use engine::word::Symbol;

const AMPLE: u32 = u32::MAX;

pub fn all() -> Vec<String> {
    let searches =
        [bounds(), budgets(), buffers(), several_refusals(), trailers(), clauses(), longest_proofs()].concat();
    let lines = searches.iter().map(|search| search.line(Spelling::Full));
    let checks = checks();
    let checks = checks.iter().map(|check| check.line(Spelling::Full));
    lines.chain(checks).chain(lookups()).chain(long_files()).chain(noise::all()).collect()
}

fn file(text: &str) -> Vec<u32> {
    write(&notation::table(text).expect("a table written here can be read"))
}

fn matinee_or_evening() -> Vec<u32> {
    file("at(e,mat) | at(e,eve)\n? at(e,X)")
}

fn bounds() -> Vec<Search> {
    let file = matinee_or_evening();
    [0, 1, 2, 3, 31, 32, 33, 34, AMPLE].map(|bound| Search::ordinary(&file, bound, AMPLE)).to_vec()
}

fn budgets() -> Vec<Search> {
    let found = matinee_or_evening();
    let none = file("p | q\n p | ~ q\n ? p");
    let of = |file: &[u32], bound| [0, 1, 2, 3, 4, 5, AMPLE].map(|budget| Search::ordinary(file, bound, budget));
    [of(&found, 2), of(&found, 1), of(&found, 0), of(&none, 1), of(&none, 2)].concat()
}

fn buffers() -> Vec<Search> {
    let search = Search::ordinary(&matinee_or_evening(), 2, 3);
    let work = [0, 1, 16_383, 16_384, 16_385, 20_000].map(|work| Search { work, ..search.clone() });
    let proof = [0, 198, 199, 200, 300].map(|proof| Search { proof, ..search.clone() });
    let answer = [0, 1, 5, 6, 7, 20_000].map(|answer| Search { answer, ..search.clone() });
    [work.to_vec(), proof.to_vec(), answer.to_vec()].concat()
}

/// Calls with two faults, so that the order of the checks shows.
fn several_refusals() -> Vec<Search> {
    let search = Search::ordinary(&[1; 5], 33, 3);
    vec![
        Search { work: 16_383, proof: 198, ..search.clone() },
        Search { proof: 198, ..search.clone() },
        search.clone(),
        Search { bound: 32, ..search },
    ]
}

fn trailers() -> Vec<Search> {
    let whole = matinee_or_evening();
    let body = whole.len() - 4;
    let mut files: Vec<Vec<u32>> = (0..=7).map(|length| whole[..length].to_vec()).collect();
    for (field, word) in [
        (0, 0),
        (0, 6),
        (0, 10),
        (0, 11),
        (0, AMPLE),
        (1, 0),
        (1, 1),
        (1, 3),
        (1, 512),
        (1, 513),
        (1, AMPLE),
        (2, 0),
        (3, 10),
        (3, 12),
        (3, AMPLE),
    ] {
        let mut file = whole.clone();
        file[body + field] = word;
        files.push(file);
    }
    files.push(with_trailer(vec![0xC000_0101, 0x8000_8001], 0, 1));
    files.push(with_trailer(vec![0xC000_0101, 0x8000_0001], 0, 1));
    files.push(with_trailer(vec![0xC000_0101], 0, 1));
    files.push(with_trailer(vec![0xC000_0101, 0x8000_8001, 0], 0, 1));
    files.iter().map(|file| Search::ordinary(file, 2, 9)).collect()
}

fn clauses() -> Vec<Search> {
    let mut searches = Vec::new();
    for number in [15, 16] {
        searches.push(Search::ordinary(&asking_variable(number, 16), 1, 9));
    }
    searches.push(Search::ordinary(&asking_variable(16, 17), 1, 9));
    for words in [255, 256] {
        searches.push(Search::ordinary(&write(&asking_anything(vec![long_fact(words)])), 1, 9));
    }
    for facts in [511, 512] {
        let table = asking_anything(vec![long_fact(3); facts]);
        let mut file = write(&table);
        searches.push(Search::ordinary(&file, 1, 9));
        let count_at = file.len() - 3;
        file[count_at] = 512;
        searches.push(Search::ordinary(&file, 1, 9));
    }
    searches
}

/// The question p(variable), said to have so many variables.
fn asking_variable(number: u32, count: u32) -> Vec<u32> {
    let mut table = asking_anything(vec![long_fact(3)]);
    table.clauses[1].variables = count;
    table.clauses[1].literals[0].arguments = vec![Term::Variable(number)];
    write(&table)
}

/// A fact p(f(f(…f(a)…))) of the given number of words, 3 to 256.
fn long_fact(words: usize) -> Clause {
    let constant = Term::Application(Symbol { number: 1, arity: 0 }, Vec::new());
    let term = (3..words).fold(constant, |term, _| Term::Application(Symbol { number: 1, arity: 1 }, vec![term]));
    let predicate = Symbol { number: 1, arity: 1 };
    Clause::open(0, vec![Literal { negative: false, predicate, arguments: vec![term] }])
}

fn asking_anything(mut clauses: Vec<Clause>) -> Table {
    let question = notation::table("? p(X)").expect("a table written here can be read");
    clauses.extend(question.clauses);
    Table { clauses }
}

fn file_of_words(words: usize) -> Vec<u32> {
    let mut clauses = vec![long_fact(256); 62];
    clauses.push(long_fact(words - 62 * 256 - 7));
    write(&asking_anything(clauses))
}

fn long_files() -> Vec<String> {
    let mut lines = Vec::new();
    for words in [16_000, 16_001] {
        let file = file_of_words(words);
        lines.push(Search::ordinary(&file, 1, 9).line(Spelling::Short));
        lines.push(Check::ordinary(&file, &[0x4000_003E], 1).line(Spelling::Short));
        lines.push(lookup(&file, 62, Spelling::Short));
    }
    let mut damaged = file_of_words(16_000);
    damaged[15_990] = 0;
    mend_all(&mut damaged);
    lines.push(Search::ordinary(&damaged, 1, 9).line(Spelling::Short));
    lines
}

/// 32 extensions and 167 reductions: every clause has seven literals, and those left open fit their own parent.
fn longest() -> Vec<u32> {
    let repeated = |name: &str, times: usize| vec![name; times].join(" | ");
    let links = (0..25).map(|link| format!("{} | ~ q{}", repeated(&format!("q{link}"), 6), link + 1));
    let last = [repeated("q25", 7), repeated("a", 7), format!("? q0{}", ", a".repeat(6))];
    file(&links.chain(last).collect::<Vec<_>>().join("\n"))
}

/// The proof that the search finds in `longest`.
fn longest_proof() -> Vec<u32> {
    let mut steps = Vec::new();
    for link in 0..25 {
        steps.push(0x4000_0000 | link);
        steps.extend([1; 5]);
    }
    for closing in [25, 26, 26, 26, 26, 26, 26] {
        steps.push(0x4000_0000 | closing);
        steps.extend([1; 6]);
    }
    steps
}

fn longest_proofs() -> Vec<Search> {
    let file = longest();
    let ordinary = [(32, AMPLE), (32, 199), (32, 198), (31, 2_000)];
    ordinary.map(|(bound, budget)| Search::ordinary(&file, bound, budget)).to_vec()
}

fn checks() -> Vec<Check> {
    let file = matinee_or_evening();
    let proof = [0x4000_0000, 0x4000_0001];
    let accepted = Check::ordinary(&file, &proof, 2);
    let mut checks: Vec<Check> = [0, 1, 2, 3, 32, 33, AMPLE].map(|bound| Check { bound, ..accepted.clone() }).to_vec();
    checks.extend([0, 16_383, 16_384, 16_385].map(|work| Check { work, ..accepted.clone() }));
    checks.extend([0, 5, 6, 7].map(|answer| Check { answer, ..accepted.clone() }));
    let offers = [
        vec![],
        vec![0x4000_0000],
        vec![0x4000_0000, 0x4000_0001, 1],
        vec![0x4000_0000, 0x4000_0001, 0],
        vec![0x8000_0000],
        vec![0],
        vec![64],
        vec![63],
        vec![0x4000_01FF],
        vec![0x4000_0E00],
        vec![0x4000_1000],
        vec![0x4000_0000, 1],
        vec![0x4000_0000, 2],
        vec![0x4000_0200, 0x4000_0001],
    ];
    checks.extend(offers.map(|offered| Check { offered, ..accepted.clone() }));
    let (longest, proof) = (longest(), longest_proof());
    checks.push(Check::ordinary(&longest, &proof, 32));
    checks.push(Check::ordinary(&longest, &proof, 31));
    checks.push(Check::ordinary(&longest, &proof[..198], 32));
    checks.push(Check::ordinary(&longest, &[proof, vec![1]].concat(), 32));
    checks
}

fn lookups() -> Vec<String> {
    let file = matinee_or_evening();
    let mut lines: Vec<String> =
        [0, 1, 2, 3, 511, 512, AMPLE].iter().map(|&number| lookup(&file, number, Spelling::Full)).collect();
    let most = write(&asking_anything(vec![long_fact(3); 511]));
    lines.extend([510, 511, 512].iter().map(|&number| lookup(&most, number, Spelling::Short)));
    lines
}
