//! Order 13: questions of every fate to one table, entries past the list or that would wrap, empty questions, two clauses for one,
//! positive and restricted ones, bounds over 32, budgets of 0 and beside what is needed, files that get too long, 0, 4,096 and 4,097
//! entries, words left over.

use crate::damage::{RESTRICTED, damaged, mend_all};
use crate::lines::Spelling;
use crate::random::Random;
use crate::tables::{self, Asked};
use crate::{answer_room, proof_room, work_room};
use engine::file::{clause_words, write};
use engine::owned;
use engine::syntax::{Clause, Table};
use engine::{LARGEST_BOUND, Reading};

const ALLOWED: u32 = 300;

struct Season {
    work: usize,
    proof: usize,
    answer: usize,
    entries: Vec<u32>,
    list: Vec<u32>,
    table: Vec<u32>,
}

impl Season {
    fn ordinary(table: &[u32], list: &[u32], entries: &[u32]) -> Season {
        let (entries, list, table) = (entries.to_vec(), list.to_vec(), table.to_vec());
        Season { work: 16_384, proof: 199, answer: 4_096, entries, list, table }
    }

    fn line(&self, spelling: Spelling) -> String {
        let Season { work, proof, answer, entries, list, table } = self;
        let [entries, list, table] = [entries, list, table].map(|words| spelling.words(words));
        format!("season {work} {proof} {answer} / {entries} / {list} / {table}")
    }
}

pub fn request(random: &mut Random, spelling: Spelling) -> String {
    let Asked { table, bound } = random.pick(&[tables::any, tables::alternatives])(random);
    let mut list = junk(random);
    let mut entries = Vec::new();
    let mut longest = 0;
    for _ in 0..random.pick(&[0, 1, 2, 3, 5, 8, 12]) {
        let words = question(random, &table);
        let place = list.len() as u32;
        let (budget, needed) = budget(random, &table, &words, bound);
        longest = longest.max(needed);
        entries.extend(entry(random, [place, words.len() as u32, bound, budget]));
        list.extend(words);
        list.extend(junk(random));
    }
    if random.once_in(3) && entries.len() > 4 {
        entries.extend_from_within(..4);
    }
    if random.once_in(20) {
        entries.truncate(random.below(entries.len() + 1));
    }
    let mut file = write(&table);
    if random.once_in(20) {
        file = damaged(random, &file);
    }
    list.truncate(16_100);
    let (work, proof, answer) = (work_room(random), proof_room(Reading::Base, random), answer_room(random, longest));
    Season { work, proof, answer, entries, list, table: file }.line(spelling)
}

/// Words between the questions that no entry points to.
fn junk(random: &mut Random) -> Vec<u32> {
    (0..random.pick(&[0, 0, 0, 1, 3])).map(|_| random.word()).collect()
}

/// The table's own question, part of it, another table's, or something that is no question.
fn question(random: &mut Random, table: &Table) -> Vec<u32> {
    let mut own = table.question().clone();
    random.shuffle(&mut own.literals);
    own.literals.truncate(random.between(1, own.literals.len()));
    let mut words = clause_words(&own);
    match random.below(16) {
        0 => return Vec::new(),
        1 => return clause_words(&table.clauses[random.below(table.clauses.len())]),
        2 => words.extend_from_within(..),
        3 => words[0] |= RESTRICTED,
        4 => words[random.pick(&[0, 1])] ^= 1 << random.below(32),
        5 => drop(words.pop()),
        6 | 7 => return clause_words(tables::any(random).table.question()),
        8 | 9 => return clause_words(&denied(random, table)),
        _ => {}
    }
    words
}

/// A question made of the positive literals of a clause.
fn denied(random: &mut Random, table: &Table) -> Clause {
    let mut clause = table.clauses[random.below(table.clauses.len())].clone();
    clause.literals.iter_mut().for_each(|literal| literal.negative = true);
    clause
}

/// A budget at or beside the tries needed, and the words of the answer; the most that is allowed where the question is no clause.
fn budget(random: &mut Random, table: &Table, words: &[u32], bound: u32) -> (u32, usize) {
    let before: Vec<u32> = table.clauses[..table.question_number()].iter().flat_map(clause_words).collect();
    let (start, count) = (before.len() as u32, table.clauses.len() as u32);
    let file = engine::file::with_trailer([&before, words].concat(), start, count);
    let outcome = owned::search(&file, bound, ALLOWED);
    let tries = outcome.report.tries;
    (random.pick(&[tries, tries, tries.saturating_sub(1), tries + 1, 0, ALLOWED]), outcome.answer.len())
}

/// The entry, now and then with something wrong in it.
fn entry(random: &mut Random, mut entry: [u32; 4]) -> [u32; 4] {
    let [place, length, bound, _] = entry;
    match random.below(24) {
        0 => entry[0] = random.pick(&[place + 1, place.wrapping_sub(1), u32::MAX, length.wrapping_neg()]),
        1 => entry[1] = random.pick(&[length + 1, length.wrapping_sub(1), 0, u32::MAX, place.wrapping_neg()]),
        2 => entry[2] = random.pick(&[LARGEST_BOUND + 1, 63, u32::MAX, bound + 1, bound.saturating_sub(1)]),
        3 => entry[3] = 0,
        _ => {}
    }
    entry
}

pub fn borders() -> Vec<String> {
    const FACTS: &str = "at(e,mat) | at(e,eve)\nat(d,mat)";
    let table = write(&tables::written(&format!("{FACTS}\n? at(X,Y)")));
    let asked = |text: &str| clause_words(tables::written(&format!("{FACTS}\n{text}")).question());
    let [definite, indefinite, none] = ["? at(d,X)", "? at(e,X)", "? at(e,e)"].map(asked);
    let list = [definite.as_slice(), &indefinite, &none].concat();
    let [first, second, third] = [0, 4, 8].map(|place| [place, 4, 2, 99]);
    let season = |entries: &[[u32; 4]]| Season::ordinary(&table, &list, &entries.concat());
    let mut lines = buffers(&season(&[second, first, third]));
    for entries in [
        vec![],
        vec![first],
        vec![third, second, first, second],
        vec![[4, 4, 2, 0], [4, 4, 2, 1], [4, 4, 2, 3], [4, 4, 33, 9], [4, 4, u32::MAX, 9], [4, 4, 0, 0]],
        vec![[8, 5, 2, 9], [12, 0, 2, 9], [13, 0, 2, 9], [12, 1, 2, 9], [8, u32::MAX - 7, 2, 9], [u32::MAX, 1, 2, 9]],
        vec![[0, 8, 2, 9], [0, 3, 2, 9], [1, 4, 2, 9], first],
        vec![first; 4_096],
        vec![[0, 0, 33, 0]; 4_097],
    ] {
        lines.push(season(&entries).line(Spelling::Short));
    }
    for words in 0..8 {
        let entries = [first, second].concat()[..words].to_vec();
        lines.push(Season { entries, ..season(&[]) }.line(Spelling::Full));
    }
    lines.push(Season { table: vec![], entries: vec![1], ..season(&[]) }.line(Spelling::Full));
    lines.push(Season { list: vec![], ..season(&[first]) }.line(Spelling::Full));
    // A restricted question is refused in turn, a restricted clause answers; the table's own 21 comes before 23.
    let marked = [indefinite[0] | RESTRICTED, indefinite[1], indefinite[2], indefinite[3]];
    lines.push(Season { list: marked.to_vec(), ..season(&[first, first]) }.line(Spelling::Full));
    for clause in [0, 7, 11] {
        let mut table = table.clone();
        table[clause] |= RESTRICTED;
        mend_all(&mut table);
        lines.push(Season { table: table.clone(), ..season(&[first, second]) }.line(Spelling::Full));
        lines.push(Season { table, entries: vec![1], ..season(&[]) }.line(Spelling::Full));
    }
    let alone = write(&tables::written("? at(e,X)"));
    lines.push(Season { table: alone, ..season(&[first, [0, 0, 2, 9]]) }.line(Spelling::Full));
    lines.push(too_long().line(Spelling::Short));
    // The rooms of the protocol, and one word more.
    for words in [16_400, 16_401] {
        lines.push(Season { entries: vec![0; words], ..season(&[]) }.line(Spelling::Short));
    }
    for words in [16_100, 16_101] {
        lines.push(Season { list: vec![0; words], ..season(&[]) }.line(Spelling::Short));
        lines.push(Season { table: vec![0; words], ..season(&[]) }.line(Spelling::Short));
    }
    lines
}

/// Every length of the three buffers beside what is needed.
fn buffers(season: &Season) -> Vec<String> {
    let mut lines = Vec::new();
    let mut add = |work: usize, proof: usize, answer: usize| {
        let Season { entries, list, table, .. } = season;
        let [entries, list, table] = [entries, list, table].map(Vec::clone);
        lines.push(Season { work, proof, answer, entries, list, table }.line(Spelling::Full));
    };
    for work in [0, 16_383, 16_384, 16_385, 20_000] {
        add(work, 199, 4_096);
    }
    for proof in [0, 198, 200, 300] {
        add(16_384, proof, 4_096);
        add(16_383, proof, 4_096);
    }
    for answer in [0, 2, 3, 5, 6, 7, 20_000] {
        add(16_384, 199, answer);
    }
    lines
}

/// A table that leaves room for a question of eight words, asked ones of three, eight and nine.
fn too_long() -> Season {
    let tower = |height: usize| format!("{}a{}", "f(".repeat(height), ")".repeat(height));
    let lines: Vec<String> = (0..62).map(|_| format!("p({})", tower(253))).collect();
    let facts = format!("{}\np({})", lines.join("\n"), tower(113));
    let table = write(&tables::written(&format!("{facts}\n? p(X)")));
    let questions = ["? p(X)", "? p(f(f(f(f(f(X))))))", "? p(f(f(f(f(f(f(X)))))))"]
        .map(|asked| clause_words(tables::written(&format!("p(f(a))\n{asked}")).question()));
    let mut list = Vec::new();
    let mut entries = Vec::new();
    for question in questions {
        entries.extend([list.len() as u32, question.len() as u32, 1, 9]);
        list.extend(question);
    }
    Season::ordinary(&table, &list, &entries)
}
