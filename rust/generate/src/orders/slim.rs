//! Order 12: repeats, but for the mark too, dead clauses, chains of them, tautologies, clauses with the question's words.

use super::room;
use crate::damage::damaged;
use crate::lines::Spelling;
use crate::random::Random;
use crate::tables;
use engine::file::write;
use engine::syntax::{Clause, Literal, Table};
use engine::word::Symbol;
use orders::slim::slim;

const FILE_ROOM: usize = 16_100;
const NUMBERS_ROOM: usize = 600;

fn line(file: &[u32], file_room: usize, numbers_room: usize, spelling: Spelling) -> String {
    format!("slim {file_room} {numbers_room} / {}", spelling.words(file))
}

pub fn request(random: &mut Random, spelling: Spelling) -> String {
    let mut table = tables::any(random).table;
    for _ in 0..random.below(6) {
        grow(random, &mut table);
    }
    table.clauses.drain(..table.clauses.len().saturating_sub(512));
    let mut file = write(&table);
    if random.once_in(10) {
        file = damaged(random, &file);
    }
    let needed = slim(&file, &mut [0; FILE_ROOM], &mut [0; NUMBERS_ROOM]);
    let file_room = room(random, needed.words as usize, FILE_ROOM);
    let numbers_room = room(random, needed.clauses as usize, NUMBERS_ROOM);
    line(&file, file_room, numbers_room, spelling)
}

/// One thing more that may be dropped, or that looks so.
fn grow(random: &mut Random, table: &mut Table) {
    let question = table.question_number();
    let place = random.below(question + 1);
    match random.below(6) {
        5 => {
            let mut twin = table.clauses[random.below(question.max(1))].clone();
            twin.restricted = !twin.restricted;
            table.clauses.insert(place, twin);
        }
        0 => table.clauses.insert(place, table.clauses[random.below(question + 1)].clone()),
        1 => table.clauses.insert(place, table.question().clone()),
        2 => table.clauses.insert(place, tautology(random, table)),
        3 => chain(random, table, false),
        _ => chain(random, table, true),
    }
}

fn plain(negative: bool, number: u32) -> Literal {
    Literal { negative, predicate: Symbol { number, arity: 0 }, arguments: Vec::new() }
}

/// A literal and its opposite: partners of each other.
fn tautology(random: &mut Random, table: &Table) -> Clause {
    let number = random.pick(&[0, 1, 900]);
    let mut literals = vec![plain(false, number), plain(true, number)];
    literals.extend(table.clauses[random.below(table.clauses.len())].literals.first().cloned());
    Clause::open(16, literals)
}

/// Clauses that lean on one another: the first or the last has no partner, or the ends meet.
fn chain(random: &mut Random, table: &mut Table, ring: bool) {
    let links = random.between(1, 9) as u32;
    let mut clauses: Vec<Clause> = (0..links)
        .map(|link| {
            let next = if ring { 1_000 + (link + 1) % links } else { 1_000 + link + 1 };
            Clause::open(0, vec![plain(false, 1_000 + link), plain(true, next)])
        })
        .collect();
    if random.once_in(3) {
        clauses.extend(clauses.clone());
    }
    if random.once_in(2) {
        random.shuffle(&mut clauses);
    }
    let place = random.below(table.question_number() + 1);
    table.clauses.splice(place..place, clauses);
}

pub fn borders() -> Vec<String> {
    let falling = |clauses: u32| {
        let mut table = Table {
            clauses: (0..clauses)
                .map(|link| Clause::open(0, vec![plain(false, link), plain(true, link + 1)]))
                .collect(),
        };
        table.clauses.push(Clause::open(0, vec![plain(true, 0)]));
        write(&table)
    };
    let (short, long) = (falling(3), falling(511));
    let rooms = [(16_100, 600), (6, 1), (5, 1), (6, 0), (0, 0), (16_101, 600), (16_100, 601)];
    let mut lines: Vec<String> = rooms.map(|(file, numbers)| line(&short, file, numbers, Spelling::Full)).to_vec();
    lines.push(line(&long, 16_100, 600, Spelling::Short));
    lines.push(line(&[], 16_100, 600, Spelling::Full));
    lines
}
