//! Order 14: the matinee desk, by asking the search as the order says.

use engine::Status;
use engine::file::write;
use engine::owned;
use engine::syntax::{Clause, Literal, Table, Term};
use engine::word::Symbol;

pub const MOST_RECORDS: usize = 500;

#[derive(Clone, Copy, Debug, PartialEq, Eq)]
pub enum Slot {
    Matinee,
    Evening,
    Either,
    /// A number that stands for no slot.
    Unknown,
}

#[derive(Clone, Copy, Debug, PartialEq, Eq)]
pub struct Record {
    pub day: u32,
    pub house: u32,
    pub slot: Slot,
}

#[derive(Clone, Copy, Debug, PartialEq, Eq)]
pub enum Desk {
    Says { matinee: bool, evening: bool, either: bool },
    RanOut,
    OutOfRange,
}

#[derive(Clone, Copy)]
enum Asked {
    Matinee,
    Evening,
    Any,
}

pub fn ask(records: &[Record], day: u32, house: u32, budgets: [u32; 3]) -> Desk {
    let fine = |record: &Record| in_range(record.day, record.house) && record.slot != Slot::Unknown;
    if records.len() > MOST_RECORDS || !in_range(day, house) || !records.iter().all(fine) {
        return Desk::OutOfRange;
    }
    let answer = |asked, budget| {
        let status = owned::search(&file(records, day, house, asked), 2, budget).report.status;
        match status {
            Status::Proved => Some(true),
            Status::NoProof => Some(false),
            _ => None,
        }
    };
    let stated = (answer(Asked::Matinee, budgets[0]), answer(Asked::Evening, budgets[1]));
    let (Some(matinee), Some(evening)) = stated else {
        return Desk::RanOut;
    };
    if matinee || evening {
        return Desk::Says { matinee, evening, either: false };
    }
    match answer(Asked::Any, budgets[2]) {
        Some(either) => Desk::Says { matinee, evening, either },
        None => Desk::RanOut,
    }
}

fn in_range(day: u32, house: u32) -> bool {
    (1..=366).contains(&day) && (1..=999).contains(&house)
}

fn file(records: &[Record], day: u32, house: u32, asked: Asked) -> Vec<u32> {
    let mut clauses: Vec<Clause> = records.iter().map(clause).collect();
    let slot = match asked {
        Asked::Matinee => constant(MATINEE),
        Asked::Evening => constant(EVENING),
        Asked::Any => Term::Variable(0),
    };
    clauses.push(Clause::open(1, vec![at(true, day, house, slot)]));
    write(&Table { clauses })
}

const MATINEE: u32 = 0;
const EVENING: u32 = 1;

fn clause(record: &Record) -> Clause {
    let slots: &[u32] = match record.slot {
        Slot::Matinee => &[MATINEE],
        Slot::Evening => &[EVENING],
        _ => &[MATINEE, EVENING],
    };
    let literals = slots.iter().map(|&slot| at(false, record.day, record.house, constant(slot))).collect();
    Clause::open(0, literals)
}

fn at(negative: bool, day: u32, house: u32, slot: Term) -> Literal {
    let arguments = vec![constant(1_000 + day), constant(2_000 + house), slot];
    Literal { negative, predicate: Symbol { number: 0, arity: 3 }, arguments }
}

fn constant(number: u32) -> Term {
    Term::Application(Symbol { number, arity: 0 }, Vec::new())
}
