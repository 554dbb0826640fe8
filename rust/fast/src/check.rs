//! The checker.

use crate::index::{Index, Tops};
use crate::memory::{Work, item};
use crate::tableau::{Leaf, NIL, START, after, arguments, copy, hang, literal, open, parent, parent_arguments, start};
use crate::terms::compare;
use engine::step::Step;
use engine::{Reading, Status, Unequal};

/// The first open leaf, and how many copies there are.
#[derive(Clone, Copy)]
struct Open {
    first: Leaf,
    copies: u32,
}

/// Plays the offered steps and gives the number of copies; or the status and the place where they fail.
pub fn check(
    index: &Index,
    question: usize,
    bound: u32,
    offered: &[u32],
    work: &mut Work,
) -> Result<u32, (Status, usize)> {
    let mut open = Open { first: start(index, question, work), copies: START };
    for (place, &word) in offered.iter().enumerate() {
        open = perform(index, work, open, bound, word).map_err(|status| (status, place))?;
    }
    if open.first == NIL { Ok(open.copies) } else { Err((Status::LeavesOpen, offered.len())) }
}

fn perform(index: &Index, work: &mut Work, open: Open, bound: u32, word: u32) -> Result<Open, Status> {
    let step = Step::decode(Reading::Base, word).ok_or(Status::MalformedStep)?;
    if open.first == NIL {
        return Err(Status::StepNotAllowed);
    }
    match step {
        Step::Reduction { height } => reduce(index, work, open, height),
        Step::Extension { .. } if open.copies > bound => Err(Status::StepNotAllowed),
        Step::Extension { clause, literal } => extend(index, work, open, clause as usize, literal as usize),
        Step::Restart => Err(Status::MalformedStep),
    }
}

fn status(unequal: Unequal) -> Status {
    match unequal {
        Unequal::Clash => Status::Clash,
        Unequal::Circle => Status::Circle,
    }
}

fn reduce(index: &Index, work: &mut Work, open: Open, height: u32) -> Result<Open, Status> {
    let closed = literal(index, open.first);
    let mut hung = copy(open.first);
    for _ in 1..height {
        if hung != 0 {
            hung = copy(parent(work, hung));
        }
    }
    if hung == 0 || parent(work, hung) == NIL || literal(index, parent(work, hung)).group != closed.fitting {
        return Err(Status::StepNotAllowed);
    }
    let (left, right) = (arguments(index, copy(open.first), closed), parent_arguments(work, hung));
    let count = closed.arity as usize;
    compare(index.body, work, &left[..count], &right[..count]).map_err(status)?;
    Ok(Open { first: after(index, work, open.first), ..open })
}

fn extend(index: &Index, work: &mut Work, tableau: Open, clause: usize, number: usize) -> Result<Open, Status> {
    let closed = literal(index, tableau.first);
    let first = *index.clauses.get(clause).ok_or(Status::StepNotAllowed)? as usize;
    if number > item(index.literals, first).after as usize {
        return Err(Status::StepNotAllowed);
    }
    let entered = item(index.literals, first + number);
    if entered.group != closed.fitting {
        return Err(Status::StepNotAllowed);
    }
    let new = tableau.copies + 1;
    open(work, new, entered.clause);
    let left = arguments(index, copy(tableau.first), closed);
    let right = arguments(index, new, entered);
    let count = closed.arity as usize;
    compare(index.body, work, &left[..count], &right[..count]).map_err(status)?;
    let rest = after(index, work, tableau.first);
    Ok(Open { first: hang(index, work, tableau.first, left, Tops::default(), new, first + number, rest), copies: new })
}
