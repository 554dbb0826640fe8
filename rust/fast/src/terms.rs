//! Terms by structure sharing. A term is one word: a variable's number over the whole tableau, or, above those, a copy and a place in
//! the file.
//!
//! Comparing is naive with an allowance of terms looked into. A pair that uses it up is compared again thoroughly: applications made
//! equal are linked and never compared twice, and a variable is looked into once.

use crate::memory::{
    ALLOWANCE, BINDINGS, BOUND_COUNT, CIRCLE, LINKS, LINKS_WORDS, SEEN, STARTS, TRAIL, VARIABLES, Work, at, load, store,
};
use crate::words::{arity, is_function};
use engine::Unequal;

const PLACE_BITS: u32 = 14;
const LOOKS_ALLOWED: u32 = 512;

/// No variable is bound to this.
pub const FREE: u32 = 0;

pub type Term = u32;

#[inline(always)]
pub fn application(copy: u32, place: usize) -> Term {
    copy << PLACE_BITS | place as u32
}

#[inline(always)]
pub fn variable(copy: u32, number: u32) -> Term {
    copy << 4 | number
}

#[inline(always)]
pub fn is_application(term: Term) -> bool {
    term >> PLACE_BITS != 0
}

#[inline(always)]
pub fn copy(term: Term) -> u32 {
    term >> PLACE_BITS
}

#[inline(always)]
pub fn place(term: Term) -> usize {
    (term & ((1 << PLACE_BITS) - 1)) as usize
}

#[inline(always)]
pub fn term_at(body: &[u32], copy: u32, place: usize) -> Term {
    let word = at(body, place);
    if is_function(word) { application(copy, place) } else { variable(copy, word) }
}

/// The end of the bindings from this term on.
#[inline(always)]
pub fn follow(work: &Work, mut term: Term) -> Term {
    while !is_application(term) {
        let bound = load(work, BINDINGS + term as usize);
        if bound == FREE {
            break;
        }
        term = bound;
    }
    term
}

#[inline(always)]
pub fn bound_count(work: &Work) -> u32 {
    load(work, BOUND_COUNT)
}

/// Frees the variables bound after there were so many.
#[inline(always)]
pub fn undo(work: &mut Work, mark: u32) {
    let mut bound = bound_count(work);
    if bound == mark {
        return;
    }
    while bound > mark {
        bound -= 1;
        let variable = load(work, TRAIL + bound as usize) as usize;
        store(work, BINDINGS + variable, FREE);
    }
    store(work, BOUND_COUNT, bound);
}

/// Binds a variable. Those from `fresh` on are not noted: they are freed when the next copy is made in their place.
#[inline(always)]
pub fn bind(work: &mut Work, fresh: Term, variable: Term, term: Term) {
    store(work, BINDINGS + variable as usize, term);
    if variable < fresh {
        let bound = bound_count(work);
        store(work, TRAIL + bound as usize, variable);
        store(work, BOUND_COUNT, bound + 1);
    }
}

#[inline(always)]
pub fn allow(work: &mut Work) {
    store(work, ALLOWANCE, LOOKS_ALLOWED);
}

#[inline(always)]
pub fn used_up(work: &Work) -> bool {
    load(work, ALLOWANCE) == 0
}

#[inline(always)]
fn spend(work: &mut Work) -> bool {
    let left = load(work, ALLOWANCE).saturating_sub(1);
    store(work, ALLOWANCE, left);
    left != 0
}

/// How pairs are compared: `thorough` with links, `circles` with a look for the variable in the term that it is bound to.
pub trait Manner {
    const THOROUGH: bool;
    const CIRCLES: bool;
}

pub struct Naive;
/// Where no circle can arise.
pub struct Linear;
pub struct Thorough;

impl Manner for Naive {
    const THOROUGH: bool = false;
    const CIRCLES: bool = true;
}

impl Manner for Linear {
    const THOROUGH: bool = false;
    const CIRCLES: bool = false;
}

impl Manner for Thorough {
    const THOROUGH: bool = true;
    const CIRCLES: bool = true;
}

/// Makes two terms equal that have been followed.
#[inline(always)]
pub fn meet<M: Manner>(body: &[u32], work: &mut Work, fresh: Term, left: Term, right: Term) -> bool {
    match (is_application(left), is_application(right)) {
        (true, true) => applications::<M>(body, work, fresh, left, right),
        (false, true) => bind_checked::<M>(body, work, fresh, left, right),
        (true, false) => bind_checked::<M>(body, work, fresh, right, left),
        (false, false) => {
            // The younger is bound to the older.
            if left > right {
                bind(work, fresh, left, right);
            } else if left < right {
                bind(work, fresh, right, left);
            }
            true
        }
    }
}

#[inline(always)]
fn bind_checked<M: Manner>(body: &[u32], work: &mut Work, fresh: Term, variable: Term, term: Term) -> bool {
    if M::CIRCLES && arity(at(body, place(term))) != 0 && holds::<M>(body, work, variable, term) {
        return false;
    }
    bind(work, fresh, variable, term);
    true
}

#[inline(always)]
pub fn applications<M: Manner>(body: &[u32], work: &mut Work, fresh: Term, left: Term, right: Term) -> bool {
    let word = at(body, place(left));
    if word != at(body, place(right)) {
        return false;
    }
    left == right || arity(word) == 0 || inside::<M>(body, work, fresh, arity(word), left, right)
}

fn inside<M: Manner>(body: &[u32], work: &mut Work, fresh: Term, count: u32, left: Term, right: Term) -> bool {
    if M::THOROUGH {
        if class(work, left) == class(work, right) {
            return true;
        }
    } else if !spend(work) {
        return false;
    }
    let equal = pairs::<M>(body, work, fresh, count, left + 1, right + 1);
    if M::THOROUGH && equal {
        link(work, left, right);
    }
    equal
}

/// Makes so many terms from the one place on equal to as many from the other. Symbols that stand alike are passed in step.
pub fn pairs<M: Manner>(body: &[u32], work: &mut Work, fresh: Term, mut owed: u32, left: Term, right: Term) -> bool {
    let (left_copy, right_copy) = (copy(left), copy(right));
    let (mut left, mut right) = (place(left), place(right));
    while owed != 0 {
        let (left_word, right_word) = (at(body, left), at(body, right));
        owed -= 1;
        if left_word == right_word && is_function(left_word) {
            owed += arity(left_word);
            left += 1;
            right += 1;
            continue;
        }
        let [one, other] = match (is_function(left_word), is_function(right_word)) {
            (true, true) => return false,
            (true, false) => [application(left_copy, left), follow(work, variable(right_copy, right_word))],
            (false, true) => [follow(work, variable(left_copy, left_word)), application(right_copy, right)],
            (false, false) => {
                [follow(work, variable(left_copy, left_word)), follow(work, variable(right_copy, right_word))]
            }
        };
        if one != other && !meet::<M>(body, work, fresh, one, other) {
            return false;
        }
        left = if is_function(left_word) { skip(body, left) } else { left + 1 };
        right = if is_function(right_word) { skip(body, right) } else { right + 1 };
    }
    true
}

/// The place after the application.
#[inline(always)]
fn skip(body: &[u32], mut place: usize) -> usize {
    let mut owed = 1;
    while owed != 0 {
        let word = at(body, place);
        owed -= 1;
        if is_function(word) {
            owed += arity(word);
        }
        place += 1;
    }
    place
}

/// Whether the variable, which is free, stands within the application; also where the allowance ends.
#[inline(always)]
fn holds<M: Manner>(body: &[u32], work: &mut Work, variable: Term, term: Term) -> bool {
    if M::THOROUGH {
        work[SEEN..][..VARIABLES].fill(0);
    }
    look::<M>(body, work, variable, term)
}

fn look<M: Manner>(body: &[u32], work: &mut Work, wanted: Term, term: Term) -> bool {
    let copy = copy(term);
    let mut place = place(term);
    let mut owed = 1;
    while owed != 0 {
        let word = at(body, place);
        place += 1;
        owed -= 1;
        if is_function(word) {
            owed += arity(word);
            continue;
        }
        let mut met = variable(copy, word);
        loop {
            if met == wanted {
                store(work, CIRCLE, 1);
                return true;
            }
            let bound = load(work, BINDINGS + met as usize);
            if bound == FREE {
                break;
            }
            if !is_application(bound) {
                met = bound;
                continue;
            }
            if arity(at(body, self::place(bound))) != 0 && look_into::<M>(body, work, wanted, met, bound) {
                return true;
            }
            break;
        }
    }
    false
}

#[inline(always)]
fn look_into<M: Manner>(body: &[u32], work: &mut Work, wanted: Term, met: Term, bound: Term) -> bool {
    if M::THOROUGH {
        if load(work, SEEN + met as usize) != 0 {
            return false;
        }
        store(work, SEEN + met as usize, 1);
    } else if !spend(work) {
        return true;
    }
    look::<M>(body, work, wanted, bound)
}

/// Makes four or fewer terms equal to as many others, from left to right. Where it fails, the bindings are as before.
pub fn unify(body: &[u32], work: &mut Work, left: &[Term], right: &[Term]) -> bool {
    let mark = bound_count(work);
    allow(work);
    if each::<Naive>(body, work, Term::MAX, left, right) {
        return true;
    }
    undo(work, mark);
    used_up(work) && thoroughly(body, work, Term::MAX, left, right)
}

#[inline(always)]
fn each<M: Manner>(body: &[u32], work: &mut Work, fresh: Term, left: &[Term], right: &[Term]) -> bool {
    left.iter().zip(right).all(|(&left, &right)| {
        let (left, right) = (follow(work, left), follow(work, right));
        meet::<M>(body, work, fresh, left, right)
    })
}

/// Only hostile tables come here.
#[cold]
#[inline(never)]
pub fn thoroughly(body: &[u32], work: &mut Work, fresh: Term, left: &[Term], right: &[Term]) -> bool {
    let mark = bound_count(work);
    work[LINKS..][..LINKS_WORDS].fill(0);
    let equal = each::<Thorough>(body, work, fresh, left, right);
    if !equal {
        undo(work, mark);
    }
    equal
}

/// Makes the terms equal, or says what is wrong with the first pair that cannot be.
pub fn compare(body: &[u32], work: &mut Work, left: &[Term], right: &[Term]) -> Result<(), Unequal> {
    store(work, CIRCLE, 0);
    if unify(body, work, left, right) {
        return Ok(());
    }
    Err(if load(work, CIRCLE) == 0 { Unequal::Clash } else { Unequal::Circle })
}

/// Whether the terms are equal: whether making them so binds nothing.
pub fn equal(body: &[u32], work: &mut Work, left: &[Term], right: &[Term]) -> bool {
    let mark = bound_count(work);
    let equal = unify(body, work, left, right) && bound_count(work) == mark;
    undo(work, mark);
    equal
}

/// The node that stands for all those linked with the term's. A link is the other node's number plus 1.
fn class(work: &mut Work, term: Term) -> usize {
    let start = load(work, STARTS + copy(term) as usize) as usize;
    let mut node = (copy(term) as usize) << 8 | (place(term) - start);
    loop {
        let above = load(work, LINKS + node) as usize;
        if above == 0 {
            return node;
        }
        let top = load(work, LINKS + above - 1);
        if top != 0 {
            store(work, LINKS + node, top);
        }
        node = above - 1;
    }
}

fn link(work: &mut Work, left: Term, right: Term) {
    let (left, right) = (class(work, left), class(work, right));
    if left != right {
        store(work, LINKS + left, right as u32 + 1);
    }
}
