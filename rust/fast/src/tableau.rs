//! Leaves and copies.
//!
//! A leaf is a copy and a literal. A copy's open literals are not stored one by one: the next open leaf is the copy's next literal or,
//! after its last, the leaf that was next when the copy was made. The copies upward from a leaf are its branch.

use crate::index::{Index, Literal, Tops, slot};
use crate::memory::{
    ABOVE, ARGUMENTS, BINDINGS, BOUND_COUNT, HUNG, HUNG_WORDS, NEAREST, NEAREST_WORDS, STARTS, TOPS, Work, item, load,
    load_many, store, store_many,
};
use crate::terms::{FREE, Term, term_at, variable};

/// A copy, and below it the number of one of its literals; or `NIL`.
pub type Leaf = u32;

pub const NIL: Leaf = 0;
/// The copy of the question that a tableau starts with.
pub const START: u32 = 1;

const LITERAL_BITS: u32 = 12;
const PARENT: usize = 0;
const ENTERED: usize = 1;
const AFTER: usize = 2;
const DEPTH: usize = 3;

#[inline(always)]
pub fn leaf(copy: u32, literal: u32) -> Leaf {
    copy << LITERAL_BITS | literal
}

#[inline(always)]
pub fn copy(leaf: Leaf) -> u32 {
    leaf >> LITERAL_BITS
}

#[inline(always)]
pub fn literal<'a>(index: &'a Index, leaf: Leaf) -> &'a Literal {
    item(index.literals, number(leaf))
}

#[inline(always)]
pub fn number(leaf: Leaf) -> usize {
    (leaf & ((1 << LITERAL_BITS) - 1)) as usize
}

#[inline(always)]
fn hung(work: &Work, copy: u32, field: usize) -> u32 {
    load(work, HUNG + HUNG_WORDS * copy as usize + field)
}

#[inline(always)]
pub fn parent(work: &Work, copy: u32) -> Leaf {
    hung(work, copy, PARENT)
}

#[inline(always)]
pub fn depth(work: &Work, copy: u32) -> u32 {
    hung(work, copy, DEPTH)
}

/// The arguments of the copy's parent leaf, as they were when the copy was made.
#[inline(always)]
pub fn parent_arguments(work: &Work, copy: u32) -> [Term; 4] {
    load_many(work, ARGUMENTS + 4 * copy as usize)
}

#[inline(always)]
pub fn parent_tops(work: &Work, copy: u32) -> Tops {
    Tops::of_words(load_many(work, TOPS + 4 * copy as usize))
}

/// The slots of the literals above the copy's leaves.
#[inline(always)]
pub fn above(work: &Work, copy: u32) -> u32 {
    load(work, ABOVE + copy as usize)
}

/// The nearest copy, from this one upward, whose parent leaf is in the slot; 0 where there is none.
#[inline(always)]
pub fn nearest(work: &Work, copy: u32, slot: u32) -> u32 {
    let words = load(work, NEAREST + NEAREST_WORDS * copy as usize + (slot >> 2) as usize);
    words >> (8 * (slot & 3)) & 255
}

/// Gives the copy the clause of this literal, with fresh variables.
#[inline(always)]
pub fn open(work: &mut Work, copy: u32, clause: u16) {
    store(work, STARTS + copy as usize, u32::from(clause));
    // All 16, however many the clause has: a fixed number of words is quicker.
    store_many(work, BINDINGS + variable(copy, 0) as usize, [FREE; 16]);
}

/// One copy of the question, with its literals as open leaves; gives the first.
pub fn start(index: &Index, question: usize, work: &mut Work) -> Leaf {
    store(work, BOUND_COUNT, 0);
    open(work, START, question as u16);
    store_many(work, HUNG + HUNG_WORDS * START as usize, [NIL, u32::MAX, NIL, 0]);
    store(work, ABOVE + START as usize, 0);
    store_many(work, NEAREST + NEAREST_WORDS * START as usize, [0; NEAREST_WORDS]);
    leaf(START, u32::from(index.clauses[index.clauses.len() - 1]))
}

/// Hangs a copy under the leaf, entered by the literal of this number; the leaf's arguments and the open leaf after it are the caller's.
/// Gives the copy's first open leaf.
#[inline(always)]
#[allow(clippy::too_many_arguments)]
pub fn hang(
    index: &Index,
    work: &mut Work,
    under: Leaf,
    arguments: [Term; 4],
    tops: Tops,
    copy: u32,
    entered: usize,
    after: Leaf,
) -> Leaf {
    let literal = item(index.literals, entered);
    if literal.before + literal.after == 0 {
        return after;
    }
    let (parent, slot) = (self::copy(under), slot(self::literal(index, under).group));
    store_many(work, HUNG + HUNG_WORDS * copy as usize, [under, entered as u32, after, depth(work, parent) + 1]);
    store_many(work, ARGUMENTS + 4 * copy as usize, arguments);
    store_many(work, TOPS + 4 * copy as usize, tops.words());
    store(work, ABOVE + copy as usize, above(work, parent) | 1 << slot);
    let (from, to) = (NEAREST + NEAREST_WORDS * parent as usize, NEAREST + NEAREST_WORDS * copy as usize);
    let (word, shift) = ((slot >> 2) as usize, 8 * (slot & 3));
    let nearest: [u32; NEAREST_WORDS] = load_many(work, from);
    store_many(work, to, nearest);
    store(work, to + word, load(work, from + word) & !(255 << shift) | copy << shift);
    leaf(copy, literal.first_other(entered))
}

/// The open leaf after this one.
#[inline(always)]
pub fn after(index: &Index, work: &Work, leaf: Leaf) -> Leaf {
    let copy = copy(leaf);
    let (mut next, mut rest) = (number(leaf) as u32 + 1, literal(index, leaf).after);
    if rest != 0 && next == hung(work, copy, ENTERED) {
        next += 1;
        rest -= 1;
    }
    if rest == 0 { hung(work, copy, AFTER) } else { self::leaf(copy, next) }
}

/// The arguments of a literal in a copy.
#[inline(always)]
pub fn arguments(index: &Index, copy: u32, literal: &Literal) -> [Term; 4] {
    let mut arguments = [FREE; 4];
    for (number, argument) in arguments.iter_mut().enumerate().take(literal.arity as usize) {
        *argument = term_at(index.body, copy, literal.argument(number));
    }
    arguments
}
