//! The search. A try that can lead to nothing, whatever its comparison says, is counted and not made.

use crate::index::{Entry, Group, Index, Literal, NONE, Tops, slot};
use crate::memory::{BINDINGS, STEPS, Work, at, item, load, store};
use crate::tableau::{
    Leaf, NIL, START, above, after, arguments, copy, depth, hang, literal, nearest, open, parent, parent_arguments,
    parent_tops, start,
};
use crate::terms::{
    Linear, Manner, Naive, Term, allow, application, bind, bound_count, follow, is_application, meet, pairs, place,
    term_at, thoroughly, undo, unify, used_up, variable,
};
use crate::words::{arity, is_function};

pub const EXTENSION: u32 = 1 << 31;

pub enum End {
    Found { steps: usize, copies: u32, tries: u32 },
    NoProof { tries: u32 },
    RanOut,
}

/// How many tries are left; above them whether a proof was found, or no try was left for the next candidate.
type Left = u64;

const FOUND: Left = 1 << 32;
const OUT: Left = 1 << 33;
/// Of what was found: copies and steps.
const COPIES_SHIFT: u32 = 40;
const STEPS_SHIFT: u32 = 48;

pub fn search(index: &Index, question: usize, bound: u32, budget: u32, work: &mut Work) -> End {
    let first = start(index, question, work);
    let left = close(index, work, first, Count { copies: START, bound }, 0, budget);
    let tries = budget.wrapping_sub(left as u32);
    if left & OUT != 0 {
        return End::RanOut;
    }
    if left & FOUND == 0 {
        return End::NoProof { tries };
    }
    End::Found { steps: (left >> STEPS_SHIFT) as usize, copies: (left >> COPIES_SHIFT & 255) as u32, tries }
}

/// The number of copies, and the bound.
#[derive(Clone, Copy)]
struct Count {
    copies: u32,
    bound: u32,
}

impl Count {
    #[inline(always)]
    fn extensible(self) -> bool {
        self.copies <= self.bound
    }

    #[inline(always)]
    fn one_extension_left(self) -> bool {
        self.copies == self.bound
    }
}

/// A leaf that is treated.
#[derive(Clone, Copy)]
struct Treated<'a> {
    leaf: Leaf,
    literal: &'a Literal,
    /// Followed when the leaf was reached.
    arguments: [Term; 4],
    tops: Tops,
    /// The open leaf after it.
    rest: Leaf,
}

/// Closes the open leaves from this one on.
fn close(index: &Index, work: &mut Work, leaf: Leaf, count: Count, steps: usize, left: u32) -> Left {
    if leaf == NIL {
        return FOUND | Left::from(count.copies) << COPIES_SHIFT | (steps as Left) << STEPS_SHIFT | Left::from(left);
    }
    let literal = literal(index, leaf);
    if literal.fitting == NONE {
        return Left::from(left);
    }
    let reducible = fits_above(literal, above(work, copy(leaf)));
    if !reducible && !count.extensible() {
        return Left::from(left);
    }
    let rest = after(index, work, leaf);
    let group = item(index.groups, literal.fitting as usize);
    let in_vain = count.one_extension_left() && all_in_vain(index, work, leaf, literal, group, rest);
    if !reducible && in_vain {
        return pass(left, group.end - group.start);
    }
    let mut treated = Treated { leaf, literal, arguments: [0; 4], tops: Tops::default(), rest };
    for argument in 0..literal.arity as usize {
        let term = follow(work, term_at(index.body, copy(leaf), literal.argument(argument)));
        treated.arguments[argument] = term;
        if is_application(term) {
            treated.tops.add(argument, at(index.body, place(term)));
        }
    }
    let mut left = left;
    if reducible {
        let after = reduce(index, work, &treated, count, steps, left);
        if after >= FOUND {
            return after;
        }
        left = after as u32;
    }
    if !count.extensible() {
        return Left::from(left);
    }
    if in_vain {
        return pass(left, group.end - group.start);
    }
    extend(index, work, &treated, count, steps, left)
}

/// Whether a leaf of the literal may be reduced against one of these slots.
#[inline(always)]
fn fits_above(literal: &Literal, above: u32) -> bool {
    above >> slot(literal.fitting) & 1 != 0
}

/// Counts so many tries.
#[inline(always)]
fn pass(left: u32, tries: u16) -> Left {
    let tries = u32::from(tries);
    if left < tries { OUT } else { Left::from(left - tries) }
}

/// Whether, with no extension left, this open leaf has nothing to be reduced against.
#[inline(always)]
fn stuck(index: &Index, work: &Work, leaf: Leaf) -> bool {
    leaf != NIL && !fits_above(literal(index, leaf), above(work, copy(leaf)))
}

/// Whether, with one extension left, each of the leaf's leads to a leaf that nothing can close.
#[inline(always)]
fn all_in_vain(index: &Index, work: &Work, leaf: Leaf, literal: &Literal, group: &Group, rest: Leaf) -> bool {
    let under = above(work, copy(leaf)) | 1 << slot(literal.group);
    u32::from(group.others) & under == 0 && (!group.units || stuck(index, work, rest))
}

#[inline(always)]
fn reduce(index: &Index, work: &mut Work, treated: &Treated, count: Count, steps: usize, mut left: u32) -> Left {
    let Treated { leaf, literal: closed, arguments, rest, .. } = *treated;
    let slot = slot(closed.fitting);
    let arguments = &arguments[..closed.arity as usize];
    let in_vain = !count.extensible() && stuck(index, work, rest);
    let mut hung = nearest(work, copy(leaf), slot);
    while hung != 0 {
        let ancestor = parent(work, hung);
        if literal(index, ancestor).group == closed.fitting {
            if left == 0 {
                return OUT;
            }
            left -= 1;
            let mark = bound_count(work);
            if in_vain || parent_tops(work, hung).clash(treated.tops) {
                hung = nearest(work, copy(ancestor), slot);
                continue;
            }
            if unify(index.body, work, arguments, &parent_arguments(work, hung)) {
                let height = depth(work, copy(leaf)) - depth(work, hung) + 1;
                store(work, STEPS + steps, height);
                let after = close(index, work, rest, count, steps + 1, left);
                if after >= FOUND {
                    return after;
                }
                left = after as u32;
                undo(work, mark);
            }
        }
        hung = nearest(work, copy(ancestor), slot);
    }
    Left::from(left)
}

/// The entries of the fitting group that need be looked at, in their order: all, or, where the group is linked and the leaf's first
/// argument has a symbol, those with this symbol or a variable. Of all between them the first symbols differ.
struct Candidates {
    group: u16,
    end: u16,
    symbol: Option<u16>,
    alike: u16,
    open: u16,
    linked: bool,
}

impl Candidates {
    #[inline(always)]
    fn of(index: &Index, number: u16, tops: Tops) -> Candidates {
        let group = item(index.groups, number as usize);
        let symbol = tops.first();
        let mut candidates =
            Candidates { group: number, end: group.end, symbol, alike: group.start, open: NONE, linked: false };
        if group.linked && symbol.is_some() {
            candidates.linked = true;
            candidates.alike = index.first_linked(number, symbol);
            if group.open {
                candidates.open = index.first_linked(number, None);
            }
        }
        candidates
    }

    #[inline(always)]
    fn next(&mut self, index: &Index) -> Option<u16> {
        let next = self.alike.min(self.open);
        if next >= self.end {
            return None;
        }
        if !self.linked {
            self.alike += 1;
        } else if next == self.alike {
            self.alike = index.next_linked(next, self.group, self.symbol);
        } else {
            self.open = index.next_linked(next, self.group, None);
        }
        Some(next)
    }
}

#[inline(always)]
fn extend(index: &Index, work: &mut Work, treated: &Treated, count: Count, steps: usize, mut left: u32) -> Left {
    let Treated { leaf, literal: closed, rest, .. } = *treated;
    let new = count.copies + 1;
    let last = count.one_extension_left();
    let under = above(work, copy(leaf)) | 1 << slot(closed.group);
    let rest_stuck = last && stuck(index, work, rest);
    let mark = bound_count(work);
    let mut candidates = Candidates::of(index, closed.fitting, treated.tops);
    let mut passed = item(index.groups, closed.fitting as usize).start;
    while let Some(candidate) = candidates.next(index) {
        let tries = u32::from(candidate - passed) + 1;
        passed = candidate + 1;
        if left < tries {
            return OUT;
        }
        left -= tries;
        let Entry { tops, literal: entered, .. } = at(index.entries, candidate as usize);
        if tops.clash(treated.tops) {
            continue;
        }
        let number = entered as usize;
        let entered = item(index.literals, number);
        if last && in_vain(index, entered, number, under, rest_stuck) {
            continue;
        }
        open(work, new, entered.clause);
        if enter(index, work, treated, new, entered) {
            store(work, STEPS + steps, EXTENSION | number as u32);
            let next = hang(index, work, leaf, treated.arguments, treated.tops, new, number, rest);
            let after = close(index, work, next, Count { copies: new, ..count }, steps + 1, left);
            if after >= FOUND {
                return after;
            }
            left = after as u32;
        }
        undo(work, mark);
    }
    pass(left, candidates.end - passed)
}

/// Whether, after the last extension, the leaf to be treated next has nothing to be reduced against.
#[inline(always)]
fn in_vain(index: &Index, entered: &Literal, number: usize, under: u32, rest_stuck: bool) -> bool {
    if entered.before + entered.after == 0 {
        return rest_stuck;
    }
    !fits_above(item(index.literals, entered.first_other(number) as usize), under)
}

/// Makes the leaf's arguments equal to those of a literal in a copy just opened. Bindings of older variables stay to be undone.
#[inline(always)]
fn enter(index: &Index, work: &mut Work, treated: &Treated, new: u32, entered: &Literal) -> bool {
    allow(work);
    let mark = bound_count(work);
    let equal = if entered.linear {
        enter_by::<Linear>(index, work, treated, new, entered)
    } else {
        enter_by::<Naive>(index, work, treated, new, entered)
    };
    equal || (used_up(work) && enter_thoroughly(index, work, treated, new, entered, mark))
}

#[cold]
#[inline(never)]
fn enter_thoroughly(index: &Index, work: &mut Work, treated: &Treated, new: u32, entered: &Literal, mark: u32) -> bool {
    undo(work, mark);
    open(work, new, entered.clause);
    let count = entered.arity as usize;
    let right = arguments(index, new, entered);
    thoroughly(index.body, work, variable(new, 0), &treated.arguments[..count], &right[..count])
}

#[inline(always)]
fn enter_by<M: Manner>(index: &Index, work: &mut Work, treated: &Treated, new: u32, entered: &Literal) -> bool {
    let fresh = variable(new, 0);
    for argument in 0..entered.arity as usize {
        let place = entered.argument(argument);
        let word = at(index.body, place);
        let mut term = treated.arguments[argument];
        let unmet = entered.new >> argument & 1 != 0;
        if !is_function(word) {
            let variable = variable(new, word);
            if unmet {
                store(work, BINDINGS + variable as usize, term);
                continue;
            }
            let (left, right) = (follow(work, term), follow(work, variable));
            if left != right && !meet::<M>(index.body, work, fresh, left, right) {
                return false;
            }
            continue;
        }
        let pattern = application(new, place);
        term = follow(work, term);
        if !is_application(term) {
            if unmet || !M::CIRCLES || arity(word) == 0 {
                bind(work, fresh, term, pattern);
            } else if !meet::<M>(index.body, work, fresh, term, pattern) {
                return false;
            }
            continue;
        }
        if at(index.body, self::place(term)) != word {
            return false;
        }
        if arity(word) != 0 && !pairs::<M>(index.body, work, fresh, arity(word), term + 1, pattern + 1) {
            return false;
        }
    }
    true
}

/// A step found, as its word.
pub fn step_word(index: &Index, work: &Work, step: usize) -> u32 {
    let word = load(work, STEPS + step);
    if word & EXTENSION == 0 {
        return word;
    }
    let entered = (word ^ EXTENSION) as usize;
    let before = u32::from(index.literals[entered].before);
    let first = entered as u16 - before as u16;
    let clause = index.clauses.binary_search(&first).expect("a clause begins there") as u32;
    engine::step::Step::Extension { clause, literal: before }.encode()
}
