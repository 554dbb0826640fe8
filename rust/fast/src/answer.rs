//! Counting and writing an answer.

use crate::index::{Index, Literal};
use crate::memory::{LINKS, SEEN, STARTS, Work, at, load, store};
use crate::tableau::{START, arguments};
use crate::terms::{Term, application, copy, equal, follow, is_application, place, term_at};
use crate::words::{NEGATIVE, arity};

pub struct Written {
    pub disjuncts: u32,
    pub words: usize,
}

/// Writes the answer, if it fits. Nothing is written before it has been counted, up to the buffer's length.
pub fn write(index: &Index, copies: u32, work: &mut Work, buffer: &mut [u32]) -> Option<Written> {
    let room = buffer.len();
    let disjuncts = disjuncts(index, copies, work);
    let variables = 16 * (copies as usize + 1);
    work[SEEN..][..variables].fill(0);
    Walk::over(index, work, disjuncts, room, |_, _| {})?;
    work[SEEN..][..variables].fill(0);
    Walk::over(index, work, disjuncts, room, |place, word| buffer[place] = word)
}

fn question<'a>(index: &'a Index) -> &'a [Literal] {
    &index.literals[index.clauses[index.clauses.len() - 1] as usize..]
}

/// The copies of the question that the answer names, a bit each: not those that equal an earlier one in every word.
fn disjuncts(index: &Index, copies: u32, work: &mut Work) -> u64 {
    let asked = u32::from(question(index)[0].clause);
    let mut disjuncts = 0;
    for copy in START..=copies {
        if load(work, STARTS + copy as usize) == asked {
            let repeated =
                (START..copy).any(|earlier| disjuncts >> earlier & 1 == 1 && same(index, work, earlier, copy));
            disjuncts |= u64::from(!repeated) << copy;
        }
    }
    disjuncts
}

fn same(index: &Index, work: &mut Work, one: u32, other: u32) -> bool {
    question(index).iter().all(|literal| {
        let count = literal.arity as usize;
        let [one, other] = [one, other].map(|copy| arguments(index, copy, literal));
        equal(index.body, work, &one[..count], &other[..count])
    })
}

struct Walk<'a, Emit> {
    index: &'a Index<'a>,
    work: &'a mut Work,
    room: usize,
    words: usize,
    variables: u32,
    emit: Emit,
}

impl<'a, Emit: FnMut(usize, u32)> Walk<'a, Emit> {
    /// Gives every word of the answer with its place, unless there are more than the room. No variable has been seen before.
    fn over(index: &'a Index, work: &'a mut Work, copies: u64, room: usize, emit: Emit) -> Option<Written> {
        let mut walk = Walk { index, work, room, words: 0, variables: 0, emit };
        for copy in (0..u64::BITS).filter(|&copy| copies >> copy & 1 == 1) {
            for literal in question(index) {
                walk.push(at(index.body, literal.place as usize) & !NEGATIVE)?;
                walk.terms(application(copy, literal.place as usize + 1), u32::from(literal.arity))?;
            }
        }
        Some(Written { disjuncts: copies.count_ones(), words: walk.words })
    }

    fn push(&mut self, word: u32) -> Option<()> {
        if self.words == self.room {
            return None;
        }
        (self.emit)(self.words, word);
        self.words += 1;
        Some(())
    }

    /// So many terms from this place on. Where a variable is bound, the way back is kept, at most once for each variable.
    fn terms(&mut self, from: Term, count: u32) -> Option<()> {
        let (mut here, mut owed, mut kept) = (from, count, 0);
        loop {
            while owed == 0 {
                if kept == 0 {
                    return Some(());
                }
                kept -= 2;
                here = load(self.work, LINKS + kept);
                owed = load(self.work, LINKS + kept + 1);
            }
            owed -= 1;
            let end = follow(self.work, term_at(self.index.body, copy(here), place(here)));
            here += 1;
            if !is_application(end) {
                let number = self.number(end as usize);
                self.push(number)?;
                continue;
            }
            let word = at(self.index.body, place(end));
            self.push(word)?;
            if end + 1 == here {
                owed += arity(word);
            } else {
                store(self.work, LINKS + kept, here);
                store(self.work, LINKS + kept + 1, owed);
                kept += 2;
                (here, owed) = (end + 1, arity(word));
            }
        }
    }

    fn number(&mut self, variable: usize) -> u32 {
        if load(self.work, SEEN + variable) == 0 {
            self.variables += 1;
            store(self.work, SEEN + variable, self.variables);
        }
        load(self.work, SEEN + variable) - 1
    }
}
