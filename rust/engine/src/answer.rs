//! The answer of a closed tableau.

use crate::equations::{Node, Shape};
use crate::sameness::Sameness;
use crate::tableau::{Goal, Tableau};
use crate::word::{self, Word};
use std::collections::{HashMap, HashSet};
use std::rc::Rc;

pub struct Answer {
    pub disjuncts: usize,
    pub words: Vec<u32>,
}

/// The answer, unless it has more words than the room given. No more than the room is ever written out,
/// however large the terms are.
pub fn answer(tableau: &Tableau, room: usize) -> Option<Answer> {
    let mut writer = Writer { tableau, room, words: Vec::new(), names: HashMap::new() };
    let disjuncts = disjuncts(tableau);
    for goal in disjuncts.iter().flat_map(|goals| goals.iter()) {
        writer.push(Word::Literal { predicate: goal.predicate, negative: false })?;
        writer.terms(&goal.arguments)?;
    }
    Some(Answer { disjuncts: disjuncts.len(), words: writer.words })
}

/// The copies of the question, those that are equal in every word at the first place alone.
fn disjuncts<'a>(tableau: &'a Tableau) -> Vec<&'a [Rc<Goal>]> {
    let mut sameness = Sameness::of(tableau.terms());
    let mut met = HashSet::new();
    let mut first = |goals: &&[Rc<Goal>]| {
        let terms = goals.iter().flat_map(|goal| &goal.arguments);
        met.insert(terms.map(|&term| sameness.number(term)).collect::<Vec<usize>>())
    };
    tableau.questions().iter().map(Vec::as_slice).filter(&mut first).collect()
}

struct Writer<'a> {
    tableau: &'a Tableau<'a>,
    room: usize,
    words: Vec<u32>,
    /// The number of each free class met so far.
    names: HashMap<Node, u32>,
}

impl Writer<'_> {
    fn terms(&mut self, terms: &[Node]) -> Option<()> {
        let mut pending: Vec<Node> = terms.iter().rev().copied().collect();
        while let Some(node) = pending.pop() {
            match self.tableau.terms().look_up(node) {
                (class, Shape::Free) => {
                    let next = self.names.len() as u32;
                    let number = *self.names.entry(class).or_insert(next);
                    self.push(Word::Variable(number))?;
                }
                (_, Shape::Application(symbol, arguments)) => {
                    self.push(Word::Function(*symbol))?;
                    pending.extend(arguments.iter().rev());
                }
            }
        }
        Some(())
    }

    fn push(&mut self, word: Word) -> Option<()> {
        if self.words.len() == self.room {
            return None;
        }
        self.words.push(word::encode(word));
        Some(())
    }
}
