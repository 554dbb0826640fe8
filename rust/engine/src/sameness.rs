//! Terms numbered so that two are equal in every word exactly when their numbers are. A class is looked into once, however often
//! it stands in a term, so terms too long to be written out are numbered too.

use crate::equations::{Equations, Node, Shape};
use crate::word::Symbol;
use std::collections::HashMap;

pub struct Sameness<'a> {
    terms: &'a Equations,
    /// The number of each class looked into so far.
    classes: HashMap<Node, usize>,
    /// The number of each application, by its symbol and its arguments' numbers.
    applications: HashMap<(Symbol, Vec<usize>), usize>,
}

impl<'a> Sameness<'a> {
    pub fn of(terms: &'a Equations) -> Sameness<'a> {
        Sameness { terms, classes: HashMap::new(), applications: HashMap::new() }
    }

    pub fn number(&mut self, term: Node) -> usize {
        let mut pending = vec![term];
        while let Some(&node) = pending.last() {
            let (class, shape) = self.terms.look_up(node);
            let unknown = match shape {
                Shape::Application(_, arguments) => {
                    arguments.iter().filter(|&&node| self.known(node).is_none()).collect()
                }
                Shape::Free => Vec::new(),
            };
            if unknown.is_empty() {
                pending.pop();
                self.settle(class, shape);
            }
            pending.extend(unknown);
        }
        self.known(term).expect("the last that was settled")
    }

    fn known(&self, node: Node) -> Option<usize> {
        self.classes.get(&self.terms.look_up(node).0).copied()
    }

    /// Numbers a class whose arguments have their numbers.
    fn settle(&mut self, class: Node, shape: &Shape) {
        // A number for each class that was settled before: none of them is this one.
        let next = self.classes.len();
        let number = match shape {
            Shape::Free => next,
            Shape::Application(symbol, arguments) => {
                let arguments = arguments.iter().map(|&node| self.known(node).expect("settled before")).collect();
                *self.applications.entry((*symbol, arguments)).or_insert(next)
            }
        };
        self.classes.entry(class).or_insert(number);
    }
}
