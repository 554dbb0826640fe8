//! A tableau: its open leaves, and the steps that treat the leftmost of them.

use crate::Reading;
use crate::equations::{Equations, Mark, Node, Unequal};
use crate::list::List;
use crate::step::Step;
use crate::syntax::{Clause, Literal, Table};
use crate::word::Symbol;
use std::rc::Rc;

/// A literal of a copy.
pub struct Goal {
    pub negative: bool,
    pub predicate: Symbol,
    pub arguments: Vec<Node>,
}

/// The proper ancestors are on the branch, nearest first.
#[derive(Clone)]
struct Leaf {
    goal: Rc<Goal>,
    branch: List<Rc<Goal>>,
}

pub struct Tableau<'a> {
    table: &'a Table,
    bound: u32,
    reading: Reading,
    terms: Equations,
    open: List<Leaf>,
    extensions: u32,
    /// The copies of the question, the start first.
    questions: Vec<Vec<Rc<Goal>>>,
}

/// Why a step cannot be taken.
#[derive(Clone, Copy, Debug, PartialEq, Eq)]
pub enum Obstacle {
    NotAllowed,
    Unequal(Unequal),
}

/// A moment that `return_to` can return to.
pub struct Moment {
    terms: Mark,
    open: List<Leaf>,
    extensions: u32,
    questions: usize,
}

impl<'a> Tableau<'a> {
    /// By document 01's rules.
    pub fn start(table: &'a Table, bound: u32) -> Tableau<'a> {
        Tableau::read(table, bound, Reading::Base)
    }

    pub fn read(table: &'a Table, bound: u32, reading: Reading) -> Tableau<'a> {
        let mut tableau = Tableau {
            table,
            bound,
            reading,
            terms: Equations::default(),
            open: List::empty(),
            extensions: 0,
            questions: Vec::new(),
        };
        let goals = tableau.copy(table.question_number());
        tableau.hang(&goals, &List::empty());
        tableau
    }

    pub fn closed(&self) -> bool {
        self.open.split().is_none()
    }

    pub fn reading(&self) -> Reading {
        self.reading
    }

    pub fn questions(&self) -> &[Vec<Rc<Goal>>] {
        &self.questions
    }

    pub fn terms(&self) -> &Equations {
        &self.terms
    }

    pub fn moment(&self) -> Moment {
        Moment {
            terms: self.terms.mark(),
            open: self.open.clone(),
            extensions: self.extensions,
            questions: self.questions.len(),
        }
    }

    pub fn return_to(&mut self, moment: Moment) {
        self.terms.undo_to(moment.terms);
        self.open = moment.open;
        self.extensions = moment.extensions;
        self.questions.truncate(moment.questions);
    }

    /// The fitting steps at the leftmost open leaf, in the stated order.
    pub fn candidates(&self) -> Vec<Step> {
        let Some((leaf, _)) = self.open.split() else {
            return Vec::new();
        };
        let reductions = (1..).zip(leaf.branch.iter()).filter(|(_, ancestor)| leaf.goal.fits_goal(ancestor));
        let reductions = reductions.map(|(height, _)| Step::Reduction { height });
        if self.extensions == self.bound {
            return reductions.collect();
        }
        if self.restarts(&leaf.goal) {
            return reductions.chain([Step::Restart]).collect();
        }
        reductions.chain(self.fitting_extensions(&leaf.goal)).collect()
    }

    /// Takes the step at the leftmost open leaf. A step that fails may leave terms behind: the caller returns to an earlier moment.
    pub fn perform(&mut self, step: Step) -> Result<(), Obstacle> {
        let open = self.open.clone();
        let (leaf, rest) = open.split().ok_or(Obstacle::NotAllowed)?;
        match step {
            Step::Reduction { height } => self.reduce(leaf, rest, height as usize),
            Step::Extension { clause, literal } => self.extend(leaf, rest, clause as usize, literal as usize),
            Step::Restart => self.restart(leaf, rest),
        }
    }

    /// Whether such a leaf is restarted where it is not reduced, and never extended.
    fn restarts(&self, goal: &Goal) -> bool {
        self.reading == Reading::Restart && !goal.negative
    }

    fn reduce(&mut self, leaf: &Leaf, rest: &List<Leaf>, height: usize) -> Result<(), Obstacle> {
        let ancestor = leaf.branch.iter().nth(height - 1).ok_or(Obstacle::NotAllowed)?;
        if !leaf.goal.fits_goal(ancestor) {
            return Err(Obstacle::NotAllowed);
        }
        self.open = rest.clone();
        self.close(&leaf.goal, ancestor)
    }

    fn extend(&mut self, leaf: &Leaf, rest: &List<Leaf>, clause: usize, literal: usize) -> Result<(), Obstacle> {
        let entered = self.table.clauses.get(clause).and_then(|clause| clause.literals.get(literal));
        let entered = entered.ok_or(Obstacle::NotAllowed)?;
        if self.extensions == self.bound || self.restarts(&leaf.goal) || !leaf.goal.fits(entered) {
            return Err(Obstacle::NotAllowed);
        }
        self.extensions += 1;
        let mut goals = self.copy(clause);
        let entered = goals.remove(literal);
        self.open = rest.clone();
        self.hang(&goals, &leaf.branch.with(leaf.goal.clone()));
        self.close(&leaf.goal, &entered)
    }

    /// A fresh copy of the question hangs under the leaf with all its literals open.
    fn restart(&mut self, leaf: &Leaf, rest: &List<Leaf>) -> Result<(), Obstacle> {
        if self.extensions == self.bound || !self.restarts(&leaf.goal) {
            return Err(Obstacle::NotAllowed);
        }
        self.extensions += 1;
        let goals = self.copy(self.table.question_number());
        self.open = rest.clone();
        self.hang(&goals, &leaf.branch.with(leaf.goal.clone()));
        Ok(())
    }

    fn close(&mut self, left: &Goal, right: &Goal) -> Result<(), Obstacle> {
        let pairs = left.arguments.iter().copied().zip(right.arguments.iter().copied());
        self.terms.equate(pairs).map_err(Obstacle::Unequal)
    }

    /// Puts the goals before the older open leaves.
    fn hang(&mut self, goals: &[Rc<Goal>], branch: &List<Rc<Goal>>) {
        for goal in goals.iter().rev() {
            self.open = self.open.with(Leaf { goal: goal.clone(), branch: branch.clone() });
        }
    }

    fn copy(&mut self, number: usize) -> Vec<Rc<Goal>> {
        let goals = self.fresh_goals(&self.table.clauses[number]);
        if number == self.table.question_number() {
            self.questions.push(goals.clone());
        }
        goals
    }

    fn fresh_goals(&mut self, clause: &Clause) -> Vec<Rc<Goal>> {
        let variables = self.terms.fresh_variables(clause.variables);
        let goal = |literal: &Literal| {
            Rc::new(Goal {
                negative: literal.negative,
                predicate: literal.predicate,
                arguments: literal.arguments.iter().map(|term| self.terms.add_term(term, &variables)).collect(),
            })
        };
        clause.literals.iter().map(goal).collect()
    }

    fn fitting_extensions(&self, goal: &Goal) -> impl Iterator<Item = Step> {
        (0..).zip(&self.table.clauses).flat_map(move |(clause, words)| {
            let fitting = (0..).zip(&words.literals).filter(|(_, entered)| goal.fits(entered));
            fitting.map(move |(literal, _)| Step::Extension { clause, literal })
        })
    }
}

impl Goal {
    fn fits(&self, literal: &Literal) -> bool {
        self.negative != literal.negative && self.predicate == literal.predicate
    }

    fn fits_goal(&self, goal: &Goal) -> bool {
        self.negative != goal.negative && self.predicate == goal.predicate
    }
}
