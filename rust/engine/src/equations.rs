//! The terms of all copies, and which of them have been made equal.
//!
//! Nodes that are equal form a class (union-find with undo). A class that holds an application
//! shows one at its root; a class of variables alone is still free. Two applications join their classes when their
//! arguments have been made equal, so a pair is looked into once; whatever the terms, making two equal costs at most one
//! merge for each node, and one walk through the nodes for each variable that meets an application.

use crate::syntax::Term;
use crate::word::Symbol;
use std::collections::HashSet;

#[derive(Clone, Copy, Debug, PartialEq, Eq, Hash)]
pub struct Node(usize);

#[derive(Clone, Debug)]
pub enum Shape {
    Free,
    Application(Symbol, Vec<Node>),
}

#[derive(Default)]
pub struct Equations {
    shapes: Vec<Shape>,
    parents: Vec<Node>,
    sizes: Vec<usize>,
    /// Roots that were hung under another root, oldest first.
    merged: Vec<Node>,
}

/// A moment that `undo_to` can return to.
#[derive(Clone, Copy)]
pub struct Mark {
    nodes: usize,
    merges: usize,
}

/// Why finite terms cannot make a pair equal.
#[derive(Clone, Copy, Debug, PartialEq, Eq)]
pub enum Unequal {
    /// Two different symbols, or arities.
    Clash,
    /// A variable against a larger term that holds it.
    Circle,
}

enum Task {
    Compare(Node, Node),
    /// Two applications whose arguments are now equal.
    Join(Node, Node),
}

impl Equations {
    pub fn fresh_variables(&mut self, count: u32) -> Vec<Node> {
        (0..count).map(|_| self.add(Shape::Free)).collect()
    }

    /// Adds a clause's term, with these nodes for its variables.
    pub fn add_term(&mut self, term: &Term, variables: &[Node]) -> Node {
        match term {
            Term::Variable(number) => variables[*number as usize],
            Term::Application(symbol, arguments) => {
                let arguments = arguments.iter().map(|argument| self.add_term(argument, variables)).collect();
                self.add(Shape::Application(*symbol, arguments))
            }
        }
    }

    /// The node that stands for the class, with what is known of the class.
    pub fn look_up(&self, node: Node) -> (Node, &Shape) {
        let root = self.root(node);
        (root, &self.shapes[root.0])
    }

    pub fn mark(&self) -> Mark {
        Mark { nodes: self.shapes.len(), merges: self.merged.len() }
    }

    pub fn undo_to(&mut self, mark: Mark) {
        for child in self.merged.drain(mark.merges..).rev() {
            let parent = self.parents[child.0];
            self.sizes[parent.0] -= self.sizes[child.0];
            self.parents[child.0] = child;
        }
        self.shapes.truncate(mark.nodes);
        self.parents.truncate(mark.nodes);
        self.sizes.truncate(mark.nodes);
    }

    /// Makes the pairs equal beside everything made equal before, from left to right and depth first, or says what is wrong
    /// with the first pair that cannot be. The caller then returns to an earlier moment.
    pub fn equate(&mut self, pairs: impl DoubleEndedIterator<Item = (Node, Node)>) -> Result<(), Unequal> {
        let mut tasks: Vec<Task> = pairs.rev().map(|(left, right)| Task::Compare(left, right)).collect();
        while let Some(task) = tasks.pop() {
            match task {
                Task::Join(left, right) => self.merge(self.root(left), self.root(right)),
                Task::Compare(left, right) => self.compare(self.root(left), self.root(right), &mut tasks)?,
            }
        }
        Ok(())
    }

    fn compare(&mut self, left: Node, right: Node, tasks: &mut Vec<Task>) -> Result<(), Unequal> {
        if left == right {
            return Ok(());
        }
        match (&self.shapes[left.0], &self.shapes[right.0]) {
            (Shape::Application(f, xs), Shape::Application(g, ys)) => {
                if f != g {
                    return Err(Unequal::Clash);
                }
                tasks.push(Task::Join(left, right));
                tasks.extend(xs.iter().zip(ys).rev().map(|(&x, &y)| Task::Compare(x, y)));
                return Ok(());
            }
            (Shape::Free, Shape::Application(..)) if self.holds(right, left) => return Err(Unequal::Circle),
            (Shape::Application(..), Shape::Free) if self.holds(left, right) => return Err(Unequal::Circle),
            _ => {}
        }
        self.merge(left, right);
        Ok(())
    }

    fn add(&mut self, shape: Shape) -> Node {
        let node = Node(self.shapes.len());
        self.shapes.push(shape);
        self.parents.push(node);
        self.sizes.push(1);
        node
    }

    fn root(&self, mut node: Node) -> Node {
        while self.parents[node.0] != node {
            node = self.parents[node.0];
        }
        node
    }

    fn merge(&mut self, left: Node, right: Node) {
        let (child, root) = if self.outranks(left, right) { (right, left) } else { (left, right) };
        self.parents[child.0] = root;
        self.sizes[root.0] += self.sizes[child.0];
        self.merged.push(child);
    }

    /// Applications before variables, then the larger class, so that paths to a root stay short.
    fn outranks(&self, left: Node, right: Node) -> bool {
        let rank = |node: Node| (matches!(self.shapes[node.0], Shape::Application(..)), self.sizes[node.0]);
        rank(left) > rank(right)
    }

    /// Whether the variable's class is within the term's.
    fn holds(&self, term: Node, variable: Node) -> bool {
        let mut seen = HashSet::new();
        let mut pending = vec![term];
        while let Some(node) = pending.pop() {
            let (root, shape) = self.look_up(node);
            if root == variable {
                return true;
            }
            if let Shape::Application(_, arguments) = shape
                && seen.insert(root)
            {
                pending.extend(arguments);
            }
        }
        false
    }
}
