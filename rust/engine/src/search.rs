//! Depth first through the candidates, in the stated order.

use crate::step::Step;
use crate::tableau::Tableau;

pub struct Search<'a> {
    pub tableau: Tableau<'a>,
    pub steps: Vec<Step>,
    pub tries: u32,
    budget: u32,
}

#[derive(Clone, Copy, Debug, PartialEq, Eq)]
pub enum End {
    Found,
    NoProof,
    RanOut,
}

impl<'a> Search<'a> {
    pub fn new(tableau: Tableau<'a>, budget: u32) -> Search<'a> {
        Search { tableau, steps: Vec::new(), tries: 0, budget }
    }

    /// Closes the open leaves. After `Found`, the tableau and the steps are those of the proof.
    pub fn run(&mut self) -> End {
        if self.tableau.closed() {
            return End::Found;
        }
        for step in self.tableau.candidates() {
            if self.tries == self.budget {
                return End::RanOut;
            }
            self.tries += 1;
            match self.attempt(step) {
                End::NoProof => {}
                end => return end,
            }
        }
        End::NoProof
    }

    fn attempt(&mut self, step: Step) -> End {
        let before = self.tableau.moment();
        if self.tableau.perform(step).is_ok() {
            self.steps.push(step);
            match self.run() {
                End::NoProof => self.steps.truncate(self.steps.len() - 1),
                end => return end,
            }
        }
        self.tableau.return_to(before);
        End::NoProof
    }
}
