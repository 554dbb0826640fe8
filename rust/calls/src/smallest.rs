//! Order 6: bounds 0, 1, 2 up to a limit with one budget for all, by the engine's own searches.

use crate::line::Line;
use crate::{Engine, Lent, base};
use engine::{Asker, LARGEST_BOUND, Report, Status};

pub fn respond(engine: &mut impl Engine, line: &Line) -> Option<String> {
    let mut bound = 0;
    let outcome = base::searched(line, |file, limit, budget, lent| {
        let found = smallest(engine, file, limit, budget, lent);
        bound = found.bound;
        found.report
    })?;
    Some(format!("bound {bound} {outcome}"))
}

struct Smallest {
    bound: u32,
    report: Report,
}

fn smallest(engine: &mut impl Engine, file: &[u32], limit: u32, budget: u32, lent: Lent) -> Smallest {
    let Lent { work, proof, answer } = lent;
    let first = if limit > LARGEST_BOUND { limit } else { 0 };
    let mut used = 0;
    for bound in first..=limit {
        let report = engine.search(Asker::BASE, file, bound, budget - used, Lent { work, proof, answer });
        match report.status {
            Status::NoProof => used += report.tries,
            Status::RanOut => return Smallest { bound: 0, report: Report { tries: budget, ..report } },
            Status::Proved | Status::AnswerTooLong => {
                return Smallest { bound, report: Report { tries: used + report.tries, ..report } };
            }
            _ => return Smallest { bound: 0, report },
        }
    }
    Smallest { bound: 0, report: Report { tries: used, ..Report::of(Status::NoProof) } }
}
