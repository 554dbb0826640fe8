//! Requests for the calls of document 02, a module for each.

mod circles;
mod desk;
mod education;
mod listing;
mod out;
mod repeats;
mod restart;
mod season;
mod slim;
mod smallest;
mod tptp;

use crate::lines::Spelling;
use crate::random::Random;

type Kind = fn(&mut Random, Spelling) -> String;

const KINDS: &[Kind] = &[
    circles::request,
    desk::request,
    education::request,
    education::request,
    listing::request,
    out::request,
    repeats::request,
    restart::request,
    restart::request,
    restart::request,
    season::request,
    slim::request,
    smallest::request,
    tptp::request,
];

pub fn any(random: &mut Random, spelling: Spelling) -> String {
    random.pick(KINDS)(random, spelling)
}

pub fn borders() -> Vec<String> {
    [
        circles::borders(),
        desk::borders(),
        education::borders(),
        listing::borders(),
        out::borders(),
        repeats::borders(),
        restart::borders(),
        season::borders(),
        slim::borders(),
        smallest::borders(),
        tptp::borders(),
    ]
    .concat()
}

/// A length at, just below or just above what is needed, or ample.
fn room(random: &mut Random, needed: usize, most: usize) -> usize {
    random.pick(&[needed, needed, needed.saturating_sub(1), needed + 1, 0, most, most]).min(most)
}
