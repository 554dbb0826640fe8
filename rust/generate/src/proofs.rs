//! Proofs to offer to the checker.

use crate::random::Random;
use engine::Reading;
use engine::step::Step;
use engine::syntax::Table;
use engine::tableau::Tableau;

/// A proof made by taking any step that works, whatever the search would take. It may stop with leaves open.
pub fn wandering(random: &mut Random, table: &Table, bound: u32) -> Vec<u32> {
    wandering_by(Reading::Base, random, table, bound)
}

pub fn wandering_by(reading: Reading, random: &mut Random, table: &Table, bound: u32) -> Vec<u32> {
    let mut tableau = Tableau::read(table, bound, reading);
    let mut steps = Vec::new();
    while let Some(step) = working_step(random, &mut tableau) {
        steps.push(step.encode());
    }
    steps
}

/// Steps that work, then one that fits but does not unify, if one is met.
pub fn failing(random: &mut Random, table: &Table, bound: u32) -> Vec<u32> {
    failing_by(Reading::Base, random, table, bound)
}

pub fn failing_by(reading: Reading, random: &mut Random, table: &Table, bound: u32) -> Vec<u32> {
    let mut tableau = Tableau::read(table, bound, reading);
    let mut steps = Vec::new();
    loop {
        let failing = tableau.candidates().into_iter().find(|&step| !works(&mut tableau, step));
        if let Some(step) = failing.filter(|_| !random.once_in(4)) {
            steps.push(step.encode());
            return steps;
        }
        let Some(step) = working_step(random, &mut tableau) else {
            return steps;
        };
        steps.push(step.encode());
    }
}

fn works(tableau: &mut Tableau, step: Step) -> bool {
    let before = tableau.moment();
    let works = tableau.perform(step).is_ok();
    tableau.return_to(before);
    works
}

fn working_step(random: &mut Random, tableau: &mut Tableau) -> Option<Step> {
    let mut candidates = tableau.candidates();
    while !candidates.is_empty() {
        let choice = if random.once_in(2) { 0 } else { random.below(candidates.len()) };
        let step = candidates.remove(choice);
        if works(tableau, step) {
            tableau.perform(step).expect("a step that works");
            return Some(step);
        }
    }
    None
}

/// The proof with something done to it.
pub fn altered(random: &mut Random, proof: &[u32]) -> Vec<u32> {
    let mut proof = proof.to_vec();
    let place = random.below(proof.len() + 1);
    match random.below(9) {
        0 => proof.truncate(place),
        1 => proof.insert(place, step(random)),
        2 => proof.extend((0..random.between(1, 3)).map(|_| step(random))),
        3 => proof.insert(place, malformed(random)),
        4 if place < proof.len() => {
            proof.remove(place);
        }
        5 if place + 1 < proof.len() => proof.swap(place, place + 1),
        6 if place < proof.len() => proof[place] ^= 1 << random.below(32),
        7 if place < proof.len() => proof[place] = proof[place].wrapping_add(random.pick(&[1, 512, u32::MAX])),
        _ if place < proof.len() => proof[place] = step(random),
        _ => proof.push(step(random)),
    }
    proof
}

pub fn random_steps(random: &mut Random) -> Vec<u32> {
    (0..random.below(6)).map(|_| step(random)).collect()
}

/// Steps that are mostly near to something possible.
fn step(random: &mut Random) -> u32 {
    match random.below(12) {
        0..=4 => random.between(1, 4) as u32,
        5..=9 => 0x4000_0000 | (random.below(3) as u32) << 9 | random.below(6) as u32,
        10 => random.pick(&[63, 33, 32, 0x4000_0E00, 0x4000_01FF, 0x4000_0FFF]),
        _ => malformed(random),
    }
}

fn malformed(random: &mut Random) -> u32 {
    random.pick(&[0, 64, 65, 0x0000_8001, 0x4000_1000, 0x6000_0000, 0x8000_0000, 0x8000_0001, 0xC000_0000, u32::MAX])
}
