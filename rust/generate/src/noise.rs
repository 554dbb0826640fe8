//! Lines at the edge of what can be read, most of them beyond it.

use crate::lines::{Check, Search, Spelling, lookup};
use crate::random::Random;

const FIXED: [&str; 52] = [
    " ",
    "/",
    " / ",
    "-",
    "- / -",
    "lookup",
    "lookup ",
    "lookup 0",
    "lookup 0 ",
    "lookup 0 /",
    "lookup 0 / ",
    "lookup 0 /  -",
    "lookup 0  / -",
    "lookup  0 / -",
    " lookup 0 / -",
    "lookup 0 / - ",
    "lookup 0/ -",
    "lookup 0 /-",
    "lookup 0 / -\r",
    "lookup\t0 / -",
    "lookup / -",
    "lookup - / -",
    "lookup x / -",
    "lookup 0x1 / -",
    "lookup +1 / -",
    "lookup -1 / -",
    "lookup 1.0 / -",
    "lookup 0 0 / -",
    "lookup 4294967295 / -",
    "lookup 4294967296 / -",
    "lookup 04294967295 / -",
    "lookup 00000000000000000000000000 / -",
    "lookup 99999999999999999999999999 / -",
    "lookup 0 / - / -",
    "lookup 0 / - -",
    "lookup 0 / 1 -",
    "lookup 0 / 1  2",
    "lookup 0 / 1 2 ",
    "lookup 0 / 123456789",
    "lookup 0 / 000000001",
    "lookup 0 / 1G",
    "lookup 0 / 0x1",
    "lookup 0 / +1",
    "lookup 0 / 1,2",
    "lookup 0 / \u{e9}",
    "Lookup 0 / -",
    "LOOKUP 0 / -",
    "lookups 0 / -",
    "find 0 / -",
    "search 1 1 16384 199 / -",
    "search 1 1 16384 199 8 8 / -",
    "check 1 16384 8 / -",
];

/// Every fixed line, and each room asked for to the last word and one beyond.
pub fn all() -> Vec<String> {
    let mut lines: Vec<String> = FIXED.iter().map(|&line| line.to_owned()).collect();
    let search = Search::ordinary(&[], 1, 1);
    let check = Check::ordinary(&[], &[], 1);
    for (work, proof, answer) in [
        (20_000, 300, 20_000),
        (20_001, 300, 20_000),
        (20_000, 301, 20_000),
        (20_000, 300, 20_001),
        (4_294_967_295, 199, 8),
        (4_294_967_296, 199, 8),
    ] {
        lines.push(Search { work, proof, answer, ..search.clone() }.line(Spelling::Full));
        lines.push(Check { work, answer, ..check.clone() }.line(Spelling::Full));
    }
    for length in [1_024, 1_025] {
        lines.push(Check { offered: vec![1; length], ..check.clone() }.line(Spelling::Short));
    }
    for length in [16_100, 16_101] {
        lines.push(lookup(&vec![1; length], 0, Spelling::Short));
    }
    lines
}

/// One of the fixed lines, or a good line with one character changed.
pub fn any(random: &mut Random, good: &str) -> String {
    if random.once_in(3) {
        return random.pick(&FIXED).to_owned();
    }
    let mut characters: Vec<char> = good.chars().collect();
    let place = random.between(1, 60.min(characters.len() - 1));
    match random.below(3) {
        0 => {
            characters.remove(place);
        }
        1 => characters.insert(place, stray(random)),
        _ => characters[place] = stray(random),
    }
    characters.into_iter().collect()
}

fn stray(random: &mut Random) -> char {
    random.pick(&[' ', '/', '-', '0', '9', 'a', 'F', 'g', '#', '+', '.', '\t', '\r', 'x'])
}
