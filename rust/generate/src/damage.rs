//! Files with something wrong in them.

use crate::random::Random;
use engine::file::{TRAILER, fingerprint};

/// Of a clause word.
pub const RESTRICTED: u32 = 1 << 16;

/// A damaged file. Mostly its trailer is mended afterwards, in part or as far as the clause words tell.
pub fn damaged(random: &mut Random, file: &[u32]) -> Vec<u32> {
    let mut file = file.to_vec();
    match random.below(10) {
        0 | 1 => damage_trailer(random, &mut file),
        2 => ask_positively(random, &mut file),
        3 if random.once_in(2) => restrict_question(random, &mut file),
        _ => damage_and_mend(random, &mut file),
    }
    file
}

fn damage_and_mend(random: &mut Random, file: &mut Vec<u32>) {
    for _ in 0..random.pick(&[1, 1, 1, 2, 3]) {
        damage(random, file);
    }
    if file.len() > TRAILER {
        match random.below(8) {
            0 => {}
            1 => mend_length(file),
            2 => mend_fingerprint(file),
            _ => mend_all(file),
        }
    }
}

/// Turns the sign of one of the question's literals.
fn ask_positively(random: &mut Random, file: &mut [u32]) {
    let body = file.len() - TRAILER;
    let question = file[body] as usize;
    let literals: Vec<usize> = (question..body).filter(|&place| file[place] >> 30 == 2).collect();
    file[random.pick(&literals)] ^= 1 << 15;
    mend_fingerprint(file);
}

/// Marks the question as restricted, at times one that is wrong already.
fn restrict_question(random: &mut Random, file: &mut [u32]) {
    if random.once_in(4) {
        ask_positively(random, file);
    }
    let question = file[file.len() - TRAILER] as usize;
    file[question] |= RESTRICTED;
    mend_fingerprint(file);
}

fn damage(random: &mut Random, file: &mut Vec<u32>) {
    if file.is_empty() {
        return file.push(random.word());
    }
    let place = random.below(file.len());
    match random.below(10) {
        0 => file[place] ^= 1 << random.below(32),
        1 => file[place] = strange_word(random),
        2 => {
            file.remove(place);
        }
        3 => file.insert(place, strange_word(random)),
        4 => file.truncate(place),
        5 => file.extend_from_within(place..),
        6 => {
            let other = random.below(file.len());
            file.swap(place, other);
        }
        _ => change_field(random, &mut file[place]),
    }
}

/// One up or one down in a field of a word, so that counts and lengths are nearly right.
fn change_field(random: &mut Random, word: &mut u32) {
    let field = match *word >> 30 {
        0 => 0,
        1 => random.pick(&[0, 12]),
        2 => random.pick(&[0, 12, 15]),
        _ => random.pick(&[0, 3, 8, 8, 16, 17]),
    };
    let one = 1 << field;
    *word = if random.once_in(2) { word.wrapping_add(one) } else { word.wrapping_sub(one) };
}

fn strange_word(random: &mut Random) -> u32 {
    let near = random.below(4) as u32;
    let base = random.pick(&[
        0,
        0x0000_03FE,
        0x0000_000E,
        0x4000_0000,
        0x4000_3FFE,
        0x4000_4FFE,
        0x4000_5000,
        0x8000_0000,
        0x8000_4000,
        0x8000_5000,
        0x8000_C000,
        0xC000_0101,
        0xC000_0100,
        0xC000_0181,
        0xC000_0189,
        0xC000_0000,
        0xC000_FF01,
        0xC001_0101,
        0xC002_0101,
        0xFFFF_FFFC,
    ]);
    if random.once_in(6) { random.word() } else { base + near }
}

fn damage_trailer(random: &mut Random, file: &mut [u32]) {
    if file.len() < TRAILER {
        return;
    }
    let place = file.len() - 1 - random.below(TRAILER);
    let word = file[place];
    file[place] = random.pick(&[0, 1, word.wrapping_sub(1), word.wrapping_add(1), 512, 513, u32::MAX]);
}

fn mend_length(file: &mut [u32]) {
    let end = file.len();
    file[end - 1] = (end - TRAILER) as u32;
}

fn mend_fingerprint(file: &mut [u32]) {
    let end = file.len();
    file[end - 2] = fingerprint(&file[..end - TRAILER]);
}

pub fn mend_all(file: &mut [u32]) {
    let body = file.len() - TRAILER;
    let (mut start, mut last, mut count) = (0, 0, 0);
    while start < body {
        last = start;
        count += 1;
        start += 1 + (file[start] >> 8 & 255) as usize;
    }
    file[body] = last as u32;
    file[body + 1] = count;
    mend_length(file);
    mend_fingerprint(file);
}
