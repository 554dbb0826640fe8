//! Order 7: proofs that copy the question several times and clauses often, every refusal of the checker, listings that just fit and
//! are a byte too long.

use super::repeats::{Closed, closed};
use super::{out, room};
use crate::damage::damaged;
use crate::lines::{Check, Spelling};
use crate::random::Random;
use crate::{proofs, tables, work_room};
use engine::WORK_WORDS;
use engine::file::{read, write};
use orders::listing::listing;

const TEXT_ROOM: usize = 131_072;

fn line(check: &Check, text_room: usize, spelling: Spelling) -> String {
    let Check { bound, work, offered, file, .. } = check;
    format!("listing {bound} {work} {text_room} / {} / {}", spelling.words(offered), spelling.words(file))
}

fn needed(check: &Check) -> usize {
    let Check { bound, offered, file, .. } = check;
    listing(file, *bound, offered, &mut [0; WORK_WORDS], &mut [0; TEXT_ROOM]).bytes as usize
}

pub fn request(random: &mut Random, spelling: Spelling) -> String {
    let kind = random.pick(&[crate::check, copied_often, copied_often, wandering]);
    let mut check = kind(random);
    for _ in 0..random.pick(&[0, 2, 6]) {
        if needed(&check) > 0 {
            break;
        }
        check = kind(random);
    }
    if random.once_in(3) {
        rename(random, &mut check);
    }
    if random.once_in(12) {
        check.file = damaged(random, &check.file);
    }
    let text_room = room(random, needed(&check), TEXT_ROOM);
    line(&check, text_room, spelling)
}

fn copied_often(random: &mut Random) -> Check {
    let Closed { file, proof, bound, .. } = closed(random);
    Check::ordinary(&file, &proof, bound)
}

/// Steps that work on any table; they may stop with leaves open.
fn wandering(random: &mut Random) -> Check {
    let tables::Asked { table, bound } = tables::any(random);
    let offered = proofs::wandering(random, &table, bound);
    Check { work: work_room(random), ..Check::ordinary(&write(&table), &offered, bound) }
}

/// The same table in other numbers: its clauses are other texts, and the proof stays one.
fn rename(random: &mut Random, check: &mut Check) {
    if let Ok(read) = read(&check.file) {
        let mut table = read.table;
        out::rename(random, &mut table);
        check.file = write(&table);
    }
}

pub fn borders() -> Vec<String> {
    let file = |text: &str| write(&tables::written(text));
    let proof = [0x4000_0000, 0x4000_0001];
    let either = Check::ordinary(&file("at(e,mat) | at(e,eve)\n? at(e,X)"), &proof, 2);
    let bytes = needed(&either);
    let rooms = [0, 1, bytes - 1, bytes, bytes + 1, TEXT_ROOM, TEXT_ROOM + 1];
    let mut lines: Vec<String> = rooms.map(|room| line(&either, room, Spelling::Full)).to_vec();
    let mut add = |check: Check| {
        lines.push(line(&check, TEXT_ROOM, Spelling::Full));
        lines.push(line(&check, 0, Spelling::Full));
    };
    for work in [0, 16_383, 16_385, 20_000] {
        add(Check { work, ..either.clone() });
    }
    for bound in [0, 1, 32, 33, u32::MAX] {
        add(Check { bound, ..either.clone() });
    }
    for offered in
        [vec![], vec![0], vec![0x4000_0000], vec![1], vec![0x4000_0000, 1], vec![0x4000_0000, 0x4000_0001, 1]]
    {
        add(Check { offered, ..either.clone() });
    }
    for length in [1_024, 1_025] {
        add(Check { offered: vec![1; length], ..either.clone() });
    }
    add(Check { file: vec![], ..either.clone() });
    add(Check { file: either.file[1..].to_vec(), ..either.clone() });
    // A circle; and an answer of 2^30 words, which nobody asks for.
    add(Check::ordinary(&file("parent(X,mother(X))\n? parent(Y,Y)"), &[0x4000_0000], 1));
    let doubling = file("d(f(X,X),f(Y,Y)) | ~ d(X,Y)\nd(X,Y)\n? d(P,Q)");
    add(Check::ordinary(&doubling, &[vec![0x4000_0000; 31], vec![0x4000_0001]].concat(), 32));
    // The question copied 32 times beside the start, and the same fact three times.
    let question = file("p(X) | ~ q(X)\nq(X) | p(X)\n? p(Z)");
    let steps = [[0x4000_0000, 0x4000_0001, 0x4000_0002].repeat(10), vec![0x4000_0000, 0x4000_0001, 1]].concat();
    add(Check::ordinary(&question, &steps, 32));
    add(Check::ordinary(&file("p\nq\n? p, p, q, p"), &[0x4000_0000, 0x4000_0000, 0x4000_0001, 0x4000_0000], 9));
    lines
}
