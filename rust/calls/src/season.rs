//! Order 13, by the engine's own searches.

use crate::buffers::{Buffers, hex, mark};
use crate::line::{ANSWER_ROOM, FILE_ROOM, Line, PROOF_ROOM, WORK_ROOM, length, words};
use crate::{Engine, Lent};
use engine::{Asker, Status};
use orders::season::{Asked, Season, season};

const ENTRIES_ROOM: usize = 16_400;
const LIST_ROOM: usize = 16_100;

pub fn respond(engine: &mut impl Engine, line: &Line) -> Option<String> {
    let (&[work, proof, answer], &[entries, list, table]) = (line.numbers.as_slice(), line.lists.as_slice()) else {
        return None;
    };
    let (entries, list, table) = (words(entries, ENTRIES_ROOM)?, words(list, LIST_ROOM)?, words(table, FILE_ROOM)?);
    let mut buffers =
        Buffers::filled(length(work, WORK_ROOM)?, length(proof, PROOF_ROOM)?, length(answer, ANSWER_ROOM)?);
    let asked = Asked { table: &table, entries: &entries, list: &list };
    let Lent { work, proof, answer } = buffers.lend();
    let report = season(asked, work, proof, answer, |file, bound, budget, work, proof, answer| {
        engine.search(Asker::BASE, file, bound, budget, Lent { work, proof, answer })
    });
    let intact = buffers.work_as_promised(report.status == Status::WorkTooShort as u32);
    let (proof, answer) = buffers.fronts();
    Some(format!("{} / {} / {}{}", numbers(&report), hex(proof), hex(answer), mark(intact)))
}

fn numbers(report: &Season) -> String {
    let Season { status, place, definite, indefinite, none, ran_out, too_long, refused, tries } = report;
    format!(
        "status {status} place {place} definite {definite} indefinite {indefinite} none {none} ranout {ran_out} \
         toolong {too_long} refused {refused} tries {tries}"
    )
}
