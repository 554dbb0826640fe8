//! Order 14: both slots stated, either beside a stated one, the same record twice, other days and houses, the borders of every range,
//! budgets just enough and one short.

use crate::lines::Spelling;
use crate::random::Random;
use orders::desk::{Desk, Record, Slot, ask};

const SLOTS: [Slot; 3] = [Slot::Matinee, Slot::Evening, Slot::Either];

fn line(records: &[Record], day: u32, house: u32, [first, second, third]: [u32; 3]) -> String {
    let letter = |slot| match slot {
        Slot::Matinee => 'm',
        Slot::Evening => 'e',
        Slot::Either => 'x',
        Slot::Unknown => '?',
    };
    let text: Vec<String> =
        records.iter().map(|record| format!("{}:{}:{}", record.day, record.house, letter(record.slot))).collect();
    let text = if text.is_empty() { "-".to_owned() } else { text.join(" ") };
    format!("desk {first} {second} {third} {day} {house} / {text}")
}

pub fn request(random: &mut Random, _: Spelling) -> String {
    let days: Vec<u32> = (0..random.between(1, 3)).map(|_| random.between(1, 366) as u32).collect();
    let houses: Vec<u32> = (0..random.between(1, 3)).map(|_| random.between(1, 999) as u32).collect();
    let most = random.pick(&[0, 1, 2, 3, 5, 8, 30]);
    let open = random.once_in(3);
    let mut records: Vec<Record> = (0..random.between(0, most))
        .map(|_| {
            let slot = if open { Slot::Either } else { random.pick(&SLOTS) };
            Record { day: random.pick(&days), house: random.pick(&houses), slot }
        })
        .collect();
    let (mut day, mut house) = (random.pick(&days), random.pick(&houses));
    match random.below(40) {
        0 => day = random.pick(&[0, 1, 366, 367, u32::MAX]),
        1 => house = random.pick(&[0, 1, 999, 1_000, u32::MAX]),
        2 => records.push(Record { day: random.pick(&[0, 1, 366, 367]), house, slot: Slot::Either }),
        3 => records.push(Record { day, house: random.pick(&[0, 1, 999, 1_000]), slot: Slot::Either }),
        4 => records.push(Record { day, house, slot: Slot::Unknown }),
        _ => {}
    }
    let budgets = budgets(random, &records, day, house);
    line(&records, day, house, budgets)
}

/// For each question the least budget that it does not end, one less, or ample.
fn budgets(random: &mut Random, records: &[Record], day: u32, house: u32) -> [u32; 3] {
    let mut budgets = [u32::MAX; 3];
    for question in 0..3 {
        let ends = |budget: u32| {
            let mut tried = [u32::MAX; 3];
            tried[question] = budget;
            ask(records, day, house, tried) == Desk::RanOut
        };
        let enough = (0..4_000).find(|&budget| !ends(budget)).expect("4,000 tries are enough");
        budgets[question] = random.pick(&[enough, enough, enough, enough.saturating_sub(1), enough + 1, u32::MAX]);
    }
    budgets
}

pub fn borders() -> Vec<String> {
    const AMPLE: [u32; 3] = [u32::MAX; 3];
    let at = |day, house, slot| Record { day, house, slot };
    let mut lines = vec![line(&[], 1, 1, AMPLE), line(&[], 1, 1, [0; 3])];
    for (day, house) in [(0, 1), (1, 0), (1, 1), (366, 999), (367, 999), (366, 1_000), (u32::MAX, u32::MAX)] {
        lines.push(line(&[], day, house, AMPLE));
        for slot in [Slot::Matinee, Slot::Evening, Slot::Either, Slot::Unknown] {
            lines.push(line(&[at(day, house, slot)], 1, 1, AMPLE));
            lines.push(line(&[at(day, house, slot)], 366, 999, AMPLE));
        }
    }
    for count in [499, 500, 501, 600, 601] {
        for slot in SLOTS {
            lines.push(line(&vec![at(7, 7, slot); count], 7, 7, AMPLE));
            lines.push(line(&vec![at(7, 7, slot); count], 7, 8, [2_000; 3]));
        }
    }
    lines
}
