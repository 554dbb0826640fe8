//! The proved engine, its own text compiled by rustc, and the Rust engine written to be fast with and without bounds checks, side by side.
//! `timing texts` puts reading clause text beside Rust; `timing call SIDE QUESTION` makes one call, for counting its instructions; `timing questions` and `timing sides` list them;
//! `timing export DIRECTORY` writes each question as input of document 01's program, for measuring other builds by the same.

mod clock;
mod sides;
mod texts;
mod workloads;

use hukolearu::Outcome;
use sides::{Lent, SIDES, Side};
use std::io::Write;
use std::time::Duration;
use workloads::Workload;

const ROUNDS: usize = 60;
const ROUND: Duration = Duration::from_millis(10);

fn main() -> std::io::Result<()> {
    let arguments: Vec<String> = std::env::args().skip(1).collect();
    match arguments.iter().map(String::as_str).collect::<Vec<_>>().as_slice() {
        [] => show_all(),
        ["texts"] => texts::show(),
        ["sides"] => SIDES.iter().for_each(|side| println!("{}", side.name)),
        ["questions"] => workloads::all().iter().for_each(|workload| println!("{}", workload.name)),
        ["call", side, question] => call_once(side, question),
        ["export", directory] => export(directory)?,
        _ => eprintln!("usage: timing [texts | sides | questions | call SIDE QUESTION | export DIRECTORY]"),
    }
    Ok(())
}

fn show_all() {
    println!(
        "Best of {ROUNDS} rounds of at least {ROUND:?} of processor time, the sides taking turns. Tries a second in"
    );
    println!(
        "millions, or, where a call makes under ten tries, microseconds a call. The ratios are times: proved / other."
    );
    show("question", &workloads::main());
    show("growth", &workloads::growth());
}

fn show(title: &str, workloads: &[Workload]) {
    let names: Vec<&str> = SIDES.iter().map(|side| side.name).collect();
    println!("\n| {title} | tries | {} | / {} |", names.join(" | "), names[1..].join(" | / "));
    println!("{}|", "|---".repeat(1 + 2 * SIDES.len()));
    for workload in workloads {
        let tries = agreed_tries(workload);
        let times = best_times(workload);
        let speeds: Vec<String> = times.iter().map(|time| speed(*time, tries)).collect();
        let ratios: Vec<String> =
            times[1..].iter().map(|other| format!("{:.2}", times[0].as_secs_f64() / other.as_secs_f64())).collect();
        println!("| {} | {tries} | {} | {} |", workload.name, speeds.join(" | "), ratios.join(" | "));
    }
}

/// All sides give the same numbers and leave the same words in every buffer.
fn agreed_tries(workload: &Workload) -> u32 {
    let results: Vec<(Outcome, Lent)> = SIDES
        .iter()
        .map(|side| {
            let mut lent = Lent::new();
            (side.call(workload, &mut lent), lent)
        })
        .collect();
    assert!(results.iter().all(|result| *result == results[0]), "{}: the sides differ", workload.name);
    results[0].0.tries
}

/// The best of some rounds of each side, a call.
fn best_times(workload: &Workload) -> Vec<Duration> {
    let mut lent = Lent::new();
    let calls: Vec<u32> = SIDES.iter().map(|side| calls_a_round(*side, workload, &mut lent)).collect();
    let mut best = vec![Duration::MAX; SIDES.len()];
    for _ in 0..ROUNDS {
        for (number, side) in SIDES.iter().enumerate() {
            best[number] = best[number].min(time_of(*side, workload, calls[number], &mut lent) / calls[number]);
        }
    }
    best
}

fn calls_a_round(side: Side, workload: &Workload, lent: &mut Lent) -> u32 {
    let call = time_of(side, workload, 1, lent);
    (ROUND.as_nanos() / call.as_nanos().max(1)).clamp(1, 100_000) as u32
}

fn time_of(side: Side, workload: &Workload, calls: u32, lent: &mut Lent) -> Duration {
    let started = clock::processor_time();
    for _ in 0..calls {
        side.call(workload, lent);
    }
    clock::processor_time() - started
}

fn speed(call: Duration, tries: u32) -> String {
    let microseconds = call.as_secs_f64() * 1e6;
    if tries < 10 {
        return format!("{microseconds:.2} us");
    }
    format!("{:.2} M/s", f64::from(tries) / microseconds)
}

fn call_once(side: &str, question: &str) {
    let workloads = workloads::all();
    let workload = workloads.iter().find(|workload| workload.name == question).expect("a question listed");
    let side = SIDES.iter().find(|known| known.name == side).expect("a side of the table");
    println!("{:?}", side.call(workload, &mut Lent::new()));
}

fn export(directory: &str) -> std::io::Result<()> {
    for workload in workloads::all() {
        let name = workload.name.replace([' ', '='], "-");
        let mut file = std::fs::File::create(format!("{directory}/{name}.words"))?;
        for word in [workload.bound, workload.budget].iter().chain(&workload.file) {
            file.write_all(&word.to_le_bytes())?;
        }
    }
    Ok(())
}
