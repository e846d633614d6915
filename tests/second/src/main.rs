//! Drives the second version and the real library through the same random calls and compares, after
//! every call, every answer field, every record word and every buffer word.
//!
//! KT_SEED and KT_CALLS set the seed and the least number of calls. The run ends with a failure at
//! the first difference, and also if something that can happen was never seen.

mod arbitrary;
mod bridge;
mod by_hand;
mod call;
mod damage;
mod demand3;
mod faults;
mod groups;
mod histories;
mod long_walks;
mod model;
mod numbers;
mod pair;
mod random;
mod sound;
mod tally;

use pair::Pair;
use random::Random;
use std::process::ExitCode;
use std::time::Instant;

const DEFAULT_SEED: u64 = 20_260_101;
const DEFAULT_CALLS: u64 = 6_000_000;

type Work = fn(&mut Pair, &mut Random);

/// The kinds of work in the order of `tally::WORK_NAMES`, each with its share of the calls in
/// thousandths.
const WORK: [(Work, u64); tally::WORK_NAMES.len()] = [
    (histories::run_small, 469),
    (histories::run_big, 1),
    (arbitrary::run, 300),
    (damage::run, 80),
    (demand3::run, 150),
];

fn main() -> ExitCode {
    let seed = number_from_environment("KT_SEED", DEFAULT_SEED);
    let calls = number_from_environment("KT_CALLS", DEFAULT_CALLS);
    println!("seed {seed}, at least {calls} calls");
    let begun = Instant::now();
    let mut pair = Pair::default();
    by_hand::by_hand(&mut pair);
    let mut random = Random::new(seed);
    while pair.tally.calls < calls {
        run_next_work(&mut pair, &mut random);
    }
    print!("{}", pair.tally.table());
    println!("differences: 0");
    println!("seconds: {:.1}", begun.elapsed().as_secs_f64());
    let missing = pair.tally.never_seen();
    for what in &missing {
        println!("NEVER SEEN: {what}");
    }
    if missing.is_empty() {
        ExitCode::SUCCESS
    } else {
        ExitCode::FAILURE
    }
}

fn number_from_environment(name: &str, otherwise: u64) -> u64 {
    match std::env::var(name) {
        Ok(text) => text
            .parse()
            .unwrap_or_else(|_| panic!("{name} must be a number, not {text}")),
        Err(_) => otherwise,
    }
}

/// Runs the kind of work that is farthest behind its share.
fn run_next_work(pair: &mut Pair, random: &mut Random) {
    let behind = |which: &usize| pair.tally.work[*which] * 1_000 / WORK[*which].1;
    let which = (0..WORK.len())
        .min_by_key(behind)
        .expect("there is some work");
    let calls_before = pair.tally.calls;
    (WORK[which].0)(pair, random);
    pair.tally.work[which] += pair.tally.calls - calls_before;
}
