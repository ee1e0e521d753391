//! Compares the proved dividers with plain Rust, and times both.

mod inputs;
mod linked;
mod plain;

use std::hint::black_box;
use std::process::ExitCode;
use std::time::Instant;

use inputs::{Input, Random, Set};
use plain::Refusal;

/// How many inputs each rule is compared on.
const COMPARED: usize = 200_000;

/// How often each set is timed; the best time counts.
const ROUNDS: usize = 60;

/// How often a set is divided between two looks at the clock.
const PASSES: usize = 4;

const LENGTHS: [usize; 3] = [8, 64, 512];

const LARGEST: &str = "largest remainder";
const RUNNING: &str = "running sums";

fn number(answer: Result<(), Refusal>) -> u8 {
    match answer {
        Ok(()) => 0,
        Err(refusal) => refusal as u8,
    }
}

fn plain_running(total: u64, weights: &[u64], sheet: &mut [u64]) -> u8 {
    number(plain::running(total, weights, sheet))
}

/// Compares two versions of a rule on random inputs: how often they gave which answer, or where
/// they differ.
fn compare(
    rule: &str,
    random: &mut Random,
    mut rattle: impl FnMut(u64, &[u64], &mut [u64]) -> u8,
    mut rust: impl FnMut(u64, &[u64], &mut [u64]) -> u8,
) -> Result<String, String> {
    let mut answers = [0; 256];
    for _ in 0..COMPARED {
        let Input { total, weights } = inputs::mixed(random);
        let places = match random.below(16) {
            0 => random.below(601) as usize,
            1 => weights.len() + 1,
            _ => weights.len(),
        };
        let old: Vec<u64> = (0..places).map(|_| random.any()).collect();
        let (mut by_rattle, mut by_rust) = (old.clone(), old.clone());
        let answer = rattle(total, &weights, &mut by_rattle);
        let expected = rust(total, &weights, &mut by_rust);
        let untouched = answer == 0 || by_rattle == old;
        if answer != expected || by_rattle != by_rust || !untouched {
            return Err(format!(
                "{rule}: a difference at total {total}, weights {weights:?}, sheet {old:?}\n\
                 Rattle answers {answer} and leaves {by_rattle:?}\n\
                 Rust answers {expected} and leaves {by_rust:?}"
            ));
        }
        answers[usize::from(answer)] += 1;
    }
    Ok(format!(
        "{rule}: {COMPARED} inputs compared, no difference; {} divided, {} refused by 40, {} by 41, {} by 42",
        answers[0], answers[40], answers[41], answers[42]
    ))
}

fn compare_all(random: &mut Random) -> Result<(), String> {
    let mut rust = plain::Largest::default();
    let by_sorting = |t, w: &[u64], s: &mut [u64]| number(rust.divide(t, w, s));
    println!("{}", compare(LARGEST, random, linked::largest, by_sorting)?);
    println!(
        "{}",
        compare(RUNNING, random, linked::running, plain_running)?
    );
    Ok(())
}

/// The nanoseconds that one division of a set takes.
fn time(
    set: &Set,
    sheet: &mut [u64],
    divide: &mut impl FnMut(u64, &[u64], &mut [u64]) -> u8,
) -> f64 {
    let start = Instant::now();
    for _ in 0..PASSES {
        for Input { total, weights } in &set.inputs {
            black_box(divide(*total, weights, sheet));
            black_box(&mut *sheet);
        }
    }
    start.elapsed().as_nanos() as f64 / (PASSES * set.inputs.len()) as f64
}

/// Times two versions of a rule in turns, and prints a row of the table.
fn row(
    rule: &str,
    set: &Set,
    mut rattle: impl FnMut(u64, &[u64], &mut [u64]) -> u8,
    mut rust: impl FnMut(u64, &[u64], &mut [u64]) -> u8,
) {
    let length = set.inputs[0].weights.len();
    let mut sheet = vec![0; length];
    let (mut by_rattle, mut by_rust) = (f64::INFINITY, f64::INFINITY);
    for _ in 0..ROUNDS {
        by_rattle = by_rattle.min(time(set, &mut sheet, &mut rattle));
        by_rust = by_rust.min(time(set, &mut sheet, &mut rust));
    }
    let ratio = by_rattle / by_rust;
    println!(
        "{rule:<18} {:<11} {length:>7} {by_rattle:>10.1} {by_rust:>10.1} {ratio:>6.2}",
        set.name
    );
}

fn time_all(random: &mut Random) {
    println!(
        "{:<18} {:<11} {:>7} {:>10} {:>10} {:>6}",
        "rule", "inputs", "weights", "Rattle ns", "Rust ns", "ratio"
    );
    let plain = LENGTHS.map(|length| inputs::plain(random, length));
    let money = LENGTHS.map(|length| inputs::money(random, length));
    let tied = LENGTHS.map(inputs::tied);
    let mut rust = plain::Largest::default();
    for set in plain.iter().chain(&money).chain(&tied) {
        let by_sorting = |t, w: &[u64], s: &mut [u64]| number(rust.divide(t, w, s));
        row(LARGEST, set, linked::largest, by_sorting);
    }
    for set in plain.iter().chain(&money) {
        row(RUNNING, set, linked::running, plain_running);
    }
}

fn main() -> ExitCode {
    let seed = match std::env::args().nth(1).map(|word| word.parse()) {
        None => 1,
        Some(Ok(seed)) => seed,
        Some(Err(_)) => {
            eprintln!("usage: bench/run [SEED]");
            return ExitCode::from(2);
        }
    };
    println!("Seed {seed}.");
    let mut random = Random::new(seed);
    if let Err(difference) = compare_all(&mut random) {
        println!("{difference}");
        return ExitCode::FAILURE;
    }
    println!(
        "
Time of one division, the best of {ROUNDS} rounds; a ratio below 1 says that Rattle is faster.
Rattle and Rust take turns over the same lists. Both are compiled at opt-level 3 for any x86-64
(no target-cpu), and called, not inlined. No buffer is cleared first: the sheet is used again as
it is, and the Rust largest remainder, which sorts, keeps its list of remainders between calls.
  plain       weights below 2,000,000, totals of 1 to 20,000,000
  money       totals of up to 100,000,000,000 cents, weights that add up to at most 20,000,000
  worst case  for bisection: all remainders the same, and a sum near 2^63
"
    );
    time_all(&mut random);
    ExitCode::SUCCESS
}
