//! `compare BATCHES TELEGRAMS SEED` compares so many cases and prints what came out of them;
//! `compare batch INDEX SEED` and `compare telegram INDEX SEED` show one case alone. Exit code 1 tells a difference.

use encoder_tests::compare::{self, Counts};
use std::fmt::Display;
use std::process::ExitCode;
use std::time::Instant;

const ANSWERS: [(usize, &str); 12] = [
    (0, "taken"),
    (1, "length"),
    (2, "ident"),
    (3, "reserved bit"),
    (4, "revolution units"),
    (5, "total range"),
    (6, "speed unit"),
    (7, "plate"),
    (9, "turn"),
    (10, "half range"),
    (13, "buffer"),
    (17, "sign-of-life limit"),
];

fn main() -> ExitCode {
    let arguments: Vec<String> = std::env::args().skip(1).collect();
    let words: Vec<&str> = arguments.iter().map(String::as_str).collect();
    let number = |word: &str| word.parse::<u64>().ok();
    let equal = match words[..] {
        ["batch", index, seed] => number(index).zip(number(seed)).map(|(index, seed)| {
            let compared = compare::batch(seed, index);
            show(&compared, compared.equal)
        }),
        ["telegram", index, seed] => number(index).zip(number(seed)).map(|(index, seed)| {
            let compared = compare::telegram(seed, index);
            show(&compared, compared.equal)
        }),
        [batches, telegrams, seed] => number(batches)
            .zip(number(telegrams))
            .zip(number(seed))
            .map(|((batches, telegrams), seed)| run(batches, telegrams, seed)),
        _ => None,
    };
    match equal {
        Some(true) => ExitCode::SUCCESS,
        Some(false) => ExitCode::FAILURE,
        None => {
            eprintln!("usage: compare BATCHES TELEGRAMS SEED | compare batch|telegram INDEX SEED");
            ExitCode::from(2)
        }
    }
}

fn show(compared: &impl Display, equal: bool) -> bool {
    print!("{compared}");
    equal
}

fn run(batches: u64, telegrams: u64, seed: u64) -> bool {
    let begin = Instant::now();
    let batch = compare::batches(batches, seed);
    let (telegram, block) = compare::telegrams(telegrams, seed);
    let columns = [&batch, &telegram, &block];
    println!("seed {seed}, {:.1} s", begin.elapsed().as_secs_f64());
    println!("{:<24}{:>14}{:>14}{:>14}", "answer", "batches", "telegrams", "blocks");
    for (number, word) in ANSWERS {
        row(&format!("{number} {word}"), columns, |counts| counts.answers[number]);
    }
    row("positions compared", columns, |counts| counts.positions);
    row("wraps of the position", columns, |counts| counts.position_wraps);
    row("wraps of the sensor", columns, |counts| counts.sensor_wraps);
    row("differences", columns, |counts| counts.differences);
    row("units and rest differ", columns, |counts| counts.kinds.differences);
    columns.iter().all(|counts| counts.differences == 0 && counts.kinds.differences == 0)
}

fn row(name: &str, columns: [&Counts; 3], count: impl Fn(&Counts) -> u64) {
    let [batch, telegram, block] = columns.map(count);
    println!("{name:<24}{batch:>14}{telegram:>14}{block:>14}");
}
