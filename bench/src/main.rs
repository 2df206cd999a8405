//! The linked batch beside the same work written by hand in Rust, on the same lists, in one run.
//!
//!     tools/build exports && cargo run --release --manifest-path bench/Cargo.toml
//!
//! prints the time of each hand-written batch by that of the library: above 1 the library is faster. All lists were written and gone through
//! once before the first time is taken (warm), and every list of positions is compared. Behind `--`, `instructions` counts the
//! instructions for a reading with valgrind, and `once WHO SCALING WAY WALK N` makes one call, for a profiler.

mod written;

use encoder_tests::library::encoder_batch;
use encoder_tests::model::{Parameters, Plate};
use std::hint::black_box;
use std::process::Command;
use std::time::Instant;

const FIRST: u32 = 204_800;
const PLATE: Plate = Plate { steps: 4096, turns: 4096 };
const SIZES: [usize; 3] = [1_000, 100_000, 10_000_000];
const WHO: [(&str, Batch); 4] =
    [("library", linked), ("plain", written::plain), ("tuned", written::tuned), ("running", written::running)];

type Batch = fn(Plate, Parameters, u32, &[u32], &mut [u32]) -> u8;

fn linked(plate: Plate, sent: Parameters, first: u32, raws: &[u32], positions: &mut [u32]) -> u8 {
    let (from, to) = (raws.as_ptr(), positions.as_mut_ptr());
    let Parameters { class4, operating, units, range, life, speed } = sent;
    // SAFETY: both pointers come from slices of the lengths given, which do not overlap.
    unsafe {
        encoder_batch(
            plate.steps,
            plate.turns,
            class4,
            operating,
            units,
            range,
            life,
            speed,
            first,
            from,
            raws.len(),
            to,
            positions.len(),
        )
    }
}

/// Scaling on or off, the direction, and how the carriage moves.
#[derive(Clone, Copy)]
struct Kind {
    scaling: &'static str,
    way: &'static str,
    walk: &'static str,
}

fn kinds() -> Vec<Kind> {
    let mut all = Vec::new();
    for scaling in ["on", "off"] {
        for way in ["cw", "ccw"] {
            for walk in ["random", "constant"] {
                all.push(Kind { scaling, way, walk });
            }
        }
    }
    all
}

/// 1000 units a turn and a total range of 400 turns, or the sensor's own steps.
fn parameters(kind: Kind) -> Parameters {
    let operating = if kind.scaling == "on" { 0x0A } else { 0x02 } + if kind.way == "ccw" { 1 } else { 0 };
    Parameters { class4: 0, operating, units: 1000, range: 400_000, life: 0, speed: 0 }
}

/// Up to 4000 steps either way, drawn by xorshift from a fixed seed, or 37 steps each time.
fn readings(kind: Kind, size: usize) -> Vec<u32> {
    let (mut state, mut at) = (0x9E37_79B9_7F4A_7C15u64, i64::from(FIRST));
    let mut step = || {
        state ^= state << 13;
        state ^= state >> 7;
        state ^= state << 17;
        (state % 8001) as i64 - 4000
    };
    let mut list = Vec::with_capacity(size);
    for _ in 0..size {
        at = (at + if kind.walk == "random" { step() } else { 37 }).rem_euclid(4096 * 4096);
        list.push(at as u32);
    }
    list
}

/// The medians of the times of each, taken in turns.
fn times(kind: Kind, size: usize) -> [f64; 4] {
    let (sent, raws) = (parameters(kind), readings(kind, size));
    let mut lists = [const { Vec::new() }; 4].map(|_: Vec<u32>| vec![0; size]);
    let mut taken = [const { Vec::new() }; 4];
    for round in 0..=(30_000_000 / size).clamp(9, 3_001) {
        for (i, (name, batch)) in WHO.iter().enumerate() {
            let begin = Instant::now();
            let refusal = batch(PLATE, sent, FIRST, &raws, &mut lists[i]);
            let time = begin.elapsed().as_secs_f64();
            assert_eq!(refusal, 0, "{name}");
            if round > 0 {
                taken[i].push(time);
            }
        }
    }
    assert!(lists[1..].iter().all(|list| *list == lists[0]), "the positions differ");
    taken.map(|mut list| {
        list.sort_by(f64::total_cmp);
        list[list.len() / 2]
    })
}

fn compare_times() {
    println!("time of the hand-written batch by that of the library: plain, tuned and running");
    println!("{:<8}{:<5}{:<10}{:>23}{:>23}{:>23}", "scaling", "way", "walk", SIZES[0], SIZES[1], SIZES[2]);
    for kind in kinds() {
        print!("{:<8}{:<5}{:<10}", kind.scaling, kind.way, kind.walk);
        for size in SIZES {
            let [library, plain, tuned, running] = times(kind, size);
            print!("{:>9.2} {:>6.2} {:>6.2}", plain / library, tuned / library, running / library);
        }
        println!();
    }
}

/// One call, or with `none` the lists alone.
fn once(who: &str, kind: Kind, size: usize) {
    let (raws, mut positions) = (black_box(readings(kind, size)), black_box(vec![0; size]));
    if who != "none" {
        let (_, batch) = WHO.iter().find(|(name, _)| *name == who).expect("library, plain, tuned, running or none");
        assert_eq!(batch(PLATE, parameters(kind), FIRST, &raws, &mut positions), 0);
    }
}

/// Instructions of one run under valgrind.
fn counted(who: &str, kind: Kind, size: usize) -> f64 {
    let program = std::env::current_exe().expect("the program has a path");
    let run = Command::new("valgrind")
        .args(["--tool=callgrind", "--callgrind-out-file=/dev/null"])
        .arg(program)
        .args(["once", who, kind.scaling, kind.way, kind.walk, &size.to_string()])
        .output()
        .expect("valgrind runs");
    let text = String::from_utf8_lossy(&run.stderr).into_owned();
    let line = text.lines().find(|line| line.contains("Collected")).expect("valgrind has counted");
    line.rsplit(' ').next().and_then(|word| word.parse().ok()).expect("a number")
}

/// For a reading: what a call takes, less the drawing of its list.
fn compare_instructions() {
    const SIZE: usize = 30_000;
    println!("instructions for a reading");
    println!("{:<8}{:<5}{:<10}{:>10}{:>10}{:>10}{:>10}", "scaling", "way", "walk", WHO[0].0, WHO[1].0, WHO[2].0, WHO[3].0);
    for kind in kinds() {
        print!("{:<8}{:<5}{:<10}", kind.scaling, kind.way, kind.walk);
        let drawing = counted("none", kind, SIZE);
        for (who, _) in WHO {
            print!("{:>10.1}", (counted(who, kind, SIZE) - drawing) / SIZE as f64);
        }
        println!();
    }
}

fn main() {
    let words: Vec<String> = std::env::args().skip(1).collect();
    match words.iter().map(String::as_str).collect::<Vec<_>>()[..] {
        [] => compare_times(),
        ["instructions"] => compare_instructions(),
        ["once", who, scaling, way, walk, size] => {
            let named = |kind: &Kind| (kind.scaling, kind.way, kind.walk) == (scaling, way, walk);
            let kind = kinds().into_iter().find(named).expect("on or off, cw or ccw, random or constant");
            once(who, kind, size.parse().expect("a number of readings"));
        }
        _ => panic!("nothing, or instructions, or once WHO SCALING WAY WALK N"),
    }
}
