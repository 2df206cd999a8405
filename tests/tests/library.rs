//! The linked library against the model, against the bench values of document 01 and examples of document 02, No. 3.

use encoder_tests::compare::{self, demanded, Counts};
use encoder_tests::library;
use encoder_tests::model::{self, Axis, Batch, Parameters, Plate, Telegram};
use encoder_tests::running::{self, Kinds};
use std::path::Path;
use std::process::Command;

const SEED: u64 = 1;

fn count(variable: &str, otherwise: u64) -> u64 {
    match std::env::var(variable) {
        Ok(text) => text.parse().unwrap_or_else(|_| panic!("{variable} is no number: {text}")),
        Err(_) => otherwise,
    }
}

/// No difference, and every answer that can occur did occur: the test cannot pass emptily.
fn assert_equal_and_full(name: &str, counts: &Counts, answers: &[usize]) {
    println!("{name}: cases per answer {:?}, positions {}", counts.answers, counts.positions);
    assert_eq!(counts.differences, 0, "{name}: the first difference is printed above");
    for (number, cases) in counts.answers.iter().enumerate() {
        assert_eq!(answers.contains(&number), *cases > 0, "{name}: answer {number} came {cases} times");
    }
}

#[test]
fn batches() {
    let counts = compare::batches(count("BATCHES", 1_000_000), SEED);
    assert_equal_and_full("batches", &counts, &[0, 3, 4, 5, 6, 7, 9, 10, 13, 17]);
    assert!(counts.position_wraps > 0 && counts.sensor_wraps > 0);
    println!("by units and rest: {:?}", counts.kinds);
    assert_eq!(counts.kinds.differences, 0, "the first batch that differs by units and rest is printed above");
    assert!(counts.kinds.all_came() && counts.kinds.entries == counts.positions);
}

#[test]
fn telegrams() {
    let (telegrams, blocks) = compare::telegrams(count("TELEGRAMS", 1_000_000), SEED);
    assert_equal_and_full("telegrams", &telegrams, &[0, 1, 2, 3, 4, 5, 7, 13]);
    assert_equal_and_full("blocks", &blocks, &[0, 1, 3, 4, 5, 6, 7, 13, 17]);
}

/// From 0 on, 300,000 moves by `way` raw numbers. Where scaling is on, the range is one short of the sensor's.
fn long_run(plate: Plate, operating: u8, way: u64) -> Batch {
    let all = plate.steps * plate.turns;
    let parameters = Parameters { class4: 0, operating, units: plate.steps, range: all - 1, life: 0, speed: 0 };
    let raws: Vec<u32> = (1..=300_000).map(|entry| (entry * way % u64::from(all)) as u32).collect();
    Batch { plate, parameters, first: 0, positions_length: raws.len(), raws }
}

/// The largest axes at nearly half the range a move, forwards and backwards. About 2 × R moves take the place through
/// all of R × L, which the drawn lists are too short for.
#[test]
fn longest_runs() {
    for (steps, turns, operating) in [(65_536, 32_768, 0), (65_536, 32_768, 0x0B), (65_535, 32_767, 0x0A)] {
        let half = u64::from(steps) * u64::from(turns) / 2;
        for way in [half - 1, half + 2] {
            let call = long_run(Plate { steps, turns }, operating, way);
            let wanted = model::batch(&call);
            assert!(wanted.is_ok());
            let equal = library::batch(&call) == demanded(&wanted, call.positions_length);
            assert!(equal, "{:?} {:?}, moves of {way}", call.plate, call.parameters);
            assert_eq!(by_units_and_rest(&call), wanted.expect("taken"), "{:?}, moves of {way}", call.parameters);
        }
    }
}

/// The positions of a batch that is taken, by document 02, No. 4. There is no offset, so the units are the positions.
fn by_units_and_rest(call: &Batch) -> Vec<u32> {
    let (axis, mut kinds) = (Axis::start(&call.plate, &call.parameters, call.first), Kinds::default());
    let units = axis.and_then(|axis| running::follow(axis, &call.raws, &mut kinds)).expect("taken");
    assert_eq!((kinds.differences, kinds.entries), (0, call.raws.len() as u64));
    units.into_iter().map(|units| u32::try_from(units).expect("below L")).collect()
}

type Answer = Result<Vec<u32>, u8>;

/// The bench values' device: R = T = 4096, M = 1000, L = 4,096,000, class 2 on.
fn bench(first: u32, raws: &[u32]) -> Batch {
    Batch {
        plate: Plate { steps: 4096, turns: 4096 },
        parameters: Parameters { class4: 0, operating: 0x0A, units: 1000, range: 4_096_000, life: 0, speed: 0 },
        first,
        raws: raws.to_vec(),
        positions_length: raws.len(),
    }
}

/// The same with other parameters, at raw number 6144.
fn sent(class4: u8, operating: u8, units: u32, range: u32) -> Batch {
    let parameters = Parameters { class4, operating, units, range, life: 0, speed: 0 };
    Batch { parameters, ..bench(6144, &[6144]) }
}

/// Class 4 with M = 1000, a sign-of-life limit and a speed unit, at raw number 6144.
fn alive(operating: u8, range: u32, life: u8, speed: u8) -> Batch {
    let mut call = sent(1, operating, 1000, range);
    (call.parameters.life, call.parameters.speed) = (life, speed);
    call
}

/// The listing's device before its preset.
fn listing(raws: &[u32]) -> Batch {
    let mut call = bench(28, raws);
    call.plate = Plate { steps: 10, turns: 3 };
    (call.parameters.units, call.parameters.range) = (3, 7);
    call
}

/// A telegram or block for the bench values' plate, ident 1234h.
fn octets(block: bool, octets: &[u8]) -> Telegram {
    let plate = Plate { steps: 4096, turns: 4096 };
    let parameters_length = if block { 5 } else { 3 };
    Telegram { block, plate, ident: 0x1234, octets: octets.to_vec(), parameters_length }
}

fn telegram(operating: u8, units: u32, range: u32) -> Telegram {
    let begin = [0, 0, 0, 0, 0x12, 0x34, 0, 0, operating];
    octets(false, &[&begin[..], &units.to_be_bytes(), &range.to_be_bytes()].concat())
}

fn block(operating: u8, units: u32, range: u32, speed: u8) -> Telegram {
    alive_block(operating, units, range, 10, speed)
}

fn alive_block(operating: u8, units: u32, range: u32, life: u8, speed: u8) -> Telegram {
    octets(true, &[&[operating][..], &units.to_be_bytes(), &range.to_be_bytes(), &[life, speed]].concat())
}

fn with_range(range: u32, mut call: Batch) -> Batch {
    call.parameters.range = range;
    call
}

/// "Bench values" and "Traps on the bench", as far as they concern positions without a preset.
fn bench_batches() -> Vec<(Batch, Answer)> {
    let counter_clockwise =
        |class4, operating| Batch { first: 1, raws: vec![1], ..sent(class4, operating, 1000, 4_096_000) };
    let one_turn: Vec<u32> = (1..=4096).collect();
    vec![
        (bench(6144, &[6144]), Ok(vec![1500])),
        (bench(5, &[5]), Ok(vec![1])),
        (counter_clockwise(0, 0x0B), Ok(vec![4_095_999])),
        (counter_clockwise(1, 0x2B), Ok(vec![4_095_999])),
        // Class off, so M = R and L = C: class 2 still obeys the code sequence, class 4 does not.
        (counter_clockwise(0, 0x09), Ok(vec![16_777_215])),
        (counter_clockwise(1, 0x29), Ok(vec![1])),
        // Scaling the raw number afresh would show 0 at the sensor's wrap.
        (with_range(3000, bench(16_777_215, &[16_777_215, 0])), Ok(vec![999, 1000])),
        // Adding rounded moves would drift, up or down, over one turn of single steps.
        (bench(0, &one_turn), Ok(one_turn.iter().map(|step| step * 1000 / 4096).collect())),
        // The listing: 1, 3, then its 6, which without the preset's offset of -3 is 2; then 10 and 9.
        (listing(&[28, 4, 3]), Ok(vec![1, 3, 2])),
        (listing(&[28, 4, 3, 18]), Err(10)),
        (listing(&[28, 4, 3, 30]), Err(9)),
        (sent(0, 0x0A, 4096, 4_096_000), Ok(vec![6144])),
        (sent(0, 0x0A, 4097, 4_096_000), Err(4)),
        (sent(0, 0x0A, 1000, 1000), Ok(vec![500])),
        (sent(0, 0x0A, 1000, 999), Err(5)),
        (sent(0, 0x0A, 1000, 4_096_001), Err(5)),
        // The scaling fields must not be looked at while scaling is off.
        (sent(0, 0x02, 4097, 999), Ok(vec![6144])),
        (sent(1, 0x28, 0, u32::MAX), Ok(vec![6144])),
    ]
}

/// Bit 5 at 0, document 02, No. 3: 17 comes after 6 and before 9, whatever the class bit says, and never of class 2.
fn profile_batches() -> Vec<(Batch, Answer)> {
    let no_raw = |call: Batch| Batch { first: 16_777_216, ..call };
    let class_two = |operating| Batch { first: 1, raws: vec![1], ..sent(0, operating, 1000, 4_096_000) };
    vec![
        (alive(0x0A, 4_096_000, 1, 0), Ok(vec![1500])),
        (alive(0x0A, 4_096_000, 255, 3), Ok(vec![1500])),
        (alive(0x0A, 4_096_000, 0, 0), Err(17)),
        (alive(0x2A, 4_096_000, 0, 0), Ok(vec![1500])),
        (alive(0x00, 0, 0, 0), Err(17)),
        (alive(0x00, 0, 1, 0), Ok(vec![6144])),
        (alive(0x4A, 4_096_000, 1, 0), Err(3)),
        (alive(0x8A, 999, 0, 4), Err(3)),
        (alive(0x0A, 999, 0, 4), Err(5)),
        (alive(0x0A, 4_096_000, 0, 4), Err(6)),
        (no_raw(alive(0x0A, 4_096_000, 0, 0)), Err(17)),
        (no_raw(alive(0x0A, 4_096_000, 1, 0)), Err(9)),
        (class_two(0x0A), Ok(vec![0])),
        (class_two(0x2A), Err(3)),
    ]
}

/// The same for the reader of blocks.
fn profile_blocks() -> Vec<(Telegram, Answer)> {
    vec![
        (alive_block(0x0A, 1000, 4_096_000, 1, 3), Ok(vec![0x0A, 1000, 4_096_000, 1, 3])),
        (alive_block(0x1F, 1000, 4_096_000, 255, 0), Ok(vec![0x1F, 1000, 4_096_000, 255, 0])),
        (alive_block(0x0A, 1000, 4_096_000, 0, 3), Err(17)),
        (alive_block(0x2A, 1000, 4_096_000, 0, 3), Ok(vec![0x2A, 1000, 4_096_000, 0, 3])),
        (alive_block(0x00, 0, 0, 0, 0), Err(17)),
        (alive_block(0x00, 0, 0, 1, 0), Ok(vec![0, 0, 0, 1, 0])),
        (alive_block(0x4A, 0, 0, 0, 4), Err(3)),
        (alive_block(0x8A, 0, 0, 0, 4), Err(3)),
        (alive_block(0x0A, 0, 0, 0, 4), Err(4)),
        (alive_block(0x0A, 1000, 999, 0, 4), Err(5)),
        (alive_block(0x0A, 1000, 1000, 0, 4), Err(6)),
        (Telegram { parameters_length: 3, ..alive_block(0x0A, 1000, 1000, 0, 0) }, Err(13)),
        (octets(true, &[0x0A, 0, 0, 0, 1, 0, 0, 0, 1, 0]), Err(1)),
    ]
}

/// The same for the readers.
fn bench_telegrams() -> Vec<(Telegram, Answer)> {
    let bench = [0, 0, 0, 0, 0x12, 0x34, 0, 0, 0x0A, 0, 0, 0x03, 0xE8, 0, 0x3E, 0x80, 0];
    vec![
        (octets(false, &bench), Ok(vec![0x0A, 1000, 4_096_000])),
        (octets(false, &bench[..16]), Err(1)),
        (Telegram { ident: 0x3412, ..octets(false, &bench) }, Err(2)),
        (telegram(0x0A, 4096, 4_096_000), Ok(vec![0x0A, 4096, 4_096_000])),
        (telegram(0x0A, 4097, 4_096_000), Err(4)),
        (telegram(0x0A, 1000, 1000), Ok(vec![0x0A, 1000, 1000])),
        (telegram(0x0A, 1000, 999), Err(5)),
        (telegram(0x0A, 1000, 4_096_001), Err(5)),
        (telegram(0x02, 4097, 999), Ok(vec![0x02, 4097, 999])),
        (telegram(0x1A, 1000, 4_096_000), Err(3)),
        (block(0x2A, 1000, 4_096_000, 3), Ok(vec![0x2A, 1000, 4_096_000, 10, 3])),
        (block(0x0A, 1000, 4_096_000, 3), Ok(vec![0x0A, 1000, 4_096_000, 10, 3])),
        (block(0x6A, 1000, 4_096_000, 3), Err(3)),
        (block(0x2A, 4097, 4_096_000, 3), Err(4)),
        (block(0x2A, 1000, 999, 3), Err(5)),
        (block(0x2A, 1000, 4_096_001, 3), Err(5)),
        (block(0x2A, 1000, 4_096_000, 4), Err(6)),
        (block(0x28, 0, u32::MAX, 0), Ok(vec![0x28, 0, u32::MAX, 10, 0])),
    ]
}

#[test]
fn model_gives_the_bench_values() {
    for (call, answer) in [bench_batches(), profile_batches()].concat() {
        assert_eq!(model::batch(&call), answer, "{call:?}");
    }
    for (call, answer) in [bench_telegrams(), profile_blocks()].concat() {
        assert_eq!(model::read(&call), answer, "{call:?}");
    }
}

#[test]
fn library_gives_the_bench_values() {
    for (call, answer) in [bench_batches(), profile_batches()].concat() {
        assert_eq!(library::batch(&call), demanded(&answer, call.positions_length), "{call:?}");
    }
    for (call, answer) in [bench_telegrams(), profile_blocks()].concat() {
        assert_eq!(library::read(&call), demanded(&answer, call.parameters_length), "{call:?}");
    }
}

/// The C program of c/ compiles without a warning, links with the archive and prints what c/carriage.stdout holds.
#[test]
fn carriage_in_c() {
    let top = Path::new(env!("CARGO_MANIFEST_DIR")).join("..");
    let program = Path::new(env!("CARGO_TARGET_TMPDIR")).join("carriage");
    let compiled = Command::new("cc")
        .args(["-std=c11", "-Wall", "-Wextra", "-Werror", "-O2", "-o"])
        .args([&program, &top.join("c/carriage.c"), &top.join("target/staticlib/libexports.a")])
        .status()
        .expect("cc runs");
    assert!(compiled.success(), "cc turned c/carriage.c away");
    let run = Command::new(&program).output().expect("carriage runs");
    assert!(run.status.success(), "carriage ended with {}", run.status);
    let wanted = std::fs::read(top.join("c/carriage.stdout")).expect("c/carriage.stdout is there");
    let texts = (String::from_utf8_lossy(&run.stdout), String::from_utf8_lossy(&wanted));
    assert!(run.stdout == wanted, "printed:\n{}\nwanted:\n{}", texts.0, texts.1);
}
