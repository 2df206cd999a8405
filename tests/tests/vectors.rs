//! The stored vectors of crates/vectors, and a few for telegram 83, bit 31 and the sign of life worked out by hand,
//! against the model.

use encoder_tests::cycle::{Device, Link, Numbers};
use encoder_tests::model::{Parameters, Plate};
use encoder_tests::running::Kinds;
use std::collections::BTreeMap;
use std::fmt::Debug;
use std::path::Path;
use std::str::FromStr;

/// Calls, by class and kind, that must be in the stored vectors at least: the test cannot pass emptily.
const LEAST: [(&str, usize); 6] = [
    ("4 exchange", 529),
    ("4 measured", 591),
    ("2 exchange", 572),
    ("2 measured", 35),
    ("4 list", 122),
    ("2 list", 133),
];

/// Entries of passes that must be there at least, those in front of a refusal among them.
const ENTRIES: u64 = 1281;

/// Lines that leave the axis as it is and whose answers are not calculated here.
const PASSED_OVER: [&str; 4] = ["telegram", "block", "write", "serial"];

fn decimal<T: FromStr<Err: Debug>>(word: &str) -> T {
    word.parse().expect("a decimal number within its limits")
}

fn hexadecimal(word: &str) -> u8 {
    u8::from_str_radix(word, 16).expect("an octet")
}

/// The words behind `axis`: class, R, T, ident and the parameters.
fn device(words: &[&str]) -> Device {
    let class4 = u8::from(words[0] == "4");
    assert_eq!(words.len(), if class4 == 1 { 9 } else { 7 }, "words of an axis");
    let plate = Plate { steps: decimal(words[1]), turns: decimal(words[2]) };
    let (operating, units, range) = (hexadecimal(words[4]), decimal(words[5]), decimal(words[6]));
    let [life, speed] = [7, 8].map(|at| words.get(at).map_or(0, |word| decimal(word)));
    let parameters = Parameters { class4, operating, units, range, life, speed };
    Device { plate, parameters, numbers: None, link: Link::default() }
}

fn numbers(words: &[&str]) -> Numbers {
    let [place, offset, preset, held] = [0, 2, 3, 4].map(|at| decimal(words[at]));
    Numbers { place, last: decimal(words[1]), offset, preset, held }
}

/// The figures behind `keep`: six states, counter, expected value and code. Those from the sixth on may be missing and
/// are then 0.
fn link(words: &[&str]) -> Link {
    assert!((5..=9).contains(&words.len()), "figures of a link");
    let [faulty, counted, error, acknowledge, executed, due] = [0, 1, 2, 3, 4, 5].map(|at| words.get(at) == Some(&"1"));
    let [counter, expected] = [6, 7].map(|at| words.get(at).map_or(0, |word| decimal(word)));
    let code = words.get(8).map_or(0, |word| code(word));
    Link { faulty, counted, error, acknowledge, executed, due, counter, expected, code }
}

/// The code of an error: four hexadecimal digits.
fn code(word: &str) -> u16 {
    assert_eq!(word.len(), 4, "digits of a code");
    u16::from_str_radix(word, 16).expect("a code")
}

fn link_line(link: &Link) -> String {
    let Link { faulty, counted, error, acknowledge, executed, due, counter, expected, code } = link;
    let states = [faulty, counted, error, acknowledge, executed, due];
    list_line("  link", &states, |state| format!(" {}", u8::from(**state)))
        + &format!(" {counter} {expected} {code:04x}")
}

/// The axis as a call has left it, or the refusal.
fn axis_line(device: &Device, answer: Result<(), u8>) -> String {
    if let Err(number) = answer {
        return format!("  refused {number}");
    }
    let axis = device.started().expect("an accepted call leaves a started axis");
    let Numbers { offset, preset, held, .. } = axis.numbers;
    let (position, unshifted) = (axis.position(), axis.unshifted());
    format!("  at {position} unshifted {unshifted} offset {offset} preset {preset} stored {held}")
}

fn list_line<T>(begin: &str, list: &[T], show: impl Fn(&T) -> String) -> String {
    begin.to_string() + &list.iter().map(show).collect::<String>()
}

fn velocity(device: &Device, words: &[&str]) -> Vec<String> {
    let answer = device.velocity(decimal(words[0]), decimal(words[1]), decimal(words[2]));
    vec![answer.map_or_else(|number| format!("  refused {number}"), |velocity| format!("  velocity {velocity}"))]
}

/// The lent positions hold 7 before the call. The pass is worked out by document 02, No. 4, too.
fn list(device: &mut Device, words: &[&str], kinds: &mut Kinds) -> Vec<String> {
    let mut positions = vec![7; decimal(words[0])];
    let raws: Vec<u32> = words[1..].iter().map(|word| decimal(word)).collect();
    let running = device.running_pass(&raws, positions.len(), kinds);
    let answer = device.pass(&raws, &mut positions);
    assert_eq!(running, answer.map(|()| positions.clone()), "left by units and rest, right by the place");
    assert_eq!(kinds.differences, 0, "units and rest after each entry");
    vec![axis_line(device, answer), list_line("  list", &positions, |position| format!(" {position}"))]
}

/// Length of the input, raw number, milliseconds if measured, and the output. The input holds EEh before the call.
fn cycle(device: &mut Device, measured: bool, words: &[&str]) -> Vec<String> {
    let (mut input, raw) = (vec![0xEE; decimal(words[0])], decimal(words[1]));
    let octets = |from: usize| words[from..].iter().map(|word| hexadecimal(word)).collect::<Vec<u8>>();
    let answer = if measured {
        device.measured(raw, decimal(words[2]), &octets(3), &mut input)
    } else {
        device.exchange(raw, &octets(2), &mut input)
    };
    let octets = list_line(" ", &input, |octet| format!(" {octet:02x}"));
    vec![axis_line(device, answer), link_line(&device.link), octets]
}

/// The lines of a diagnosis as far as they are calculated here: both only if it is refused, the octets still EEh.
fn diagnosis(device: &Device, words: &[&str]) -> Vec<String> {
    let octets = vec![0xEE; decimal(words[0])];
    match device.diagnose(octets.len()) {
        Ok(()) => vec!["  done".to_string()],
        Err(number) => {
            vec![format!("  refused {number}"), list_line(" ", &octets, |octet: &u8| format!(" {octet:02x}"))]
        }
    }
}

/// Carries a call out and gives the lines of its answer.
fn answer(device: &mut Device, kind: &str, words: &[&str], kinds: &mut Kinds) -> Vec<String> {
    let answer = match kind {
        "first" => device.start(decimal(words[0]), decimal(words[1])),
        "reading" => device.reading(decimal(words[0]), decimal(words[1])),
        "number" => device.number(decimal(words[0])),
        "preset" | "change" => device.preset(decimal(words[0]), kind == "change"),
        "hold" => device.hold(decimal(words[0])),
        "velocity" => return velocity(device, words),
        "list" => return list(device, words, kinds),
        "exchange" | "measured" => return cycle(device, kind == "measured", words),
        _ => panic!("unknown call"),
    };
    vec![axis_line(device, answer)]
}

/// Names the line in which the test fails, for whatever reason.
struct Line<'a>(usize, &'a str);

impl Drop for Line<'_> {
    fn drop(&mut self) {
        if std::thread::panicking() {
            println!("line {}: {}", self.0, self.1);
        }
    }
}

fn replay(text: &str) -> BTreeMap<String, usize> {
    replay_passes(text).0
}

/// Replays a text and counts the calls, by class and kind, whose answers are those of the model, and the moves in passes.
fn replay_passes(text: &str) -> (BTreeMap<String, usize>, Kinds) {
    let lines: Vec<&str> = text.lines().collect();
    let (mut axis, mut counts, mut kinds) = (None, BTreeMap::new(), Kinds::default());
    for (index, call) in lines.iter().enumerate() {
        let _line = Line(index + 1, call);
        let words: Vec<&str> = call.split_whitespace().collect();
        if words.is_empty() || call.starts_with(['#', ' ']) || PASSED_OVER.contains(&words[0]) {
            continue;
        }
        if words[0] == "axis" {
            axis = Some(device(&words[1..]));
            continue;
        }
        let device = axis.as_mut().expect("an axis before the call");
        let stored: Vec<&str> = lines[index + 1..].iter().copied().take_while(|line| line.starts_with("  ")).collect();
        match words[0] {
            "given" => device.numbers = Some(numbers(&words[1..])),
            "keep" => device.link = link(&words[1..]),
            "diagnose" => {
                let lines = diagnosis(device, &words[1..]);
                assert_eq!(stored.len(), 2, "lines of a diagnosis");
                assert_eq!(stored[..lines.len()], lines, "left as stored, right as calculated");
            }
            kind => {
                let lines = answer(device, kind, &words[1..], &mut kinds);
                assert_eq!(stored, lines, "left as stored, right as calculated");
            }
        }
        let class = if device.parameters.class4 == 1 { 4 } else { 2 };
        *counts.entry(format!("{class} {}", words[0])).or_default() += 1;
    }
    (counts, kinds)
}

#[test]
fn stored_answers() {
    let path = Path::new(env!("CARGO_MANIFEST_DIR")).join("../crates/vectors/stdout");
    let (counts, kinds) = replay_passes(&std::fs::read_to_string(path).expect("crates/vectors/stdout is there"));
    println!("calls by class and kind: {counts:?}");
    for (kind, least) in LEAST {
        let count = counts.get(kind).copied().unwrap_or(0);
        println!("class {kind}: {count} calls calculated again");
        assert!(count >= least, "class {kind}: at least {least} wanted");
    }
    println!("passes by units and rest: {kinds:?}");
    assert!(kinds.all_came() && kinds.entries >= ENTRIES, "every kind of move in passes, and {ENTRIES} entries");
}

#[test]
fn telegram_83_by_hand() {
    let counts = replay(include_str!("telegram83.txt"));
    assert_eq!((counts["4 measured"], counts["2 measured"]), (11, 2));
}

#[test]
fn bit_31_by_hand() {
    let counts = replay(include_str!("bit31.txt"));
    assert_eq!((counts["2 exchange"], counts["4 exchange"]), (46, 3));
    assert_eq!((counts["2 measured"], counts["4 measured"]), (1, 3));
    assert_eq!((counts["2 keep"], counts["4 keep"]), (9, 3));
}

#[test]
fn sign_of_life_by_hand() {
    let counts = replay(include_str!("sign_of_life.txt"));
    assert_eq!((counts["4 exchange"], counts["2 exchange"]), (123, 11));
    assert_eq!((counts["4 measured"], counts["2 measured"]), (27, 2));
    assert_eq!((counts["4 keep"], counts["2 keep"]), (40, 8));
    assert_eq!((counts["4 diagnose"], counts["2 diagnose"], counts["4 first"]), (8, 1, 18));
}
