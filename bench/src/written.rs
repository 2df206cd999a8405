//! The same work by hand in Rust: start and batch by the rules of documents 01 and 02, the readings looked through before any position is written.
//! Three times: as one writes it down, tuned as far as the same method goes, and tuned with whole units and rest as running values.

use encoder_tests::model::{Parameters, Plate};
use std::hint::black_box;

/// What plate and parameters put in force: R, C, M, L and the direction.
struct Force {
    r: u64,
    c: u64,
    m: u64,
    l: u64,
    reversed: bool,
}

fn force(plate: Plate, sent: Parameters) -> Result<Force, u8> {
    let (r, t) = (u64::from(plate.steps), u64::from(plate.turns));
    let (units, range, octet, class4) = (u64::from(sent.units), u64::from(sent.range), sent.operating, sent.class4 != 0);
    let (on, scaling) = (octet & 0x02 != 0, octet & 0x0A == 0x0A);
    let reserved = if class4 { 0xC0 } else { 0xF0 };
    if octet & reserved != 0 {
        return Err(3);
    }
    if scaling && (units == 0 || units > r) {
        return Err(4);
    }
    if scaling && (range < units || range > units * t) {
        return Err(5);
    }
    if class4 && sent.speed > 3 {
        return Err(6);
    }
    if class4 && octet & 0x20 == 0 && sent.life == 0 {
        return Err(17);
    }
    let (m, l) = if scaling { (units, range) } else { (r, r * t) };
    Ok(Force { r, c: r * t, m, l, reversed: octet & 0x01 != 0 && (on || !class4) })
}

fn plate_fits(plate: Plate) -> bool {
    (2..=65_536).contains(&plate.steps) && (1..=32_768).contains(&plate.turns)
}

/// The refusals up to the first raw number.
fn begin(plate: Plate, sent: Parameters, first: u32, raws: &[u32], positions: &[u32]) -> Result<Force, u8> {
    if !plate_fits(plate) {
        return Err(7);
    }
    if raws.len() != positions.len() {
        return Err(13);
    }
    let f = force(plate, sent)?;
    if u64::from(first) >= f.c {
        return Err(9);
    }
    Ok(f)
}

/// As one writes it down.
pub fn plain(plate: Plate, sent: Parameters, first: u32, raws: &[u32], positions: &mut [u32]) -> u8 {
    match begin(plate, sent, first, raws, positions) {
        Err(number) => number,
        Ok(f) => plain_on(&f, first, raws, positions),
    }
}

fn oriented(f: &Force, raw: u64) -> u64 {
    if f.reversed && raw != 0 {
        f.c - raw
    } else {
        raw
    }
}

fn difference(f: &Force, last: u64, raw: u64) -> u64 {
    let (from, to) = (oriented(f, last), oriented(f, raw));
    if from <= to {
        to - from
    } else {
        to + f.c - from
    }
}

fn plain_on(f: &Force, first: u32, raws: &[u32], positions: &mut [u32]) -> u8 {
    let mut last = u64::from(first);
    for &raw in raws {
        let raw = u64::from(raw);
        if raw >= f.c {
            return 9;
        }
        if 2 * difference(f, last, raw) == f.c {
            return 10;
        }
        last = raw;
    }
    let ring = f.r * f.l;
    let mut place = oriented(f, u64::from(first)) % ring;
    let mut last = u64::from(first);
    for (position, &raw) in positions.iter_mut().zip(raws) {
        let ahead = difference(f, last, u64::from(raw));
        if 2 * ahead < f.c {
            place = (place + ahead % ring) % ring;
        } else {
            place = (place + ring - (f.c - ahead) % ring) % ring;
        }
        last = u64::from(raw);
        *position = (place * f.m / f.r % f.l) as u32;
    }
    0
}

/// Tuned: no remainder where a comparison does, and the direction told apart outside of the loops.
pub fn tuned(plate: Plate, sent: Parameters, first: u32, raws: &[u32], positions: &mut [u32]) -> u8 {
    match begin(plate, sent, first, raws, positions) {
        Err(number) => number,
        Ok(f) if f.reversed => tuned_on::<true>(&f, first, raws, positions),
        Ok(f) => tuned_on::<false>(&f, first, raws, positions),
    }
}

/// The way ahead from one raw number to the next, modulo C.
fn way<const REVERSED: bool>(c: u64, last: u64, raw: u64) -> u64 {
    let (from, to) = if REVERSED { (raw, last) } else { (last, raw) };
    if from <= to {
        to - from
    } else {
        to + c - from
    }
}

/// The first refusal among the readings, or 0.
fn refused<const REVERSED: bool>(f: &Force, first: u32, raws: &[u32]) -> u8 {
    let mut last = u64::from(first);
    for &raw in raws {
        let raw = u64::from(raw);
        if raw >= f.c {
            return 9;
        }
        if 2 * way::<REVERSED>(f.c, last, raw) == f.c {
            return 10;
        }
        last = raw;
    }
    0
}

fn tuned_on<const REVERSED: bool>(f: &Force, first: u32, raws: &[u32], positions: &mut [u32]) -> u8 {
    let refusal = refused::<REVERSED>(f, first, raws);
    if refusal != 0 {
        return refusal;
    }
    let ring = f.r * f.l;
    let mut place = way::<REVERSED>(f.c, 0, u64::from(first)) % ring;
    let mut last = u64::from(first);
    for (position, &raw) in positions.iter_mut().zip(raws) {
        let ahead = way::<REVERSED>(f.c, last, u64::from(raw));
        let (by, back) = if 2 * ahead < f.c { (ahead, false) } else { (f.c - ahead, true) };
        let by = if by < ring { by } else { by % ring };
        place += if back { ring - by } else { by };
        if place >= ring {
            place -= ring;
        }
        last = u64::from(raw);
        *position = (place * f.m / f.r % f.l) as u32;
    }
    0
}

/// Tuned further: a look through the readings without a branch, then whole units and rest as running values (document 02, request 4). The place is
/// told from them at the end by the total ranges that the units have gone through.
pub fn running(plate: Plate, sent: Parameters, first: u32, raws: &[u32], positions: &mut [u32]) -> u8 {
    match begin(plate, sent, first, raws, positions) {
        Err(number) => number,
        Ok(f) if f.reversed => running_on::<true>(&f, first, raws, positions),
        Ok(f) => running_on::<false>(&f, first, raws, positions),
    }
}

/// Some reading is C or above, or C / 2 from the one before. No branch on a reading, so that several are looked at together.
fn doubtful(c: u32, first: u32, raws: &[u32]) -> bool {
    let (mut last, mut found) = (first, false);
    for &raw in raws {
        found |= raw >= c || raw.abs_diff(last) == c / 2;
        last = raw;
    }
    found
}

fn running_on<const REVERSED: bool>(f: &Force, first: u32, raws: &[u32], positions: &mut [u32]) -> u8 {
    if doubtful(f.c as u32, first, raws) {
        let refusal = refused::<REVERSED>(f, first, raws);
        if refusal != 0 {
            return refusal;
        }
    }
    let (r, c, m, l) = (f.r, f.c, f.m, f.l);
    let parts = way::<REVERSED>(c, 0, u64::from(first)) % (r * l) * m;
    let (mut rest, mut units, mut ranges) = (parts % r, (parts / r % l) as i64, parts / r / l);
    // A move and these turns are positive, and leave the same rest.
    let turns = (1 << 33) / r + 1;
    let (lead, whole) = (turns * r, (turns * m) as i64);
    let mut last = u64::from(first);
    for (position, &raw) in positions.iter_mut().zip(raws) {
        let raw = u64::from(raw);
        let ahead = way::<REVERSED>(c, last, raw);
        last = raw;
        let parts = (lead + ahead - if 2 * ahead < c { 0 } else { c }) * m;
        let sum = rest + parts % r;
        let full = sum >= r;
        rest = if full { sum - r } else { sum };
        units += (parts / r) as i64 - whole + i64::from(full);
        if !(0..l as i64).contains(&units) {
            ranges = (ranges as i64 + units.div_euclid(l as i64)).rem_euclid(m as i64) as u64;
            units = units.rem_euclid(l as i64);
        }
        *position = units as u32;
    }
    black_box(((ranges * l + units as u64) * r + rest) / m);
    0
}
