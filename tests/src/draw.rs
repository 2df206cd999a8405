//! Draws cases: mostly calls that are taken and report many positions, the rest damaged in one or several places.
//!
//! A case is first drawn whole and acceptable and then damaged, so that most refusals have a single reason.

use crate::model::{Batch, Parameters, Plate, Telegram};

/// A stream of random numbers (splitmix64). Each case has its own, so that it can be repeated alone.
struct Draw(u64);

const BATCH: u64 = 1;
const TELEGRAM: u64 = 2;

/// Of block octet 1: at 0 the block is one of profile version 3.1, with the sign of life.
const BIT_5: u8 = 0b0010_0000;

pub fn batch(seed: u64, index: u64) -> Batch {
    let mut draw = Draw::new(seed, BATCH, index);
    let plate = draw.plate();
    let class4 = draw.class4();
    let parameters = draw.parameters(plate, class4);
    let first = draw.first(plate);
    let raws = draw.raws(plate, first);
    let positions_length = raws.len();
    let mut case = Batch { plate, parameters, first, raws, positions_length };
    draw.damage_batch(&mut case);
    case
}

pub fn telegram(seed: u64, index: u64) -> Telegram {
    let mut draw = Draw::new(seed, TELEGRAM, index);
    let plate = draw.plate();
    let class4 = draw.class4();
    let mut parameters = draw.parameters(plate, class4);
    if draw.chance(20) {
        draw.damage_parameters(plate, &mut parameters);
    }
    let (block, ident) = (class4 != 0, draw.next() as u16);
    let octets = if block { block_of(&parameters) } else { draw.telegram_of(&parameters, ident) };
    let parameters_length = if block { 5 } else { 3 };
    let mut case = Telegram { block, plate, ident, octets, parameters_length };
    draw.damage_telegram(&mut case);
    case
}

fn narrow(number: u64) -> u32 {
    u32::try_from(number).expect("drawn below 2^32")
}

/// C of an acceptable plate.
fn raw_numbers(plate: Plate) -> u64 {
    u64::from(plate.steps) * u64::from(plate.turns)
}

/// A class 4 block, written by hand, so that the readers are not checked against a writer of the library.
fn block_of(parameters: &Parameters) -> Vec<u8> {
    let mut octets = vec![parameters.operating];
    octets.extend(parameters.units.to_be_bytes());
    octets.extend(parameters.range.to_be_bytes());
    octets.extend([parameters.life, parameters.speed]);
    octets
}

impl Draw {
    fn new(seed: u64, kind: u64, index: u64) -> Draw {
        let mut draw = Draw(seed);
        draw.0 = draw.next() ^ kind;
        draw.0 = draw.next() ^ index;
        draw.0 = draw.next();
        draw
    }

    fn next(&mut self) -> u64 {
        self.0 = self.0.wrapping_add(0x9E37_79B9_7F4A_7C15);
        let mixed = (self.0 ^ self.0 >> 30).wrapping_mul(0xBF58_476D_1CE4_E5B9);
        let mixed = (mixed ^ mixed >> 27).wrapping_mul(0x94D0_49BB_1331_11EB);
        mixed ^ mixed >> 31
    }

    /// Both ends included.
    fn between(&mut self, low: u64, high: u64) -> u64 {
        low + self.next() % (high - low + 1)
    }

    /// 0 to `most`, small numbers as often as large ones.
    fn of_any_size(&mut self, most: u64) -> u64 {
        let bits = self.between(0, 32);
        self.between(0, most.min(1 << bits))
    }

    fn pick<T: Copy>(&mut self, list: &[T]) -> T {
        list[self.next() as usize % list.len()]
    }

    fn chance(&mut self, percent: u64) -> bool {
        self.next() % 100 < percent
    }
}

/// Plate and parameters.
impl Draw {
    fn plate(&mut self) -> Plate {
        let (steps, turns) = match self.between(0, 9) {
            // tiny: wraps and halves of the range at every other move
            0..=3 => (self.between(2, 12), self.between(1, 6)),
            4 => (4096, 4096),
            5..=6 => (self.between(2, 10_000), self.between(1, 5_000)),
            7 => (2 + self.of_any_size(65_534), 1 + self.of_any_size(32_767)),
            8 => (self.pick(&[2, 3, 65_535, 65_536]), self.pick(&[1, 2, 32_767, 32_768])),
            _ => (65_536, 32_768),
        };
        Plate { steps: narrow(steps), turns: narrow(turns) }
    }

    fn damage_plate(&mut self, plate: &mut Plate) {
        let which = self.between(0, 2);
        if which != 0 {
            plate.steps = self.pick(&[0, 1, 65_537, 1 << 31, u32::MAX]);
        }
        if which != 1 {
            plate.turns = self.pick(&[0, 32_769, 65_536, 1 << 31, u32::MAX]);
        }
    }

    /// 0 is class 2, every other number class 4.
    fn class4(&mut self) -> u8 {
        let any = self.next() as u8;
        self.pick(&[0, 0, 1, any])
    }

    /// Acceptable parameters of the class. Without class and scaling bit both, the fields may hold anything.
    fn parameters(&mut self, plate: Plate, class4: u8) -> Parameters {
        let mut operating = self.operating(class4);
        let mut units = self.units(plate);
        let mut range = self.range(plate, units);
        if self.chance(65) {
            operating |= 0b1010;
        } else {
            operating &= !self.pick(&[0b0010, 0b1000, 0b1010]);
            let any = (self.next() as u32, self.next() as u32);
            (units, range) =
                self.pick(&[any, any, (0, 0), (u32::MAX, 0), (plate.steps + 1, any.1), (units, units - 1)]);
        }
        let speed = if class4 == 0 { self.next() as u8 } else { self.between(0, 3) as u8 };
        let life = self.life(class4, operating);
        Parameters { class4, operating, units, range, life, speed }
    }

    /// Any sign-of-life limit, both ends often. 0 is acceptable unless bit 5 of a class 4 block is 0.
    fn life(&mut self, class4: u8, operating: u8) -> u8 {
        let any = self.next() as u8;
        let life = self.pick(&[0, 1, 255, any, any]);
        if class4 != 0 && operating & BIT_5 == 0 {
            life.max(1)
        } else {
            life
        }
    }

    /// Octet 9 or block octet 1 with the reserved bits as they must be and the others as they come.
    fn operating(&mut self, class4: u8) -> u8 {
        let any = self.next() as u8;
        if class4 == 0 {
            any & 0b0000_1111
        } else {
            any & 0b0011_1111
        }
    }

    fn units(&mut self, plate: Plate) -> u32 {
        let any = narrow(self.between(1, u64::from(plate.steps)));
        self.pick(&[1, plate.steps, plate.steps - 1, plate.steps.min(1000), any, any])
    }

    /// M to M × T with both ends often, whole turns, and ranges that do not fit evenly into the turns.
    fn range(&mut self, plate: Plate, units: u32) -> u32 {
        let (least, most) = (u64::from(units), u64::from(units) * u64::from(plate.turns));
        let whole_turns = least * self.between(1, u64::from(plate.turns));
        let small = most.min(least + self.of_any_size(most - least));
        let any = self.between(least, most);
        narrow(self.pick(&[least, most, most.min(least + 1), least.max(most - 1), whole_turns, small, any, any]))
    }

    /// Damages one field or several; without scaling in force some of it must make no difference.
    fn damage_parameters(&mut self, plate: Plate, sent: &mut Parameters) {
        loop {
            match self.between(0, 4) {
                0 => sent.operating ^= 1 << self.between(if sent.class4 == 0 { 4 } else { 6 }, 7),
                1 => sent.units = self.pick(&[0, plate.steps + 1, u32::MAX]),
                2 => {
                    let most = u64::from(sent.units) * u64::from(plate.turns);
                    let above = u32::try_from(most + 1).unwrap_or(u32::MAX);
                    sent.range = self.pick(&[sent.units.saturating_sub(1), above, 0, u32::MAX]);
                }
                3 => {
                    sent.life = 0; // turned away only with bit 5 at 0, and never of class 2
                    if sent.class4 != 0 && self.chance(50) {
                        sent.operating &= !BIT_5;
                    }
                }
                _ => {
                    let any = self.between(4, 255) as u8;
                    sent.speed = self.pick(&[4, 255, any]);
                }
            }
            if self.chance(70) {
                return;
            }
        }
    }
}

/// Raw numbers.
impl Draw {
    fn first(&mut self, plate: Plate) -> u32 {
        let last = raw_numbers(plate) - 1;
        let any = self.between(0, last);
        let near = self.of_any_size(last);
        narrow(self.pick(&[0, last, near, last - near, any, any]))
    }

    fn length(&mut self) -> u64 {
        match self.between(0, 99) {
            0..=2 => 0,
            3 => self.between(1000, 5000),
            _ => self.between(1, 64),
        }
    }

    /// Acceptable raw numbers after `first`, moved all in one manner or each in another.
    fn raws(&mut self, plate: Plate, first: u32) -> Vec<u32> {
        let all = raw_numbers(plate);
        let most = (all - 1) / 2; // the longest move that is not half the range
        let manner = self.between(0, 5);
        let (speed, backwards) = (self.of_any_size(most), self.chance(50));
        let mut at = u64::from(first);
        let mut raws = Vec::new();
        for _ in 0..self.length() {
            let (way, back) = match manner {
                0..=1 => (speed, backwards), // constant speed
                2 => (self.between(0, most.min(3)), self.chance(50)),
                3 => (self.between(0, most), self.chance(50)),
                4 => (most - self.between(0, most.min(2)), self.chance(50)),
                _ => (self.of_any_size(most), self.chance(50)),
            };
            at = (at + if back { all - way } else { way }) % all;
            raws.push(narrow(at));
        }
        raws
    }

    /// An entry of the list: the first, the last or any.
    fn entry(&mut self, raws: &[u32]) -> usize {
        let any = self.next() as usize % raws.len();
        self.pick(&[0, raws.len() - 1, any])
    }

    /// C or above.
    fn no_raw_number(&mut self, plate: Plate) -> u32 {
        let all = raw_numbers(plate);
        let any = self.between(all, u64::from(u32::MAX));
        narrow(self.pick(&[all, all + 1, u64::from(u32::MAX), any]))
    }

    /// Makes one move half the range long, or one step beside it, and leaves the moves behind it as they were.
    fn half_the_range(&mut self, plate: Plate, first: u32, raws: &mut [u32]) {
        let all = raw_numbers(plate);
        let entry = self.entry(raws);
        let before = if entry == 0 { first } else { raws[entry - 1] };
        let half = self.pick(&[all / 2, all / 2, all / 2 + 1, all.div_ceil(2) - 1]);
        let shift = u64::from(before) + half + all - u64::from(raws[entry]);
        for raw in &mut raws[entry..] {
            *raw = narrow((u64::from(*raw) + shift) % all);
        }
    }

    fn unequal_length(&mut self, length: usize) -> usize {
        let any = self.between(0, 80) as usize;
        self.pick(&[length + 1, length.saturating_sub(1), 0, any])
    }

    /// Half the range, a number that is none, or both in one list: then the earlier entry decides.
    fn damage_raws(&mut self, case: &mut Batch) {
        let (half, none) = self.pick(&[(true, false), (true, false), (false, true), (true, true)]);
        if half {
            self.half_the_range(case.plate, case.first, &mut case.raws);
        }
        if none {
            let entry = self.entry(&case.raws);
            case.raws[entry] = self.no_raw_number(case.plate);
        }
    }

    fn damage_batch(&mut self, case: &mut Batch) {
        let plate = case.plate;
        if self.chance(12) && !case.raws.is_empty() {
            self.damage_raws(case);
        }
        if self.chance(3) {
            case.first = self.no_raw_number(plate);
        }
        if self.chance(10) {
            self.damage_parameters(plate, &mut case.parameters);
        }
        if self.chance(4) {
            case.positions_length = self.unequal_length(case.raws.len());
        }
        if self.chance(3) {
            self.damage_plate(&mut case.plate);
        }
    }
}

/// Telegrams and blocks.
impl Draw {
    /// A class 2 telegram; the octets that are ignored hold anything.
    fn telegram_of(&mut self, parameters: &Parameters, ident: u16) -> Vec<u8> {
        let mut octets = self.octets(17);
        octets[4..6].copy_from_slice(&ident.to_be_bytes());
        octets[8] = parameters.operating;
        octets[9..13].copy_from_slice(&parameters.units.to_be_bytes());
        octets[13..17].copy_from_slice(&parameters.range.to_be_bytes());
        octets
    }

    fn octets(&mut self, length: usize) -> Vec<u8> {
        (0..length).map(|_| self.next() as u8).collect()
    }

    /// Flips bits and overwrites octets, one or several.
    fn damage_octets(&mut self, octets: &mut [u8]) {
        for _ in 0..self.of_any_size(6) + 1 {
            let at = self.next() as usize % octets.len();
            if self.chance(70) {
                octets[at] ^= 1 << self.between(0, 7);
            } else {
                octets[at] = self.next() as u8;
            }
        }
    }

    /// One bit of the ident, or its two octets exchanged.
    fn damage_ident(&mut self, ident: u16) -> u16 {
        let flipped = ident ^ 1 << self.between(0, 15);
        self.pick(&[flipped, flipped, ident.swap_bytes()])
    }

    /// Shortened, or lengthened by anything; 17 and 11 octets for the wrong class now and then.
    fn damage_length(&mut self, octets: &mut Vec<u8>) {
        let (any, length) = (self.between(0, 40) as usize, octets.len());
        let wanted = self.pick(&[any, any, length - 1, length + 1, 11, 17]);
        let more = self.octets(wanted.saturating_sub(length));
        octets.truncate(wanted);
        octets.extend(more);
    }

    fn damage_telegram(&mut self, case: &mut Telegram) {
        if self.chance(10) {
            self.damage_octets(&mut case.octets);
        }
        if self.chance(5) {
            case.ident = self.damage_ident(case.ident);
        }
        if self.chance(6) {
            self.damage_length(&mut case.octets);
        }
        if self.chance(5) {
            case.parameters_length = self.between(0, 8) as usize;
        }
        if self.chance(4) {
            self.damage_plate(&mut case.plate);
        }
    }
}
