//! The rules of document 01, with the parameters of document 02, No. 3, as close to their words as Rust allows and with
//! no regard to speed. Batches are worked out by the place here; `running` has them by document 02, No. 4.
//!
//! All arithmetic is exact: i128 never comes near its limits here, and overflow checks are on.

/// Refusals: the numbers of document 01's table "When a call is turned away", and 17 of document 02, No. 3.
pub const LENGTH: u8 = 1;
pub const IDENT: u8 = 2;
pub const RESERVED_BIT: u8 = 3;
pub const REVOLUTION_UNITS: u8 = 4;
pub const TOTAL_RANGE: u8 = 5;
pub const SPEED_UNIT: u8 = 6;
pub const PLATE: u8 = 7;
pub const STEP: u8 = 8;
pub const TURN: u8 = 9;
pub const HALF_RANGE: u8 = 10;
pub const PRESET: u8 = 11;
pub const CLASS_OFF: u8 = 12;
pub const BUFFER: u8 = 13;
pub const ELAPSED: u8 = 14;
pub const NO_AXIS: u8 = 16;
pub const LIFE_LIMIT: u8 = 17;

/// The part of the nameplate that the axis needs: R steps per turn and T turns.
#[derive(Clone, Copy, Debug)]
pub struct Plate {
    pub steps: u32,
    pub turns: u32,
}

/// Parameters of either class, as sent. `class4` 0 is class 2, which has neither `life` nor `speed`.
#[derive(Clone, Copy, Debug)]
pub struct Parameters {
    pub class4: u8,
    pub operating: u8,
    pub units: u32,
    pub range: u32,
    pub life: u8,
    pub speed: u8,
}

/// What a call of `encoder_batch` brings.
#[derive(Clone, Debug)]
pub struct Batch {
    pub plate: Plate,
    pub parameters: Parameters,
    pub first: u32,
    pub raws: Vec<u32>,
    pub positions_length: usize,
}

/// What a call of `encoder_read_telegram` brings or, with `block`, one of `encoder_read_block`, which has no ident.
#[derive(Clone, Debug)]
pub struct Telegram {
    pub block: bool,
    pub plate: Plate,
    pub ident: u16,
    pub octets: Vec<u8>,
    pub parameters_length: usize,
}

pub(crate) fn refuse_if(condition: bool, number: u8) -> Result<(), u8> {
    if condition {
        Err(number)
    } else {
        Ok(())
    }
}

/// Bit 0 is the least significant.
pub(crate) fn bit(octets: impl Into<u32>, number: u32) -> bool {
    octets.into() >> number & 1 == 1
}

/// Octets are counted from 1.
fn octet(octets: &[u8], at: usize) -> u8 {
    octets[at - 1]
}

/// The number in octets `from` to `to`, the most significant first.
pub(crate) fn number(octets: &[u8], from: usize, to: usize) -> u32 {
    octets[from - 1..to].iter().fold(0, |sum, octet| sum * 256 + u32::from(*octet))
}

impl Plate {
    pub(crate) fn check(&self) -> Result<(), u8> {
        let within = (2..=65_536).contains(&self.steps) && (1..=32_768).contains(&self.turns);
        refuse_if(!within, PLATE)
    }

    /// C = R × T.
    fn raw_numbers(&self) -> i128 {
        i128::from(self.steps) * i128::from(self.turns)
    }
}

impl Parameters {
    pub(crate) fn is_class_four(&self) -> bool {
        self.class4 != 0
    }

    pub(crate) fn class_on(&self) -> bool {
        bit(self.operating, 1)
    }

    fn scaling_in_force(&self) -> bool {
        self.class_on() && bit(self.operating, 3)
    }

    /// With the class bit 0, class 2 still obeys the code sequence, class 4 does not.
    fn code_sequence_in_force(&self) -> bool {
        bit(self.operating, 0) && (self.class_on() || !self.is_class_four())
    }

    /// Class 4 with bit 5 at 0, the profile version 3.1. Class 2 never has the sign of life.
    pub(crate) fn sign_of_life(&self) -> bool {
        self.is_class_four() && !bit(self.operating, 5)
    }

    /// Class 2: bits 4 to 7 zero. Class 4: bits 6 and 7 zero.
    fn reserved_bits_hold(&self) -> bool {
        let first = if self.is_class_four() { 6 } else { 4 };
        (first..8).all(|number| !bit(self.operating, number))
    }

    /// Rows 3 to 6, then 17, which asks for nothing of the class bit.
    pub(crate) fn check(&self, plate: &Plate) -> Result<(), u8> {
        refuse_if(!self.reserved_bits_hold(), RESERVED_BIT)?;
        if self.scaling_in_force() {
            let (units, range) = (i128::from(self.units), i128::from(self.range));
            refuse_if(units == 0 || units > i128::from(plate.steps), REVOLUTION_UNITS)?;
            refuse_if(range < units || range > units * i128::from(plate.turns), TOTAL_RANGE)?;
        }
        refuse_if(self.is_class_four() && self.speed > 3, SPEED_UNIT)?;
        refuse_if(self.sign_of_life() && self.life == 0, LIFE_LIMIT)
    }
}

/// A started axis. Letters as in document 01; there is no offset, since a batch makes no preset.
#[derive(Clone, Copy)]
pub struct Axis {
    pub(crate) r: i128,
    c: i128,
    pub(crate) m: i128,
    pub(crate) l: i128,
    code_sequence: bool,
    oriented: i128,
    /// The paper keeps the place modulo R × L. Here it is kept whole: taking R × L away changes place × M / R by
    /// L × M, a multiple of L, so the positions must be the same, and a wrong reduction shows as a difference.
    pub(crate) place: i128,
}

impl Axis {
    /// Plate and parameters have been checked.
    pub fn start(plate: &Plate, parameters: &Parameters, first: u32) -> Result<Axis, u8> {
        let (r, c) = (i128::from(plate.steps), plate.raw_numbers());
        let (m, l) = if parameters.scaling_in_force() {
            (i128::from(parameters.units), i128::from(parameters.range))
        } else {
            (r, c)
        };
        let code_sequence = parameters.code_sequence_in_force();
        let mut axis = Axis { r, c, m, l, code_sequence, oriented: 0, place: 0 };
        axis.oriented = axis.orient(first)?;
        axis.place = axis.oriented;
        Ok(axis)
    }

    /// Rule 1, for raw numbers below C.
    fn orient(&self, raw: u32) -> Result<i128, u8> {
        let raw = i128::from(raw);
        refuse_if(raw >= self.c, TURN)?;
        Ok(if self.code_sequence { (self.c - raw).rem_euclid(self.c) } else { raw })
    }

    /// Rule 3. The difference is known up to multiples of C; of those the one nearest to 0 is d. C/2 need not be whole,
    /// hence the doubling. The answer is d.
    pub fn read(&mut self, raw: u32) -> Result<i128, u8> {
        let oriented = self.orient(raw)?;
        let forward = (oriented - self.oriented).rem_euclid(self.c);
        refuse_if(2 * forward == self.c, HALF_RANGE)?;
        let d = if 2 * forward < self.c { forward } else { forward - self.c };
        self.oriented = oriented;
        self.place += d;
        Ok(d)
    }

    /// Place × M / R rounded down, before it is taken modulo L.
    fn units_moved(&self) -> i128 {
        (self.place * self.m).div_euclid(self.r)
    }

    /// Rule 4, and rule 5 with offset 0.
    pub fn position(&self) -> u32 {
        u32::try_from(self.units_moved().rem_euclid(self.l)).expect("L is at most 2^31")
    }

    /// How many times the position has gone through its whole range L (below 0 the other way). For counting wraps only.
    pub fn position_rounds(&self) -> i128 {
        self.units_moved().div_euclid(self.l)
    }

    /// The same for the sensor and its range C.
    pub fn sensor_rounds(&self) -> i128 {
        self.place.div_euclid(self.c)
    }
}

/// The positions that `encoder_batch` must report, or the number of its refusal.
pub fn batch(call: &Batch) -> Result<Vec<u32>, u8> {
    call.plate.check()?;
    refuse_if(call.positions_length != call.raws.len(), BUFFER)?;
    call.parameters.check(&call.plate)?;
    let mut axis = Axis::start(&call.plate, &call.parameters, call.first)?;
    let mut positions = Vec::new();
    for raw in &call.raws {
        axis.read(*raw)?;
        positions.push(axis.position());
    }
    Ok(positions)
}

/// The numbers that the reader of the class must give, or the number of its refusal.
pub fn read(call: &Telegram) -> Result<Vec<u32>, u8> {
    if call.block {
        read_block(call)
    } else {
        read_telegram(call)
    }
}

fn read_telegram(call: &Telegram) -> Result<Vec<u32>, u8> {
    let octets = &call.octets;
    call.plate.check()?;
    refuse_if(call.parameters_length != 3, BUFFER)?;
    refuse_if(octets.len() != 17, LENGTH)?;
    refuse_if(number(octets, 5, 6) != u32::from(call.ident), IDENT)?;
    let (units, range) = (number(octets, 10, 13), number(octets, 14, 17));
    let parameters = Parameters { class4: 0, operating: octet(octets, 9), units, range, life: 0, speed: 0 };
    parameters.check(&call.plate)?;
    Ok(vec![u32::from(parameters.operating), units, range])
}

fn read_block(call: &Telegram) -> Result<Vec<u32>, u8> {
    let octets = &call.octets;
    call.plate.check()?;
    refuse_if(call.parameters_length != 5, BUFFER)?;
    refuse_if(octets.len() != 11, LENGTH)?;
    let (units, range) = (number(octets, 2, 5), number(octets, 6, 9));
    let (operating, life, speed) = (octet(octets, 1), octet(octets, 10), octet(octets, 11));
    let parameters = Parameters { class4: 1, operating, units, range, life, speed };
    parameters.check(&call.plate)?;
    Ok(vec![u32::from(operating), units, range, u32::from(life), u32::from(speed)])
}
