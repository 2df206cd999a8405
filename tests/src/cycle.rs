//! One axis record and its link over many calls: start, readings, presets, passes, velocity and the cycles of
//! document 01; of document 02 telegram 83 (No. 1), the preset that stays due (No. 2), the sign of life with the errors
//! that have a code (No. 3), and passes by units and rest (No. 4).

use crate::model::{self, bit, number, refuse_if, Axis, Parameters, Plate};
use crate::running::{self, Kinds};

/// The numbers of an axis record. `last` is the last raw number.
#[derive(Clone, Copy, Debug)]
pub struct Numbers {
    pub place: i128,
    pub last: u32,
    pub offset: i128,
    pub preset: i128,
    pub held: i128,
}

/// The codes of errors.
const FAULTY: u16 = 0x0001;
const LIFE_LOST: u16 = 0x0F02;

/// The link record. `counted` is bit 31 or bit 12 as last counted; `due` is a preset of bit 31 not made yet. `counter`
/// and `expected` are the failure counter and the expected value of the sign of life; `code` is that of the error held.
#[derive(Clone, Copy, Debug, Default)]
pub struct Link {
    pub faulty: bool,
    pub counted: bool,
    pub error: bool,
    pub acknowledge: bool,
    pub executed: bool,
    pub due: bool,
    pub counter: u32,
    pub expected: u32,
    pub code: u16,
}

/// An axis with its link, from call to call. There are no numbers before the start.
#[derive(Clone, Copy, Debug)]
pub struct Device {
    pub plate: Plate,
    pub parameters: Parameters,
    pub numbers: Option<Numbers>,
    pub link: Link,
}

/// A record within its limits, as a copy for one call.
pub struct Started {
    axis: Axis,
    unit: u8,
    pub numbers: Numbers,
}

/// The place modulo R × L.
fn reduced(axis: &Axis) -> i128 {
    axis.place.rem_euclid(axis.r * axis.l)
}

impl Started {
    pub fn unshifted(&self) -> u32 {
        self.axis.position()
    }

    /// Rule 5.
    pub fn position(&self) -> u32 {
        self.shifted(self.unshifted().into())
    }

    fn shifted(&self, unshifted: i128) -> u32 {
        let sum = unshifted + self.numbers.offset;
        u32::try_from(sum.rem_euclid(self.axis.l)).expect("L is at most 2^31")
    }

    /// Moves by a raw number; the answer is d.
    fn read(&mut self, raw: u32) -> Result<i128, u8> {
        let d = self.axis.read(raw)?;
        (self.numbers.place, self.numbers.last) = (reduced(&self.axis), raw);
        Ok(d)
    }

    /// Rule 6, for a value between −L and L.
    fn preset(&mut self, value: i128, relative: bool) {
        let from = if relative { i128::from(self.position()) } else { 0 };
        let position = (from + value).rem_euclid(self.axis.l);
        self.numbers.offset = position - i128::from(self.unshifted());
        self.numbers.preset = value;
    }

    /// "Velocity". The move is made on this copy only. Division of i128 cuts towards zero.
    fn velocity(mut self, raw: u32, elapsed: u32) -> Result<i32, u8> {
        let d = self.read(raw)?;
        let per = match self.unit {
            0 => self.axis.m * 1000,
            1 => self.axis.m * 100,
            2 => self.axis.m * 10,
            _ => 60_000,
        };
        let whole = d * per / (self.axis.r * i128::from(elapsed));
        Ok(whole.clamp(i32::MIN.into(), i32::MAX.into()) as i32)
    }
}

impl Device {
    fn within_limits(&self) -> Option<Started> {
        let numbers = self.numbers?;
        self.plate.check().ok()?;
        self.parameters.check(&self.plate).ok()?;
        let mut axis = Axis::start(&self.plate, &self.parameters, numbers.last).ok()?; // turns away C and above
        axis.place = numbers.place;
        let signed = [numbers.offset, numbers.preset, numbers.held];
        let within = numbers.place == reduced(&axis) && signed.iter().all(|number| number.abs() < axis.l);
        let unit = if self.parameters.is_class_four() { self.parameters.speed } else { 0 };
        within.then_some(Started { axis, unit, numbers })
    }

    /// Row 16.
    pub fn started(&self) -> Result<Started, u8> {
        self.within_limits().ok_or(model::NO_AXIS)
    }

    /// Row 16 of a call that brings the link too.
    fn linked(&self) -> Result<(), u8> {
        self.started()?;
        refuse_if(!self.link.within_limits(&self.parameters), model::NO_AXIS)
    }

    /// A call on a copy of the record. The copy is stored unless the call is turned away.
    fn call(&mut self, call: impl FnOnce(&mut Started) -> Result<(), u8>) -> Result<(), u8> {
        let mut started = self.started()?;
        call(&mut started)?;
        self.numbers = Some(started.numbers);
        Ok(())
    }

    /// Rows 8 and 9.
    fn raw(&self, step: u32, turn: u32) -> Result<u32, u8> {
        refuse_if(step >= self.plate.steps, model::STEP)?;
        refuse_if(turn >= self.plate.turns, model::TURN)?;
        Ok(turn * self.plate.steps + step)
    }

    /// The link is kept. A start yields the axis, so a refused one leaves none.
    pub fn start(&mut self, step: u32, turn: u32) -> Result<(), u8> {
        self.numbers = None;
        self.plate.check()?;
        self.parameters.check(&self.plate)?;
        let last = self.raw(step, turn)?;
        let axis = Axis::start(&self.plate, &self.parameters, last)?;
        self.numbers = Some(Numbers { place: reduced(&axis), last, offset: 0, preset: 0, held: 0 });
        Ok(())
    }

    pub fn reading(&mut self, step: u32, turn: u32) -> Result<(), u8> {
        self.started()?;
        self.number(self.raw(step, turn)?)
    }

    pub fn number(&mut self, raw: u32) -> Result<(), u8> {
        self.call(|started| started.read(raw).map(|_| ()))
    }

    /// Rule 7. A refused pass reports nothing, not even the entries before the refusal.
    pub fn pass(&mut self, raws: &[u32], positions: &mut [u32]) -> Result<(), u8> {
        self.call(|started| {
            refuse_if(positions.len() != raws.len(), model::BUFFER)?;
            let each = raws.iter().map(|raw| started.read(*raw).map(|_| started.position()));
            positions.copy_from_slice(&each.collect::<Result<Vec<u32>, u8>>()?);
            Ok(())
        })
    }

    /// What `pass` must report into a list of this length, by document 02, No. 4. The record is left as it is.
    pub fn running_pass(&self, raws: &[u32], length: usize, kinds: &mut Kinds) -> Result<Vec<u32>, u8> {
        let started = self.started()?;
        refuse_if(length != raws.len(), model::BUFFER)?;
        let units = running::follow(started.axis, raws, kinds)?;
        Ok(units.into_iter().map(|units| started.shifted(units)).collect())
    }

    pub fn preset(&mut self, value: i128, relative: bool) -> Result<(), u8> {
        self.with_value(value, |started| started.preset(value, relative))
    }

    /// Sets the held preset value.
    pub fn hold(&mut self, value: i128) -> Result<(), u8> {
        self.with_value(value, |started| started.numbers.held = value)
    }

    /// Rows 16, 12 and 11.
    fn with_value(&mut self, value: i128, change: impl FnOnce(&mut Started)) -> Result<(), u8> {
        let class_on = self.parameters.class_on();
        self.call(|started| {
            refuse_if(!class_on, model::CLASS_OFF)?;
            refuse_if(value.abs() >= started.axis.l, model::PRESET)?;
            change(started);
            Ok(())
        })
    }

    pub fn velocity(&self, step: u32, turn: u32, elapsed: u32) -> Result<i32, u8> {
        let started = self.started()?;
        refuse_if(elapsed == 0, model::ELAPSED)?;
        started.velocity(self.raw(step, turn)?, elapsed)
    }

    /// The refusals of a diagnosis into so many octets; the octets are not worked out.
    pub fn diagnose(&self, length: usize) -> Result<(), u8> {
        self.linked()?;
        refuse_if(length != if self.parameters.class_on() { 57 } else { 10 }, model::BUFFER)
    }

    /// The cycle of the axis's class.
    pub fn exchange(&mut self, raw: u32, output: &[u8], input: &mut [u8]) -> Result<(), u8> {
        self.linked()?;
        let (parameters, mut link) = (self.parameters, self.link);
        self.call(|started| {
            let (length, cycle): (_, Cycle) =
                if parameters.is_class_four() { (12, Link::class_four) } else { (4, Link::class_two) };
            refuse_if(output.len() != 4 || input.len() != length, model::BUFFER)?;
            link.faulty = started.read(raw).is_err();
            input.copy_from_slice(&cycle(&mut link, started, &parameters, output));
            Ok(())
        })?;
        self.link = link;
        Ok(())
    }

    /// Telegram 83. NIST_B is worked out from the record as the cycle finds it, before any move or preset.
    pub fn measured(&mut self, raw: u32, elapsed: u16, output: &[u8], input: &mut [u8]) -> Result<(), u8> {
        self.linked()?;
        let started = self.started()?;
        let lengths = output.len() == 4 && input.len() == 16;
        refuse_if(!self.parameters.is_class_four() || !lengths, model::BUFFER)?;
        refuse_if(elapsed == 0, model::ELAPSED)?;
        let velocity = started.velocity(raw, elapsed.into()).unwrap_or(0); // refused by 9 or 10: the cycle is faulty
        self.exchange(raw, output, &mut input[..12])?;
        input[12..].copy_from_slice(&velocity.to_be_bytes());
        Ok(())
    }
}

/// A cycle from the move on, which has been made unless the link says faulty. The answer is the input.
type Cycle = fn(&mut Link, &mut Started, &Parameters, &[u8]) -> Vec<u8>;

/// Where the counter stops, on an axis with the sign of life: ten times block octet 10.
fn stop(parameters: &Parameters) -> u32 {
    10 * u32::from(parameters.life)
}

/// Document 02, No. 3.
impl Link {
    fn within_limits(&self, parameters: &Parameters) -> bool {
        let known = [0, FAULTY, LIFE_LOST].contains(&self.code) && (self.code != 0) == self.error;
        let of_axis = if parameters.sign_of_life() {
            self.counter <= stop(parameters)
        } else {
            self.counter == 0 && self.code != LIFE_LOST
        };
        self.expected <= 15 && known && of_axis
    }

    /// Counts the value of one cycle. Before the start the expected value is 0.
    fn count_life(&mut self, value: u32, stop: u32) {
        if self.expected != 0 {
            let failed = value != self.expected;
            self.counter = if failed { stop.min(self.counter + 10) } else { self.counter.saturating_sub(1) };
        }
        self.expected = self.expected_after(value);
    }

    fn expected_after(&self, value: u32) -> u32 {
        match value {
            0 if self.expected == 0 => 0,
            0 | 15 => 1,
            _ => value + 1,
        }
    }

    /// The code of the error that arises in this cycle, or 0.
    fn arising(&self, parked: bool, stopped: bool) -> u16 {
        if self.faulty && !parked {
            FAULTY
        } else if stopped {
            LIFE_LOST
        } else {
            0
        }
    }

    /// Error held with its code, and acknowledge seen, in the order of document 01.
    fn hold_error(&mut self, acknowledge: bool, parked: bool, stopped: bool) {
        if !self.error {
            self.code = self.arising(parked, stopped);
            self.error = self.code != 0;
        }
        if self.acknowledge && !acknowledge && !self.faulty && !stopped {
            (self.error, self.code) = (false, 0);
        }
        self.acknowledge = self.error && acknowledge;
    }
}

impl Link {
    /// What the link keeps for class 4 stays as it is.
    fn class_two(&mut self, started: &mut Started, parameters: &Parameters, output: &[u8]) -> Vec<u8> {
        let output = number(output, 1, 4);
        let value = i128::from(output & 0x7FFF_FFFF);
        let rise = bit(output, 31) && !self.counted;
        let due = rise || self.due && bit(output, 31);
        let made = due && parameters.class_on() && !self.faulty && value < started.axis.l;
        if made {
            started.preset(value, false);
        }
        self.due = due && !made; // with the class off too, since only the making asks for it
        self.counted = bit(output, 31);
        started.position().to_be_bytes().to_vec()
    }

    /// Telegram 81. `due` stays as it is: only bit 31 has to do with it. The sign of life counts whatever bit 10 is.
    fn class_four(&mut self, started: &mut Started, parameters: &Parameters, output: &[u8]) -> Vec<u8> {
        let (encoder, alive) = (number(output, 1, 2), parameters.sign_of_life());
        if alive {
            self.count_life(encoder >> 12, stop(parameters));
        }
        let stopped = alive && self.counter == stop(parameters);
        let control = if bit(encoder, 10) { number(output, 3, 4) } else { 0 };
        self.hold_error(bit(control, 15), bit(control, 14), stopped);
        let rise = bit(control, 12) && !self.counted;
        let made = rise && parameters.class_on() && !self.error && !self.faulty;
        if made {
            started.preset(started.numbers.held, bit(control, 11));
        }
        self.counted = bit(control, 12);
        self.executed = bit(control, 12) && (made || self.executed);
        let position = started.position();
        let first = if bit(parameters.operating, 2) { started.unshifted() } else { position };
        let second = if self.error { u32::from(self.code) } else { position };
        let words = (0x0200 << 16) + self.status(bit(control, 14));
        [words, first, second].iter().flat_map(|number| number.to_be_bytes()).collect()
    }

    /// G1_ZSW.
    fn status(&self, parked: bool) -> u32 {
        let bits = [(15, self.error), (14, parked), (13, !self.error), (12, self.executed), (11, self.acknowledge)];
        bits.iter().map(|(number, state)| u32::from(*state) << number).sum()
    }
}
