//! The linked library: declarations after c/encoder.h, and calls that show every trace a call leaves.

use crate::model::{Batch, Telegram};

extern "C" {
    pub fn encoder_batch(
        steps: u32,
        turns: u32,
        class4: u8,
        operating: u8,
        units: u32,
        range: u32,
        life: u8,
        speed: u8,
        first: u32,
        raws: *const u32,
        raws_length: usize,
        positions: *mut u32,
        positions_length: usize,
    ) -> u8;

    fn encoder_read_telegram(
        steps: u32,
        turns: u32,
        ident: u16,
        telegram: *const u8,
        telegram_length: usize,
        parameters: *mut u32,
        parameters_length: usize,
    ) -> u8;

    fn encoder_read_block(
        steps: u32,
        turns: u32,
        block: *const u8,
        block_length: usize,
        parameters: *mut u32,
        parameters_length: usize,
    ) -> u8;
}

/// Elements in front of and behind each lent list that no call may touch.
pub const GUARD: usize = 8;

/// What a call leaves behind: its answer, the lent list with both guards, and whether the list it reads is unchanged.
#[derive(Debug, PartialEq)]
pub struct Answer {
    pub refusal: u8,
    pub lent: Vec<u32>,
    pub source_kept: bool,
}

/// A list to be filled, as lent. Positions stay below 2^31, so none can be mistaken for an element left as it was.
pub fn pattern(length: usize) -> Vec<u32> {
    (0xC0DE_0000..).take(length + 2 * GUARD).collect()
}

/// A copy of a list to be read, with guards that no raw number equals: a look past an end tends to change the answer.
fn guarded<T: Copy>(list: &[T], guard: T) -> Vec<T> {
    [&[guard; GUARD], list, &[guard; GUARD]].concat()
}

/// Lends `source` and a list of `length` elements to `call`, both between guards. The source is lent mutably, so that
/// the compiler does not take for granted what is looked at afterwards: that it is unchanged.
fn lend<T: Copy + PartialEq>(
    source: &[T],
    guard: T,
    length: usize,
    call: impl FnOnce(&mut [T], &mut [u32]) -> u8,
) -> Answer {
    let before = guarded(source, guard);
    let mut after = before.clone();
    let mut lent = pattern(length);
    let refusal = call(&mut after[GUARD..GUARD + source.len()], &mut lent[GUARD..GUARD + length]);
    Answer { refusal, lent, source_kept: after == before }
}

pub fn batch(call: &Batch) -> Answer {
    let (plate, sent) = (call.plate, call.parameters);
    lend(&call.raws, u32::MAX, call.positions_length, |raws, positions| {
        // SAFETY: both pointers come from slices of the lengths given, not null even when empty, and do not overlap.
        unsafe {
            encoder_batch(
                plate.steps,
                plate.turns,
                sent.class4,
                sent.operating,
                sent.units,
                sent.range,
                sent.life,
                sent.speed,
                call.first,
                raws.as_mut_ptr(),
                raws.len(),
                positions.as_mut_ptr(),
                positions.len(),
            )
        }
    })
}

/// Calls the reader of the class.
pub fn read(call: &Telegram) -> Answer {
    let (steps, turns) = (call.plate.steps, call.plate.turns);
    lend(&call.octets, 0xFF, call.parameters_length, |octets, parameters| {
        let (source, source_length) = (octets.as_mut_ptr(), octets.len());
        let (list, length) = (parameters.as_mut_ptr(), parameters.len());
        // SAFETY: as in `batch`.
        unsafe {
            if call.block {
                encoder_read_block(steps, turns, source, source_length, list, length)
            } else {
                encoder_read_telegram(steps, turns, call.ident, source, source_length, list, length)
            }
        }
    })
}
