//! Asks model and library the same and counts what came out.

use crate::draw;
use crate::library::{self, Answer, GUARD};
use crate::model::{self, Axis, Batch, Telegram};
use crate::running::{self, Kinds};
use std::fmt::{self, Debug, Display, Formatter};

/// One case and both answers to it.
pub struct Compared<Case> {
    pub case: Case,
    pub model: Result<Vec<u32>, u8>,
    pub library: Answer,
    pub equal: bool,
    repeat: String,
}

pub fn batch(seed: u64, index: u64) -> Compared<Batch> {
    let case = draw::batch(seed, index);
    let (model, library) = (model::batch(&case), library::batch(&case));
    let equal = library == demanded(&model, case.positions_length);
    Compared { case, model, library, equal, repeat: format!("batch {index} {seed}") }
}

pub fn telegram(seed: u64, index: u64) -> Compared<Telegram> {
    let case = draw::telegram(seed, index);
    let (model, library) = (model::read(&case), library::read(&case));
    let equal = library == demanded(&model, case.parameters_length);
    Compared { case, model, library, equal, repeat: format!("telegram {index} {seed}") }
}

/// What the library must leave behind: the list the model gives between untouched guards, or nothing touched at all.
pub fn demanded(model: &Result<Vec<u32>, u8>, length: usize) -> Answer {
    let mut lent = library::pattern(length);
    if let Ok(list) = model {
        lent[GUARD..GUARD + length].copy_from_slice(list);
    }
    Answer { refusal: model.as_ref().err().copied().unwrap_or(0), lent, source_kept: true }
}

impl<Case: Debug> Display for Compared<Case> {
    fn fmt(&self, out: &mut Formatter) -> fmt::Result {
        writeln!(out, "{}", if self.equal { "Equal." } else { "DIFFERENT." })?;
        writeln!(out, "Alone: cargo run --manifest-path tests/Cargo.toml -- {}", self.repeat)?;
        writeln!(out, "Case: {:?}", self.case)?;
        writeln!(out, "Model: {:?}", self.model)?;
        writeln!(out, "Library, list with {GUARD} guards on either side: {:?}", self.library)
    }
}

#[derive(Default)]
pub struct Counts {
    /// Cases per answer of the model: at 0 the calls taken, at n those refused with n. Document 02 goes up to 23.
    pub answers: [u64; 24],
    pub positions: u64,
    /// Moves, among the calls taken, in which the position went past an end of its range L, the sensor past one of C.
    pub position_wraps: u64,
    pub sensor_wraps: u64,
    pub differences: u64,
    /// The same moves by document 02, No. 4.
    pub kinds: Kinds,
}

impl Counts {
    /// The first difference is printed whole; the others are counted.
    fn note<Case: Debug>(&mut self, compared: &Compared<Case>) {
        self.answers[usize::from(compared.model.as_ref().err().copied().unwrap_or(0))] += 1;
        if !compared.equal {
            if self.differences == 0 {
                println!("{compared}");
            }
            self.differences += 1;
        }
    }

    /// Goes through a call that was taken once more to see what its moves were like.
    fn note_moves(&mut self, call: &Batch) -> Result<(), u8> {
        let mut axis = Axis::start(&call.plate, &call.parameters, call.first)?;
        self.note_running(axis, call)?;
        for raw in &call.raws {
            let before = (axis.position_rounds(), axis.sensor_rounds());
            axis.read(*raw)?;
            self.positions += 1;
            self.position_wraps += u64::from(axis.position_rounds() != before.0);
            self.sensor_wraps += u64::from(axis.sensor_rounds() != before.1);
        }
        Ok(())
    }

    /// The first batch in which units or rest are not those of the place is printed.
    fn note_running(&mut self, axis: Axis, call: &Batch) -> Result<(), u8> {
        let before = self.kinds.differences;
        running::follow(axis, &call.raws, &mut self.kinds)?;
        if before == 0 && self.kinds.differences > 0 {
            println!("DIFFERENT by units and rest. Case: {call:?}");
        }
        Ok(())
    }
}

pub fn batches(count: u64, seed: u64) -> Counts {
    let mut counts = Counts::default();
    for index in 0..count {
        let compared = batch(seed, index);
        counts.note(&compared);
        if compared.model.is_ok() {
            counts.note_moves(&compared.case).expect("the model has taken this call");
        }
    }
    counts
}

/// The cases of both readers, counted apart: class 2 telegrams, then class 4 blocks.
pub fn telegrams(count: u64, seed: u64) -> (Counts, Counts) {
    let (mut telegrams, mut blocks) = (Counts::default(), Counts::default());
    for index in 0..count {
        let compared = telegram(seed, index);
        let counts = if compared.case.block { &mut blocks } else { &mut telegrams };
        counts.note(&compared);
    }
    (telegrams, blocks)
}
