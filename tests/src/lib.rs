//! Compares the linked library (c/encoder.h) and the stored vectors with a model of the same rules, written from
//! documents 01 and 02 alone.

#![deny(unsafe_code)]

pub mod compare;
pub mod cycle;
pub mod draw;
#[allow(unsafe_code)] // the calls over the C interface; nowhere else
pub mod library;
pub mod model;
pub mod running;
