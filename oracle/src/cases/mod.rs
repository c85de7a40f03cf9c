//! One module for each crate of the library that is compared.

use crate::tools::{Bench, Compare, Record};

mod amplitudes;
mod ape;
#[cfg(beside)]
pub mod beside;
mod edit;
mod fixed_ranges;
mod flags;
mod frame;
mod items;
mod lengths;
mod level;
mod listing;
mod peaks;
mod reversal;
mod shift;
mod sound;
mod tails;
mod utf8;
mod values;

/// What a module offers: recorded answers, a comparison, and what is timed.
pub struct Case {
    pub name: &'static str,
    pub record: fn(&mut Record),
    pub compare: fn(&mut Compare),
    pub bench: fn(&mut Bench),
}

pub const ALL: &[Case] = &[
    frame::CASE,
    ape::CASE,
    items::CASE,
    utf8::CASE,
    values::CASE,
    peaks::CASE,
    edit::CASE,
    lengths::CASE,
    reversal::CASE,
    listing::CASE,
    flags::CASE,
    amplitudes::CASE,
    fixed_ranges::CASE,
    sound::CASE,
    tails::CASE,
];
