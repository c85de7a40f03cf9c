//! Stands in for `src/gain.rs`, which is not published with the parts that were ordered. Document 01 gives the step.

/// One gain step in decibels.
pub const GAIN_STEP_DB: f64 = 1.505149978319906;

pub fn steps_to_db(steps: i32) -> f64 {
    steps as f64 * GAIN_STEP_DB
}

/// A peak times the linear factor of so many decibels.
pub fn apply_gain_to_peak(peak: f64, db: f64) -> f64 {
    peak * 10f64.powf(db / 20.0)
}
