//! Crate `amplitudes`: 2 to the power of a quarter of the steps. The published Rust has none: the library is held to a second reading of
//! request 14 over whole numbers, bit for bit, and to `exp2`, to within the last bit.

use super::Case;
use crate::tools::{Bench, Compare, Record};
use std::hint::black_box;

pub const CASE: Case = Case { name: "amplitudes", record, compare, bench };

/// The exported function, as Rust.
mod library {
    extern "C" {
        fn zib_amplitudes(left_steps: i32, right_steps: i32, left: *mut f64, right: *mut f64) -> u32;
    }

    /// The bits of both amplitudes, or the refusal, which leaves both lent numbers.
    pub fn amplitudes(left_steps: i32, right_steps: i32) -> Result<(u64, u64), u32> {
        let (mut left, mut right) = (7.5, 8.5);
        // SAFETY: the lent numbers live through the call.
        match unsafe { zib_amplitudes(left_steps, right_steps, &mut left, &mut right) } {
            0 => Ok((left.to_bits(), right.to_bits())),
            reply => {
                assert_eq!((left, right), (7.5, 8.5), "a refused call changed a lent number");
                Err(reply)
            }
        }
    }
}

/// The square of a number, whole: its upper and its lower 128 bits.
fn square(n: u128) -> (u128, u128) {
    let (high, low) = (n >> 64, n & u64::MAX as u128);
    let middle = high * low;
    let (sum, carry) = (low * low).overflowing_add(middle << 65);
    (high * high + (middle >> 63) + carry as u128, sum)
}

/// The whole number nearest to the fourth root of 2^k in units of 2^-52: the greatest m for which (m - 1/2)^4 lies below 2^k.
fn nearest_root(k: u32) -> u64 {
    let below = |m: u64| {
        let half_units = 2 * m as u128 - 1;
        square(half_units * half_units) < (1 << (k + 4 * 53 - 128), 0)
    };
    let (mut least, mut past) = (1 << 52, 1 << 53);
    while past - least > 1 {
        let m = (least + past) / 2;
        if below(m) {
            least = m;
        } else {
            past = m;
        }
    }
    least
}

/// The bits of the amplitude of a step in range: sign, exponent, and the root without its leading digit.
fn bits(steps: i32) -> u64 {
    let exponent = (1023 + steps.div_euclid(4)) as u64;
    (exponent << 52) + (nearest_root(steps.rem_euclid(4) as u32) - (1 << 52))
}

fn read_again(left_steps: i32, right_steps: i32) -> Result<(u64, u64), u32> {
    let in_range = |steps: i32| (-255..=255).contains(&steps);
    if !in_range(left_steps) || !in_range(right_steps) {
        return Err(2);
    }
    Ok((bits(left_steps), bits(right_steps)))
}

fn power(steps: i32) -> f64 {
    (steps as f64 / 4.0).exp2()
}

/// Steps about the ends of the range and of i32.
const EDGES: [i32; 12] = [0, 1, -1, 254, 255, 256, -254, -255, -256, 257, i32::MAX, i32::MIN];

fn compare(c: &mut Compare) {
    let both = |c: &mut Compare, left: i32, right: i32| {
        c.numbers(
            "amplitudes (left steps, right steps)",
            &[left as i64, right as i64],
            |a| read_again(a[0] as i32, a[1] as i32),
            |a| library::amplitudes(a[0] as i32, a[1] as i32),
        );
    };
    // Every step on either side, beside every other.
    for left in -256..=256 {
        for right in -256..=256 {
            both(c, left, right);
        }
    }
    for left in EDGES {
        for right in EDGES {
            both(c, left, right);
        }
    }
    let mut unequal = 0;
    for steps in -255..=255 {
        let (ours, _) = library::amplitudes(steps, 0).expect("the step is in range");
        unequal += (ours != power(steps).to_bits()) as u32;
        c.numbers(
            "amplitude beside exp2, to within the last bit (steps)",
            &[steps as i64],
            |_| true,
            |a| {
                let (ours, _) = library::amplitudes(a[0] as i32, 0).expect("the step is in range");
                ours.abs_diff(power(a[0] as i32).to_bits()) <= 1
            },
        );
    }
    println!("amplitudes: exp2 differs in the last bit at {unequal} of 511 steps");
    for _ in 0..c.count / 10 {
        let (left, right) = (c.rng.next() as i32 >> c.rng.below(32), c.rng.next() as i32 >> c.rng.below(32));
        both(c, left, right);
    }
}

fn record(r: &mut Record) {
    let pairs = (-255..=255).map(|s| (s, -s)).chain(EDGES.into_iter().flat_map(|a| EDGES.map(|b| (a, b))));
    for (left, right) in pairs {
        let words = match read_again(left, right) {
            Ok((a, b)) => format!("amplitudes {left} {right} 0 {a:016x} {b:016x}"),
            Err(reply) => format!("amplitudes {left} {right} {reply} - -"),
        };
        r.line(&[words]);
    }
}

fn bench(b: &mut Bench) {
    #[inline(never)]
    fn by_exp2(left: i32, right: i32) -> Option<(f64, f64)> {
        let in_range = |steps: i32| (-255..=255).contains(&steps);
        (in_range(left) && in_range(right)).then(|| (power(left), power(right)))
    }
    b.row(
        "amplitudes, 511 pairs of steps (Rust: exp2)",
        || (-255..=255).fold(0.0, |s, n| s + by_exp2(black_box(n), black_box(-n)).map_or(0.0, |p| p.0 + p.1)),
        || {
            (-255..=255).fold(0.0, |s, n| {
                s + library::amplitudes(black_box(n), black_box(-n))
                    .map_or(0.0, |p| f64::from_bits(p.0) + f64::from_bits(p.1))
            })
        },
    );
}
