//! Crate `peaks`: peak texts after so many steps, through `zib_shift_stored_value`.
//!
//! Document 02's request 7 takes texts of one form and rounds exactly, a half going up. That is read a second time here: the whole part of a
//! fourth root, in whole numbers of 128 bits. The published Rust multiplies by a power in f64, so its text is held to that of the library to
//! within a millionth, and where the two are unequal the exact product must lie half-way between two millionths.

use super::values::{any_i32, keys, library, nearly, our_shift, shift, turn, ENDS, TRACK_PEAK};
use super::Case;
use crate::ape::shift_stored_value;
use crate::tools::{hex, Compare, Rng};

pub const CASE: Case = Case { name: "peaks", record: |_| (), compare, bench: |_| () };

/// What no new count reaches.
const MOST: u64 = 100_000_000;

// ---- the second reading

/// The millionths of a text of 1 or 2 digits, a point and 6 digits.
fn millionths(text: &[u8]) -> Option<u64> {
    let (whole, part) = text.split_at_checked(text.len().checked_sub(7)?)?;
    let digits = |s: &[u8]| s.iter().all(u8::is_ascii_digit);
    let formed = (1..=2).contains(&whole.len()) && part[0] == b'.' && digits(whole) && digits(&part[1..]);
    formed.then(|| whole.iter().chain(&part[1..]).fold(0, |n, d| n * 10 + (d - b'0') as u64))
}

/// The whole part of 2p times 2 to the power steps / 4; none where its fourth power has more than 128 binary digits.
fn doubled(p: u64, steps: i32) -> Option<u64> {
    let (fourth, by) = ((2 * p as u128).pow(4), steps.unsigned_abs());
    let power = match fourth {
        0 => 0,
        _ if steps < 0 => fourth.checked_shr(by).unwrap_or(0),
        _ if by > fourth.leading_zeros() => return None,
        _ => fourth << by,
    };
    Some(power.isqrt().isqrt() as u64)
}

/// The new text of a peak, or none where it stays as found.
pub fn moved(text: &[u8], steps: i32) -> Option<Vec<u8>> {
    let n = (doubled(millionths(text)?, steps)? + 1) / 2;
    (n < MOST).then(|| peak_text(n, 1).into_bytes())
}

/// Whether p times 2 to the power steps / 4 lies half-way between two whole numbers: only where it is a division by a power of two.
fn is_half(p: u64, steps: i32) -> bool {
    let q = steps.unsigned_abs() / 4;
    steps < 0 && steps % 4 == 0 && q < 64 && p % (1 << q) == 1 << (q - 1)
}

// ---- both sides

fn peak_text(millionths: u64, digits: usize) -> String {
    format!("{:0digits$}.{:06}", millionths / 1_000_000, millionths % 1_000_000)
}

/// A text of the form, its count of any size.
pub fn some_text(rng: &mut Rng) -> String {
    peak_text(rng.next() % 10u64.pow(1 + rng.below(8) as u32), 1 + rng.below(2))
}

/// The library's new text, by one call.
fn ours(text: &[u8], steps: i32) -> Option<Vec<u8>> {
    let (mut moved, mut out, mut n) = (7, [0; 32], 0);
    assert_eq!(library::shift_into(TRACK_PEAK.as_bytes(), text, steps, &mut moved, &mut out, &mut n), 0);
    (moved == 1).then(|| out[..n].to_vec())
}

/// How many texts were held to the reading, how many of these moved, and how many of those the Rust moves to another text.
#[derive(Default)]
struct Beside {
    held: u64,
    moved: u64,
    unequal: u64,
}

impl Beside {
    /// A text of the form: the library's new text is the reading's, and the Rust's is at most a millionth from it.
    fn hold(&mut self, text: &str, steps: i32) {
        let new = ours(text.as_bytes(), steps);
        assert_eq!(new, moved(text.as_bytes(), steps), "{text} by {steps}: the library, and exact numbers");
        self.held += 1;
        let Some(new) = new else { return };
        let theirs = shift_stored_value(TRACK_PEAK, text, steps).unwrap().into_bytes();
        self.moved += 1;
        if theirs == new {
            return;
        }
        let count = |text: &[u8]| text.iter().filter(|&&b| b != b'.').fold(0, |n, d| n * 10 + (d - b'0') as u64);
        let near = count(&theirs).abs_diff(count(&new)) == 1;
        assert!(
            near && is_half(count(text.as_bytes()), steps),
            "{text} by {steps}: {}, and the Rust {}",
            hex(&new),
            hex(&theirs)
        );
        self.unequal += 1;
    }
}

/// How many texts of the form `--every` takes at every step.
const TEXTS: u64 = 1_000_000;

fn compare(c: &mut Compare) {
    let mut all = Beside::default();
    // The smallest inputs of docs/DIFFERENCES.md.
    for (text, steps, here, there) in
        [("0.000001", -4, "0.000001", "0.000000"), ("1.000000", -28, "0.007813", "0.007812")]
    {
        c.inputs += 1;
        assert_eq!(our_shift(TRACK_PEAK, text.as_bytes(), steps).as_deref(), Some(here.as_bytes()));
        assert_eq!(shift_stored_value(TRACK_PEAK, text, steps).as_deref(), Some(there));
    }
    // Every key, texts of the form and near it, and steps about every end: the library and the reading.
    let texts = ["0.000000", "0.000001", "00.500000", "1.000000", "99.999999", "0.9", "+1.000000", "1.00000", "", "é"];
    for key in keys() {
        for steps in ENDS {
            texts.iter().for_each(|text| shift(c, &key, text.as_bytes(), steps));
        }
    }
    for text in ["1.000000", "12.345678"] {
        for at in 0..=text.len() {
            for byte in 0..=255 {
                for steps in [0, 1] {
                    let (front, back) = text.as_bytes().split_at(at);
                    shift(c, TRACK_PEAK, &[front, &[byte], back].concat(), steps);
                    shift(c, TRACK_PEAK, &[front, &[byte], back.get(1..).unwrap_or(b"")].concat(), steps);
                    shift(c, TRACK_PEAK, &[front, back.get(1..).unwrap_or(b"")].concat(), steps);
                }
            }
        }
    }
    for i in 0..c.count / 4 {
        let text = peak_text(c.rng.next() % 10u64.pow(1 + c.rng.below(9) as u32), 1 + c.rng.below(3));
        let near = nearly(&mut c.rng, text.as_bytes());
        shift(c, TRACK_PEAK, &near, turn(i));
        let steps = any_i32(&mut c.rng);
        shift(c, "replaygain_album_peak", text.as_bytes(), steps);
    }
    // The Rust beside it. Every exact half of steps down to -255, up to a thousand counts for each; then counts of every size.
    for steps in (-63..0).map(|n| 4 * n) {
        let half = 1u64.checked_shl((steps / -4 - 1) as u32).filter(|&h| h < MOST);
        let halves = half.into_iter().flat_map(|h| (h..MOST).step_by(2 * h as usize).take(1000));
        halves.for_each(|p| all.hold(&peak_text(p, 1), steps));
    }
    for i in 0..c.count {
        all.hold(&some_text(&mut c.rng), turn(i));
    }
    // Texts over all of the form at every step: two thousand of them in a run of a million, or a million.
    let stride = MOST / if c.every { TEXTS } else { (c.count / 500).max(1) };
    let threads = std::thread::available_parallelism().map_or(1, |n| n.get() as u64);
    let runs = std::thread::scope(|scope| {
        let run = |thread: u64| {
            let mut own = Beside::default();
            for p in (thread * stride..MOST).step_by((threads * stride) as usize) {
                let text = peak_text(p + p / stride % stride, 1);
                (-255..=255).for_each(|steps| own.hold(&text, steps));
            }
            own
        };
        let all: Vec<_> = (0..threads).map(|thread| scope.spawn(move || run(thread))).collect();
        all.into_iter().map(|one| one.join().unwrap()).collect::<Vec<_>>()
    });
    for run in runs {
        all.held += run.held;
        all.moved += run.moved;
        all.unequal += run.unequal;
    }
    c.inputs += all.held;
    println!(
        "peaks: of {} moved texts {} are unequal to the Rust's: exact halves, a millionth apart",
        all.moved, all.unequal
    );
}
