//! A second build of the library beside the first one and the published Rust, in one run. `oracle/singly` links it, by default one that converts
//! every text byte by byte.

use super::{ape, utf8};
use crate::ape::{reach, read_ape_tag};
use crate::tools::{time, timed};

extern "C" {
    fn beside_read_ape_tag(
        file: *const u8,
        length: usize,
        area: *mut u8,
        room: usize,
        there: *mut u32,
        count: *mut usize,
        written: *mut usize,
    ) -> u32;
    fn beside_lossy_into(text: *const u8, length: usize, out: *mut u8, room: usize, written: *mut usize) -> u32;
}

fn other_read(file: &[u8], area: &mut [u8]) -> Result<Option<(usize, usize)>, u32> {
    let (mut there, mut count, mut written) = (7, 7, 7);
    // SAFETY: each pointer and length are those of a slice, and the numbers live through the call.
    let reply = unsafe {
        beside_read_ape_tag(
            file.as_ptr(),
            file.len(),
            area.as_mut_ptr(),
            area.len(),
            &mut there,
            &mut count,
            &mut written,
        )
    };
    if reply == 0 {
        Ok((there == 1).then_some((count, written)))
    } else {
        Err(reply)
    }
}

fn other_into(text: &[u8], out: &mut [u8]) -> Option<usize> {
    let mut written = usize::MAX;
    // SAFETY: each pointer and length are those of a slice, and `written` lives through the call.
    let reply = unsafe { beside_lossy_into(text.as_ptr(), text.len(), out.as_mut_ptr(), out.len(), &mut written) };
    (reply == 0).then_some(written)
}

/// One row: the best time of 60 rounds, the three sides in turn, each round some milliseconds long.
fn row<A, B, C>(
    what: &str,
    mut published: impl FnMut() -> A,
    mut other: impl FnMut() -> B,
    mut ours: impl FnMut() -> C,
) {
    let mut turns = 1;
    while timed(&mut ours, turns) * (turns as f64) < 0.002 {
        turns *= 2;
    }
    let (mut a, mut b, mut c) = (f64::MAX, f64::MAX, f64::MAX);
    for _ in 0..60 {
        a = a.min(timed(&mut published, turns));
        b = b.min(timed(&mut other, turns));
        c = c.min(timed(&mut ours, turns));
    }
    println!("| {what} | {} | {} | {} | {:.2} | {:.2} |", time(a), time(b), time(c), c / a, c / b);
}

/// The table. Before a row is measured, both builds must give the same.
pub fn table(name: &str) {
    println!("| call | published Rust | {name} | library | to the Rust | to the {name} |\n|---|---|---|---|---|---|");
    let tag = ape::lettered_tag();
    let file = reach::replace(&vec![0x55; 4096], &tag);
    let size = ape::area_of(&tag).len();
    for (room, of) in [(3 * file.len(), "ample room"), (size, "exact room")] {
        let (mut x, mut y) = (vec![0; room], vec![0; room]);
        assert!(other_read(&file, &mut x) == ape::library::read_ape_tag(&file, &mut y) && x == y);
        row(
            &format!("{}, {of}", ape::LETTERED),
            || read_ape_tag(&file),
            || other_read(&file, &mut x),
            || ape::library::read_ape_tag(&file, &mut y),
        );
    }
    for (what, s) in utf8::mebibytes() {
        let room = 3 * s.len();
        let (mut x, mut y, mut z) = (vec![0; room], vec![0; room], vec![0; room]);
        assert!(other_into(&s, &mut x) == utf8::library::lossy_into(&s, &mut y) && x == y);
        row(
            &format!("lossy_into, 1 MiB of {what}"),
            || {
                let text = String::from_utf8_lossy(&s);
                z[..text.len()].copy_from_slice(text.as_bytes());
                text.len()
            },
            || other_into(&s, &mut x),
            || utf8::library::lossy_into(&s, &mut y),
        );
    }
}
