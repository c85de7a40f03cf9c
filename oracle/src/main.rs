//! The judge: the published Rust beside the proved library.
//!
//!     oracle record  [--seed N] [--check] [NAME..]    write the recorded answers that the repository replays without Rust
//!     oracle compare [--seed N] [--count N] [NAME..]  compare both on generated inputs; the first difference ends it with status 1;
//!                                                     `--long` is ten times the count; `--every` adds to `values` every short gain
//!                                                     text at every step, a quarter of an hour on two cores, and to `peaks` a million texts
//!     oracle bench   [--ten] [NAME..]                 time both sides in one run, and print their ratios; `--ten` takes the ten rows of docs/BENCH.md
//!     oracle once    [--ten] [NAME..]                 run each side of each row of the bench once, between marks: `oracle/bench` counts with it
//!     oracle beside  TITLE                            time a second build of the library beside this one: `oracle/singly` links it
//!
//! NAME is a module of `cases`; without one, all of them. README.md says how to add one.

// The names that the published files look for in their crate.
#[allow(dead_code)]
#[path = "standin/analysis.rs"]
mod analysis;
#[allow(dead_code)]
#[path = "standin/apply.rs"]
mod apply;
#[allow(dead_code)]
#[path = "standin/error.rs"]
mod error;
#[allow(dead_code)]
#[path = "standin/gain.rs"]
mod gain;
include!(concat!(env!("OUT_DIR"), "/published.rs"));

mod cases;
mod tools;

use std::process::exit;
use tools::{Bench, Compare, Record, TEN};

fn usage() -> ! {
    eprintln!(
        "usage: oracle record [--seed N] [--check] [NAME..] | compare [--seed N] [--count N | --long] [--every] [NAME..] | bench [--ten] [NAME..] | once [--ten] [NAME..]"
    );
    exit(2)
}

fn main() {
    let mut args = std::env::args().skip(1);
    let command = args.next().unwrap_or_else(|| usage());
    #[cfg(beside)]
    if command == "beside" {
        return cases::beside::table(&args.next().unwrap_or_else(|| usage()));
    }
    let (mut seed, mut count, mut every, mut check, mut ten) = (1u64, 1_000_000u64, false, false, false);
    let mut names = Vec::new();
    while let Some(arg) = args.next() {
        let mut number = || args.next().and_then(|v| v.replace('_', "").parse().ok()).unwrap_or_else(|| usage());
        match arg.as_str() {
            "--seed" => seed = number(),
            "--count" => count = number(),
            "--long" => count = 10_000_000,
            "--every" => every = true,
            "--check" => check = true,
            "--ten" => ten = true,
            name if cases::ALL.iter().any(|c| c.name == name) => names.push(name.to_string()),
            _ => usage(),
        }
    }
    let chosen = cases::ALL.iter().filter(|c| names.is_empty() || names.iter().any(|n| n == c.name));
    match command.as_str() {
        "record" => {
            for case in chosen {
                let mut r = Record::new(case.name, seed);
                (case.record)(&mut r);
                r.finish(check);
            }
        }
        "compare" => {
            let mut all = 0;
            for case in chosen {
                let mut c = Compare::new(case.name, seed, count, every);
                (case.compare)(&mut c);
                println!("{}: {} inputs, no difference (seed {seed})", case.name, c.inputs);
                all += c.inputs;
            }
            println!("oracle: {all} inputs, no difference");
        }
        "bench" | "once" => {
            let mut b = Bench::new(command == "once", ten.then_some(&TEN));
            for case in chosen {
                (case.bench)(&mut b);
            }
            assert!(b.is_whole() || !names.is_empty(), "a row of the ten has another name");
            if command == "bench" {
                b.print();
            }
        }
        _ => usage(),
    }
}
