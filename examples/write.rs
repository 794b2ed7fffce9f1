//! Writes the stand sheet from its steps and links, in bytes to standard output: write > SHEET
//!
//!     tools/library && cargo run --manifest-path bindings/rust/Cargo.toml --target-dir target/rust --example write > target/stand.sheet
//!
//! The crate `standplan` is bindings/rust: safe wrappers around the functions of include/standplan.h.
use standplan::{write, Link, Step};
use std::io::Write;
use std::{io, process::exit};

const START: usize = 0;
const LAMPS: usize = 1;
const HAND: usize = 2;
const GLASS_DOWN: usize = 3;
const EXPOSURE: usize = 4;

fn main() {
    let steps = [
        Step::Open,
        Step::Fixed(3),
        Step::Open, // where no hand is done in under eight ticks: Step::OpenAtLeast(8)
        Step::Fixed(2),
        Step::Fixed(1),
    ];
    // In any order. What is said of one pair stands in one link.
    let links = [
        Link::new(GLASS_DOWN, EXPOSURE).after().at_most(2),
        Link::new(HAND, GLASS_DOWN).after(),
        Link::new(LAMPS, EXPOSURE).after(),
        Link::new(START, LAMPS).after(),
        Link::new(START, HAND).after(),
    ];
    let sheet = write(&steps, &links).unwrap_or_else(|refusal| {
        eprintln!("write: {refusal}");
        exit(1);
    });
    if let Err(fault) = io::stdout().write_all(&sheet) {
        eprintln!("write: {fault}");
        exit(2);
    }
}
