//! Prints the price of the control box of the sheet in FILE, waits allowed, as ./standprice does: price FILE
//!
//!     tools/library && cargo run --manifest-path bindings/rust/Cargo.toml --target-dir target/rust --example price FILE
//!
//! The crate `standplan` is bindings/rust: safe wrappers around the functions of include/standplan.h.
use standplan::{price, steps, Refusal};
use std::{env, fs, process::exit};

fn print(sheet: &[u8]) -> Result<(), Refusal> {
    let (price, steps) = (price(sheet, true)?, steps(sheet)?);
    for a in (0..steps.n).filter(|&a| steps.open >> a & 1 == 1) {
        println!("registers {a} {}", price.registers[a]);
    }
    for (v, count) in price.comparisons.iter().enumerate() {
        println!("comparisons {v} {count}");
    }
    println!("total {} {}", price.totals.registers, price.totals.comparisons);
    Ok(())
}

fn main() {
    let Some(Ok(sheet)) = env::args().nth(1).map(fs::read) else {
        eprintln!("usage: price FILE");
        exit(2);
    };
    if let Err(refusal) = print(&sheet) {
        eprintln!("price: {refusal}");
        println!("refused {}", refusal.number());
        exit(1);
    }
}
