//! Judges, plans and runs a sheet, each of its open steps lasting TICKS ticks, or its least duration where that is more: stand SHEET TICKS
//! Of an impossible sheet it prints the few records that clash.
//!
//!     tools/library && cargo run --manifest-path bindings/rust/Cargo.toml --target-dir target/rust --example stand examples/stand.sheet 10
//!
//! The crate `standplan` is bindings/rust: safe wrappers around the functions of include/standplan.h.
use standplan::{clashes, judge, plan, starts, steps, waits, Refusal, Run, Steps};
use std::{env, fs, process::exit};

fn words<T: ToString>(items: impl IntoIterator<Item = T>, between: &str) -> String {
    items.into_iter().map(|item| item.to_string()).collect::<Vec<_>>().join(between)
}

fn members(map: u64) -> String {
    words((0..64).filter(|v| map >> v & 1 == 1), " ")
}

/// Judges, plans and runs the sheet; what is refused ends it.
fn show(sheet: &[u8], ticks: u32) -> Result<(), Refusal> {
    // Judge, waits allowed. Planning and working out starts judge too; this call is for who wants the verdict alone.
    let verdict = judge(sheet, true);

    // Where no times keep every link: the few records that clash, by their numbers.
    if let Err(Refusal::NeverKept | Refusal::NotAlwaysKept) = verdict {
        println!("records that clash {}", words(clashes(sheet)?, " "));
    }
    println!("verdict {}", verdict?.number());

    // What a run is begun with: N, the map of the open steps, step 0 among them, and the least durations. The list has what open steps last here.
    let Steps { n, open, leasts } = steps(sheet)?;
    let list: Vec<u32> = (0..n).map(|v| if v != 0 && open >> v & 1 == 1 { ticks.max(leasts[v].into()) } else { 0 }).collect();

    // Waits.
    let found = waits(sheet)?;
    println!("waits {}", found.count);
    for (i, &map) in found.maps.iter().enumerate().filter(|(_, map)| **map != 0) {
        println!("step {i} waits for {}", members(map));
    }

    // Plan: which steps decide when step v starts.
    let plan = plan(sheet, true)?;
    for v in 0..n {
        println!("step {v} starts at the latest of {}", words(plan.deciding(v).map(|(a, offset)| format!("end of {a} + {offset}")), ", "));
    }

    // Start times, for durations that are known.
    println!("start times {}", words(starts(sheet, true, &list)?, " "));

    // Run: here a step ends when it has lasted what the list says; at a stand, when somebody says so, and not below its least duration (refusal 20).
    let mut run = Run::new();
    let begun = run.begin(n, open, &leasts, &plan.table)?;
    println!("tick 0: starts {}", members(begun));
    while run.started != u64::MAX >> (64 - n) {
        while let Some(v) = (1..n).find(|&v| (open & run.started & !run.finished) >> v & 1 == 1 && run.tick - run.start[v] >= list[v]) {
            let map = run.finish(v, &plan.table)?;
            let more = if map != 0 { format!(", starts {}", members(map)) } else { String::new() };
            println!("tick {}: step {v} ends{more}", run.tick);
        }
        let map = run.tick(&plan.table)?;
        if map != 0 {
            println!("tick {}: starts {}", run.tick, members(map));
        }
    }
    Ok(())
}

fn main() {
    let args: Vec<String> = env::args().collect();
    let given = match &args[..] {
        [_, name, ticks] => ticks.parse().ok().map(|ticks| (name, ticks)),
        _ => None,
    };
    let Some((name, ticks)) = given else {
        eprintln!("usage: stand SHEET TICKS");
        exit(2);
    };
    let sheet = fs::read(name).unwrap_or_else(|fault| {
        eprintln!("{name}: {fault}");
        exit(2);
    });
    if let Err(refusal) = show(&sheet, ticks) {
        println!("refused {}", refusal.number());
        eprintln!("stand: {refusal}");
        exit(1);
    }
}
