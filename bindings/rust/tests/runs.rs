//! Runs, state by state, against those of the reference planner's runner, stored by tests/rust/store.py.
use standplan::{Refusal, Run, Started};
use std::collections::BTreeSet;

const STORED: &str = include_str!("../../../tests/rust/data/runs.txt");

fn number<T: std::str::FromStr>(word: &str) -> T {
    word.parse().unwrap_or_else(|_| panic!("no number: {word}"))
}

/// The ticks, or least durations, of the first steps; those of the rest are 0.
fn ticks_of<T: Copy + Default + std::str::FromStr>(words: &[&str]) -> [T; 64] {
    let mut ticks = [T::default(); 64];
    for (tick, word) in ticks.iter_mut().zip(words) {
        *tick = number(word);
    }
    ticks
}

fn run_of(fields: &[Vec<&str>]) -> Run {
    let [n, open, tick, started, finished] = fields[0][..] else { panic!("no state") };
    Run {
        n: number(n),
        open: number(open),
        started: number(started),
        finished: number(finished),
        tick: number(tick),
        start: ticks_of(&fields[1]),
        finish: ticks_of(&fields[2]),
        least: ticks_of(&fields[3]),
    }
}

fn answer_of(words: &[&str]) -> Started {
    match words {
        ["ok", map] => Ok(number(map)),
        ["refused", k] => Err(Refusal::from_number(number(k)).unwrap()),
        _ => panic!("no answer: {words:?}"),
    }
}

#[test]
fn stored_runs() {
    let mut run = Run::new();
    let mut table: Vec<u32> = Vec::new();
    let mut seen = BTreeSet::new();
    let mut calls = 0;
    for (at, line) in STORED.lines().enumerate() {
        let fields: Vec<Vec<&str>> =
            line.split(';').map(|field| field.split_whitespace().collect()).collect();
        let place = format!("line {}", at + 1);
        let answer = match fields[0][..] {
            ["table"] => {
                table = fields[1].iter().map(|word| number(word)).collect();
                continue;
            }
            ["state"] => {
                run = run_of(&fields[1..]);
                continue;
            }
            ["begin", size, n, open, ref leasts @ ..] => {
                let leasts: Vec<u16> = leasts.iter().map(|word| number(word)).collect();
                run.begin(number(n), number(open), &leasts, &table[..number(size)])
            }
            ["tick", size] => run.tick(&table[..number(size)]),
            ["finish", size, s] => run.finish(number(s), &table[..number(size)]),
            _ => panic!("{place}: {line}"),
        };
        seen.insert((fields[0][0], answer.err()));
        calls += 1;
        assert_eq!(answer, answer_of(&fields[1]), "{place}");
        assert_eq!(run, run_of(&fields[2..]), "{place}");
    }
    assert!(calls > 300);
    // Each call goes through and is refused in each of its three ways, Finish in four.
    assert_eq!(seen.len(), 13, "{seen:?}");
}
