//! The library's answers against those of the reference planner, stored by tests/rust/store.py.
use standplan::{
    clashes, clashes_into, judge, plan, plan_into, price, price_into, starts, starts_into, steps, steps_into, waits, waits_into, write, write_into, Link, Refusal,
    Run, Step, Totals, Verdict, MAX_RECORDS, MAX_SHEET, MAX_STEPS, MAX_TABLE, STACK, UNDECIDED,
};
use std::collections::BTreeSet;
use std::thread;

const STORED: &str = include_str!("../../../tests/rust/data/answers.txt");
const PRICES: &str = include_str!("../../../tests/rust/data/prices.txt");
const PARTS: &str = include_str!("../../../tests/rust/data/parts.txt");

fn sheet_of(hex: &str) -> Vec<u8> {
    (0..hex.len()).step_by(2).map(|i| u8::from_str_radix(&hex[i..i + 2], 16).unwrap()).collect()
}

fn verdict_of(words: &[&str]) -> Result<Verdict, Refusal> {
    match words {
        ["ok", "0"] => Ok(Verdict::Sound),
        ["ok", "1"] => Ok(Verdict::SoundWithWaits),
        ["refused", k] => Err(Refusal::from_number(k.parse().unwrap()).unwrap()),
        _ => panic!("no verdict: {words:?}"),
    }
}

fn number_of(word: &str) -> u32 {
    if word == "-" { UNDECIDED } else { word.parse().unwrap() }
}

/// The numbers that are lent: 1000, 1001 and so on.
fn lent(size: usize) -> Vec<u32> {
    (0..size as u32).map(|i| 1000 + i).collect()
}

/// The fields of a line are parted by semicolons, their words by spaces.
fn fields(line: &str) -> Vec<Vec<&str>> {
    line.split(';').map(|field| field.split_whitespace().collect()).collect()
}

#[test]
fn stored_answers() {
    let mut sheet = Vec::new();
    let mut seen = BTreeSet::new();
    let (mut lines, mut counted, mut reports) = (0, 0, 0);
    for (at, line) in STORED.lines().enumerate() {
        let parts = fields(line);
        let allow = parts[0].get(1) == Some(&"1");
        let place = format!("line {}", at + 1);
        lines += 1;
        match parts[0][0] {
            "sheet" => sheet = sheet_of(parts[0].get(1).unwrap_or(&"")),
            "judge" => {
                seen.insert(parts[1].join(" "));
                assert_eq!(judge(&sheet, allow), verdict_of(&parts[1]), "{place}");
            }
            "waits" => {
                let found = waits(&sheet);
                let mut maps = [0u64; 64];
                for (map, word) in maps.iter_mut().zip(&parts[3]) {
                    *map = u64::from_str_radix(word, 16).unwrap();
                }
                assert_eq!(parts[3].len(), 64, "{place}");
                let verdict = verdict_of(&parts[1]);
                // Where maps and a count are lent, a refusal leaves them as they were.
                let (mut lent_maps, mut lent_count) = ([1000; 64], 1000);
                assert_eq!(waits_into(&sheet, &mut lent_maps, &mut lent_count), verdict, "{place}");
                match found {
                    Err(refusal) => {
                        assert_eq!(Err(refusal), verdict, "{place}");
                        assert_eq!((lent_maps, lent_count), ([1000; 64], 1000), "{place}");
                    }
                    Ok(found) => {
                        assert_eq!(Ok(found.verdict), verdict, "{place}");
                        assert_eq!((found.maps, found.count), (maps, number_of(parts[2][0])), "{place}");
                        assert_eq!((lent_maps, lent_count), (maps, found.count), "{place}");
                    }
                }
            }
            "plan" => {
                seen.insert(parts[1].join(" "));
                let after: Vec<u32> = parts[2].iter().map(|word| number_of(word)).collect();
                let mut table = lent(after.len());
                let verdict = plan_into(&sheet, allow, &mut table);
                assert_eq!(verdict, verdict_of(&parts[1]), "{place}");
                assert_eq!(table, after, "{place}");
                if verdict != Err(Refusal::TooShort) {
                    let made = plan(&sheet, allow);
                    assert_eq!(made.as_ref().map(|made| made.verdict).map_err(|refusal| *refusal), verdict, "{place}");
                    assert!(made.map_or(true, |made| made.table == after[..made.n * made.n]), "{place}");
                }
            }
            "starts" => {
                seen.insert(parts[1].join(" "));
                let list: Vec<u32> = parts[2].iter().map(|word| number_of(word)).collect();
                let after: Vec<u32> = parts[3].iter().map(|word| number_of(word)).collect();
                let mut out = lent(after.len());
                let verdict = starts_into(&sheet, allow, &list, &mut out);
                assert_eq!(verdict, verdict_of(&parts[1]), "{place}");
                assert_eq!(out, after, "{place}");
                if verdict.is_ok() {
                    let times = starts(&sheet, allow, &list).unwrap();
                    assert_eq!(times, after[..times.len()], "{place}");
                }
            }
            "steps" => {
                // 1000 is lent for the number and the map.
                let after: Vec<u16> = parts[3].iter().map(|word| word.parse().unwrap()).collect();
                let (mut n, mut open) = (1000, 1000);
                let mut leasts: Vec<u16> = (0..after.len() as u16).map(|i| 1000 + i).collect();
                let verdict = steps_into(&sheet, &mut n, &mut open, &mut leasts);
                assert_eq!(verdict.map(|()| Verdict::Sound), verdict_of(&parts[1]), "{place}");
                assert_eq!((n.to_string(), open.to_string(), leasts), (parts[2][0].into(), parts[2][1].into(), after.clone()), "{place}");
                match steps(&sheet) {
                    Ok(given) if verdict.is_ok() => assert_eq!((given.n, given.open, &given.leasts[..]), (n, open, &after[..n]), "{place}"),
                    Ok(_) => assert_eq!(verdict, Err(Refusal::TooShort), "{place}"),
                    Err(refusal) => assert_eq!(Err(refusal), verdict, "{place}"),
                }
                counted += 1;
            }
            "clashes" => {
                // 1000 is lent for the count.
                let after: Vec<u32> = parts[2].iter().map(|word| number_of(word)).collect();
                let (mut numbers, mut count) = (lent(after.len()), 1000);
                let answer = clashes_into(&sheet, &mut numbers, &mut count);
                assert_eq!(numbers, after, "{place}");
                let found = clashes(&sheet);
                match parts[1][..] {
                    ["ok", few] => {
                        assert_eq!((answer, count.to_string().as_str()), (Ok(()), few), "{place}");
                        assert_eq!(found.as_deref(), Ok(&after[..count]), "{place}");
                        reports += 1;
                    }
                    _ => {
                        seen.insert(parts[1].join(" "));
                        assert_eq!((answer.map(|()| Verdict::Sound), count), (verdict_of(&parts[1]), 1000), "{place}");
                        assert!(found.map_or_else(|refusal| Err(refusal) == answer, |_| answer == Err(Refusal::TooShort)), "{place}");
                    }
                }
            }
            word => panic!("{place}: {word}"),
        }
    }
    assert!(lines > 300 && counted > 300 && reports > 30);
    // Both verdicts and refusals 1 to 8, 10 to 14, 26, 28 and 31 are among them.
    assert_eq!(seen.len(), 18, "{seen:?}");
}

/// Prices; on a refusal the lists and the totals that are lent stay as they were.
#[test]
fn stored_prices() {
    let (mut sheet, mut seen, mut lines) = (Vec::new(), BTreeSet::new(), 0);
    let untouched = Totals { registers: 1000, comparisons: 1001 };
    for (at, line) in PRICES.lines().enumerate().filter(|(_, line)| !line.starts_with('#')) {
        let (parts, place) = (fields(line), format!("line {}", at + 1));
        if parts[0][0] == "sheet" {
            sheet = sheet_of(parts[0].get(1).unwrap_or(&""));
            continue;
        }
        let allow = parts[0][1] == "1";
        let [registers, comparisons, sums] = [2, 3, 4].map(|k| parts[k].iter().map(|word| number_of(word)).collect::<Vec<u32>>());
        let (mut lent_registers, mut lent_totals) = (lent(registers.len()), untouched);
        let mut lent_comparisons: Vec<u32> = lent(comparisons.len()).iter().map(|number| 1000 + number).collect();
        let verdict = price_into(&sheet, allow, &mut lent_registers, &mut lent_comparisons, &mut lent_totals);
        let totals = if verdict.is_ok() { Totals { registers: sums[0], comparisons: sums[1] } } else { untouched };
        assert_eq!(verdict, verdict_of(&parts[1]), "{place}");
        assert_eq!((&lent_registers, &lent_comparisons, lent_totals), (&registers, &comparisons, totals), "{place}");
        match price(&sheet, allow) {
            Ok(found) if verdict.is_ok() => {
                let n = found.registers.len();
                assert_eq!((Ok(found.verdict), found.totals), (verdict, totals), "{place}");
                assert_eq!((found.registers, found.comparisons), (registers[..n].to_vec(), comparisons[..n].to_vec()), "{place}");
            }
            Ok(_) => assert_eq!(verdict, Err(Refusal::TooShort), "{place}"),
            Err(refusal) => assert_eq!(verdict, Err(refusal), "{place}"),
        }
        seen.insert(parts[1].join(" "));
        lines += 1;
    }
    assert!(lines > 1000, "{lines}");
    // Both verdicts and refusals 1 to 8, 10 to 12, 14, 19, 26 and 28.
    assert_eq!(seen.len(), 17, "{seen:?}");
}

/// `open`, `open/8` or `3`; none for a fixed step with a least, which no [`Step`] is.
fn step_of(word: &str) -> Option<Step> {
    let (lasts, least) = word.split_once('/').map_or((word, None), |(lasts, least)| (lasts, Some(least.parse().unwrap())));
    match (lasts, least) {
        ("open", None) => Some(Step::Open),
        ("open", Some(least)) => Some(Step::OpenAtLeast(least)),
        (ticks, None) => Some(Step::Fixed(ticks.parse().unwrap())),
        (_, Some(_)) => None,
    }
}

/// The pair, then a letter for each link, with its number: `3,4,a,m2`.
fn link_of(word: &str) -> Link {
    let parts: Vec<&str> = word.split(',').collect();
    parts[2..].iter().fold(Link::new(parts[0].parse().unwrap(), parts[1].parse().unwrap()), |link, field| {
        let number = || field[1..].parse().unwrap();
        match &field[..1] {
            "a" => link.after(),
            "l" => link.at_least(number()),
            "m" => link.at_most(number()),
            "g" => link.gap(number()),
            "f" => link.at_most_from_finish(number()),
            letter => panic!("no link: {letter}"),
        }
    })
}

/// Parts that are written, and refused. Lists that are shorter or longer than their counts cannot be said here.
#[test]
fn stored_parts() {
    let (mut seen, mut count) = (BTreeSet::new(), 0);
    for (at, line) in PARTS.lines().enumerate() {
        let parts = fields(line);
        let place = format!("line {}", at + 1);
        let [n, r, room] = [1, 2, 3].map(|k| parts[0][k].parse::<usize>().unwrap());
        let links: Vec<Link> = parts[2].iter().map(|word| link_of(word)).collect();
        let Some(steps) = parts[1].iter().map(|word| step_of(word)).collect::<Option<Vec<Step>>>() else { continue };
        if (steps.len(), links.len()) != (n, r) {
            continue;
        }
        let lent: Vec<u8> = (0..room).map(|k| (k + 100) as u8).collect();
        let (mut buffer, data) = (lent.clone(), sheet_of(parts[4].first().unwrap_or(&"")));
        let (answer, whole) = (write_into(&steps, &links, &mut buffer), write(&steps, &links));
        if parts[3][0] == "ok" {
            assert_eq!((answer, parts[3][1]), (Ok(data.len()), data.len().to_string().as_str()), "{place}");
            assert_eq!((&buffer[..data.len()], &buffer[data.len()..]), (&data[..], &lent[data.len()..]), "{place}");
            assert_eq!(whole, Ok(data), "{place}");
        } else {
            let refusal = verdict_of(&parts[3]).unwrap_err();
            assert_eq!((answer, buffer), (Err(refusal), lent), "{place}");
            assert!(if refusal == Refusal::TooShort { whole.is_ok() } else { whole == Err(refusal) }, "{place}");
        }
        seen.insert(if parts[3][0] == "ok" { "ok".into() } else { parts[3].join(" ") });
        count += 1;
    }
    assert!(count > 250, "{count}");
    // What is written, and refusals 2 to 6, 26 and 14.
    assert_eq!(seen.len(), 8, "{seen:?}");
}

/// Numbers at their ends, and what is said of a field twice: the last counts.
#[test]
fn parts() {
    let most = [&[Step::Open][..], &[Step::Fixed(u16::MAX); MAX_STEPS - 1]].concat();
    assert_eq!(write(&most, &[]).map(|sheet| sheet.len()), Ok(3 + 1 + 3 * 63));
    assert_eq!(write(&[], &[]), Err(Refusal::StepCount));
    assert_eq!(write(&[Step::Open; MAX_STEPS + 1], &[]), Err(Refusal::StepCount));
    assert_eq!(write(&most, &[Link::new(0, 1); MAX_RECORDS + 1]), Err(Refusal::RecordCount));
    assert_eq!(write(&[Step::Fixed(0)], &[]), Err(Refusal::BadMap));
    assert_eq!(write(&most, &[Link::new(0, 1)]), Err(Refusal::BadMap));
    assert_eq!(write(&most, &[Link::new(0, 1).gap(0)]), Err(Refusal::BadMap));
    assert_eq!(write(&most, &[Link::new(0, 1).at_most_from_finish(0)]), Err(Refusal::LimitWithoutAfter));
    for far in [64, 255, 256, 65536 + 1, usize::MAX] {
        assert_eq!(write(&most, &[Link::new(0, far).after()]), Err(Refusal::BadPair));
        assert_eq!(write(&most, &[Link::new(far, 1).after()]), Err(Refusal::BadPair));
    }
    assert_eq!(write(&most, &[Link::new(0, 1).after(), Link::new(0, 2).after(), Link::new(0, 1).at_least(3)]), Err(Refusal::BadOrder));
    assert_eq!(write_into(&[Step::Open], &[], &mut []), Err(Refusal::TooShort));
    let all = Link::new(1, 0).at_most_from_finish(5).gap(6).at_most(3).at_most(4).at_least(3).after();
    assert_eq!(write(&[Step::Open, Step::OpenAtLeast(0)], &[all]), Ok(vec![2, 1, 0, 1, 5, 0, 0, 31, 1, 0, 3, 0, 4, 0, 6, 0, 5, 0]));
}

#[test]
fn nothing_lent() {
    assert_eq!(judge(&[], true), Err(Refusal::Truncated));
    assert_eq!(plan(&[], true), Err(Refusal::Truncated));
    assert_eq!(plan_into(&[1, 0, 0, 1], false, &mut []), Err(Refusal::TooShort));
    assert_eq!(starts_into(&[1, 0, 0, 1], false, &[], &mut []), Err(Refusal::TooShort));
    assert_eq!(starts(&[1, 0, 0, 1], false, &[]), Err(Refusal::TooShort));
    assert_eq!(steps(&[]), Err(Refusal::Truncated));
    assert_eq!(steps_into(&[1, 0, 0, 1], &mut 0, &mut 0, &mut []), Err(Refusal::TooShort));
    assert_eq!(clashes(&[]), Err(Refusal::Truncated));
    assert_eq!(clashes_into(&[1, 0, 0, 1], &mut [], &mut 0), Err(Refusal::NotImpossible));
    assert_eq!(clashes_into(&[2, 1, 0, 1, 0, 6, 0, 1, 1, 0, 0, 0], &mut [], &mut 0), Err(Refusal::TooShort));
    assert_eq!(price(&[], true), Err(Refusal::Truncated));
    assert_eq!(price_into(&[1, 0, 0, 1], false, &mut [0], &mut [], &mut Totals::default()), Err(Refusal::TooShort));
    assert_eq!(price_into(&[1, 0, 0, 1], false, &mut [], &mut [0], &mut Totals::default()), Err(Refusal::TooShort));
    assert_eq!(Run::new().begin(1, 1, &[], &[0]), Err(Refusal::TooShort));
    assert_eq!(Run::new().begin(1, 1, &[0], &[]), Err(Refusal::TooShort));
    assert_eq!(Refusal::Circle.to_string(), "refused 8: forward links close a circle");
    assert_eq!(Refusal::from_number(9).map(Refusal::sentence), Some("retired: no sheet is refused so"));
}

/// A step that nothing leads into hangs from the start; a link from it to the start closes a circle.
#[test]
fn loose_steps() {
    assert_eq!(judge(&[2, 0, 0, 1, 1], false), Ok(Verdict::Sound));
    assert_eq!(starts(&[2, 0, 0, 1, 1], false, &[0, 7]), Ok(vec![0, 0]));
    assert_eq!(judge(&[2, 1, 0, 1, 1, 1, 1, 0], true), Err(Refusal::Circle));
}

/// A hand of at least eight ticks: a list below them is refused, and so is a finish before them.
#[test]
fn leasts() {
    let sheet = [3, 1, 0, 1, 5, 8, 0, 0, 1, 1, 2];
    assert_eq!(starts(&sheet, false, &[0, 8, 0]), Ok(vec![0, 0, 8]));
    assert_eq!(starts(&sheet, false, &[0, 7, 0]), Err(Refusal::BadDuration));
    let (given, plan) = (steps(&sheet).unwrap(), plan(&sheet, false).unwrap());
    assert_eq!((given.n, given.open, &given.leasts[..]), (3, 0b011, &[0, 8, 0][..]));
    let mut run = Run::new();
    assert_eq!(run.begin(given.n, given.open, &given.leasts, &plan.table), Ok(0b011));
    assert_eq!((run.least[..3].to_vec(), run.least[3..].iter().max()), (given.leasts, Some(&0)));
    for _ in 0..8 {
        let before = run.clone();
        assert_eq!(run.finish(1, &plan.table), Err(Refusal::TooEarly));
        assert_eq!(run, before);
        assert_eq!(run.tick(&plan.table), Ok(0));
    }
    assert_eq!(run.finish(1, &plan.table), Ok(0b100));
    assert_eq!(judge(&[1, 0, 0, 5, 8, 0], true), Err(Refusal::BadMap));
    // What judging refuses is answered, if it can be read.
    assert_eq!(judge(&[2, 1, 0, 1, 1, 1, 1, 0], true), Err(Refusal::Circle));
    assert_eq!(steps(&[2, 1, 0, 1, 1, 1, 1, 0]).map(|given| given.open), Ok(0b11));
}

/// The pairs of the longest sheet: step v + 1 to v + 9 follow v, as far as there are records.
fn pairs() -> Vec<(u8, u8)> {
    (0..64u8).flat_map(|i| (i + 1..64.min(i + 10)).map(move |j| (i, j))).take(MAX_RECORDS).collect()
}

/// The longest sheet: 64 steps, 512 records, every field there. Steps may take as long as they like.
fn longest() -> Vec<u8> {
    let mut sheet = vec![64, 0, 2, 1];
    sheet.extend([2, 1, 0].repeat(63));
    for (i, j) in pairs() {
        sheet.extend([0x1f, i, j, 1, 0, 255, 255, 1, 0, 255, 255]);
    }
    sheet
}

/// Several threads with no more stack than the crate says, and what a thread needs itself, plan the longest sheet at once, and ask which of its records clash
/// when step 1 is to start at tick 0, which is too early: the first record alone. They price the sheet too, and write it, from records that fall.
#[test]
fn threads() {
    let sheet = longest();
    assert_eq!(sheet.len(), MAX_SHEET);
    let alone = plan(&sheet, true).unwrap();
    assert_eq!(alone.table.len(), MAX_TABLE);
    let priced = price(&sheet, true).unwrap();
    let mut early = sheet.clone();
    let limit = 4 + 63 * 3 + 5;
    early[limit..limit + 2].fill(0);
    let steps = [&[Step::Open][..], &[Step::Fixed(1); MAX_STEPS - 1]].concat();
    let link = |(i, j)| Link::new(usize::from(i), usize::from(j)).after().at_least(1).at_most(u16::MAX).gap(1).at_most_from_finish(u16::MAX);
    let links: Vec<Link> = pairs().into_iter().rev().map(link).collect();
    let planned = || (0..200).all(|_| plan(&sheet, true).as_ref() == Ok(&alone));
    thread::scope(|scope| {
        let work = || planned() && price(&sheet, true).as_ref() == Ok(&priced) && clashes(&early) == Ok(vec![0]) && write(&steps, &links).as_ref() == Ok(&sheet);
        let all: Vec<_> = (0..4).map(|_| thread::Builder::new().stack_size(STACK + 16384).spawn_scoped(scope, work).unwrap()).collect();
        assert!(all.into_iter().all(|one| one.join().unwrap()));
    });
}
