//! Safe calls of the verified stand planner (include/standplan.h has the same for C).
//!
//! The functions behind these calls are proved; this crate is not: it lends them memory and names what they return.
//! Every input is answered. No call has a state of its own, so calls are safe from several threads; [`STACK`] bytes of stack are enough for any.
//! Sheets, plans and verdicts are explained in the repository's docs/GUIDE.md, refusals in docs/REFUSALS.md.
//!
//! The library has to be built before this crate: `tools/library` in the repository's root, or `tools/library --install PREFIX` and then
//! STANDPLAN_LIB_DIR=PREFIX/lib for cargo.
//!
//! ```
//! // Step 1 is open and follows step 0; step 2 is open, follows step 1, and starts at most 9 ticks after step 1 ends.
//! let sheet = [3, 2, 0, 1, 1, 1, 1, 0, 1, 0x11, 1, 2, 9, 0];
//! let plan = standplan::plan(&sheet, true)?;
//! assert_eq!(plan.offset(2, 1), Some(0)); // step 2 starts 0 ticks after step 1 ends
//! assert_eq!(standplan::starts(&sheet, true, &[0, 40, 0])?, [0, 0, 40]);
//!
//! let steps = standplan::steps(&sheet)?; // what a run of the sheet is begun with
//! assert_eq!((steps.n, steps.open, &steps.leasts[..]), (3, 0b111, &[0, 0, 0][..]));
//! let mut run = standplan::Run::new();
//! assert_eq!(run.begin(steps.n, steps.open, &steps.leasts, &plan.table)?, 0b011); // steps 0 and 1 start
//! run.tick(&plan.table)?;
//! assert_eq!(run.finish(1, &plan.table)?, 0b100); // step 1 has ended, step 2 starts
//! assert_eq!(run.finish(1, &plan.table), Err(standplan::Refusal::CannotFinish));
//!
//! // Step 1 is to start at least 2 and at most 1 tick after step 0, record 0, and step 2 after step 1, record 1: record 0 alone cannot be kept.
//! let impossible = [3, 2, 0, 1, 1, 1, 6, 0, 1, 2, 0, 1, 0, 1, 1, 2];
//! assert_eq!(standplan::judge(&impossible, true), Err(standplan::Refusal::NeverKept));
//! assert_eq!(standplan::clashes(&impossible)?, [0]);
//!
//! // A sheet from its parts: step 1 is open and lasts at least 8 ticks, step 2 lasts 2 and starts after step 1 ends, at most 5 ticks after it.
//! use standplan::{Link, Step};
//! let steps = [Step::Open, Step::OpenAtLeast(8), Step::Fixed(2)];
//! let links = [Link::new(1, 2).after().at_most_from_finish(5), Link::new(0, 1).after()];
//! let written = standplan::write(&steps, &links)?;
//! assert_eq!(written, [3, 2, 0, 1, 5, 8, 0, 2, 2, 0, 1, 0, 1, 0x11, 1, 2, 5, 0]);
//! assert_eq!(standplan::starts(&written, true, &[0, 10, 0])?, [0, 0, 10]);
//!
//! // Its price: step 2 starts 10 ticks after step 1 ends, which takes 4 registers, and step 1 alone decides it, 1 comparison.
//! let late = standplan::write(&steps, &[Link::new(1, 2).after().gap(10)])?;
//! let price = standplan::price(&late, true)?;
//! assert_eq!((price.registers, price.comparisons), (vec![0, 4, 0], vec![1, 1, 1]));
//! assert_eq!((price.totals.registers, price.totals.comparisons), (4, 3));
//! # Ok::<(), standplan::Refusal>(())
//! ```
#![warn(missing_docs)]

use std::{error, fmt};

mod raw {
    extern "C" {
        pub fn standplan_judge(sheet: *const u8, sheet_len: usize, allow: bool) -> u32;
        pub fn standplan_waits(
            sheet: *const u8,
            sheet_len: usize,
            maps: *mut [u64; 64],
            count: *mut u32,
        ) -> u32;
        pub fn standplan_plan(
            sheet: *const u8,
            sheet_len: usize,
            allow: bool,
            table: *mut u32,
            table_len: usize,
        ) -> u32;
        pub fn standplan_starts(
            sheet: *const u8,
            sheet_len: usize,
            allow: bool,
            list: *const u32,
            list_len: usize,
            out: *mut u32,
            out_len: usize,
        ) -> u32;
        pub fn standplan_steps(
            sheet: *const u8,
            sheet_len: usize,
            n: *mut usize,
            open: *mut u64,
            leasts: *mut u16,
            leasts_len: usize,
        ) -> u32;
        pub fn standplan_clashes(
            sheet: *const u8,
            sheet_len: usize,
            numbers: *mut u32,
            numbers_len: usize,
            count: *mut usize,
        ) -> u32;
        pub fn standplan_price(
            sheet: *const u8,
            sheet_len: usize,
            allow: bool,
            registers: *mut u32,
            registers_len: usize,
            comparisons: *mut u32,
            comparisons_len: usize,
            totals: *mut [u32; 2],
        ) -> u32;
        pub fn standplan_write(
            n: usize,
            steps: *const u16,
            steps_len: usize,
            r: usize,
            records: *const u16,
            records_len: usize,
            buffer: *mut u8,
            buffer_len: usize,
            length: *mut usize,
        ) -> u32;
        pub fn standplan_begin(
            words: *mut [u64; 4],
            tick: *mut u32,
            start: *mut [u32; 64],
            finish: *mut [u32; 64],
            least: *mut [u16; 64],
            map: *mut u64,
            n: usize,
            open: u64,
            leasts: *const u16,
            leasts_len: usize,
            table: *const u32,
            table_len: usize,
        ) -> u32;
        pub fn standplan_tick(
            words: *mut [u64; 4],
            tick: *mut u32,
            start: *mut [u32; 64],
            finish: *mut [u32; 64],
            least: *mut [u16; 64],
            map: *mut u64,
            table: *const u32,
            table_len: usize,
        ) -> u32;
        pub fn standplan_finish(
            words: *mut [u64; 4],
            tick: *mut u32,
            start: *mut [u32; 64],
            finish: *mut [u32; 64],
            least: *mut [u16; 64],
            map: *mut u64,
            s: usize,
            table: *const u32,
            table_len: usize,
        ) -> u32;
    }
}

/// The number in a plan where a step does not decide another.
pub const UNDECIDED: u32 = 4_294_967_295;
/// The most steps of a sheet.
pub const MAX_STEPS: usize = 64;
/// The most link records of a sheet.
pub const MAX_RECORDS: usize = 512;
/// The bytes of the longest sheet.
pub const MAX_SHEET: usize = 5825;
/// The numbers of the largest plan.
pub const MAX_TABLE: usize = 4096;
/// The most ticks of a step in a list of durations.
pub const MAX_DURATION: u32 = 16_777_215;
/// Bytes of stack that are enough for any call, measured on x86-64 Linux.
pub const STACK: usize = 102400;

/// What the planner says of a sheet that it does not refuse.
#[must_use]
#[derive(Clone, Copy, Debug, PartialEq, Eq, Hash)]
pub enum Verdict {
    /// Verdict 0: the sheet is sound.
    Sound,
    /// Verdict 1: it is sound with the waits that [`waits`] lists.
    SoundWithWaits,
}

impl Verdict {
    /// 0 or 1, as the program prints it.
    pub const fn number(self) -> u32 {
        match self {
            Verdict::Sound => 0,
            Verdict::SoundWithWaits => 1,
        }
    }

    fn from_code(code: u32) -> Result<Verdict, Refusal> {
        match code {
            0 => Ok(Verdict::Sound),
            1 => Ok(Verdict::SoundWithWaits),
            _ => Err(Refusal::from_code(code)),
        }
    }
}

macro_rules! refusals {
    ($($number:literal $name:ident $sentence:literal)*) => {
        /// Why a call was refused: docs/REFUSALS.md, whose sentences these are. On a refusal nothing that was lent has changed.
        #[must_use]
        #[non_exhaustive]
        #[derive(Clone, Copy, Debug, PartialEq, Eq, PartialOrd, Ord, Hash)]
        pub enum Refusal {
            $(#[doc = concat!(stringify!($number), ": ", $sentence, ".")] $name = $number,)*
        }

        impl Refusal {
            /// All refusals, by number, with 9, which is retired.
            pub const ALL: &'static [Refusal] = &[$(Refusal::$name),*];

            /// Its sentence.
            pub const fn sentence(self) -> &'static str {
                match self {
                    $(Refusal::$name => $sentence,)*
                }
            }
        }
    };
}

refusals! {
    1 Truncated "the bytes end before a field is complete"
    2 StepCount "N is 0 or above 64"
    3 RecordCount "R is above 512"
    4 BadMap "a map that is not allowed or has an unknown bit"
    5 BadPair "i or j is N or more, or i = j"
    6 BadOrder "the pair does not rise, or, in parts to be written, comes twice"
    7 Trailing "bytes follow the last record"
    8 Circle "forward links close a circle"
    9 Unreached "retired: no sheet is refused so"
    10 NeverKept "with each open step at its least, no start times keep every link"
    11 NotAlwaysKept "for some list of durations no start times keep every link"
    12 WaitsNeeded "waits are needed and the caller did not allow them"
    13 BadDuration "a duration is above 16,777,215 or below its step's least duration, or is not 0 and belongs to step 0 or to a fixed step"
    14 TooShort "a lent table, list or buffer is too short"
    15 NotBegun "no run has begun, or the state's step count is not 1 to 64"
    16 HasBegun "Begin on a run that has begun"
    17 CannotFinish "Finish of a step that is not open, is 0, has not started, or has finished"
    18 ClockEnd "Tick when the tick is 4,294,967,295"
    19 LargeOffset "a largest offset is 1,024 or more"
    20 TooEarly "Finish at a tick below its start tick plus its least duration"
    26 LimitWithoutAfter "a link map with bit 4, at most from the finish, and without bit 0, after"
    28 WaitsClash "the waits close a circle of forward links, or leave no start times with each open step at its least"
    31 NotImpossible "the sheet is not refused as 10 or 11"
}

impl Refusal {
    /// Its number.
    pub const fn number(self) -> u32 {
        self as u32
    }

    /// The refusal of a number, if there is one.
    pub fn from_number(number: u32) -> Option<Refusal> {
        Refusal::ALL.iter().copied().find(|refusal| refusal.number() == number)
    }

    fn from_code(code: u32) -> Refusal {
        code.checked_sub(256)
            .and_then(Refusal::from_number)
            .unwrap_or_else(|| panic!("the library returned {code}: it is not the one that this crate was written for"))
    }
}

impl fmt::Display for Refusal {
    fn fmt(&self, f: &mut fmt::Formatter<'_>) -> fmt::Result {
        write!(f, "refused {}: {}", self.number(), self.sentence())
    }
}

impl error::Error for Refusal {}

/// The waits of a sheet.
#[must_use]
#[derive(Clone, Debug, PartialEq, Eq)]
pub struct Waits {
    /// What the planner says of the sheet.
    pub verdict: Verdict,
    /// Step i waits for the end of step a where bit a of map i stands.
    pub maps: [u64; 64],
    /// How many there are.
    pub count: u32,
}

/// The plan of a sheet of n steps.
#[must_use]
#[derive(Clone, Debug, PartialEq, Eq)]
pub struct Plan {
    /// What the planner says of the sheet.
    pub verdict: Verdict,
    /// The number of steps.
    pub n: usize,
    /// n × n numbers, row by row, as a [`Run`] is lent them: an offset, or [`UNDECIDED`].
    pub table: Vec<u32>,
}

impl Plan {
    /// The offset of step v from the end of step a; none where a does not decide v. Both are steps of the sheet.
    pub fn offset(&self, v: usize, a: usize) -> Option<u32> {
        assert!(v < self.n && a < self.n, "the plan has {} steps", self.n);
        Some(self.table[v * self.n + a]).filter(|&offset| offset != UNDECIDED)
    }

    /// The steps that decide when step v starts, each with its offset: v starts at the latest of their ends, each plus its offset.
    pub fn deciding(&self, v: usize) -> impl Iterator<Item = (usize, u32)> + '_ {
        (0..self.n).filter_map(move |a| self.offset(v, a).map(|offset| (a, offset)))
    }
}

/// What a run of a sheet is begun with.
#[must_use]
#[derive(Clone, Debug, PartialEq, Eq)]
pub struct Steps {
    /// The number of steps.
    pub n: usize,
    /// The map of the open steps, step 0 among them.
    pub open: u64,
    /// The least duration of each of the n steps, 0 for one without.
    pub leasts: Vec<u16>,
}

/// The price of the control box of a sheet of n steps.
#[must_use]
#[derive(Clone, Debug, PartialEq, Eq)]
pub struct Price {
    /// What the planner says of the sheet.
    pub verdict: Verdict,
    /// The registers of each of the n steps: 0 for a fixed one.
    pub registers: Vec<u32>,
    /// The comparisons of each of the n steps: the members of its deciding set.
    pub comparisons: Vec<u32>,
    /// Their sums.
    pub totals: Totals,
}

/// The sums of a [`Price`].
#[derive(Clone, Copy, Debug, Default, PartialEq, Eq)]
pub struct Totals {
    /// All registers.
    pub registers: u32,
    /// All comparisons.
    pub comparisons: u32,
}

/// The number of steps, for a sheet that is not refused.
fn count(sheet: &[u8]) -> usize {
    sheet.first().map_or(0, |&n| usize::from(n).min(MAX_STEPS))
}

/// Judges a sheet. `allow` says whether waits are allowed. Refusals 1 to 8, 10 to 12, 26 and 28.
pub fn judge(sheet: &[u8], allow: bool) -> Result<Verdict, Refusal> {
    Verdict::from_code(unsafe { raw::standplan_judge(sheet.as_ptr(), sheet.len(), allow) })
}

/// Lists the waits of a sheet. Refusals 1 to 8, 10, 11, 26 and 28: whoever asks for waits allows them.
pub fn waits(sheet: &[u8]) -> Result<Waits, Refusal> {
    let (mut maps, mut count) = ([0; 64], 0);
    let verdict = waits_into(sheet, &mut maps, &mut count)?;
    Ok(Waits { verdict, maps, count })
}

/// The same, into maps and a count that are lent. On a refusal they stay as lent.
pub fn waits_into(sheet: &[u8], maps: &mut [u64; 64], count: &mut u32) -> Result<Verdict, Refusal> {
    Verdict::from_code(unsafe { raw::standplan_waits(sheet.as_ptr(), sheet.len(), maps, count) })
}

/// Plans a sheet. Refusals 1 to 8, 10 to 12, 26 and 28.
pub fn plan(sheet: &[u8], allow: bool) -> Result<Plan, Refusal> {
    let n = count(sheet);
    let mut table = vec![UNDECIDED; n * n];
    let verdict = plan_into(sheet, allow, &mut table)?;
    Ok(Plan { verdict, n, table })
}

/// Plans a sheet of n steps into the first n × n numbers of `table`. The rest stays as lent; on a refusal all of it does. Refusal 14 beside those of [`plan`].
pub fn plan_into(sheet: &[u8], allow: bool, table: &mut [u32]) -> Result<Verdict, Refusal> {
    Verdict::from_code(unsafe {
        raw::standplan_plan(sheet.as_ptr(), sheet.len(), allow, table.as_mut_ptr(), table.len())
    })
}

/// Works out the start times of a sheet for a list of durations: 0 for step 0 and fixed steps, for an open step no less than its least. Refusals 1 to 8, 10 to 14, 26 and 28.
pub fn starts(sheet: &[u8], allow: bool, list: &[u32]) -> Result<Vec<u32>, Refusal> {
    let mut out = vec![0; count(sheet)];
    let _ = starts_into(sheet, allow, list, &mut out)?;
    Ok(out)
}

/// The same, into the first n numbers of `out`. The rest stays as lent; on a refusal all of it does.
pub fn starts_into(
    sheet: &[u8],
    allow: bool,
    list: &[u32],
    out: &mut [u32],
) -> Result<Verdict, Refusal> {
    Verdict::from_code(unsafe {
        raw::standplan_starts(
            sheet.as_ptr(),
            sheet.len(),
            allow,
            list.as_ptr(),
            list.len(),
            out.as_mut_ptr(),
            out.len(),
        )
    })
}

/// What a run of a sheet is begun with, of any sheet that can be read. Refusals 1 to 7 and 26.
pub fn steps(sheet: &[u8]) -> Result<Steps, Refusal> {
    let (mut n, mut open, mut leasts) = (0, 0, vec![0; MAX_STEPS]);
    steps_into(sheet, &mut n, &mut open, &mut leasts)?;
    leasts.truncate(n);
    Ok(Steps { n, open, leasts })
}

/// The same, into a number, a map and the first n numbers of `leasts`. The rest stays as lent; on a refusal all of it does. Refusal 14 beside those of [`steps`].
pub fn steps_into(sheet: &[u8], n: &mut usize, open: &mut u64, leasts: &mut [u16]) -> Result<(), Refusal> {
    match unsafe { raw::standplan_steps(sheet.as_ptr(), sheet.len(), n, open, leasts.as_mut_ptr(), leasts.len()) } {
        0 => Ok(()),
        code => Err(Refusal::from_code(code)),
    }
}

/// The few records that clash, of a sheet that is refused as 10 or 11: their numbers, counted from 0, rising. From the last link record to the first each one is
/// dropped whose loss leaves the sheet still refused so; without any one of those that stay the others are not. Refusals 1 to 8, 26 and 31.
pub fn clashes(sheet: &[u8]) -> Result<Vec<u32>, Refusal> {
    let (mut numbers, mut count) = (vec![0; MAX_RECORDS], 0);
    clashes_into(sheet, &mut numbers, &mut count)?;
    numbers.truncate(count);
    Ok(numbers)
}

/// The same, into the front of `numbers` and a count. The rest stays as lent; on a refusal all of it does. Refusal 14 beside those of [`clashes`].
pub fn clashes_into(sheet: &[u8], numbers: &mut [u32], count: &mut usize) -> Result<(), Refusal> {
    match unsafe { raw::standplan_clashes(sheet.as_ptr(), sheet.len(), numbers.as_mut_ptr(), numbers.len(), count) } {
        0 => Ok(()),
        code => Err(Refusal::from_code(code)),
    }
}

/// Prices the control box of a sheet. Refusals 1 to 8, 10 to 12, 26, 28, and 19 where a largest offset is 1,024 or more.
pub fn price(sheet: &[u8], allow: bool) -> Result<Price, Refusal> {
    let n = count(sheet);
    let (mut registers, mut comparisons, mut totals) = (vec![0; n], vec![0; n], Totals::default());
    let verdict = price_into(sheet, allow, &mut registers, &mut comparisons, &mut totals)?;
    Ok(Price { verdict, registers, comparisons, totals })
}

/// The same, into the first n numbers of `registers` and of `comparisons`, and `totals`. The rest stays as lent; on a refusal all of it does. Refusal 14 beside
/// those of [`price`], after them.
pub fn price_into(
    sheet: &[u8],
    allow: bool,
    registers: &mut [u32],
    comparisons: &mut [u32],
    totals: &mut Totals,
) -> Result<Verdict, Refusal> {
    let mut sums = [totals.registers, totals.comparisons];
    let code = unsafe {
        raw::standplan_price(
            sheet.as_ptr(),
            sheet.len(),
            allow,
            registers.as_mut_ptr(),
            registers.len(),
            comparisons.as_mut_ptr(),
            comparisons.len(),
            &mut sums,
        )
    };
    *totals = Totals { registers: sums[0], comparisons: sums[1] };
    Verdict::from_code(code)
}

/// A step of a sheet that is to be written.
#[derive(Clone, Copy, Debug, PartialEq, Eq, Hash)]
pub enum Step {
    /// The step is open; step 0 is.
    Open,
    /// It is open, and lasts at least so many ticks.
    OpenAtLeast(u16),
    /// It lasts so many ticks.
    Fixed(u16),
}

impl Step {
    /// Its map and its ticks.
    const fn numbers(self) -> [u16; 2] {
        match self {
            Step::Open => [1, 0],
            Step::OpenAtLeast(ticks) => [5, ticks],
            Step::Fixed(ticks) => [2, ticks],
        }
    }
}

/// A link record of a sheet that is to be written, for the pair (i, j): `Link::new(3, 4).after().at_most(2)`.
#[must_use]
#[derive(Clone, Copy, Debug, PartialEq, Eq, Hash)]
pub struct Link {
    /// The step that is counted from.
    pub i: usize,
    /// The step whose start is said.
    pub j: usize,
    /// j starts after i ends.
    pub after: bool,
    /// j starts at least so many ticks after i starts.
    pub at_least: Option<u16>,
    /// j starts at most so many ticks after i starts.
    pub at_most: Option<u16>,
    /// The gap of the after link: j starts at least so many ticks after i ends. Without `after` writing is refused 4.
    pub gap: Option<u16>,
    /// j starts at most so many ticks after i ends. Without `after` writing is refused 26.
    pub at_most_from_finish: Option<u16>,
}

impl Link {
    /// The record of a pair, as yet with no link.
    pub const fn new(i: usize, j: usize) -> Link {
        Link { i, j, after: false, at_least: None, at_most: None, gap: None, at_most_from_finish: None }
    }

    /// With an after link.
    pub const fn after(self) -> Link {
        Link { after: true, ..self }
    }

    /// With a gap of the after link.
    pub const fn gap(self, ticks: u16) -> Link {
        Link { gap: Some(ticks), ..self }
    }

    /// With an at-least link.
    pub const fn at_least(self, ticks: u16) -> Link {
        Link { at_least: Some(ticks), ..self }
    }

    /// With an at-most link.
    pub const fn at_most(self, ticks: u16) -> Link {
        Link { at_most: Some(ticks), ..self }
    }

    /// With an at-most link from the finish.
    pub const fn at_most_from_finish(self, ticks: u16) -> Link {
        Link { at_most_from_finish: Some(ticks), ..self }
    }

    /// Its map, i, j and its fields. What no byte holds is no step: it is lent as 255.
    fn numbers(self) -> [u16; 7] {
        let fields = [(2, self.at_least), (4, self.at_most), (8, self.gap), (16, self.at_most_from_finish)];
        let map = fields.iter().filter(|(_, field)| field.is_some()).fold(u16::from(self.after), |map, (bit, _)| map | bit);
        let [at_least, at_most, gap, at_most_from_finish] = fields.map(|(_, field)| field.unwrap_or(0));
        [map, self.i.min(255) as u16, self.j.min(255) as u16, at_least, at_most, gap, at_most_from_finish]
    }
}

/// The bytes of the sheet with these steps and links. The links come in any order and are written rising. A fixed duration of 0 is left out, any other field is
/// kept, 0 or not. Refusals 2, 3, 4, 26, 5 and 6 (a pair comes twice), the first that holds of all the parts.
pub fn write(steps: &[Step], links: &[Link]) -> Result<Vec<u8>, Refusal> {
    let mut buffer = vec![0; MAX_SHEET];
    let length = write_into(steps, links, &mut buffer)?;
    buffer.truncate(length);
    Ok(buffer)
}

/// The same, into the front of `buffer`; returns how many bytes the sheet has. The rest stays as lent; on a refusal all of it does. Refusal 14 beside those of [`write()`].
pub fn write_into(steps: &[Step], links: &[Link], buffer: &mut [u8]) -> Result<usize, Refusal> {
    let operations: Vec<u16> = steps.iter().flat_map(|step| step.numbers()).collect();
    let records: Vec<u16> = links.iter().flat_map(|link| link.numbers()).collect();
    let mut length = 0;
    match unsafe {
        raw::standplan_write(
            steps.len(),
            operations.as_ptr(),
            operations.len(),
            links.len(),
            records.as_ptr(),
            records.len(),
            buffer.as_mut_ptr(),
            buffer.len(),
            &mut length,
        )
    } {
        0 => Ok(length),
        code => Err(Refusal::from_code(code)),
    }
}

/// The state of a run. [`Run::new`] is that of no run; any other is answered too.
#[derive(Clone, Debug, PartialEq, Eq)]
pub struct Run {
    /// The step count.
    pub n: usize,
    /// The map of the open steps.
    pub open: u64,
    /// The map of the steps that have started.
    pub started: u64,
    /// The map of the steps that have finished.
    pub finished: u64,
    /// The tick.
    pub tick: u32,
    /// The tick at which each step started.
    pub start: [u32; 64],
    /// The tick at which each step finished.
    pub finish: [u32; 64],
    /// The least duration of each step.
    pub least: [u16; 64],
}

/// What is lent for the map of a call.
const UNWRITTEN: u64 = u64::MAX;

impl Default for Run {
    fn default() -> Run {
        Run::new()
    }
}

/// What a call of the runner answers: the map of the steps that it started, or a refusal; then the state is as it was.
pub type Started = Result<u64, Refusal>;

impl Run {
    /// The state of no run.
    #[must_use]
    pub const fn new() -> Run {
        Run { n: 0, open: 0, started: 0, finished: 0, tick: 0, start: [0; 64], finish: [0; 64], least: [0; 64] }
    }

    /// Begins a run of n steps by the plan in `table`, with the map of the open ones and the first n of the least durations: those that [`steps`] gives.
    /// Refusals 16, 2, 14.
    pub fn begin(&mut self, n: usize, open: u64, leasts: &[u16], table: &[u32]) -> Started {
        self.call(|words, run, map| unsafe {
            raw::standplan_begin(
                words,
                &mut run.tick,
                &mut run.start,
                &mut run.finish,
                &mut run.least,
                map,
                n,
                open,
                leasts.as_ptr(),
                leasts.len(),
                table.as_ptr(),
                table.len(),
            )
        })
    }

    /// The tick grows by one. Refusals 15, 14, 18.
    pub fn tick(&mut self, table: &[u32]) -> Started {
        self.call(|words, run, map| unsafe {
            raw::standplan_tick(
                words,
                &mut run.tick,
                &mut run.start,
                &mut run.finish,
                &mut run.least,
                map,
                table.as_ptr(),
                table.len(),
            )
        })
    }

    /// Open step s ends at this tick. Refusals 15, 14, 17, and 20 where it has not lasted its least duration.
    pub fn finish(&mut self, s: usize, table: &[u32]) -> Started {
        self.call(|words, run, map| unsafe {
            raw::standplan_finish(
                words,
                &mut run.tick,
                &mut run.start,
                &mut run.finish,
                &mut run.least,
                map,
                s,
                table.as_ptr(),
                table.len(),
            )
        })
    }

    fn call(&mut self, call: impl FnOnce(&mut [u64; 4], &mut Run, &mut u64) -> u32) -> Started {
        let mut words = [self.n as u64, self.open, self.started, self.finished];
        let mut map = UNWRITTEN;
        let code = call(&mut words, self, &mut map);
        self.n = words[0] as usize;
        [self.open, self.started, self.finished] = [words[1], words[2], words[3]];
        if code == 0 {
            Ok(map)
        } else {
            debug_assert_eq!(map, UNWRITTEN, "a refusal writes nothing");
            Err(Refusal::from_code(code))
        }
    }
}
