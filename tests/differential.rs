//! The proved library against the independent program in reference/ and the plain one in bench/, on random stacks and damaged texts; before that the condition
//! on a channel against a search for paths, then random sessions, at last the same stacks turned over and the positions of strips in small ones. It stops at
//! the first difference.

#[path = "../reference/channel.rs"]
mod channel;
mod damage;
mod faults;
mod library;
#[path = "../reference/page.rs"]
mod page;
#[path = "../reference/paths.rs"]
mod paths;
#[path = "../bench"]
mod plain {
    pub mod page;
    pub mod solver;
    pub use page::page;
    pub use solver::{place, table, total};
}
#[path = "../reference/random.rs"]
mod random;
mod random_positions;
mod random_sessions;
mod random_turned;
#[path = "../reference/reader.rs"]
mod reader;
#[path = "../reference/session.rs"]
mod session;
#[path = "../reference/solver.rs"]
mod solver;
#[path = "../reference/specimens.rs"]
mod specimens;
#[path = "../reference/turn.rs"]
mod turn;

use library::{code, Refusal};
use random::Random;
use reader::Stack;
use std::cell::Cell;
use std::collections::BTreeMap;

const USAGE: &str =
    "usage: tests/differential [SEED [SMALL MIDDLE DAMAGED LIMITS PAGES SESSIONS]]    (a seed, and how many stacks, texts or sessions of each kind)";

/// Small stacks, middle ones, damaged texts, stacks at the limits, stacks for pages and sessions, unless told otherwise.
const COUNTS: [u64; 6] = [4000, 1500, 50000, 50, 2000, 800];

/// What is counted and must have been met, in a run of at least the usual counts.
const MET: [&str; 47] = [
    "tables, a total that falls by 2 or more",
    "stacks with floors",
    "stacks with a floor on a channel without pairs",
    "stacks with a floor of 0 written",
    "stacks with windows",
    "stacks with windows and floors",
    "stacks with a window of one position",
    "stacks with a window up to 9,999",
    "stacks with a strip held at 9,999",
    "stacks with a free strip beside a held one",
    "stacks with every strip held",
    "stacks with windows that keep a total from falling for ever",
    "tables, first row above the longest strip",
    "tables, a row past the sum of the lengths",
    "tables, a row's spread of five digits",
    "tables, a position of five digits",
    "least totals, raised by a floor",
    "least totals, not raised by a floor",
    "least totals, raised by a window",
    "least totals, not raised by a window",
    "least totals, a greatest position beyond the spread",
    "spreads, narrow by a window alone",
    "placements, total above the least",
    "placements, total above the sum of last separations of use",
    "placements, 4294967295 stated",
    "placements, a channel before the last with less than at the least",
    "placements, a channel before the last with more than at the least",
    "placements, other positions than at the least",
    "placements, refused 7 before 10",
    "placements, refused 10",
    "placements, refused 10 at a spread above 63",
    "placements, refused 10 before 8",
    "pages, tracks above the pairs' own",
    "pages, a separation of 1",
    "pages, an upright step below runs",
    "pages, a strip held",
    "trials, not legal by a floor alone",
    "trials, not legal by a window alone",
    "trials, not legal one below a least position",
    "trials, not legal one above a greatest position",
    "trials, legal at a least position",
    "trials, legal at a greatest position",
    "trials, not legal but by the former rule",
    "trials, legal with a separation of 1",
    "trials, not legal by a separation of 1 alone",
    "trials, legal by a search for paths",
    "trials, not legal by a search for paths",
];

/// Longer than every table.
const SPACE: usize = 32768;

/// What was due and what was found, in words.
type Checked = Result<(), String>;

fn has_floors(stack: &Stack) -> bool {
    stack.floors.iter().any(|floor| *floor > 0)
}

fn has_held(stack: &Stack) -> bool {
    stack.windows.iter().any(Option::is_some)
}

/// The refusal that a code is, if it is one.
fn refusal_of(code: u64) -> Option<Refusal> {
    (code >> 40 > 0).then_some(((code >> 40) as u32, (code >> 20 & 0xfffff) as u32, (code & 0xfffff) as u32))
}

fn in_words(code: u64) -> String {
    refusal_of(code).map_or(code.to_string(), |r| format!("refusal {} at line {}, field {}", r.0, r.1, r.2))
}

fn same_code(what: &str, found: u64, due: u64) -> Checked {
    if found == due {
        return Ok(());
    }
    Err(format!("{}: found {}, due {}", what, in_words(found), in_words(due)))
}

/// The total, eight separations and nine positions.
fn padded(answer: &solver::Answer) -> [u32; 18] {
    let separations: Vec<u32> = answer.separations.iter().map(|t| *t as u32).collect();
    let positions: Vec<u32> = answer.positions.iter().map(|x| *x as u32).collect();
    library::numbers(answer.total as u32, &separations, &positions)
}

/// The answer that these numbers give.
fn unpadded(stack: &Stack, all: &[u32; 18]) -> solver::Answer {
    let k = stack.channels.len();
    let separations = all[1..=k].iter().map(|t| *t as usize).collect();
    let positions = all[9..=9 + k].iter().map(|x| *x as i64).collect();
    solver::Answer { total: all[0] as usize, separations, positions }
}

/// One call of a writer with a space of 255s between guards.
fn check_written(what: &str, space: usize, due: &Result<Vec<u8>, Refusal>, write: impl FnOnce(&mut [u8]) -> u64) -> Checked {
    let mut output = vec![255; space + 32];
    let told = write(&mut output[16..16 + space]);
    let (code, written): (u64, &[u8]) = match due {
        Ok(text) if text.len() <= space => (text.len() as u64, text),
        Ok(_) => (code((8, 0, 0)), &[]),
        Err(r) => (code(*r), &[]),
    };
    same_code(&format!("{} in a space of {}", what, space), told, code)?;
    let (inside, guards) = (&output[16..16 + space], [&output[..16], &output[16 + space..]].concat());
    if guards.iter().any(|b| *b != 255) {
        return Err(format!("{} in a space of {}: bytes beside the space are changed", what, space));
    }
    if !inside.starts_with(written) {
        let found = String::from_utf8_lossy(&inside[..written.len()]);
        return Err(format!("{} in a space of {}: found\n{}\ndue\n{}", what, space, found, String::from_utf8_lossy(written)));
    }
    if inside[written.len()..].iter().any(|b| *b != 0) {
        return Err(format!("{} in a space of {}: no zeros behind the first {} bytes", what, space, written.len()));
    }
    Ok(())
}

/// One call of a function that places, with a space of so many numbers between eight on each side that must stay.
fn check_placed(what: &str, length: usize, due: Placed, place: impl FnOnce(&mut [u32]) -> u64) -> Checked {
    let mut space = vec![u32::MAX; length + 16];
    let told = place(&mut space[8..8 + length]);
    let put = if length < 18 { due.and(Err((8, 0, 0))) } else { due };
    same_code(&format!("{} in {} numbers", what, length), told, put.map_or_else(code, |_| 0))?;
    let mut numbers = put.unwrap_or([0; 18]).to_vec();
    numbers.resize(length, 0);
    if space[8..8 + length] != numbers {
        return Err(format!("{} in {} numbers: found {:?}, due {:?}", what, length, &space[8..8 + length], numbers));
    }
    if space[..8].iter().chain(&space[8 + length..]).any(|v| *v != u32::MAX) {
        return Err(format!("{} in {} numbers: numbers beside the space are changed", what, length));
    }
    Ok(())
}

/// What is counted of a page that is refused: the number, and what it comes before.
fn refused_page(stack: &Stack, spread: u32, number: u32) -> &'static str {
    let (narrow, broad) = ((spread as i64) < solver::first(stack), spread > 63);
    match (number, narrow, broad) {
        (3, true, true) => "pages, refused 3 before 7 and 9",
        (3, true, _) => "pages, refused 3 before 7",
        (3, _, true) => "pages, refused 3 before 9",
        (3, ..) => "pages, refused 3",
        (7, _, true) => "pages, refused 7 before 9",
        (7, ..) => "pages, refused 7",
        _ => "pages, refused 9",
    }
}

/// What is counted of a page that is drawn: the sides to which paths go.
fn drawn_page(stack: &Stack, answer: &solver::Answer, channel: usize) -> &'static str {
    let offset = answer.positions[channel] - answer.positions[channel - 1];
    let pairs = &stack.channels[channel - 1];
    match (pairs.iter().any(|p| p.1 + offset > p.0), pairs.iter().any(|p| p.1 + offset < p.0)) {
        (true, true) => "pages, paths to both sides",
        (true, _) => "pages, paths to the right",
        (_, true) => "pages, paths to the left",
        _ if pairs.is_empty() => "pages, no paths",
        _ => "pages, straight paths",
    }
}

/// What is counted of the tracks of a page that is drawn.
fn page_tracks(stack: &Stack, answer: &solver::Answer, channel: usize) -> Vec<&'static str> {
    let (pairs, t) = (&stack.channels[channel - 1], answer.separations[channel - 1]);
    let offset = answer.positions[channel] - answer.positions[channel - 1];
    let mut all = Vec::new();
    if t >= 10 {
        all.push("pages, numbers of two digits");
    }
    if t > 0 && channel::limits(pairs, t - 1).is_none() {
        all.push("pages, tracks above the pairs' own");
    }
    if t == 1 && !pairs.is_empty() {
        all.push("pages, a separation of 1");
    }
    if pairs.iter().any(|p| p.1 + offset != p.0) {
        all.push("pages, an upright step below runs");
    }
    if stack.windows[channel - 1].or(stack.windows[channel]).is_some() {
        all.push("pages, a strip held");
    }
    all
}

/// The text of an accepted stack without its `GAP` lines, if it has any.
fn without_gaps(text: &[u8]) -> Option<&[u8]> {
    text.windows(4).position(|w| w == b"\nGAP").map(|at| &text[..=at])
}

/// The text of an accepted stack without its windows, if it has any.
fn without_windows(text: &[u8]) -> Option<Vec<u8>> {
    let bare = |line: &[u8]| match line.starts_with(b"PART") {
        true => [&line.split(|b| *b == 9 || *b == 10).take(2).collect::<Vec<_>>().join(&9)[..], b"\n"].concat(),
        _ => line.to_vec(),
    };
    let all: Vec<u8> = text.split_inclusive(|b| *b == 10).flat_map(bare).collect();
    (all.len() < text.len()).then_some(all)
}

/// What is counted of a stack's windows.
fn window_kinds(stack: &Stack) -> Vec<&'static str> {
    let held: Vec<reader::Window> = stack.windows.iter().flatten().copied().collect();
    if held.is_empty() {
        return Vec::new();
    }
    let mut all = vec!["stacks with windows"];
    let mut count = |met: bool, what: &'static str| {
        if met {
            all.push(what);
        }
    };
    count(has_floors(stack), "stacks with windows and floors");
    count(held.iter().any(|w| w.0 == w.1), "stacks with a window of one position");
    count(held.iter().any(|w| w.0 < w.1 && w.1 == 9999), "stacks with a window up to 9,999");
    count(held.iter().any(|w| w.0 == 9999), "stacks with a strip held at 9,999");
    count(stack.windows.windows(2).any(|w| w[0].is_some() != w[1].is_some()), "stacks with a free strip beside a held one");
    count(held.len() == stack.lengths.len(), "stacks with every strip held");
    all
}

/// What is counted of a table's rows.
fn table_kinds(stack: &Stack, rows: &[(i64, solver::Answer)]) -> Vec<&'static str> {
    let last = &rows[rows.len() - 1];
    let kinds = [
        (rows.windows(2).any(|w| w[0].1.total - w[1].1.total >= 2), "tables, a total that falls by 2 or more"),
        (rows[0].0 > solver::longest(stack), "tables, first row above the longest strip"),
        (last.0 > stack.lengths.iter().sum(), "tables, a row past the sum of the lengths"),
        (last.0 > 9999, "tables, a row's spread of five digits"),
        (rows.iter().any(|r| r.1.positions.iter().any(|x| *x > 9999)), "tables, a position of five digits"),
    ];
    kinds.into_iter().filter(|(met, _)| *met).map(|(_, what)| what).collect()
}

/// What is counted of a trial where strips are held, which are at these positions, and whether it is legal.
fn window_trial(stack: &Stack, spread: u32, placement: &[u32; 17], legal: bool) -> Vec<&'static str> {
    let positions = placement[8..].iter().map(|x| *x as i64);
    let held: Vec<(reader::Window, i64)> = stack.windows.iter().zip(positions).filter_map(|(w, x)| w.map(|w| (w, x))).collect();
    if legal {
        let ends = [("trials, legal at a least position", 0), ("trials, legal at a greatest position", 1)];
        let at = |end: usize| held.iter().any(|(w, x)| [w.0, w.1][end] == *x);
        return ends.into_iter().filter(|(_, end)| at(*end)).map(|(what, _)| what).collect();
    }
    if held.iter().all(|(w, x)| w.0 <= *x && *x <= w.1) {
        return Vec::new();
    }
    let free = Stack { windows: vec![None; stack.windows.len()], ..stack.clone() };
    if !judged(&free, spread, placement) {
        return Vec::new();
    }
    let mut all = vec!["trials, not legal by a window alone"];
    if held.iter().any(|(w, x)| x + 1 == w.0) {
        all.push("trials, not legal one below a least position");
    }
    if held.iter().any(|(w, x)| *x == w.1 + 1) {
        all.push("trials, not legal one above a greatest position");
    }
    all
}

/// Whether eight separations and nine positions are legal by a condition on each channel.
fn judged_by(stack: &Stack, spread: u32, placement: &[u32; 17], wired: channel::Condition) -> bool {
    let k = stack.channels.len();
    let unused = placement[k..8].iter().chain(&placement[9 + k..]).all(|v| *v == 0);
    let separations: Vec<usize> = placement[..k].iter().map(|t| *t as usize).collect();
    let positions: Vec<i64> = placement[8..=8 + k].iter().map(|x| *x as i64).collect();
    unused && solver::legal_by(stack, spread as i64, &separations, &positions, wired)
}

/// The trial's verdict.
fn judged(stack: &Stack, spread: u32, placement: &[u32; 17]) -> bool {
    judged_by(stack, spread, placement, &channel::feasible)
}

/// A search for paths in a channel, at a separation and an offset.
type Search = fn(&[channel::Pair], usize, i64) -> Option<bool>;

/// The same by a search for paths in each channel; None where a grid is too large for it.
fn searched(stack: &Stack, spread: u32, placement: &[u32; 17], drawable: Search) -> Option<bool> {
    let too_large = Cell::new(false);
    let wired = |pairs: &[channel::Pair], t: usize, offset: i64| {
        let found = drawable(pairs, t, offset);
        too_large.set(too_large.get() || found.is_none());
        found == Some(true)
    };
    let drawn = judged_by(stack, spread, placement, &wired);
    (!too_large.get()).then_some(drawn)
}

/// The placement in a total, eight separations and nine positions, if it is legal and adds up.
fn judged_sum(stack: &Stack, spread: u32, numbers: &[u32; 18]) -> Result<[u32; 17], String> {
    let mut placement = [0; 17];
    placement.copy_from_slice(&numbers[1..]);
    let sum: u64 = placement[..8].iter().map(|t| *t as u64).sum();
    if !judged(stack, spread, &placement) || sum != numbers[0] as u64 {
        return Err(format!("placement at spread {}: {:?} is not legal or does not add up", spread, numbers));
    }
    Ok(placement)
}

/// A placement for a stated total, or the refusal.
type Placed = Result<[u32; 18], Refusal>;

/// The placement by the reference, at a spread that is not narrow.
fn placed_by_trying(stack: &Stack, spread: u32, total: u32, brute: bool) -> Placed {
    solver::place(stack, spread as i64, total as usize, brute).map(|answer| padded(&answer)).ok_or((10, 0, 0))
}

/// The placement of a stack with many pairs: by the reference, where the total is enough for every channel so that it soon ends, else by the plain program.
fn placed_of_many(stack: &Stack, text: &[u8], spread: u32, total: u32) -> Placed {
    if total as usize >= solver::free_total(stack) {
        return placed_by_trying(stack, spread, total, false);
    }
    plain::place(text, spread, total)
}

/// What is counted of a placement for a greater total than the least: where it differs from the least one's.
fn greater_place(stack: &Stack, least: &[u32; 18], placed: &[u32; 18]) -> Vec<&'static str> {
    let before_last = 1..stack.channels.len();
    let mut all = vec!["placements, total above the least"];
    if placed[0] as usize > solver::free_total(stack) {
        all.push("placements, total above the sum of last separations of use");
    }
    if before_last.clone().any(|i| placed[i] < least[i]) {
        all.push("placements, a channel before the last with less than at the least");
    }
    if before_last.clone().any(|i| placed[i] > least[i]) {
        all.push("placements, a channel before the last with more than at the least");
    }
    if placed[9..] != least[9..] {
        all.push("placements, other positions than at the least");
    }
    all
}

fn plain_table(text: &[u8]) -> Result<Vec<u8>, String> {
    let mut table = vec![0; SPACE];
    let length = plain::table(text, &mut table).map_err(|r| format!("the plain program refuses: {:?}", r))?;
    table.truncate(length);
    Ok(table)
}

struct Run {
    random: Random,
    counts: BTreeMap<&'static str, usize>,
}

impl Run {
    fn count(&mut self, what: &'static str) {
        *self.counts.entry(what).or_insert(0) += 1;
    }

    fn table_in(&mut self, text: &[u8], space: usize, due: &Result<Vec<u8>, Refusal>) -> Checked {
        self.count("tables");
        check_written("table", space, due, |output| library::write_table(text, output))
    }

    /// The table in a longer space, its own length, one less, some less and none.
    fn table(&mut self, text: &[u8], due: &Result<Vec<u8>, Refusal>) -> Checked {
        let length = due.as_ref().map_or(1 + self.random.below(300), |table| table.len());
        let (more, some) = (self.random.below(100), self.random.below(length));
        for space in [length + 1 + more, length, length - 1, some, 0] {
            self.table_in(text, space, due)?;
        }
        let mut output = vec![255; SPACE];
        match (plain::table(text, &mut output), due) {
            (Ok(length), Ok(table)) if output[..length] == table[..] && output[length..].iter().all(|b| *b == 0) => Ok(()),
            (Err(found), Err(r)) if found == *r && output.iter().all(|b| *b == 0) => Ok(()),
            (found, _) => Err(format!("the plain program's table: {:?}", found)),
        }
    }

    /// The page of both programs in one space.
    fn page_in(&mut self, text: &[u8], spread: u32, channel: u32, space: usize, due: &Result<Vec<u8>, Refusal>) -> Checked {
        self.count("calls for a page");
        if due.as_ref().is_ok_and(|page| page.len() > space) {
            self.count("pages, short space");
        }
        let what = format!("page {} at spread {}", channel, spread);
        check_written(&what, space, due, |output| library::write_page(text, spread, channel, output))?;
        check_written(&format!("the plain program's {}", what), space, due, |output| {
            plain::page(text, spread, channel, output).map_or_else(code, |length| length as u64)
        })
    }

    /// A page of a stack, drawn from an answer that may be left out if the spread is refused, in spaces around its length.
    fn page(&mut self, stack: &Stack, text: &[u8], spread: u32, channel: u32, answer: Option<&solver::Answer>) -> Checked {
        let due = match page::refusal(stack, spread as i64, channel as i64) {
            Some(r) => {
                self.count(refused_page(stack, spread, r.0));
                Err(r)
            }
            None => {
                let answer = answer.ok_or("no answer to draw a page from")?;
                self.count("pages");
                self.count(drawn_page(stack, answer, channel as usize));
                page_tracks(stack, answer, channel as usize).into_iter().for_each(|what| self.count(what));
                let drawn = std::panic::catch_unwind(|| page::page(stack, answer, spread as i64, channel as usize));
                Ok(drawn.map_err(|_| format!("page {} at spread {} breaks a rule", channel, spread))?.into_bytes())
            }
        };
        let length = due.as_ref().map_or(69, |page| page.len());
        let (more, some) = (2 + self.random.below(200), self.random.below(length));
        for space in [0, 1, some, length - 1, length, length + 1, length + more] {
            self.page_in(text, spread, channel, space, &due)?;
        }
        Ok(())
    }

    /// One of the stack's channels, or now and then a number that is none.
    fn channel(&mut self, stack: &Stack) -> u32 {
        let k = stack.channels.len() as u32;
        match self.random.below(10) {
            0 => [0, 0, k + 1, k + 1, k + 256, k + (1 << 16), 1 << 31, u32::MAX][self.random.below(8)],
            _ => 1 + self.random.below(k as usize) as u32,
        }
    }

    /// The least total of both programs.
    fn total(&mut self, text: &[u8], spread: u32, due: Result<u32, Refusal>) -> Checked {
        self.count("least totals");
        let what = format!("least total at spread {}", spread);
        same_code(&what, library::least_total(text, spread), due.map_or_else(code, |total| total as u64))?;
        self.raised(text, spread, &due)?;
        self.raised_by_windows(text, spread, &due)?;
        match plain::total(text, spread) {
            found if found == due => Ok(()),
            found => Err(format!("the plain program's {}: {:?}, due {:?}", what, found, due)),
        }
    }

    /// Floors never lower a total: the plain program has that of the stack without them.
    fn raised(&mut self, text: &[u8], spread: u32, due: &Result<u32, Refusal>) -> Checked {
        let (Some(bare), Ok(due)) = (without_gaps(text), due) else {
            return Ok(());
        };
        let without = plain::total(bare, spread).map_err(|r| format!("the plain program refuses without GAP lines: {:?}", r))?;
        if *due < without {
            return Err(format!("least total at spread {}: {} with floors, {} without", spread, due, without));
        }
        self.count(if *due > without { "least totals, raised by a floor" } else { "least totals, not raised by a floor" });
        Ok(())
    }

    /// Windows never lower a total either.
    fn raised_by_windows(&mut self, text: &[u8], spread: u32, due: &Result<u32, Refusal>) -> Checked {
        let (Ok(due), true) = (due, self.random.chance(4)) else {
            return Ok(());
        };
        let Some(free) = without_windows(text) else {
            return Ok(());
        };
        let without = plain::total(&free, spread).map_err(|r| format!("the plain program refuses without windows: {:?}", r))?;
        if *due < without {
            return Err(format!("least total at spread {}: {} with windows, {} without", spread, due, without));
        }
        self.count(if *due > without { "least totals, raised by a window" } else { "least totals, not raised by a window" });
        if *due > without && spread == u32::MAX {
            self.count("stacks with windows that keep a total from falling for ever");
        }
        Ok(())
    }

    /// Eighteen, or now and then fewer or more.
    fn length_of_numbers(&mut self) -> usize {
        if self.random.chance(8) {
            return self.random.below(40);
        }
        18
    }

    /// The placement of both programs for a stated total.
    fn place(&mut self, text: &[u8], spread: u32, total: u32, due: Placed) -> Checked {
        self.count("placements");
        match due {
            Err((7, ..)) => self.count("placements, refused 7 before 10"),
            Err((10, ..)) => self.count("placements, refused 10"),
            _ => (),
        }
        let what = format!("placement at spread {} for total {}", spread, total);
        let length = self.length_of_numbers();
        check_placed(&what, length, due, |output| library::place_in(text, spread, total, output))?;
        if length < 18 && due == Err((10, 0, 0)) {
            self.count("placements, refused 10 before 8");
        }
        match plain::place(text, spread, total) {
            found if found == due => Ok(()),
            found => Err(format!("the plain program's {}: {:?}, due {:?}", what, found, due)),
        }
    }

    /// The placement for a stated total where this is the placement with the least: its sum, its trial, and its trial with a separation lowered.
    fn stated(&mut self, stack: &Stack, text: &[u8], spread: u32, total: u32, least: &[u32; 18], due: Placed) -> Checked {
        self.place(text, spread, total, due)?;
        if due.is_err() && spread > 63 {
            self.count("placements, refused 10 at a spread above 63");
        }
        let Ok(placed) = due else {
            return Ok(());
        };
        if total == u32::MAX {
            self.count("placements, 4294967295 stated");
        }
        if total > least[0] {
            greater_place(stack, least, &placed).into_iter().for_each(|what| self.count(what));
        }
        let mut placement = judged_sum(stack, spread, &placed)?;
        self.try_on(stack, text, spread, &placement)?;
        let lowered = self.random.below(stack.channels.len());
        if placement[lowered] > 0 {
            placement[lowered] -= 1;
            self.try_on(stack, text, spread, &placement)?;
        }
        Ok(())
    }

    /// The least total at a spread, its placement, and the placements for other totals, which `place` gives: all that are about, or some.
    fn answers(&mut self, stack: &Stack, text: &[u8], spread: u32, least: &[u32; 18], all: bool, place: impl Fn(u32) -> Placed) -> Checked {
        self.total(text, spread, Ok(least[0]))?;
        if stack.windows.iter().zip(&stack.lengths).any(|(w, length)| w.is_some_and(|w| w.1 + length > spread as i64)) {
            self.count("least totals, a greatest position beyond the spread");
        }
        self.stated(stack, text, spread, least[0], least, Ok(*least))?;
        let mut totals = self.random.totals(stack, least[0]);
        while !all && totals.len() > 2 {
            totals.remove(self.random.below(totals.len()));
        }
        for total in totals {
            self.stated(stack, text, spread, total, least, place(total))?;
        }
        Ok(())
    }

    /// What is refused for a spread or a text: the total, and the placements for two totals.
    fn refused(&mut self, text: &[u8], spread: u32, r: Refusal) -> Checked {
        self.total(text, spread, Err(r))?;
        for total in [[0, u32::MAX][self.random.below(2)], self.random.below(600) as u32] {
            self.place(text, spread, total, Err(r))?;
        }
        Ok(())
    }

    /// The trial of a placement of a stack.
    fn try_on(&mut self, stack: &Stack, text: &[u8], spread: u32, placement: &[u32; 17]) -> Checked {
        let legal = judged(stack, spread, placement);
        if solver::small(stack) {
            self.search(stack, spread, placement, legal)?;
        }
        if !legal && judged_by(stack, spread, placement, &channel::formerly_feasible) {
            self.count("trials, not legal but by the former rule");
        }
        if legal && stack.channels.iter().zip(placement).any(|(pairs, t)| !pairs.is_empty() && *t == 1) {
            self.count("trials, legal with a separation of 1");
        }
        if !legal && judged_by(stack, spread, placement, &|pairs, t, offset| t == 1 || channel::feasible(pairs, t, offset)) {
            self.count("trials, not legal by a separation of 1 alone");
        }
        if !legal && placement.iter().zip(&stack.floors).any(|(t, floor)| (*t as usize) < *floor) {
            let bare = Stack { floors: vec![0; stack.floors.len()], ..stack.clone() };
            if judged(&bare, spread, placement) {
                self.count("trials, not legal by a floor alone");
            }
        }
        if has_held(stack) {
            window_trial(stack, spread, placement, legal).into_iter().for_each(|what| self.count(what));
        }
        self.trial(text, spread, placement, Ok(legal))
    }

    /// The trial of a small stack's placement by a search for paths: it is legal exactly if it can be drawn, inside the spread too.
    fn search(&mut self, stack: &Stack, spread: u32, placement: &[u32; 17], legal: bool) -> Checked {
        let by = |search: Search| searched(stack, spread, placement, search);
        let differs = |what: &str| Err(format!("trial at spread {} of {:?}: {} by search, due {}", spread, placement, what, legal));
        match by(paths::drawable) {
            None => self.count("trials, a grid too large for a search"),
            Some(true) if !legal => return differs("drawable"),
            Some(false) if legal => return differs("not drawable"),
            Some(true) if by(paths::drawable_inside) != Some(true) => return differs("drawable, but not inside the spread,"),
            Some(true) => self.count("trials, legal by a search for paths"),
            Some(false) => self.count("trials, not legal by a search for paths"),
        }
        Ok(())
    }

    fn trial(&mut self, text: &[u8], spread: u32, placement: &[u32; 17], due: Result<bool, Refusal>) -> Checked {
        self.count(match due {
            Ok(true) => "trials, legal",
            Ok(false) => "trials, not legal",
            Err(_) => "trials, refused",
        });
        let told = library::try_placement(text, spread, placement);
        let code = due.map_or_else(code, |legal| if legal { 1 } else { 2 });
        same_code(&format!("trial at spread {} of {:?}", spread, placement), told, code)
    }

    /// Trials of a placement and of what is next to it.
    fn neighbours(&mut self, stack: &Stack, text: &[u8], spread: u32, answer: &[u32; 18]) -> Checked {
        let k = stack.channels.len();
        let base = judged_sum(stack, spread, answer)?;
        let mut all = Vec::new();
        for spread in [spread, spread - 1, spread.wrapping_add(1), 0, u32::MAX] {
            all.push((spread, base));
        }
        let mut with = |place: usize, value: u32| {
            let mut placement = base;
            placement[place] = value;
            all.push((spread, placement));
        };
        for place in (0..k).chain(8..=8 + k) {
            with(place, base[place].wrapping_sub(1));
            with(place, base[place].wrapping_add(1));
        }
        for (i, channel) in stack.channels.iter().enumerate() {
            let (m, floor) = (channel.len() as u32, stack.floors[i] as u32);
            for value in [0, 1, 2, m, m + 1, floor, floor.saturating_sub(1)] {
                with(i, value);
            }
        }
        for (i, (least, greatest)) in stack.windows.iter().enumerate().filter_map(|(i, w)| w.map(|w| (i, w))) {
            for value in [(least - 1).max(0), least, greatest, greatest + 1] {
                with(8 + i, value as u32);
            }
        }
        for value in [u32::MAX, 1 << 31, (1 << 31) - 1, 32, 33, 63, 64, 65, 256] {
            with(self.random.below(k), value);
            with(8 + self.random.below(k + 1), value);
        }
        with(8 + self.random.below(k + 1), spread);
        for place in (k..8).chain(9 + k..17) {
            with(place, [1, 255, 1 << 16, u32::MAX][self.random.below(4)]);
        }
        for (spread, placement) in all {
            self.try_on(stack, text, spread, &placement)?;
        }
        Ok(())
    }

    /// A position of strip i: anywhere near the left, or about the ends of its window or in it.
    fn position(&mut self, stack: &Stack, i: usize, spread: u32) -> u32 {
        let room = (spread as i64 - stack.lengths[i]).clamp(0, 2000);
        let anywhere = self.random.between(0, room);
        let position = match stack.windows[i] {
            Some((least, greatest)) => {
                let within = self.random.between(least, greatest.min(least + room));
                [(least - 1).max(0), least, least, greatest, greatest + 1, within, within, anywhere][self.random.below(8)]
            }
            None => anywhere,
        };
        position as u32
    }

    /// A placement of small numbers, huge ones among them; now and then with enough tracks at every offset, so that the positions alone decide.
    fn placement(&mut self, stack: &Stack, spread: u32) -> [u32; 17] {
        let k = stack.channels.len();
        let mut placement = [0; 17];
        let enough = self.random.chance(4);
        for (i, channel) in stack.channels.iter().enumerate() {
            // By the pairs, about the floor, or enough for both.
            let (any, floor) = (self.random.below(channel.len() + 3), stack.floors[i]);
            let some = [any, (floor + self.random.below(3)).saturating_sub(1), any.max(floor)][self.random.below(3)];
            placement[i] = if enough { solver::least_free(stack, i) } else { some } as u32;
        }
        for i in 0..=k {
            placement[8 + i] = self.position(stack, i, spread);
        }
        if self.random.chance(10) {
            placement[self.random.below(k)] = self.random.next() as u32;
        }
        if self.random.chance(10) {
            placement[8 + self.random.below(k + 1)] = self.random.next() as u32;
        }
        placement
    }

    fn placements(&mut self, stack: &Stack, text: &[u8], spread: u32, count: usize) -> Checked {
        for _ in 0..count {
            let placement = self.placement(stack, spread);
            self.try_on(stack, text, spread, &placement)?;
        }
        Ok(())
    }

    /// Spreads below the first row, at it, around every row and past the last, around the last that a page shows and around one from which on a window's end
    /// stays.
    fn spreads(&mut self, stack: &Stack, rows: &[u32]) -> Vec<u32> {
        let (first, widest) = (solver::first(stack) as u32, solver::widest(stack) as u32);
        let mut all = vec![0, solver::longest(stack) as u32, first - 1, first, first + 1, first + 2, widest, widest + 1, 63, 64];
        let i = self.random.below(stack.lengths.len());
        if let Some((_, greatest)) = stack.windows[i] {
            let reached = (greatest + stack.lengths[i]) as u32;
            all.extend([reached - 1, reached, reached + 1]);
        }
        for row in rows {
            all.extend([row - 1, *row, row + 1]);
        }
        let last = rows[rows.len() - 1];
        all.push(last + 2 + self.random.below(50) as u32);
        all.push(first + self.random.below((widest - first + 1) as usize) as u32);
        all.extend([first.max(self.random.next() as u32), (1 << 31) - 1, 1 << 31, u32::MAX - 1, u32::MAX]);
        all.sort();
        all.dedup();
        all
    }

    /// A whole stack against the reference, which tries separations, and positions too if the stack is small.
    fn stack(&mut self, stack: &Stack, text: &[u8]) -> Checked {
        let brute = solver::small(stack);
        if reader::read(text).as_ref() != Ok(stack) {
            return Err("the reference reads another stack".to_string());
        }
        let rows = solver::rows(stack, brute);
        table_kinds(stack, &rows).into_iter().for_each(|what| self.count(what));
        self.table(text, &Ok(solver::table_text(stack, &rows).into_bytes()))?;
        let row_spreads: Vec<u32> = rows.iter().map(|r| r.0 as u32).collect();
        for spread in self.spreads(stack, &row_spreads) {
            let channel = self.channel(stack);
            if (spread as i64) < solver::first(stack) {
                if spread as i64 >= solver::longest(stack) {
                    self.count("spreads, narrow by a window alone");
                }
                self.refused(text, spread, (7, 0, 0))?;
                self.page(stack, text, spread, channel, None)?;
                self.placements(stack, text, spread, 1)?;
                continue;
            }
            let tried = solver::brute(stack, spread as i64);
            let answer = solver::answer(stack, spread as i64, tried);
            let due = padded(&answer);
            let is_row = row_spreads.contains(&spread);
            self.answers(stack, text, spread, &due, is_row, |total| placed_by_trying(stack, spread, total, tried))?;
            self.page(stack, text, spread, channel, Some(&answer))?;
            self.placements(stack, text, spread, 3)?;
            if is_row || self.random.chance(4) {
                self.neighbours(stack, text, spread, &due)?;
            }
        }
        Ok(())
    }

    /// A stack too large for trying separations: against the plain program, and the reference past the last row, unless windows keep the total from falling
    /// as far as it could.
    fn large_stack(&mut self, stack: &Stack, text: &[u8]) -> Checked {
        if reader::read(text).as_ref() != Ok(stack) {
            return Err("the reference reads another stack".to_string());
        }
        let table = plain_table(text)?;
        let row = |line: &[u8]| std::str::from_utf8(line).unwrap().split('\t').nth(1).unwrap().parse::<u32>().unwrap();
        let rows: Vec<u32> = table.split(|b| *b == 10).filter(|l| l.starts_with(b"ROW")).map(row).collect();
        self.table(text, &Ok(table))?;
        let mut some: Vec<u32> = (0..3).map(|_| rows[self.random.below(rows.len())]).collect();
        some.push(rows[rows.len() - 1]);
        for spread in self.spreads(stack, &some) {
            let due = self.answers_of_many(stack, text, spread)?;
            let answer = due.map(|due| unpadded(stack, &due));
            for channel in [self.channel(stack), 0, 9] {
                self.page(stack, text, spread, channel, answer.as_ref())?;
            }
            if let Some(due) = due {
                self.neighbours(stack, text, spread, &due)?;
            }
        }
        let spread = solver::widest(stack) + self.random.between(0, 9);
        if plain::total(text, spread as u32).is_ok_and(|total| total as usize > solver::open_total(stack)) {
            return self.answers_of_many(stack, text, spread as u32).map(|_| ());
        }
        self.count("stacks at the limits, by the reference too");
        let least = padded(&solver::answer(stack, spread, false));
        self.answers(stack, text, spread as u32, &least, true, |total| placed_of_many(stack, text, spread as u32, total))
    }

    /// Totals and placements of a stack with many pairs at any spread, by the plain program's least; that placement, if the spread is not narrow.
    fn answers_of_many(&mut self, stack: &Stack, text: &[u8], spread: u32) -> Result<Option<[u32; 18]>, String> {
        match plain::total(text, spread).and_then(|total| plain::place(text, spread, total)) {
            Ok(least) => {
                self.answers(stack, text, spread, &least, false, |total| placed_of_many(stack, text, spread, total))?;
                Ok(Some(least))
            }
            Err(_) => self.refused(text, spread, (7, 0, 0)).map(|_| None),
        }
    }

    /// Every page of a stack at the first row, at the last spread that is shown and between, by the plain program's answers; other
    /// channels and spreads too.
    fn stack_for_pages(&mut self, stack: &Stack, text: &[u8]) -> Checked {
        let (k, first) = (stack.channels.len() as u32, solver::first(stack));
        for spread in [first, self.random.between(first, 63), self.random.between(first, 63), 63] {
            let due = self.answers_of_many(stack, text, spread as u32)?.ok_or("the plain program refuses")?;
            let answer = unpadded(stack, &due);
            for channel in 1..=k {
                self.page(stack, text, spread as u32, channel, Some(&answer))?;
            }
            for channel in [0, k + 1] {
                self.page(stack, text, spread as u32, channel, Some(&answer))?;
            }
        }
        for spread in [first as u32 - 1, 64, u32::MAX] {
            let channel = self.channel(stack);
            self.page(stack, text, spread, channel, None)?;
        }
        Ok(())
    }

    /// A damaged text: refused as the reference refuses it, or answered as the plain program does.
    fn damaged(&mut self, text: &[u8]) -> Checked {
        let read = reader::read(text);
        let spread = [0, 5, 12, 60, 1000, 1001, 10_999, u32::MAX][self.random.below(8)];
        match &read {
            Ok(stack) => {
                self.count("damaged texts, accepted");
                let table = plain_table(text)?;
                let length = table.len();
                self.table_in(text, length + 9, &Ok(table.clone()))?;
                self.table_in(text, length - 1, &Ok(table))?;
                let answer = self.answers_of_many(stack, text, spread)?.map(|due| unpadded(stack, &due));
                let channel = self.channel(stack);
                self.page(stack, text, spread, channel, answer.as_ref())?;
                self.placements(stack, text, spread, 1)
            }
            Err(r) => {
                self.count("damaged texts, refused");
                faults::met(text, *r).into_iter().for_each(|what| self.count(what));
                self.table(text, &Err(*r))?;
                self.refused(text, spread, *r)?;
                self.count("pages, text refused");
                let (channel, space) = ([0, 1, 2, 9, u32::MAX][self.random.below(5)], self.random.below(150));
                self.page_in(text, spread, channel, space, &Err(*r))?;
                let placement = [self.random.below(3) as u32; 17];
                self.trial(text, spread, &placement, Err(*r))
            }
        }
    }

    /// Up to 3 channels, lengths up to 12, up to 4 pairs.
    fn small(&mut self) -> Stack {
        let k = 1 + self.random.below(3);
        let length = self.random.between(1, 14 - 2 * k as i64);
        self.random.stack(k, length, 4)
    }

    /// A stack small enough to try separations: up to eight channels, lengths up to 60, up to 6 pairs.
    fn middle(&mut self) -> Stack {
        loop {
            let k = 1 + self.random.below(8);
            let length = self.random.between(1, 60);
            let pairs = self.random.between(0, 6) as usize;
            let stack = self.random.stack(k, length, pairs);
            let choices: usize = stack.channels.iter().map(|c| c.len() + 2).product();
            if choices <= 500_000 {
                return stack;
            }
        }
    }

    /// Eight channels of 32 pairs, or nearly: long or short strips, pairs drawn to one side or another.
    fn large(&mut self) -> Stack {
        let longest = [1000, 1000, 300, 60, 33][self.random.below(5)];
        let style = self.random.below(4);
        if style == 0 {
            let k = 6 + self.random.below(3);
            return self.random.stack(k, longest, 32);
        }
        let lengths: Vec<i64> =
            (0..9).map(|_| longest - self.random.between(0, 1) * self.random.between(0, (longest - 31).min(9))).collect();
        let edge = |random: &mut Random, length: i64, left: bool| {
            let reach = if style == 1 { length } else { (31 + random.between(0, 99)).min(length) };
            let from = if left { 0 } else { length - reach };
            random.rising(32, from, from + reach)
        };
        let mut channels = Vec::new();
        for i in 0..8 {
            let left = if style == 2 { true } else { self.random.chance(2) };
            let p = edge(&mut self.random, lengths[i], left);
            let q = edge(&mut self.random, lengths[i + 1], !left);
            channels.push(p.into_iter().zip(q).collect());
        }
        self.random.limited(lengths, channels, 2 * longest, true)
    }

    /// Up to eight channels of up to 32 pairs between strips that a page can show, most of them near the greatest length.
    fn for_pages(&mut self) -> Stack {
        let k = 1 + self.random.below(8);
        let longest = [63, 63, self.random.between(1, 63)][self.random.below(3)];
        let least = [1, longest, longest - longest / 4][self.random.below(3)];
        let lengths: Vec<i64> = (0..=k).map(|_| self.random.between(least, longest)).collect();
        let channels = lengths.windows(2).map(|l| self.channel_for_pages(l[0], l[1])).collect();
        self.random.limited(lengths, channels, 63, false)
    }

    /// A channel whose paths go far right, far left, apart, together, anywhere, or rise at nearly each column.
    fn channel_for_pages(&mut self, lower: i64, upper: i64) -> Vec<channel::Pair> {
        let most = 32.min(lower + 1).min(upper + 1);
        let m = if self.random.chance(2) { most } else { self.random.between(0, most) };
        // So many terminals in the least part that holds them or a longer one: at the left end, in the middle, at the right end, or anywhere.
        let edge = |random: &mut Random, length: i64, part: usize| {
            let reach = random.between((m - 1).max(0), (m + m / 4).min(length));
            let (from, upto) = match part {
                0 => (0, reach),
                1 => ((length - reach) / 2, (length - reach) / 2 + reach),
                2 => (length - reach, length),
                _ => (0, length),
            };
            random.rising(m as usize, from, upto)
        };
        let (p, q) = [(0, 2), (2, 0), (1, 3), (3, 1), (3, 3), (3, 2), (3, 0)][self.random.below(7)];
        let p = edge(&mut self.random, lower, p);
        let q = edge(&mut self.random, upper, q);
        p.into_iter().zip(q).collect()
    }
}

/// Ends the program at a difference, with the text.
fn expect(kind: &str, text: &[u8], checked: Checked) {
    if let Err(difference) = checked {
        println!("a difference, {}: {}", kind, difference);
        println!("the text, {} bytes: \"{}\"", text.len(), text.escape_ascii());
        println!("{}", String::from_utf8_lossy(text));
        std::process::exit(1);
    }
}

fn check_specimens(run: &mut Run) {
    for (name, text, due) in specimens::TABLES {
        let text = specimens::tabbed(text).into_bytes();
        let due = library::refusal_in(due).map_or_else(|| Ok(specimens::tabbed(due).into_bytes()), Err);
        run.count("specimens");
        let checked = run.table(&text, &due);
        expect(name, &text, checked);
    }
    for (name, text, spread, due) in specimens::SPREADS {
        let text = specimens::tabbed(text).into_bytes();
        let total = library::placement_in(due).map(|numbers| numbers[0]);
        run.count("specimens");
        let checked = run.total(&text, spread, total);
        expect(name, &text, checked);
        let checked = run.place(&text, spread, total.unwrap_or(0), library::placement_in(due));
        expect(name, &text, checked);
    }
    for (name, text, spread, total, due) in specimens::PLACES {
        let text = specimens::tabbed(text).into_bytes();
        run.count("specimens");
        let checked = run.place(&text, spread, total, library::placement_in(due));
        expect(name, &text, checked);
    }
    for (name, text, spread, separations, positions, due) in specimens::TRIALS {
        let text = specimens::tabbed(text).into_bytes();
        let placement = library::numbers(0, separations, positions)[1..].try_into().expect("seventeen numbers");
        run.count("specimens");
        let checked = run.trial(&text, spread, &placement, Ok(due));
        expect(name, &text, checked);
    }
    let odd = specimens::tabbed(&specimens::pairs(32)).replace("31\n", "31\t32\n").into_bytes();
    run.count("specimens");
    let checked = run.table(&odd, &Err((11, 4, 67)));
    expect("65 terminals", &odd, checked);
    for (m, due) in [(32, Ok(b"TABLE\t1\nROW\t40\t0\t0\t0\t0\n".to_vec())), (33, Err((3, 4, 66)))] {
        let text = specimens::tabbed(&specimens::pairs(m)).into_bytes();
        run.count("specimens");
        let checked = run.table(&text, &due);
        expect("pairs", &text, checked);
    }
}

fn check_page_specimens(run: &mut Run) {
    for (name, text, spread, channel, due) in specimens::PAGES {
        let text = specimens::tabbed(text).into_bytes();
        let due = due.map(|lines| specimens::page(lines).into_bytes());
        run.count("specimens");
        let checked = run.page_in(&text, spread, channel, 300, &due);
        expect(name, &text, checked);
    }
}

/// What is counted of a stack's floors.
fn count_floors(run: &mut Run, stack: &Stack, text: &[u8]) {
    if has_floors(stack) {
        run.count("stacks with floors");
    }
    if stack.floors.iter().zip(&stack.channels).any(|(f, c)| *f > 0 && c.is_empty()) {
        run.count("stacks with a floor on a channel without pairs");
    }
    if text.split(|b| *b == 10).any(|l| l.starts_with(b"GAP") && l.ends_with(b"\t0")) {
        run.count("stacks with a floor of 0 written");
    }
}

/// So many random stacks of a kind, each compared; their texts are kept.
fn compare_stacks(
    run: &mut Run,
    count: u64,
    names: [&'static str; 2],
    make: fn(&mut Run) -> Stack,
    check: fn(&mut Run, &Stack, &[u8]) -> Checked,
    texts: &mut Vec<Vec<u8>>,
) {
    for _ in 0..count {
        let stack = make(run);
        let text = run.random.text(&stack);
        run.count(names[1]);
        count_floors(run, &stack, &text);
        window_kinds(&stack).into_iter().for_each(|what| run.count(what));
        let checked = check(run, &stack, &text);
        expect(names[0], &text, checked);
        texts.push(text);
    }
}

/// So many texts damaged, each compared.
fn compare_damaged(run: &mut Run, count: u64, bases: &[Vec<u8>]) {
    for n in 0..count as usize {
        let base = run.random.below(bases.len());
        let kind = n % damage::KINDS.len();
        let mut text = damage::done(&mut run.random, &bases[base], kind);
        if run.random.chance(8) {
            let more = run.random.below(damage::KINDS.len());
            text = damage::done(&mut run.random, &text, more);
        }
        run.count(damage::KINDS[kind]);
        let checked = run.damaged(&text);
        expect(damage::KINDS[kind], &text, checked);
    }
}

/// Everything, so many of each kind.
fn compare_all(run: &mut Run, counts: [u64; 6]) {
    let compared = paths::compare(|what| run.count(what));
    expect("paths in small channels", b"", compared);
    check_specimens(run);
    check_page_specimens(run);
    let mut bases = Vec::new();
    compare_stacks(run, counts[0], ["small stack", "small stacks"], Run::small, Run::stack, &mut bases);
    compare_stacks(run, counts[1], ["middle stack", "middle stacks"], Run::middle, Run::stack, &mut bases);
    compare_stacks(run, counts[3], ["stack at the limits", "stacks at the limits"], Run::large, Run::large_stack, &mut bases);
    compare_stacks(run, counts[4], ["stack for pages", "stacks for pages"], Run::for_pages, Run::stack_for_pages, &mut bases);
    if bases.is_empty() {
        bases.push(specimens::tabbed(specimens::TABLES[1].1).into_bytes());
    }
    compare_damaged(run, counts[2], &bases);
    random_sessions::check_specimens(run);
    random_sessions::compare(run, counts[5]);
    random_turned::compare(run, &bases);
    random_positions::compare(run, counts[0]);
}

fn main() {
    let words: Vec<String> = std::env::args().skip(1).collect();
    let given: Option<Vec<u64>> = words.iter().map(|w| w.parse().ok()).collect();
    let (seed, counts) = match given.as_deref() {
        Some([]) => (1, COUNTS),
        Some([seed]) => (*seed, COUNTS),
        Some([seed, a, b, c, d, e, f]) => (*seed, [*a, *b, *c, *d, *e, *f]),
        _ => {
            eprintln!("{}", USAGE);
            std::process::exit(2);
        }
    };
    let mut run = Run { random: Random(seed), counts: BTreeMap::new() };
    compare_all(&mut run, counts);
    for (what, count) in &run.counts {
        println!("{:>9} {}", count, what);
    }
    let usual = counts.iter().zip(COUNTS).all(|(given, usual)| *given >= usual);
    let others = [&paths::MET[..], &faults::MET, &random_sessions::MET, &random_turned::MET, &random_positions::MET];
    let mut due = MET.iter().chain(others.into_iter().flatten());
    if let Some(what) = due.find(|what| usual && !run.counts.contains_key(*what)) {
        println!("never met: {}", what);
        std::process::exit(1);
    }
    println!("seed {}: no difference", seed);
}
