//! Random sessions: steps that are taken and steps that are refused, after each of them the answers beside those from the text of the same stack, which the
//! reference keeps; then damaged texts of steps.

use crate::library::{self, Refusal};
use crate::random::Random;
use crate::reader;
use crate::session::{self, Session, Step};
use crate::{check_placed, damage, expect, padded, refusal_of, same_code, specimens, Checked, Placed, Run};

/// What must have been met in a run of at least the usual counts.
pub const MET: [&str; 56] = [
    "sessions, nine strips reached",
    "sessions, of a stack at the limits",
    "session steps, begin",
    "session steps, begin on strips held",
    "session steps, begin refused 4",
    "session steps, begin refused 4 on strips held",
    "session steps, add",
    "session steps, add behind a refused step",
    "session steps, add refused 13",
    "session steps, add refused 13 before another fault",
    "session steps, add refused 3 as a tenth strip",
    "session steps, add refused 3 as a tenth strip before another fault",
    "session steps, add refused 4",
    "session steps, add refused 4 before another fault",
    "session steps, add refused 11",
    "session steps, add refused 11 before another fault",
    "session steps, add refused 11 above 64 terminals",
    "session steps, add refused 3 for its terminals",
    "session steps, add refused 3 for its terminals before another fault",
    "session steps, add refused 5 below",
    "session steps, add refused 5 above",
    "session steps, add refused 6 below",
    "session steps, add refused 6 above",
    "session steps, add refused 5 before 6",
    "session steps, add refused 6 before 5",
    "session steps, off",
    "session steps, off behind a refused step",
    "session steps, off refused 13 on an empty session",
    "session steps, off refused 13 on a single strip",
    "session totals of a single strip",
    "session totals, by the text of the stack",
    "session totals, by the reference too",
    "session totals, refused 7",
    "session placements of a single strip",
    "session placements, total above the least",
    "session placements, refused 7 before 10",
    "session placements, refused 8",
    "session placements, refused 10",
    "session placements, refused 10 of a single strip",
    "session placements, refused 10 before 8",
    "damaged steps, accepted",
    "damaged steps, refused 1",
    "damaged steps, refused 2 at a step's first line",
    "damaged steps, refused 2 at a PART line",
    "damaged steps, refused 2 at a PART line with a window",
    "damaged steps, refused 2 at a NETS line",
    "damaged steps, refused 2 at an unended line",
    "damaged steps, refused 2 at a missing line",
    "damaged steps, refused 2 behind a refused step",
    "damaged steps, last refused 3",
    "damaged steps, last refused 4",
    "damaged steps, last refused 5",
    "damaged steps, last refused 6",
    "damaged steps, last refused 11",
    "damaged steps, last refused 13",
    "damaged steps, no steps",
];

/// So many damaged texts for each session.
const DAMAGED: usize = 31;

/// Kinds of damage to steps, besides those to any lines.
const KINDS: usize = 6;

/// How a session's steps are chosen: strips up to a length, up to so many pairs a channel, one step in so many with faults, and whether most add a strip.
struct Style {
    longest: i64,
    pairs: usize,
    faulty: usize,
    upward: bool,
}

fn style(random: &mut Random) -> Style {
    let (longest, pairs) = match random.below(20) {
        0..=4 => (5, 2),
        5..=10 => (12, 4),
        11..=15 => (60, 6),
        16 | 17 => (63, 32),
        18 => (1000, 6),
        _ => (1000, 32),
    };
    Style { longest, pairs, faulty: [2, 4, 8][random.below(3)], upward: !random.chance(3) }
}

/// A length outside its range.
fn wrong_length(random: &mut Random) -> i64 {
    [0, 1001, 9999, random.between(1001, 9999)][random.below(4)]
}

/// An added strip with a fault more: of the length, of the count of terminals, of a terminal beyond its edge or of one that does not rise.
fn spoil(random: &mut Random, top: i64, length: &mut i64, terminals: &mut Vec<i64>) {
    match random.below(7) {
        0 => *length = wrong_length(random),
        1 if terminals.len() > 1 && random.chance(2) => terminals.truncate(terminals.len() - 1),
        1 => terminals.push(random.between(0, *length)),
        2 => {
            let rise = random.between(0, 1);
            *terminals = (0..64 + random.between(0, 5)).map(|n| n / 2 * rise).collect();
        }
        3 | 4 => {
            let place = random.below(terminals.len().max(2));
            terminals.resize(terminals.len().max(2), 0);
            let end = if place % 2 == 0 { top } else { *length };
            terminals[place] = [end + 1, random.between(end, 9999)][random.below(2)].min(9999);
        }
        _ => {
            let place = 2 + random.below(terminals.len().max(4) - 2);
            terminals.resize(terminals.len().max(4), 0);
            terminals[place] = random.between(0, terminals[place - 2]);
        }
    }
}

/// A step for a session in a style. Terminals of a strip for an empty session are as on some other strip.
fn step(random: &mut Random, held: &Session, style: &Style) -> Step {
    let faulty = random.chance(style.faulty);
    let begin = if held.lengths.is_empty() { !random.chance(4) } else { random.chance(if style.upward { 40 } else { 12 }) };
    let mut length = random.between(1, style.longest);
    if begin {
        return Step::Begin(if faulty { wrong_length(random) } else { length });
    }
    if random.chance(if style.upward { 9 } else { 2 }) {
        return Step::Off;
    }
    let top = held.lengths.last().copied().unwrap_or(style.longest);
    let mut terminals = reader::terminals(&random.channel(top, length, style.pairs));
    for _ in 0..if faulty { 1 + random.below(3) } else { 0 } {
        spoil(random, top, &mut length, &mut terminals);
    }
    Step::Add(length, terminals)
}

/// The numbers of all faults that an added strip has on a top strip, where it is not refused for what the session holds.
fn faults(top: i64, length: i64, terminals: &[i64]) -> Vec<u32> {
    let beyond = terminals.iter().enumerate().any(|(n, v)| *v > if n % 2 == 0 { top } else { length });
    let all = [
        (4, !(1..=1000).contains(&length)),
        (11, terminals.len() % 2 == 1),
        (3, terminals.len() > 64),
        (5, beyond),
        (6, terminals.windows(3).any(|w| w[2] <= w[0])),
    ];
    all.into_iter().filter(|(_, met)| *met).map(|(number, _)| number).collect()
}

/// What is counted of an added strip that is refused.
fn refused_add(held: &Session, length: i64, terminals: &[i64], r: Refusal) -> Vec<&'static str> {
    let top = held.lengths.last().copied().unwrap_or(1000);
    // Of the strip itself no fault is given on an empty session and of a tenth strip.
    let given = if r.2 == 0 { 0 } else { r.0 };
    let more = faults(top, length, terminals).iter().any(|number| *number != given);
    let mut all = Vec::new();
    let mut count = |what: &'static str, before: &'static str| {
        all.push(what);
        if more {
            all.push(before);
        }
    };
    match r {
        (13, ..) => count("session steps, add refused 13", "session steps, add refused 13 before another fault"),
        (3, _, 0) => {
            count("session steps, add refused 3 as a tenth strip", "session steps, add refused 3 as a tenth strip before another fault")
        }
        (4, ..) => count("session steps, add refused 4", "session steps, add refused 4 before another fault"),
        (11, ..) => count("session steps, add refused 11", "session steps, add refused 11 before another fault"),
        (3, ..) => {
            count("session steps, add refused 3 for its terminals", "session steps, add refused 3 for its terminals before another fault")
        }
        (5, _, field) if field % 2 == 0 => count("session steps, add refused 5 below", "session steps, add refused 5 before 6"),
        (5, ..) => count("session steps, add refused 5 above", "session steps, add refused 5 before 6"),
        (_, _, field) if field % 2 == 0 => count("session steps, add refused 6 below", "session steps, add refused 6 before 5"),
        _ => count("session steps, add refused 6 above", "session steps, add refused 6 before 5"),
    }
    if r.0 == 11 && terminals.len() > 64 {
        all.push("session steps, add refused 11 above 64 terminals");
    }
    all
}

/// What is counted of a step on a session, where it is refused or not, and so the step before it.
fn counted(held: &Session, step: &Step, taken: Result<(), Refusal>, before: Result<(), Refusal>) -> Vec<&'static str> {
    let empty = held.lengths.is_empty();
    match (step, taken) {
        (Step::Begin(_), Ok(())) if empty => vec!["session steps, begin"],
        (Step::Begin(_), Ok(())) => vec!["session steps, begin", "session steps, begin on strips held"],
        (Step::Begin(_), Err(_)) if empty => vec!["session steps, begin refused 4"],
        (Step::Begin(_), Err(_)) => vec!["session steps, begin refused 4", "session steps, begin refused 4 on strips held"],
        (Step::Add(..), Ok(())) if before.is_err() => vec!["session steps, add", "session steps, add behind a refused step"],
        (Step::Add(..), Ok(())) => vec!["session steps, add"],
        (Step::Add(length, terminals), Err(r)) => refused_add(held, *length, terminals, r),
        (Step::Off, Ok(())) if before.is_err() => vec!["session steps, off", "session steps, off behind a refused step"],
        (Step::Off, Ok(())) => vec!["session steps, off"],
        (Step::Off, Err(_)) if empty => vec!["session steps, off refused 13 on an empty session"],
        (Step::Off, Err(_)) => vec!["session steps, off refused 13 on a single strip"],
    }
}

/// What is counted of a damaged text of steps that is refused.
fn refused_damaged(text: &[u8], r: Refusal) -> Vec<&'static str> {
    let what = match r {
        (1, ..) => "damaged steps, refused 1",
        (2, ..) => return no_step(text, r.1 as usize),
        (3, ..) => "damaged steps, last refused 3",
        (4, ..) => "damaged steps, last refused 4",
        (5, ..) => "damaged steps, last refused 5",
        (6, ..) => "damaged steps, last refused 6",
        (11, ..) => "damaged steps, last refused 11",
        _ if text.is_empty() => "damaged steps, no steps",
        _ => "damaged steps, last refused 13",
    };
    vec![what]
}

/// Whether a line is a `PART` line that a stack may have, with a window.
fn has_window(line: &[u8]) -> bool {
    reader::read(&[b"STACK\t1\n", line, b"PART\t1\nNETS\n"].concat()).is_ok_and(|stack| stack.windows[0].is_some())
}

/// What is counted of a text that has no step at a line: by the line that is due there, and where it is unended or missing.
fn no_step(text: &[u8], line: usize) -> Vec<&'static str> {
    let lines: Vec<&[u8]> = text.split_inclusive(|b| *b == b'\n').collect();
    let before = &lines[..line - 1];
    let mut all = vec![match before {
        [.., b"BEGIN\n"] | [.., b"ADD\n"] => "damaged steps, refused 2 at a PART line",
        [.., b"ADD\n", _] => "damaged steps, refused 2 at a NETS line",
        _ => "damaged steps, refused 2 at a step's first line",
    }];
    match lines.get(line - 1) {
        None => all.push("damaged steps, refused 2 at a missing line"),
        Some(line) if all[0].ends_with("PART line") && has_window(line) => {
            all.push("damaged steps, refused 2 at a PART line with a window")
        }
        Some(line) if !line.ends_with(b"\n") => all.push("damaged steps, refused 2 at an unended line"),
        _ => (),
    }
    let mut session = Session::default();
    let steps = session::steps(&before.concat());
    if steps.iter().flatten().any(|step| session.take(step).is_err()) {
        all.push("damaged steps, refused 2 behind a refused step");
    }
    all
}

/// The text with damage of one kind: to any lines, or to steps.
fn damaged(random: &mut Random, text: &[u8], kind: usize) -> Vec<u8> {
    if kind < damage::OF_ANY_LINES {
        return damage::done(random, text, kind);
    }
    let mut lines: Vec<Vec<u8>> = text.split_inclusive(|b| *b == b'\n').map(|l| l.to_vec()).collect();
    let mut steps: Vec<Step> = session::steps(text).into_iter().flatten().collect();
    let place = random.below(steps.len().max(1));
    match kind - damage::OF_ANY_LINES {
        // A step's first line in place of a line, or before it.
        0 => {
            let line = [&b"BEGIN\n"[..], b"ADD\n", b"OFF\n"][random.below(3)].to_vec();
            let at = random.below(lines.len() + 1);
            if at < lines.len() && random.chance(2) {
                lines[at] = line;
            } else {
                lines.insert(at, line);
            }
            return lines.concat();
        }
        // A window in a line that has none.
        5 => {
            let parts: Vec<usize> = (0..lines.len()).filter(|i| lines[*i].starts_with(b"PART")).collect();
            if !parts.is_empty() {
                let line = &mut lines[parts[random.below(parts.len())]];
                line.truncate(line.len() - 1);
                line.extend([&b"\t0\t9999\n"[..], b"\t1\t3\n", b"\t0\t0\n"][random.below(3)]);
            }
            return lines.concat();
        }
        // All lines from one on dropped.
        1 => return lines[..random.below(lines.len() + 1)].concat(),
        // A step dropped or doubled, so that every line is still a step's.
        2 if !steps.is_empty() => drop(steps.remove(place)),
        3 if !steps.is_empty() => {
            let again = steps[random.below(steps.len())].clone();
            steps.insert(place, again);
        }
        // About 8,192 bytes: refused steps before these, or a part of many.
        _ if random.chance(2) => {
            let room = 8192usize.saturating_sub(text.len()) / 4;
            return [&b"OFF\n".repeat((room + random.below(3)).saturating_sub(1)), text].concat();
        }
        _ => {
            let mut long = text.to_vec();
            while long.len() < 8200 {
                long.extend(if random.chance(3) { &b"OFF\n"[..] } else { text });
            }
            long.truncate(8190 + random.below(5));
            return long;
        }
    }
    session::text(&steps).into_bytes()
}

/// A least total in a code, or the refusal.
fn answered(code: u64) -> Result<u32, Refusal> {
    refusal_of(code).map_or(Ok(code as u32), Err)
}

/// The placement from the text of a stack.
fn placed_from_text(text: &[u8], spread: u32, total: u32) -> Placed {
    let mut numbers = [0; 18];
    answered(library::place_in(text, spread, total, &mut numbers)).map(|_| numbers)
}

impl Run {
    /// The least total after a text of steps.
    fn session_total(&mut self, steps: &[u8], spread: u32, due: Result<u32, Refusal>) -> Checked {
        self.count("session totals");
        let code = due.map_or_else(library::code, |total| total as u64);
        same_code(&format!("the session's least total at spread {}", spread), library::session_total(steps, spread), code)
    }

    /// The placement after a text of steps.
    fn session_place(&mut self, steps: &[u8], spread: u32, total: u32, due: Placed) -> Checked {
        self.count("session placements");
        let length = self.length_of_numbers();
        match (due, length < 18) {
            (Ok(_), true) => self.count("session placements, refused 8"),
            (Err((7, ..)), _) => self.count("session placements, refused 7 before 10"),
            (Err((10, ..)), short) => {
                self.count("session placements, refused 10");
                if short {
                    self.count("session placements, refused 10 before 8");
                }
            }
            _ => (),
        }
        let what = format!("the session's placement at spread {} for total {}", spread, total);
        check_placed(&what, length, due, |output| library::session_place_in(steps, spread, total, output))
    }

    /// The refusal at a spread of both, for two totals.
    fn session_refused(&mut self, steps: &[u8], spread: u32, r: Refusal) -> Checked {
        self.session_total(steps, spread, Err(r))?;
        for total in [[0, u32::MAX][self.random.below(2)], self.random.below(300) as u32] {
            self.session_place(steps, spread, total, Err(r))?;
        }
        Ok(())
    }

    /// What a text of steps is answered: its refusal, or at some spreads what the text of the same stack is.
    fn session_answers(&mut self, steps: &[u8], due: &Result<Session, Refusal>) -> Checked {
        let refusal = match due {
            Ok(session) if session.lengths.is_empty() => (13, 0, 0),
            Ok(session) => {
                let mut spreads = self.session_spreads(&session.lengths).into_iter();
                return spreads.try_for_each(|spread| self.session_at(steps, session, spread));
            }
            Err(r) => *r,
        };
        let spread = [0, 1, 12, 1000, u32::MAX][self.random.below(5)];
        self.session_refused(steps, spread, refusal)
    }

    /// A spread from the longest strip to the sum of lengths, one there or past it, and now and then one below the longest.
    fn session_spreads(&mut self, lengths: &[i64]) -> Vec<u32> {
        let (longest, widest) = (*lengths.iter().max().expect("strips"), lengths.iter().sum());
        let within = [longest, self.random.between(longest, widest)][self.random.below(2)];
        let past = [widest, widest + self.random.between(1, 50), u32::MAX as i64][self.random.below(3)];
        let narrow = [longest - 1, self.random.between(0, longest - 1)][self.random.below(2)];
        let mut all = vec![within as u32, past as u32];
        if self.random.chance(3) {
            all.push(narrow as u32);
        }
        all
    }

    /// The least total and some placements at a spread, by the text of the same stack; of a single strip, and besides where that is soon done, by the reference.
    fn session_at(&mut self, steps: &[u8], session: &Session, spread: u32) -> Checked {
        let text = reader::text(&session.stack().expect("strips")).into_bytes();
        let single = session.channels.is_empty();
        let tried = session.channels.iter().map(|channel| channel.len() + 2).product::<usize>() <= 2000 && self.random.chance(4);
        let total_tried = || session.total(spread as i64).map(|total| total as u32);
        let place_tried = |total: u32| session.place(spread as i64, total as usize).map(|answer| padded(&answer));
        let due = if single { total_tried() } else { answered(library::least_total(&text, spread)) };
        if tried && due != total_tried() {
            return Err(format!("the reference has another least total at spread {}: {:?}, {:?}", spread, total_tried(), due));
        }
        let Ok(least) = due else {
            self.count("session totals, refused 7");
            return self.session_refused(steps, spread, (7, 0, 0));
        };
        self.count(match (single, tried) {
            (true, _) => "session totals of a single strip",
            (_, true) => "session totals, by the reference too",
            _ => "session totals, by the text of the stack",
        });
        self.session_total(steps, spread, due)?;
        let mut totals = vec![least.max(1) - 1, least, least + 1, least + 8, [1000, u32::MAX][self.random.below(2)]];
        while totals.len() > 3 {
            totals.remove(self.random.below(totals.len()));
        }
        for total in totals {
            let due = if single { place_tried(total) } else { placed_from_text(&text, spread, total) };
            if tried && due != place_tried(total) {
                return Err(format!("the reference has another placement at spread {} for total {}: {:?}", spread, total, due));
            }
            match due {
                Ok(_) if single => self.count("session placements of a single strip"),
                Ok(_) if total > least => self.count("session placements, total above the least"),
                Err(_) if single => self.count("session placements, refused 10 of a single strip"),
                _ => (),
            }
            self.session_place(steps, spread, total, due)?;
        }
        Ok(())
    }

    /// Up to thirty steps from an empty session, more often many, now and then first those to a stack of another kind; the answers after each. The text of all.
    fn session(&mut self) -> Vec<u8> {
        let style = style(&mut self.random);
        let mut planned = match self.random.below(40) {
            0 => {
                self.count("sessions, of a stack at the limits");
                session::steps_to(&self.large())
            }
            1 | 2 => session::steps_to(&self.for_pages()),
            3..=5 => session::steps_to(&self.middle()),
            _ => Vec::new(),
        };
        planned.reverse();
        let rest = 31 - planned.len();
        let count = planned.len() + self.random.below(rest).max(self.random.below(rest));
        let (mut held, mut text, mut before, mut greatest) = (Session::default(), Vec::new(), Ok(()), 0);
        for _ in 0..count {
            let step = planned.pop().unwrap_or_else(|| step(&mut self.random, &held, &style));
            text.extend(session::text(&[step.clone()]).into_bytes());
            let last = held.clone();
            let taken = held.take(&step);
            counted(&last, &step, taken, before).into_iter().for_each(|what| self.count(what));
            before = taken;
            greatest = greatest.max(held.lengths.len());
            let due = reader::within_limit(&text).and(taken).map(|_| held.clone());
            let checked = self.session_answers(&text, &due);
            expect("session", &text, checked);
        }
        self.count("sessions");
        if greatest == 9 {
            self.count("sessions, nine strips reached");
        }
        text
    }
}

/// The specimens' sessions after each step.
pub fn check_specimens(run: &mut Run) {
    for (name, text, spread, lines) in specimens::SESSIONS {
        for (prefix, line) in session::prefixes(specimens::tabbed(text).as_bytes()).iter().zip(lines.lines()) {
            run.count("specimens");
            let due = library::placement_in(line);
            let total = due.map(|numbers| numbers[0]);
            let checked = run.session_total(prefix.as_bytes(), spread, total);
            expect(name, prefix.as_bytes(), checked);
            let checked = run.session_place(prefix.as_bytes(), spread, total.unwrap_or(0), due);
            expect(name, prefix.as_bytes(), checked);
        }
    }
}

/// So many sessions, each compared after each step, and their texts damaged.
pub fn compare(run: &mut Run, count: u64) {
    for _ in 0..count {
        let text = run.session();
        for n in 0..DAMAGED {
            let text = damaged(&mut run.random, &text, n % (damage::OF_ANY_LINES + KINDS));
            let due = session::after(&text);
            match &due {
                Err(r) => refused_damaged(&text, *r).into_iter().for_each(|what| run.count(what)),
                Ok(session) if session.lengths.is_empty() => run.count("damaged steps, no steps"),
                Ok(_) => run.count("damaged steps, accepted"),
            }
            let checked = run.session_answers(&text, &due);
            expect("damaged steps", &text, checked);
        }
    }
}
