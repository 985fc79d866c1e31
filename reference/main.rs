//! The independent program: documents 01 and 02 by plain formulas and by trying, sharing no code with the proved one.
//! `channels`, `table`, `total`, `place`, `spread`, `page`, `trial` and `session` print what the proved programs must print for the same input.

mod channel;
mod page;
mod paths;
mod random;
mod reader;
mod session;
mod solver;
mod specimens;
mod turn;

use random::Random;
use reader::Refusal;
use session::Session;
use std::collections::BTreeMap;
use std::io::{Read, Write};

const USAGE: &str = "usage: reference channels < crates/channel_test/stdin
       reference table < STACK
       reference total SPREAD < STACK
       reference place SPREAD TOTAL < STACK
       reference spread SPREAD < STACK
       reference page SPREAD CHANNEL < STACK
       reference trial SPREAD SEPARATION.. POSITION.. < STACK    (k separations, k + 1 positions)
       reference steps < STACK
       reference session SPREAD < STEPS
       reference specimens
       reference agree SEED COUNT
       reference paths";

fn channels(input: &str) {
    let mut numbers = input.split_whitespace().map(|w| w.parse::<i64>().expect("a number"));
    let mut next = || numbers.next().expect("another number");
    for _ in 0..next() {
        let m = next() as usize;
        let pairs: Vec<channel::Pair> = (0..m).map(|_| (next(), next())).collect();
        let rising = pairs.windows(2).all(|w| w[0].0 < w[1].0 && w[0].1 < w[1].1);
        let within = pairs.iter().all(|p| p.0 <= 1000 && p.1 <= 1000);
        let good = m <= 32 && rising && within;
        if !good {
            println!("refused");
            continue;
        }
        print!("pairs {}", m);
        for (l, r) in (0..).map_while(|t| channel::limits(&pairs, t)) {
            print!("\t{} to {}", l, r);
        }
        println!();
        for _ in 0..next() {
            let (lower, upper) = (next(), next());
            let bits: String = (0..=m + 2).map(|t| if channel::feasible(&pairs, t, upper - lower) { '1' } else { '0' }).collect();
            println!("{} {}: {}", lower, upper, bits);
        }
    }
}

fn refusal_text(r: Refusal) -> String {
    format!("{}\t{}\t{}\n", r.0, r.1, r.2)
}

fn text_or_refusal(text: Result<String, Refusal>) -> String {
    text.unwrap_or_else(refusal_text)
}

fn table(text: &[u8]) -> String {
    text_or_refusal(reader::read(text).map(|stack| solver::table_text(&stack, &solver::rows(&stack, solver::small(&stack)))))
}

/// The least total at a spread.
fn total(text: &[u8], spread: i64) -> Result<usize, Refusal> {
    solver::total_at(&reader::read(text)?, spread)
}

/// The row of the placement at a spread for a stated total.
fn place(text: &[u8], spread: i64, total: usize) -> Result<String, Refusal> {
    Ok(solver::row_text(spread, &solver::place_at(&reader::read(text)?, spread, total)?))
}

fn total_text(text: &[u8], spread: i64) -> String {
    text_or_refusal(total(text, spread).map(|total| format!("{}\n", total)))
}

fn place_text(text: &[u8], spread: i64, total: usize) -> String {
    text_or_refusal(place(text, spread, total))
}

/// The total and the placement together.
fn spread(text: &[u8], spread: i64) -> String {
    text_or_refusal(total(text, spread).and_then(|total| place(text, spread, total)))
}

fn page(text: &[u8], spread: i64, channel: i64) -> String {
    let stack = match reader::read(text) {
        Ok(stack) => stack,
        Err(r) => return refusal_text(r),
    };
    match page::refusal(&stack, spread, channel) {
        Some(r) => refusal_text(r),
        None => page::page(&stack, &solver::answer(&stack, spread, solver::brute(&stack, spread)), spread, channel as usize),
    }
}

/// None if there are not k separations and k + 1 positions.
fn trial(text: &[u8], spread: i64, placement: &[u32]) -> Option<String> {
    let stack = match reader::read(text) {
        Ok(stack) => stack,
        Err(r) => return Some(refusal_text(r)),
    };
    let k = stack.channels.len();
    if placement.len() != 2 * k + 1 {
        return None;
    }
    let separations: Vec<usize> = placement[..k].iter().map(|t| *t as usize).collect();
    let positions: Vec<i64> = placement[k..].iter().map(|x| *x as i64).collect();
    let legal = solver::legal(&stack, spread, &separations, &positions);
    Some(if legal { "legal\n" } else { "not legal\n" }.to_string())
}

/// The steps that make the session of a stack, without its floors and windows.
fn steps(text: &[u8]) -> String {
    text_or_refusal(reader::read(text).map(|stack| session::text(&session::steps_to(&stack))))
}

/// The row of a session for a spread.
fn session_row(session: &Session, spread: i64) -> Result<String, Refusal> {
    let placed = session.place(spread, session.total(spread)?)?;
    Ok(solver::row_text(spread, &placed))
}

/// For each step of a text the row for a spread or the refusal, of the step or of the spread; then the lines that are no steps.
fn session(text: &[u8], spread: i64) -> (String, Vec<usize>) {
    let mut session = Session::default();
    let (mut printed, mut passed_over) = (String::new(), Vec::new());
    for step in session::steps(text) {
        match step {
            Ok(step) => printed += &text_or_refusal(session.take(&step).and_then(|_| session_row(&session, spread))),
            Err(line) => passed_over.push(line),
        }
    }
    (printed, passed_over)
}

/// What `total` prints where `spread` prints this line: the row's total, or the refusal.
fn total_in(line: &str) -> String {
    let total = line.strip_prefix("ROW ").and_then(|row| row.split(' ').nth(1));
    total.map_or(specimens::tabbed(line), |total| format!("{}\n", total))
}

/// Every specimen; prints those that differ and says whether none does.
fn check_specimens() -> bool {
    let mut good = true;
    let mut check = |name: &str, found: String, due: String| {
        if found != due {
            good = false;
            println!("specimen {}: found\n{}due\n{}", name, found, due);
        }
    };
    for (name, text, due) in specimens::TABLES {
        let text = specimens::tabbed(text);
        let due = specimens::tabbed(due);
        if let Ok(stack) = reader::read(text.as_bytes()) {
            check(name, solver::table_text(&stack, &solver::rows(&stack, false)), due.clone());
        }
        check(name, table(text.as_bytes()), due);
    }
    for (name, text, at, due) in specimens::SPREADS {
        let text = specimens::tabbed(text);
        check(name, total_text(text.as_bytes(), at as i64), total_in(due));
        check(name, spread(text.as_bytes(), at as i64), specimens::tabbed(due));
    }
    for (name, text, at, total, due) in specimens::PLACES {
        check(name, place_text(specimens::tabbed(text).as_bytes(), at as i64, total as usize), specimens::tabbed(due));
    }
    for (name, text, at, channel, due) in specimens::PAGES {
        let due = due.map_or_else(refusal_text, specimens::page);
        check(name, page(specimens::tabbed(text).as_bytes(), at as i64, channel as i64), due);
    }
    for (name, text, at, separations, positions, due) in specimens::TRIALS {
        let found = trial(specimens::tabbed(text).as_bytes(), at as i64, &[separations, positions].concat());
        check(name, found.unwrap(), if due { "legal\n" } else { "not legal\n" }.to_string());
    }
    for (name, text, at, due) in specimens::SESSIONS {
        let text = specimens::tabbed(text);
        check(name, session(text.as_bytes(), at as i64).0, specimens::tabbed(due));
        let prefixes = session::prefixes(text.as_bytes());
        for (prefix, due) in prefixes.iter().zip(due.split_inclusive('\n')) {
            let row = session::after(prefix.as_bytes()).and_then(|session| session_row(&session, at as i64));
            check(name, text_or_refusal(row), specimens::tabbed(due));
        }
        check(name, prefixes[prefixes.len() - 1].clone(), text);
    }
    let full = specimens::tabbed(&specimens::pairs(32));
    check("32 pairs", table(full.as_bytes()), "TABLE\t1\nROW\t40\t0\t0\t0\t0\n".to_string());
    let crowded = specimens::tabbed(&specimens::pairs(33));
    check("33 pairs", table(crowded.as_bytes()), "3\t4\t66\n".to_string());
    check("65 terminals", table(full.replace("31\t31\n", "31\t31\t32\n").as_bytes()), "11\t4\t67\n".to_string());
    check("A's length", table(specimens::tabbed(specimens::TABLES[0].1).as_bytes()).len().to_string(), "50".to_string());
    good
}

/// A stack for which trying every position is soon done.
fn small_stack(random: &mut Random) -> reader::Stack {
    loop {
        let k = 1 + random.below(3);
        let stack = random.stack(k, 12 - 2 * k as i64, 4);
        if solver::small(&stack) {
            return stack;
        }
    }
}

/// The two ways to place strips and to find rows, and the totals of the stack turned over, at every spread of random small stacks and for several totals; how
/// many spreads and placements, or the first stack at which they differ.
fn check_agreement(seed: u64, count: usize) -> Result<(usize, usize), Vec<u8>> {
    let mut random = Random(seed);
    let (mut spreads, mut placements) = (0, 0);
    for _ in 0..count {
        let stack = small_stack(&mut random);
        if solver::rows(&stack, true) != solver::rows(&stack, false) {
            return Err(random.text(&stack));
        }
        for spread in solver::first(&stack)..=solver::widest(&stack) + 3 {
            let least = solver::least_total(&stack, spread, true);
            let totals = random.totals(&stack, least as u32);
            let place = |total: &u32, brute: bool| solver::place(&stack, spread, *total as usize, brute);
            let same = |total: &u32| place(total, true) == place(total, false);
            let turned = [Some(turn::upside_down(&stack)), turn::left_to_right(&stack)];
            let other = |turned: &reader::Stack| solver::total_at(turned, spread) != Ok(least);
            if least != solver::least_total(&stack, spread, false) || !totals.iter().all(same) || turned.iter().flatten().any(other) {
                return Err(random.text(&stack));
            }
            spreads += 1;
            placements += totals.len();
        }
    }
    Ok((spreads, placements))
}

/// The search over paths beside the condition on a channel: what was met how often, or the first difference.
fn check_paths() -> Result<String, String> {
    let mut counts = BTreeMap::new();
    paths::compare(|what| *counts.entry(what).or_insert(0) += 1)?;
    if let Some(what) = paths::MET.iter().find(|what| !counts.contains_key(*what)) {
        return Err(format!("never met: {}", what));
    }
    Ok(counts.iter().map(|(what, count)| format!("{:>9} {}\n", count, what)).collect())
}

fn read_input() -> Vec<u8> {
    let mut input = Vec::new();
    std::io::stdin().read_to_end(&mut input).expect("input");
    input
}

fn numbers(words: &[String]) -> Option<Vec<u32>> {
    words.iter().map(|w| w.parse().ok()).collect()
}

/// What a command prints and whether all was well; None if it is used wrongly.
fn run(words: &[String]) -> Option<(String, bool)> {
    let rest = words.get(1..).unwrap_or_default();
    match (words.first()?.as_str(), rest.len()) {
        ("channels", 0) => {
            channels(std::str::from_utf8(&read_input()).expect("text"));
            Some((String::new(), true))
        }
        ("table", 0) => Some((table(&read_input()), true)),
        ("total", 1) => Some((total_text(&read_input(), numbers(rest)?[0] as i64), true)),
        ("place", 2) => {
            let given = numbers(rest)?;
            Some((place_text(&read_input(), given[0] as i64, given[1] as usize), true))
        }
        ("spread", 1) => Some((spread(&read_input(), numbers(rest)?[0] as i64), true)),
        ("page", 2) => {
            let given = numbers(rest)?;
            Some((page(&read_input(), given[0] as i64, given[1] as i64), true))
        }
        ("trial", 4..) => {
            let given = numbers(rest)?;
            Some((trial(&read_input(), given[0] as i64, &given[1..])?, true))
        }
        ("steps", 0) => Some((steps(&read_input()), true)),
        ("session", 1) => {
            let (printed, passed_over) = session(&read_input(), numbers(rest)?[0] as i64);
            passed_over.iter().for_each(|line| eprintln!("line {}: no step", line));
            Some((printed, true))
        }
        ("specimens", 0) => {
            let good = check_specimens();
            Some((if good { "specimens: no difference\n" } else { "" }.to_string(), good))
        }
        ("agree", 2) => match check_agreement(rest[0].parse().ok()?, rest[1].parse().ok()?) {
            Ok((spreads, placements)) => {
                Some((format!("{} stacks, {} spreads, {} placements: no difference\n", rest[1], spreads, placements), true))
            }
            Err(text) => Some((format!("a difference:\n{}", String::from_utf8(text).unwrap()), false)),
        },
        ("paths", 0) => match check_paths() {
            Ok(counts) => Some((counts + "paths: no difference\n", true)),
            Err(difference) => Some((format!("a difference: {}\n", difference), false)),
        },
        _ => None,
    }
}

fn main() {
    let words: Vec<String> = std::env::args().skip(1).collect();
    match run(&words) {
        Some((text, good)) => {
            std::io::stdout().write_all(text.as_bytes()).expect("output");
            std::process::exit(if good { 0 } else { 1 });
        }
        None => {
            eprintln!("{}", USAGE);
            std::process::exit(2);
        }
    }
}
