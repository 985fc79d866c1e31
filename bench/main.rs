//! `table`, `total`, `place`, `spread` and `page` print what the proved programs print; `evaluations` how many rows a table has and how many spreads are
//! evaluated for it; `generate` and `sized` make the inputs of the comparison.

mod inputs;
mod page;
mod solver;

use std::io::{Read, Write};

const USAGE: &str = "usage: plain table < STACK
       plain total SPREAD < STACK
       plain place SPREAD TOTAL < STACK
       plain spread SPREAD < STACK
       plain page SPREAD CHANNEL < STACK
       plain evaluations < STACK
       plain generate FOLDER
       plain sized CHANNELS PAIRS LENGTH";

fn read_input() -> Vec<u8> {
    let mut input = Vec::new();
    std::io::stdin().read_to_end(&mut input).expect("input");
    input
}

fn refusal_text(r: solver::Refusal) -> Vec<u8> {
    format!("{}\t{}\t{}\n", r.0, r.1, r.2).into_bytes()
}

/// What is written into a space long enough, or the refusal's line.
fn written(write: impl FnOnce(&mut [u8]) -> Result<usize, solver::Refusal>) -> Vec<u8> {
    let mut space = vec![0; 32768];
    match write(&mut space) {
        Ok(length) => space[..length].to_vec(),
        Err(r) => refusal_text(r),
    }
}

fn total(text: &[u8], spread: u32) -> Vec<u8> {
    solver::total(text, spread).map_or_else(refusal_text, |total| format!("{}\n", total).into_bytes())
}

fn place(text: &[u8], spread: u32, total: u32) -> Vec<u8> {
    match solver::place(text, spread, total) {
        Ok(placement) => {
            let k = text[6] as usize - 48;
            let used = [&placement[..=k], &placement[9..=9 + k]].concat();
            let numbers: String = used.iter().map(|v| format!("\t{}", v)).collect();
            format!("ROW\t{}{}\n", spread, numbers).into_bytes()
        }
        Err(r) => refusal_text(r),
    }
}

/// The rows of a table and the spreads that are evaluated for it.
fn evaluations(text: &[u8]) -> Vec<u8> {
    solver::evaluations(text).map_or_else(refusal_text, |(rows, evaluations)| format!("{}\t{}\n", rows, evaluations).into_bytes())
}

/// The total and the placement together.
fn spread(text: &[u8], spread: u32) -> Vec<u8> {
    solver::total(text, spread).map_or_else(refusal_text, |total| place(text, spread, total))
}

fn run(words: &[String]) -> Option<Vec<u8>> {
    match words {
        [command] if command == "table" => Some(written(|out| solver::table(&read_input(), out))),
        [command, number] if command == "total" => Some(total(&read_input(), number.parse().ok()?)),
        [command, number, stated] if command == "place" => Some(place(&read_input(), number.parse().ok()?, stated.parse().ok()?)),
        [command, number] if command == "spread" => Some(spread(&read_input(), number.parse().ok()?)),
        [command, number, channel] if command == "page" => {
            let (number, channel) = (number.parse().ok()?, channel.parse().ok()?);
            Some(written(|out| page::page(&read_input(), number, channel, out)))
        }
        [command] if command == "evaluations" => Some(evaluations(&read_input())),
        [command, folder] if command == "generate" => {
            for (name, text) in inputs::all() {
                std::fs::write(format!("{}/{}.stack", folder, name), text).expect("a folder to write in");
            }
            Some(Vec::new())
        }
        [command, channels, pairs, length] if command == "sized" => {
            Some(inputs::sized(channels.parse().ok()?, pairs.parse().ok()?, length.parse().ok()?).into_bytes())
        }
        _ => None,
    }
}

fn main() {
    let words: Vec<String> = std::env::args().skip(1).collect();
    match run(&words) {
        Some(text) => std::io::stdout().write_all(&text).expect("output"),
        None => {
            eprintln!("{}", USAGE);
            std::process::exit(2);
        }
    }
}
