//! Times of the proved library and of the plain program, per table, per least total, per placement for a total and per page, side by side; instructions of the
//! library for a strip that is added to a session.

#[allow(dead_code)]
#[path = "../tests/library.rs"]
mod library;
mod page;
mod solver;

use std::collections::HashMap;
use std::hint::black_box;
use std::time::Instant;

const USAGE: &str =
    "usage: bench report COUNTS STACK..       tables, totals and placements: times, beside the instructions in the file COUNTS
       bench pages COUNTS STACK..        the same for the page of channel 1, the total, and what the page takes besides
       bench sessions COUNTS STACK..     an added strip and the total, beside the text and the total: the instructions in the file COUNTS
       bench repeat PROGRAM JOB COUNT STACK    (proved or plain; table, total, place, place+8, placemax or page; proved: session, steps or steps-1)";

/// Longer than every table.
const SPACE: usize = 24576;
/// As long as the longest page.
const PAGE_SPACE: usize = 4485;
const SAMPLES: usize = 31;
const PROGRAMS: [&str; 2] = ["proved", "plain"];
/// The placements are for the least total, for 8 more and for the greatest total that can be stated.
const JOBS: [&str; 6] = ["table", "total", "place", "place+8", "placemax", "page"];
/// The least total of a session after all steps; then at a spread that is narrow, where nothing is solved, after all steps and after all but the last.
const SESSION_JOBS: [&str; 3] = ["session", "steps", "steps-1"];
const NARROW: u32 = 0;

struct Input {
    name: String,
    text: Vec<u8>,
    /// The first row's: there the least total is greatest.
    spread: u32,
    least: u32,
    /// The steps that make the stack, if it has neither floors nor windows, and where the last of them begins.
    steps: Vec<u8>,
    last_step: usize,
}

impl Input {
    /// The total that a job states.
    fn stated(&self, job: &str) -> u32 {
        match job {
            "place+8" => self.least + 8,
            "placemax" => u32::MAX,
            _ => self.least,
        }
    }
}

/// The steps that make a stack, from its text, and where the last of them begins.
fn steps(text: &[u8]) -> (Vec<u8>, usize) {
    let lines = |word: &'static [u8]| text.split_inclusive(|b| *b == 10).filter(move |l| l.starts_with(word));
    let mut parts = lines(b"PART");
    let mut steps = [&b"BEGIN\n"[..], parts.next().expect("a strip")].concat();
    let mut last = 0;
    for (part, nets) in parts.zip(lines(b"NETS")) {
        last = steps.len();
        steps.extend([&b"ADD\n"[..], part, nets].concat());
    }
    (steps, last)
}

fn input(path: &str) -> Input {
    let text = std::fs::read(path).expect("a stack to read");
    let spread = solver::first_spread(&text).expect("a stack");
    let name = std::path::Path::new(path).file_stem().unwrap().to_string_lossy().into_owned();
    let least = solver::total(&text, spread).expect("a total");
    let (steps, last_step) = steps(&text);
    Input { name, text, spread, least, steps, last_step }
}

/// Whether a program has a job.
fn is_job(program: &str, job: &str) -> bool {
    PROGRAMS.contains(&program) && JOBS.contains(&job) || program == "proved" && SESSION_JOBS.contains(&job)
}

/// Does the job so many times, into buffers that are not cleared between.
fn repeat(program: &str, job: &str, count: u64, input: &Input) {
    let mut space = vec![0; if job == "page" { PAGE_SPACE } else { SPACE }];
    let (text, spread, stated) = (&input.text[..], input.spread, input.stated(job));
    for _ in 0..count {
        match (program, job) {
            ("proved", "table") => {
                black_box(library::write_table(black_box(text), black_box(&mut space)));
            }
            ("proved", "page") => {
                black_box(library::write_page(black_box(text), black_box(spread), black_box(1), black_box(&mut space)));
            }
            ("proved", "total") => {
                black_box(library::least_total(black_box(text), black_box(spread)));
            }
            ("proved", "session") => {
                black_box(library::session_total(black_box(&input.steps), black_box(spread)));
            }
            ("proved", "steps") => {
                black_box(library::session_total(black_box(&input.steps), black_box(NARROW)));
            }
            ("proved", "steps-1") => {
                black_box(library::session_total(black_box(&input.steps[..input.last_step]), black_box(NARROW)));
            }
            ("proved", _) => {
                let mut numbers = [0; 18];
                black_box(library::place_in(black_box(text), black_box(spread), black_box(stated), black_box(&mut numbers)));
            }
            (_, "table") => {
                black_box(solver::table(black_box(text), black_box(&mut space))).expect("a table");
            }
            (_, "page") => {
                black_box(page::page(black_box(text), black_box(spread), black_box(1), black_box(&mut space))).expect("a page");
            }
            (_, "total") => {
                black_box(solver::total(black_box(text), black_box(spread))).expect("a total");
            }
            _ => {
                black_box(solver::place(black_box(text), black_box(spread), black_box(stated))).expect("a placement");
            }
        }
    }
}

/// Both programs must answer the same.
fn compare(input: &Input) {
    let (text, spread) = (&input.text[..], input.spread);
    let (mut proved, mut plain) = (vec![255; SPACE], vec![255; SPACE]);
    let told = library::write_table(text, &mut proved);
    assert_eq!(solver::table(text, &mut plain), Ok(told as usize), "{}", input.name);
    assert!(proved == plain, "{}: the tables differ", input.name);
    assert_eq!(library::least_total(text, spread), input.least as u64, "{}", input.name);
    for job in ["place", "place+8", "placemax"] {
        let mut numbers = [255; 18];
        let told = library::place_in(text, spread, input.stated(job), &mut numbers);
        assert_eq!((told, solver::place(text, spread, input.stated(job))), (0, Ok(numbers)), "{}, {}", input.name, job);
    }
    let told = library::write_page(text, spread, 1, &mut proved);
    let found = page::page(text, spread, 1, &mut plain);
    assert_eq!(found.map_or_else(library::code, |length| length as u64), told, "{}", input.name);
    assert!(proved == plain, "{}: the pages differ", input.name);
}

fn nanoseconds(program: &str, job: &str, count: u64, input: &Input) -> f64 {
    let start = Instant::now();
    repeat(program, job, count, input);
    start.elapsed().as_nanos() as f64 / count as f64
}

/// The medians of both programs' times, in turns; a sample takes some milliseconds.
fn medians(job: &str, input: &Input) -> [f64; 2] {
    let counts = PROGRAMS.map(|program| {
        let once = nanoseconds(program, job, 2, input);
        ((4e6 / once) as u64).max(1)
    });
    let mut samples = [Vec::new(), Vec::new()];
    for _ in 0..SAMPLES {
        for p in 0..2 {
            samples[p].push(nanoseconds(PROGRAMS[p], job, counts[p], input));
        }
    }
    samples.map(|mut s| {
        s.sort_by(f64::total_cmp);
        s[SAMPLES / 2]
    })
}

/// Lines of the file: stack, job, program, instructions.
fn instructions(path: &str) -> HashMap<String, f64> {
    let lines = std::fs::read_to_string(path).expect("the counts of instructions");
    lines.lines().filter_map(|l| l.rsplit_once(' ')).map(|(key, n)| (key.to_string(), n.parse().expect("a count"))).collect()
}

/// Of the proved library and of the plain program.
struct Cost {
    times: [f64; 2],
    instructions: [Option<f64>; 2],
}

fn cost(counts: &HashMap<String, f64>, job: &str, input: &Input) -> Cost {
    let instructions = PROGRAMS.map(|program| counts.get(&format!("{} {} {}", input.name, job, program)).copied());
    Cost { times: medians(job, input), instructions }
}

/// What a job takes besides another.
fn difference(whole: &Cost, part: &Cost) -> Cost {
    let less = |p: usize| Some(whole.instructions[p]? - part.instructions[p]?);
    Cost { times: [whole.times[0] - part.times[0], whole.times[1] - part.times[1]], instructions: [less(0), less(1)] }
}

fn print_cost(name: &str, job: &str, cost: &Cost) {
    let times = cost.times;
    print!("{:10} {:8} {:13.0} {:13.0} {:7.2}", name, job, times[0], times[1], times[0] / times[1]);
    match cost.instructions {
        [Some(proved), Some(plain)] => println!(" {:15.0} {:15.0} {:7.2}", proved, plain, proved / plain),
        _ => println!(" {:>15} {:>15} {:>7}", "-", "-", "-"),
    }
}

/// A line for each stack and job; with `pages` for each stack its page, its total, and what the page takes besides: placing the strips and drawing.
fn report(counts: &str, paths: &[String], pages: bool) {
    let counts = instructions(counts);
    println!(
        "{:10} {:8} {:>13} {:>13} {:>7} {:>15} {:>15} {:>7}",
        "stack", "job", "proved ns", "plain ns", "ratio", "proved instr", "plain instr", "ratio"
    );
    for path in paths {
        let input = input(path);
        compare(&input);
        let print = |job: &str| {
            let cost = cost(&counts, job, &input);
            print_cost(&input.name, job, &cost);
            cost
        };
        if pages {
            let (whole, part) = (print("page"), print("total"));
            print_cost(&input.name, "drawing", &difference(&whole, &part));
        } else {
            JOBS[..5].iter().for_each(|job| drop(print(job)));
        }
    }
}

/// A line for each stack, which has neither floors nor windows: an added strip, the least total of the session, both, and the least total from the whole text.
fn report_sessions(counts: &str, paths: &[String]) {
    let counts = instructions(counts);
    println!("{:10} {:>15} {:>15} {:>15} {:>15} {:>7}", "stack", "added strip", "total", "both", "text and total", "ratio");
    for path in paths {
        let input = input(path);
        assert_eq!(library::session_total(&input.steps, input.spread), input.least as u64, "{}", input.name);
        for steps in [&input.steps[..], &input.steps[..input.last_step]] {
            assert_eq!(library::session_total(steps, NARROW), library::code((7, 0, 0)), "{}", input.name);
        }
        let of = |job: &str| counts.get(&format!("{} {} proved", input.name, job)).copied();
        let [session, steps, before, text] = ["session", "steps", "steps-1", "total"].map(of);
        print!("{:10}", input.name);
        match (session, steps, before, text) {
            (Some(session), Some(steps), Some(before), Some(text)) => {
                let (added, total) = (steps - before, session - steps);
                println!(" {:15.0} {:15.0} {:15.0} {:15.0} {:7.2}", added, total, added + total, text, (added + total) / text)
            }
            _ => println!(" {:>15} {:>15} {:>15} {:>15} {:>7}", "-", "-", "-", "-", "-"),
        }
    }
}

fn main() {
    let words: Vec<String> = std::env::args().skip(1).collect();
    let names: Vec<&str> = words.iter().map(|w| w.as_str()).collect();
    match names[..] {
        [command @ ("report" | "pages"), counts, _, ..] => report(counts, &words[2..], command == "pages"),
        ["sessions", counts, _, ..] => report_sessions(counts, &words[2..]),
        ["repeat", program, job, count, path] if is_job(program, job) && count.parse::<u64>().is_ok() => {
            repeat(program, job, count.parse().unwrap(), &input(path))
        }
        _ => {
            eprintln!("{}", USAGE);
            std::process::exit(2);
        }
    }
}
