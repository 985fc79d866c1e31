//! The library's functions for sessions on texts of steps whose answers are written out here, from document 02, P6. The independent program must say the same.
//! Most tabs are written as spaces.

use crate::library::{self, code, Refusal};
use crate::{bundle, check_placed, ill_formed_lines, put_line, reader, same, session, solver, specimens, Refused, A, ODD_BYTES};

/// The least total of the session after a text of steps, or the refusal.
fn check_total(name: &str, steps: &[u8], spread: u32, due: Result<u32, Refusal>) {
    let what = format!("{}, the session's least total at {}", name, spread);
    same(&what, steps, library::session_total(steps, spread), due.map_or_else(code, |total| total as u64));
    let found = session::after(steps).and_then(|session| session.total(spread as i64));
    same(&format!("{}, the independent program", what), steps, found.map(|total| total as u32), due);
}

/// The session's placement for a stated total, or the refusal.
fn check_place(name: &str, steps: &[u8], spread: u32, total: u32, due: Result<[u32; 18], Refusal>) {
    let what = format!("{}, the session at {} placed with {}", name, spread, total);
    check_placed(&what, steps, due, |output| library::session_place_in(steps, spread, total, output));
    let placed = session::after(steps).and_then(|session| session.place(spread as i64, total as usize));
    let found = placed.and_then(|placed| library::placement_in(&solver::row_text(spread as i64, &placed)));
    same(&format!("{}, the independent program", what), steps, found, due);
}

/// The least total at a spread with its placement, and 10 for totals below it; or the refusal for every total.
fn check_answer(name: &str, steps: &[u8], spread: u32, due: Result<[u32; 18], Refusal>) {
    check_total(name, steps, spread, due.map(|numbers| numbers[0]));
    match due {
        Ok(numbers) => {
            let least = numbers[0];
            check_place(name, steps, spread, least, due);
            for total in [0, least / 2, least.max(1) - 1].into_iter().filter(|total| *total < least) {
                check_place(name, steps, spread, total, Err((10, 0, 0)));
            }
        }
        Err(r) => [0, 2, 1000, u32::MAX].into_iter().for_each(|total| check_place(name, steps, spread, total, Err(r))),
    }
}

/// A row's line, or the refusal's.
fn check_line(name: &str, steps: &[u8], spread: u32, line: &str) {
    check_answer(name, steps, spread, library::placement_in(line));
}

/// A text of steps with tabs for spaces.
fn tabbed(steps: &str) -> Vec<u8> {
    specimens::tabbed(steps).into_bytes()
}

/// A text refused whatever the spread.
fn check_refused(name: &str, steps: &[u8], due: Refusal) {
    for spread in [0, 4, 1000, u32::MAX] {
        check_answer(name, steps, spread, Err(due));
    }
}

/// The specimens' sessions after each step, at their spreads.
fn check_specimens() {
    for (name, text, spread, lines) in specimens::SESSIONS {
        let prefixes = session::prefixes(&tabbed(text));
        same(name, text.as_bytes(), prefixes.len(), lines.lines().count());
        for (prefix, line) in prefixes.iter().zip(lines.lines()) {
            check_line(name, prefix.as_bytes(), spread, line);
        }
    }
}

/// The steps that make the stack of an accepted text without floors and windows.
fn steps_to(text: &str) -> Option<Vec<u8>> {
    let stack = reader::read(&tabbed(text)).ok()?;
    let free = stack.windows.iter().all(Option::is_none);
    (free && !text.contains("GAP")).then(|| session::text(&session::steps_to(&stack)).into_bytes())
}

/// The specimens without floors and windows as sessions: at each row, at other spreads, and for stated totals.
fn check_stacks() {
    for (name, text, table) in specimens::TABLES {
        for line in table.lines().filter(|line| line.starts_with("ROW")) {
            let spread = line.split(' ').nth(1).and_then(|n| n.parse().ok()).expect("a spread");
            if let Some(steps) = steps_to(text) {
                check_line(name, &steps, spread, line);
            }
        }
    }
    for (name, text, spread, line) in specimens::SPREADS {
        if let Some(steps) = steps_to(text) {
            check_line(name, &steps, spread, line);
        }
    }
    for (name, text, spread, total, line) in specimens::PLACES {
        if let Some(steps) = steps_to(text) {
            check_place(name, &steps, spread, total, library::placement_in(line));
        }
    }
}

/// Single strips: lengths at the ends of their range and between, spreads about the length and far from it, stated totals.
fn check_single_strips() {
    for (length, narrow, wide) in [
        (1, vec![0], vec![1, 2, u32::MAX]),
        (2, vec![0, 1], vec![2, 3, u32::MAX]),
        (63, vec![0, 62], vec![63, 64, 1000, u32::MAX]),
        (1000, vec![0, 1, 999], vec![1000, 1001, 4294967294, u32::MAX]),
    ] {
        let steps = tabbed(&format!("BEGIN\nPART {}\n", length));
        for spread in narrow {
            check_answer("a single strip", &steps, spread, Err((7, 0, 0)));
        }
        for spread in wide {
            check_answer("a single strip", &steps, spread, Ok([0; 18]));
            for total in [1, 2, 1000, u32::MAX] {
                check_place("a single strip", &steps, spread, total, Err((10, 0, 0)));
            }
        }
    }
}

/// Nine strips with 32 pairs in each channel, which all need 33 tracks where the strips just fit.
fn check_limits() {
    for right in [true, false] {
        let text = bundle(32, right).0;
        let lines: Vec<&str> = text.lines().collect();
        let steps = format!("BEGIN\n{}\n{}", lines[1], format!("ADD\n{}\n{}\n", lines[2], lines[3]).repeat(8)).into_bytes();
        check_answer("nine strips with 32 pairs a channel", &steps, 63, Ok(library::numbers(264, &[33; 8], &[0; 9])));
        let due = library::numbers(u32::MAX, &[33, 33, 33, 33, 33, 33, 33, 4294967064], &[0; 9]);
        check_place("nine strips with 32 pairs a channel", &steps, 63, u32::MAX, Ok(due));
        check_answer("nine strips with 32 pairs a channel", &steps, 62, Err((7, 0, 0)));
    }
    for length in [1, 1000] {
        let add = format!("ADD\nPART\t{}\nNETS\n", length);
        let steps = format!("BEGIN\nPART\t{}\n{}", length, add.repeat(8)).into_bytes();
        check_answer("nine strips without pairs", &steps, length, Ok([0; 18]));
        check_answer("nine strips without pairs", &steps, length - 1, Err((7, 0, 0)));
        check_place("nine strips without pairs", &steps, u32::MAX, 7, Ok(library::numbers(7, &[0, 0, 0, 0, 0, 0, 0, 7], &[0; 9])));
    }
}

/// The step that adds a strip.
fn add(length: u32, nets: &str) -> String {
    format!("ADD\nPART {}\n{}\n", length, nets)
}

/// The step that adds a strip of 4 with A's channel.
fn add_a() -> String {
    add(4, "NETS 0 2 2 4")
}

/// So many strips of 4 with A's channel between them.
fn strips(n: usize) -> String {
    match n {
        0 => String::new(),
        _ => "BEGIN\nPART 4\n".to_string() + &add_a().repeat(n - 1),
    }
}

/// After these steps the session holds so many strips of 4 with A's channel between them: where they just fit, each channel needs three tracks.
fn check_held(name: &str, steps: &str, n: usize) {
    let steps = tabbed(steps);
    let due = library::numbers([0, 3, 6, 9, 12, 15, 18, 21, 24][n - 1], &vec![3; n - 1], &vec![0; n]);
    check_answer(name, &steps, 4, Ok(due));
    check_answer(name, &steps, 3, Err((7, 0, 0)));
}

/// A step refused on so many strips of 4, which leaves them: further steps are as without it.
fn refused_step(name: &'static str, n: usize, step: &str, due: Refusal, all: &mut Vec<Refused>) {
    let after = strips(n) + step;
    let twice = after.clone() + step;
    for text in [&after, &twice] {
        all.push((name, tabbed(text), due));
        if n == 0 {
            all.push((name, tabbed(&(text.clone() + &add_a())), (13, 0, 0)));
            check_held(name, &(text.clone() + &strips(1)), 1);
        } else if n < 9 {
            check_held(name, &(text.clone() + &add_a()), n + 1);
        }
        if n > 1 {
            check_held(name, &(text.clone() + "OFF\n"), n - 1);
        }
    }
}

/// The length and the channel of a strip that may not be added to one of 4.
const REFUSED_ADDS: [(&str, u32, &str, Refusal); 55] = [
    ("length 0", 0, "NETS", (4, 0, 2)),
    ("length 1,001", 1001, "NETS", (4, 0, 2)),
    ("length 9,999", 9999, "NETS", (4, 0, 2)),
    ("length before the count", 0, "NETS 0", (4, 0, 2)),
    ("length before the count", 1001, "NETS 0 0 0", (4, 0, 2)),
    ("length before overhang", 0, "NETS 9 9", (4, 0, 2)),
    ("length before overhang", 9999, "NETS 0 9999", (4, 0, 2)),
    ("length before crossing", 1001, "NETS 0 0 0 0", (4, 0, 2)),
    ("length before count, overhang and crossing", 0, "NETS 9 0 9", (4, 0, 2)),
    ("one terminal", 4, "NETS 0", (11, 0, 3)),
    ("three terminals", 4, "NETS 0 2 2", (11, 0, 5)),
    ("five terminals", 4, "NETS 0 2 2 4 4", (11, 0, 7)),
    ("count before overhang", 4, "NETS 9", (11, 0, 3)),
    ("count before overhang", 4, "NETS 5 2 2", (11, 0, 5)),
    ("count before overhang of the last", 4, "NETS 0 2 5", (11, 0, 5)),
    ("count before crossing", 4, "NETS 0 2 0", (11, 0, 5)),
    ("count before overhang and crossing", 4, "NETS 0 5 0 5 9999", (11, 0, 7)),
    ("overhang below, first pair", 4, "NETS 5 0", (5, 0, 2)),
    ("overhang above, first pair", 4, "NETS 0 5", (5, 0, 3)),
    ("overhang below, second pair", 4, "NETS 0 0 5 1", (5, 0, 4)),
    ("overhang above, second pair", 4, "NETS 0 0 1 5", (5, 0, 5)),
    ("overhang below, last pair", 4, "NETS 0 0 1 1 2 2 3 3 5 4", (5, 0, 10)),
    ("overhang above, last pair", 4, "NETS 0 0 1 1 2 2 3 3 4 5", (5, 0, 11)),
    ("overhang on both edges", 4, "NETS 5 5", (5, 0, 2)),
    ("overhang by 9,999", 4, "NETS 9999 0", (5, 0, 2)),
    ("overhang by 9,999 above", 4, "NETS 0 9999", (5, 0, 3)),
    ("overhang by 1,001 below a strip of 1,000", 1000, "NETS 0 1001", (5, 0, 3)),
    ("overhang below a shorter strip", 2, "NETS 5 2", (5, 0, 2)),
    ("overhang above of a shorter strip", 2, "NETS 4 3", (5, 0, 3)),
    ("overhang above of the shortest strip", 1, "NETS 4 2", (5, 0, 3)),
    ("overhang below a longer strip", 9, "NETS 5 9", (5, 0, 2)),
    ("overhang above of a longer strip", 9, "NETS 4 10", (5, 0, 3)),
    ("overhang before a crossing further right", 4, "NETS 0 5 0 0", (5, 0, 3)),
    ("overhang next to a crossing", 4, "NETS 0 4 5 4", (5, 0, 4)),
    ("overhang behind a greater terminal of the other edge", 9, "NETS 0 9 5 8", (5, 0, 4)),
    ("crossing below, second pair", 4, "NETS 0 0 0 1", (6, 0, 4)),
    ("crossing above, second pair", 4, "NETS 0 0 1 0", (6, 0, 5)),
    ("crossing on both edges", 4, "NETS 0 0 0 0", (6, 0, 4)),
    ("crossing below, falling", 4, "NETS 2 2 1 3", (6, 0, 4)),
    ("crossing above, falling", 4, "NETS 2 2 3 1", (6, 0, 5)),
    ("crossing below, falling to 0", 4, "NETS 4 2 0 3", (6, 0, 4)),
    ("crossing above, falling to 0", 4, "NETS 2 4 3 0", (6, 0, 5)),
    ("crossing below, third pair", 4, "NETS 0 0 1 1 1 2", (6, 0, 6)),
    ("crossing above, third pair", 4, "NETS 0 0 1 1 2 1", (6, 0, 7)),
    ("crossing below, last pair", 4, "NETS 0 0 1 1 2 2 3 3 3 4", (6, 0, 10)),
    ("crossing above, last pair", 4, "NETS 0 0 1 1 2 2 3 3 4 3", (6, 0, 11)),
    ("crossing above of a longer strip", 1000, "NETS 0 999 1 999", (6, 0, 5)),
    ("crossing before overhang", 4, "NETS 0 2 0 9", (6, 0, 4)),
    ("crossing before overhang further right", 4, "NETS 3 2 2 3 9 4", (6, 0, 4)),
    ("crossing above before overhang below", 4, "NETS 0 2 1 2 5 3", (6, 0, 5)),
    ("crossing of the pair before the last", 4, "NETS 0 0 1 0 2 1", (6, 0, 5)),
    ("specimen G's channel", 4, "NETS 0 2 2 5", (5, 0, 5)),
    ("specimen H's channel", 4, "NETS 0 2 0 4", (6, 0, 4)),
    ("length 1, terminals up to 1", 1, "NETS 0 0 1 1 2 1", (6, 0, 7)),
    ("length 1,000, terminals of 4", 1000, "NETS 4 1000 5 1000", (5, 0, 4)),
];

/// So many terminals, 0 0 1 1 and so on but for these fields, and the refusal's number and field where a strip of 40 may not be added with them to one of 40.
type Terminals = (usize, &'static [(usize, u32)], Option<(u32, u32)>);
const MANY_TERMINALS: [Terminals; 46] = [
    (0, &[], None),
    (1, &[], Some((11, 3))),
    (1, &[(2, 41)], Some((11, 3))),
    (2, &[], None),
    (2, &[(2, 40), (3, 40)], None),
    (2, &[(2, 41)], Some((5, 2))),
    (2, &[(3, 41)], Some((5, 3))),
    (61, &[], Some((11, 63))),
    (62, &[], None),
    (62, &[(62, 40), (63, 40)], None),
    (62, &[(62, 29)], Some((6, 62))),
    (62, &[(63, 29)], Some((6, 63))),
    (63, &[], Some((11, 65))),
    (63, &[(2, 41)], Some((11, 65))),
    (63, &[(4, 0)], Some((11, 65))),
    (63, &[(64, 41)], Some((11, 65))),
    (64, &[], None),
    (64, &[(64, 40), (65, 40)], None),
    (64, &[(2, 41)], Some((5, 2))),
    (64, &[(3, 41)], Some((5, 3))),
    (64, &[(4, 0)], Some((6, 4))),
    (64, &[(5, 0)], Some((6, 5))),
    (64, &[(32, 41)], Some((5, 32))),
    (64, &[(33, 41)], Some((5, 33))),
    (64, &[(32, 14)], Some((6, 32))),
    (64, &[(33, 14)], Some((6, 33))),
    (64, &[(64, 41)], Some((5, 64))),
    (64, &[(65, 41)], Some((5, 65))),
    (64, &[(64, 30)], Some((6, 64))),
    (64, &[(65, 30)], Some((6, 65))),
    (64, &[(64, 9999), (65, 30)], Some((5, 64))),
    (64, &[(64, 30), (65, 9999)], Some((6, 64))),
    (65, &[], Some((11, 67))),
    (65, &[(2, 41)], Some((11, 67))),
    (65, &[(4, 0)], Some((11, 67))),
    (65, &[(66, 9999)], Some((11, 67))),
    (66, &[], Some((3, 66))),
    (66, &[(2, 41)], Some((3, 66))),
    (66, &[(4, 0)], Some((3, 66))),
    (66, &[(66, 9999), (67, 9999)], Some((3, 66))),
    (67, &[], Some((11, 69))),
    (67, &[(2, 41)], Some((11, 69))),
    (68, &[], Some((3, 66))),
    (68, &[(5, 0), (69, 9999)], Some((3, 66))),
    (999, &[], Some((11, 1001))),
    (1000, &[], Some((3, 66))),
];

/// The line of so many terminals.
fn nets(count: usize, changed: &[(usize, u32)]) -> String {
    let terminal = |field: usize| changed.iter().find(|c| c.0 == field).map_or((field as u32 - 2) / 2, |c| c.1);
    (2..count + 2).fold("NETS".to_string(), |line, field| line + &format!(" {}", terminal(field)))
}

/// Lists of up to 1,000 terminals: on a strip of 40, with other lengths before them, on an empty session and as a tenth strip.
fn many_terminals(all: &mut Vec<Refused>) {
    for (count, changed, due) in MANY_TERMINALS {
        let nets = nets(count, changed);
        let held = "BEGIN\nPART 40\n".to_string() + &add(40, "NETS 0 0");
        let after = held.clone() + &add(40, &nets);
        match due {
            Some((number, field)) => {
                all.push(("many terminals", tabbed(&after), (number, 0, field)));
                check_answer("behind many terminals", &tabbed(&(after + "OFF\n")), 40, Ok([0; 18]));
            }
            None => check_answer("many terminals", &tabbed(&after), 40, Ok([0; 18])),
        }
        for length in [0, 1001, 9999] {
            all.push(("length before terminals", tabbed(&(held.clone() + &add(length, &nets))), (4, 0, 2)));
        }
        for length in [0, 1, 40, 1000, 1001, 9999] {
            let step = add(length, &nets);
            all.push(("an empty session before all else", tabbed(&step), (13, 0, 0)));
            all.push(("a tenth strip before its numbers", tabbed(&(strips(9) + &step)), (3, 0, 0)));
        }
    }
}

/// Refused steps on sessions of several heights.
fn refused_steps() -> Vec<Refused> {
    let mut all = Vec::new();
    for (name, length, nets, due) in REFUSED_ADDS {
        let step = add(length, nets);
        for n in [1, 2, 8] {
            refused_step(name, n, &step, due, &mut all);
        }
        refused_step(name, 0, &step, (13, 0, 0), &mut all);
        refused_step(name, 9, &step, (3, 0, 0), &mut all);
    }
    refused_step("a tenth strip", 9, &add_a(), (3, 0, 0), &mut all);
    refused_step("a strip on an empty session", 0, &add_a(), (13, 0, 0), &mut all);
    refused_step("taken off an empty session", 0, "OFF\n", (13, 0, 0), &mut all);
    refused_step("the only strip taken off", 1, "OFF\n", (13, 0, 0), &mut all);
    many_terminals(&mut all);
    for n in 0..=9 {
        for length in [0, 1001, 9999] {
            let text = strips(n) + &format!("BEGIN\nPART {}\n", length);
            let mut push = |name: &'static str, step: &str, due: Refusal| {
                all.push((name, tabbed(&(text.clone() + step)), due));
            };
            push("a beginning with another length", "", (4, 0, 2));
            push("a refused beginning leaves no strip to take off", "OFF\n", (13, 0, 0));
            push("a refused beginning leaves no strip to add to", &add_a(), (13, 0, 0));
            push("an empty session before all else", &add(0, "NETS 9"), (13, 0, 0));
            push("a refused beginning again", "BEGIN\nPART 0\n", (4, 0, 2));
            check_held("a beginning behind a refused one", &(text.clone() + &strips(2)), 2);
        }
        check_held("a beginning on any session", &(strips(n) + &strips(1)), 1);
        check_held("a beginning on any session", &(strips(n) + &strips(9)), 9);
    }
    all.push(("a refused step before narrow", tabbed("BEGIN\nPART 1000\nADD\nPART 4\nNETS 0 5\n"), (5, 0, 3)));
    let several = tabbed("OFF\nBEGIN\nPART 0\nBEGIN\nPART 4\nADD\nPART 4\nNETS 0\n");
    all.push(("the last of several refused steps", several, (11, 0, 3)));
    all
}

/// Lengths at the ends of their range: added strips, and terminals at the ends of both edges.
fn check_added() {
    for (length, nets, spread, row) in [
        (1, "NETS 4 1", 4, "ROW 4 0 0 0 3"),
        (1, "NETS 4 0", 4, "ROW 4 2 2 0 0"),
        (1, "NETS 4 0", 5, "ROW 5 0 0 0 4"),
        (1000, "NETS 4 1000", 1000, "ROW 1000 0 0 996 0"),
        (1000, "NETS 0 0", 1000, "ROW 1000 0 0 0 0"),
        (2, "NETS 0 0 4 2", 4, "ROW 4 2 2 0 0"),
        (9, "NETS 4 9", 9, "ROW 9 0 0 5 0"),
    ] {
        check_line("a strip added to one of 4", &tabbed(&(strips(1) + &add(length, nets))), spread, row);
    }
}

/// Strips that are there no more, longer and with more pairs than those that are: nothing is left of them.
fn check_gone() {
    let high = "BEGIN\nPART 1000\n".to_string() + &add(1000, &nets(64, &[(64, 900), (65, 31)])).repeat(8);
    let up_and_down = add(1000, &nets(2, &[(2, 4), (3, 900)])) + "OFF\n";
    for (name, before) in [
        ("begun anew", high + &strips(1)),
        ("taken off", strips(1) + &up_and_down),
        ("taken off twice", strips(1) + &up_and_down.repeat(2)),
    ] {
        check_held(name, &before, 1);
        check_held(name, &(before.clone() + &add_a()), 2);
        let bare = tabbed(&(before + &add(5, "NETS")));
        check_line(name, &bare, 5, "ROW 5 0 0 0 0");
        check_line(name, &bare, 4, "7 0 0");
    }
}

/// Steps of every kind, some of them twice, and lines of every word.
const LINES: &str = "BEGIN\nPART 4\nADD\nPART 4\nNETS 0 2 2 4\nOFF\nADD\nPART 4\nNETS 0 2 2 4\nBEGIN\nPART 3\nADD\nPART 5\nNETS\nOFF\n";

/// What their first lines are answered at spread 5, none and one and so on up to all: a line that is missing, where they end inside a step.
const PREFIXES: [&str; 16] = [
    "13 0 0",
    "2 2 0",
    "ROW 5 0 0",
    "2 4 0",
    "2 5 0",
    "ROW 5 2 2 1 0",
    "ROW 5 0 0",
    "2 8 0",
    "2 9 0",
    "ROW 5 2 2 1 0",
    "2 11 0",
    "ROW 5 0 0",
    "2 13 0",
    "2 14 0",
    "ROW 5 0 0 0 0",
    "ROW 5 0 0",
];

/// The first lines of a text, some with the last one unended, and texts of lines that are dropped or doubled.
fn check_prefixes(all: &mut Vec<Refused>) {
    let text = specimens::tabbed(LINES);
    let lines: Vec<&str> = text.split_inclusive('\n').collect();
    for (n, due) in PREFIXES.iter().enumerate() {
        let prefix = lines[..n].concat();
        match library::refusal_in(due) {
            Some(due) => all.push(("the first lines", prefix.into_bytes(), due)),
            None => check_line("the first lines", prefix.as_bytes(), 5, due),
        }
    }
    for (n, line) in (1..).zip(&lines) {
        let (before, behind) = (lines[..n - 1].concat(), lines[n..].concat());
        for cut in 1..line.len() {
            all.push(("an unended line", (before.clone() + &line[..cut]).into_bytes(), (2, n as u32, 0)));
        }
        if *line != "OFF\n" {
            all.push(("a line dropped", (before.clone() + &behind).into_bytes(), (2, n as u32, 0)));
            all.push(("a line doubled", (before + line + line + &behind).into_bytes(), (2, n as u32 + 1, 0)));
        }
    }
}

/// Lines that stand for no line of a step where one of these words is due: by word. A dash stands for every word.
const NO_LINES: [(&str, &str); 61] = [
    ("-", ""),
    ("-", " "),
    ("-", "STACK 1"),
    ("-", "GAP 1 1"),
    ("-", "FIX 1 GAP 1 1"),
    ("-", "ROW 4 0 0"),
    ("-", "4"),
    ("-", "x"),
    ("BEGIN", "PART 4"),
    ("BEGIN", "NETS"),
    ("BEGIN", "begin"),
    ("BEGIN", "Begin"),
    ("BEGIN", "BEGI"),
    ("BEGIN", "BEGINS"),
    ("BEGIN", " BEGIN"),
    ("BEGIN", "BEGIN "),
    ("BEGIN", "BEGIN 4"),
    ("BEGIN", "BEGIN PART 4"),
    ("ADD", "PART 4"),
    ("ADD", "NETS 0 2 2 4"),
    ("ADD", "add"),
    ("ADD", "AD"),
    ("ADD", "ADDS"),
    ("ADD", " ADD"),
    ("ADD", "ADD "),
    ("ADD", "ADD 4"),
    ("OFF", "PART 4"),
    ("OFF", "NETS"),
    ("OFF", "off"),
    ("OFF", "OF"),
    ("OFF", "OFFS"),
    ("OFF", " OFF"),
    ("OFF", "OFF "),
    ("OFF", "OFF 1"),
    ("PART", "BEGIN"),
    ("PART", "ADD"),
    ("PART", "OFF"),
    ("PART", "NETS 4"),
    ("PART", "part 4"),
    ("PART", "PAR 4"),
    ("PART", "PARTS 4"),
    ("PART", " PART 4"),
    ("PART", "PART"),
    ("PART", "PART 4 4"),
    ("PART", "PART 4 1 3"),
    ("PART", "PART 4 0 9999"),
    ("PART", "PART 4 0 0"),
    ("PART", "PART 4 3 1"),
    ("PART", "PART 0 1 3"),
    ("PART", "PART 4 1 3 5"),
    ("PART", "PART 4 "),
    ("PART", "PART  4"),
    ("NETS", "BEGIN"),
    ("NETS", "ADD"),
    ("NETS", "OFF"),
    ("NETS", "PART 4"),
    ("NETS", "nets 0 2"),
    ("NETS", "NET 0 2"),
    ("NETS", "NETSS 0 2"),
    ("NETS", " NETS 0 2"),
    ("NETS", "NETS "),
];

/// The word of another step's first line in place of one, by number: the first line that does not follow from there, or that is missing.
const OTHER_STEPS: [(usize, &str, u32); 14] = [
    (1, "ADD", 3),
    (1, "OFF", 2),
    (3, "BEGIN", 5),
    (3, "OFF", 4),
    (6, "BEGIN", 7),
    (6, "ADD", 7),
    (7, "BEGIN", 9),
    (7, "OFF", 8),
    (10, "ADD", 12),
    (10, "OFF", 11),
    (12, "BEGIN", 14),
    (12, "OFF", 13),
    (15, "BEGIN", 16),
    (15, "ADD", 16),
];

/// Every line of a text of steps in place of which another stands: another word, another count of fields, ill-formed numbers, odd bytes.
fn no_steps() -> Vec<Refused> {
    let text = tabbed(LINES);
    let mut all = Vec::new();
    for (n, line) in (1..).zip(specimens::tabbed(LINES).lines()) {
        let mut push = |name: &'static str, line: &[u8]| all.push((name, put_line(&text, n, line), (2, n as u32, 0)));
        let word = line.split('\t').next().expect("a word");
        for (_, other) in NO_LINES.iter().filter(|(due, _)| *due == word || *due == "-") {
            push("no line of a step", &tabbed(other));
        }
        for (name, byte) in ODD_BYTES {
            push(name, &[&[byte], line.as_bytes()].concat());
            push(name, &[line.as_bytes(), &[byte]].concat());
            push(name, &[&line.as_bytes()[..1], &[byte], &line.as_bytes()[2..]].concat());
        }
        for (name, _, line) in ill_formed_lines(line.as_bytes()) {
            push(name, &line);
        }
    }
    for (n, word, due) in OTHER_STEPS {
        all.push(("another step's first line", put_line(&text, n, word.as_bytes()), (2, due, 0)));
    }
    check_prefixes(&mut all);
    all.push(("the text of a stack", A.into(), (2, 1, 0)));
    all.push(("no step before refused steps", b"OFF\nBEGIN\nPART\t0\nADD\nPART\t0\nNETS\t1\nx\n".to_vec(), (2, 7, 0)));
    all.push(("a missing line before a refused step", b"OFF\nBEGIN\n".to_vec(), (2, 3, 0)));
    all.push(("no step among others, the first given", b"BEGIN\nPART\t4\nx\nOFF\ny\nBEGIN\n".to_vec(), (2, 3, 0)));
    let ill_formed = strips(1) + &add(4, &(nets(66, &[]) + " 01"));
    all.push(("an ill-formed number behind 64 terminals", tabbed(&ill_formed), (2, 5, 0)));
    let ill_formed = strips(9) + &add(0, &(nets(65, &[]) + " 00000"));
    all.push(("an ill-formed number of a tenth strip", tabbed(&ill_formed), (2, 29, 0)));
    all
}

/// Texts of about 8,192 bytes.
fn check_long(all: &mut Vec<Refused>) {
    let off = |count: usize| "OFF\n".repeat(count);
    // 16 bytes.
    let begin = "BEGIN\nPART\t1000\n";
    let long = off(2044) + begin;
    same("the greatest length", begin.as_bytes(), long.len(), 8192);
    check_answer("8,192 bytes", long.as_bytes(), 1000, Ok([0; 18]));
    check_answer("8,192 bytes", long.as_bytes(), 999, Err((7, 0, 0)));
    all.push(("8,192 bytes, the last step refused", off(2048).into_bytes(), (13, 0, 0)));
    all.push(("8,192 bytes, no step at the end", (off(2047) + "OFF\t").into_bytes(), (2, 2048, 0)));
    all.push(("8,192 bytes that end inside a step", (off(2046) + "OFF\nADD\n").into_bytes(), (2, 2049, 0)));
    all.push(("8,192 bytes of line feeds", vec![b'\n'; 8192], (2, 1, 0)));
    all.push(("8,193 bytes of steps", (off(2045) + "BEGIN\nPART\t4\n").into_bytes(), (1, 0, 0)));
    all.push(("8,193 bytes with an ill-formed number", (off(2044) + "BEGIN\nPART\t01000\n").into_bytes(), (1, 0, 0)));
    all.push(("8,193 bytes of an unended line", (off(2048) + "O").into_bytes(), (1, 0, 0)));
    all.push(("8,193 bytes of line feeds", vec![b'\n'; 8193], (1, 0, 0)));
    all.push(("8,196 bytes, the last step refused", off(2049).into_bytes(), (1, 0, 0)));
    all.push(("100,000 bytes of 255", vec![255; 100_000], (1, 0, 0)));
    let widest = format!("BEGIN\nPART\t4\nADD\nPART\t40\nNETS{}\n", "\t1".repeat(4081));
    same("the longest line", b"", widest.len(), 8192);
    all.push(("8,192 bytes with 4,081 terminals", widest.clone().into_bytes(), (11, 0, 4083)));
    all.push(("8,192 bytes with 4,080 terminals", widest.replacen("\t1\t1\t1", "\t11\t11", 1).into_bytes(), (3, 0, 66)));
    all.push(("8,192 bytes with a terminal that is ill-formed", widest.replacen("\t1\t1", "\t01\t", 1).into_bytes(), (2, 5, 0)));
}

/// All of it: how many texts of steps are refused, and how many of them as no steps.
pub fn check() -> (usize, usize) {
    check_specimens();
    check_stacks();
    check_single_strips();
    check_limits();
    check_added();
    check_gone();
    check_refused("an empty text", b"", (13, 0, 0));
    let mut refused = [refused_steps(), no_steps()].concat();
    check_long(&mut refused);
    for (name, text, due) in &refused {
        check_refused(name, text, *due);
    }
    (refused.len(), refused.iter().filter(|r| r.2 .0 == 2).count())
}
