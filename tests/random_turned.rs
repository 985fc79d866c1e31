//! Stacks turned over, by document 02, P8: what the library says to the text of a stack upside down, and of its mirror image if every strip is free, beside what
//! it says to the stack's own.

use crate::library::{self, code};
use crate::random::Random;
use crate::reader::{self, Stack};
use crate::{expect, has_floors, in_words, refusal_of, same_code, solver, turn, Checked, Run, SPACE};

/// What must have been met in a run of at least the usual counts.
pub const MET: [&str; 8] = [
    "turned stacks",
    "turned stacks with floors",
    "turned stacks whose table's placements differ",
    "mirrored stacks",
    "mirrored stacks with floors",
    "mirrored stacks whose table's placements differ",
    WINDOWS,
    HELD,
];

const WINDOWS: &str = "turned stacks with windows";
const HELD: &str = "stacks with a held strip whose mirror image has another total";

/// A row's spread; its total, separations and positions.
type Row = (u32, [u32; 18]);

/// The rows of the library's table.
fn rows(text: &[u8]) -> Result<Vec<Row>, String> {
    let mut table = vec![0; SPACE];
    let told = library::write_table(text, &mut table);
    if refusal_of(told).is_some() {
        return Err(format!("table: found {}", in_words(told)));
    }
    let lines = std::str::from_utf8(&table[..told as usize]).map_err(|e| e.to_string())?.lines().skip(1);
    let row = |line: &str| {
        let spread = line.split('\t').nth(1).and_then(|word| word.parse().ok());
        let numbers = library::placement_in(line).map_err(|r| format!("a row: found {}", in_words(code(r))))?;
        Ok((spread.ok_or("a row without a spread")?, numbers))
    };
    lines.map(row).collect()
}

/// Spreads from each row up to where the next one begins: at the row, one before the next, one between; past the last row one further, any, and 2^32 - 1.
fn spreads(random: &mut Random, rows: &[Row]) -> Vec<u32> {
    let mut reaches: Vec<[u32; 2]> = rows.windows(2).map(|w| [w[0].0, w[1].0 - 1]).collect();
    let last = rows[rows.len() - 1].0;
    reaches.extend([[last, last + 1], [last, u32::MAX]]);
    reaches.into_iter().flat_map(|[from, upto]| [from, random.between(from as i64, upto as i64) as u32, upto]).collect()
}

/// A way to turn a stack over: in words; what is counted of all, with floors, and where the tables' placements differ; the placement of the stack that one of
/// the turned stack is, in a spread.
struct Way {
    words: &'static str,
    counted: [&'static str; 3],
    back: fn(&Stack, u32, &[u32; 18]) -> [u32; 18],
}

const UPSIDE_DOWN: Way = Way {
    words: "upside down",
    counted: [MET[0], MET[1], MET[2]],
    back: |stack, _, numbers| {
        let (k, mut back) = (stack.channels.len(), *numbers);
        back[1..=k].reverse();
        back[9..=9 + k].reverse();
        back
    },
};

const MIRRORED: Way = Way {
    words: "mirrored",
    counted: [MET[3], MET[4], MET[5]],
    back: |stack, spread, numbers| {
        let mut back = *numbers;
        back[9..].iter_mut().zip(&stack.lengths).for_each(|(x, length)| *x = spread - *length as u32 - *x);
        back
    },
};

impl Run {
    /// The two tables: rows of the same spreads and totals; a row's placement turned back is legal, but by the tie rule it may be another.
    fn turned_rows(&mut self, stack: &Stack, text: &[u8], turned: &[u8], way: &Way) -> Result<Vec<Row>, String> {
        let (rows, found) = (rows(text)?, rows(turned)?);
        let totals = |rows: &[Row]| -> Vec<(u32, u32)> { rows.iter().map(|row| (row.0, row.1[0])).collect() };
        if totals(&rows) != totals(&found) {
            return Err(format!("rows' spreads and totals: found {:?}, due {:?}", totals(&found), totals(&rows)));
        }
        let back: Vec<Row> = found.iter().map(|(spread, numbers)| (*spread, (way.back)(stack, *spread, numbers))).collect();
        for (spread, numbers) in &back {
            let told = library::try_numbers(text, *spread, &numbers[1..]);
            same_code(&format!("trial at spread {} of {:?}, turned back", spread, &numbers[1..]), told, 1)?;
        }
        if back != rows {
            self.count(way.counted[2]);
        }
        Ok(rows)
    }

    /// The least totals of the two texts; of a small stack that of the reference for the turned one, too.
    fn turned_totals(&mut self, text: &[u8], turned: &Stack, turned_text: &[u8], rows: &[Row]) -> Checked {
        let below = rows[0].0 - 1;
        for text in [text, turned_text] {
            same_code(&format!("least total at spread {}", below), library::least_total(text, below), code((7, 0, 0)))?;
        }
        for spread in spreads(&mut self.random, rows) {
            let due = library::least_total(text, spread);
            same_code(&format!("least total at spread {}", spread), library::least_total(turned_text, spread), due)?;
            if solver::brute(turned, spread as i64) {
                let tried = solver::least_total(turned, spread as i64, true);
                same_code(&format!("the reference's least total at spread {}", spread), tried as u64, due)?;
            }
        }
        Ok(())
    }

    fn turned_over(&mut self, stack: &Stack, text: &[u8], turned: &Stack, way: &Way) -> Checked {
        self.count(way.counted[0]);
        if has_floors(stack) {
            self.count(way.counted[1]);
        }
        let turned_text = self.random.text(turned);
        let rows = self.turned_rows(stack, text, &turned_text, way);
        let checked = rows.and_then(|rows| self.turned_totals(text, turned, &turned_text, &rows));
        checked.map_err(|difference| format!("{}, \"{}\": {}", way.words, turned_text.escape_ascii(), difference))
    }

    /// With its windows as they are the mirror image of a stack with a held strip may have another total.
    fn held_mirrored(&mut self, stack: &Stack, text: &[u8]) -> Checked {
        let mirrored = self.random.text(&turn::with_ends_reversed(stack));
        let differs = |spread: u32| {
            let told = library::least_total(&mirrored, spread);
            refusal_of(told).is_none() && told != library::least_total(text, spread)
        };
        if spreads(&mut self.random, &rows(text)?).into_iter().any(differs) {
            self.count(HELD);
        }
        Ok(())
    }

    fn both_ways(&mut self, stack: &Stack, text: &[u8]) -> Checked {
        self.turned_over(stack, text, &turn::upside_down(stack), &UPSIDE_DOWN)?;
        match turn::left_to_right(stack) {
            Some(mirrored) => self.turned_over(stack, text, &mirrored, &MIRRORED),
            None => {
                self.count(WINDOWS);
                self.held_mirrored(stack, text)
            }
        }
    }
}

/// The stacks of these texts turned over, each compared.
pub fn compare(run: &mut Run, texts: &[Vec<u8>]) {
    for text in texts {
        let stack = reader::read(text).expect("an accepted text");
        let checked = run.both_ways(&stack, text);
        expect("turned stack", text, checked);
    }
}
