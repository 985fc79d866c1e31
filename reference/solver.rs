//! The least total in a spread and the placement for a stated total, by trying: totals from 0 on; the separations of a total in dictionary order; for each
//! the positions, strip 0 first.

use crate::channel::{feasible, limits, Condition};
use crate::reader::{Refusal, Stack};

/// A placement and its total.
#[derive(Clone, Debug, PartialEq)]
pub struct Answer {
    pub total: usize,
    pub separations: Vec<usize>,
    pub positions: Vec<i64>,
}

/// Channel i, from 0: from its floor upward, and by a condition.
fn wired_in(stack: &Stack, i: usize, t: usize, offset: i64, wired: Condition) -> bool {
    t >= stack.floors[i] && wired(&stack.channels[i], t, offset)
}

/// The first and the last position of strip i in a spread: its window, as far as the strip then lies within the spread. None are left where the last is less.
fn room(stack: &Stack, i: usize, spread: i64) -> (i64, i64) {
    let last = spread - stack.lengths[i];
    stack.windows[i].map_or((0, last), |(least, greatest)| (least, greatest.min(last)))
}

/// Whether a placement lies within the spread and the windows and every channel keeps its floor and a condition.
pub fn legal_by(stack: &Stack, spread: i64, separations: &[usize], positions: &[i64], wired: Condition) -> bool {
    let within = positions.iter().enumerate().all(|(i, x)| {
        let (first, last) = room(stack, i, spread);
        first <= *x && *x <= last
    });
    within && separations.iter().enumerate().all(|(i, t)| wired_in(stack, i, *t, positions[i + 1] - positions[i], wired))
}

pub fn legal(stack: &Stack, spread: i64, separations: &[usize], positions: &[i64]) -> bool {
    legal_by(stack, spread, separations, positions, &feasible)
}

/// The first positions in dictionary order for these separations, each position tried from the left.
fn place_by_trying(stack: &Stack, spread: i64, separations: &[usize], placed: &mut Vec<i64>) -> bool {
    let i = placed.len();
    if i == stack.lengths.len() {
        return true;
    }
    let (first, last) = room(stack, i, spread);
    for x in first..=last {
        if i > 0 && !wired_in(stack, i - 1, separations[i - 1], x - placed[i - 1], &feasible) {
            continue;
        }
        placed.push(x);
        if place_by_trying(stack, spread, separations, placed) {
            return true;
        }
        placed.pop();
    }
    false
}

/// The same for wide spreads: offsets between two limits, so the positions that reach the top form a range for each strip, found from the top down.
/// With fewer separations than channels only the strips that they join, from the bottom, are placed.
fn place_by_ranges(stack: &Stack, spread: i64, separations: &[usize]) -> Option<Vec<i64>> {
    let n = separations.len() + 1;
    let far = spread + 5000;
    let limits = |i: usize| limits(&stack.channels[i], separations[i]).unwrap_or((-far, far));
    let mut ranges = vec![(0, 0); n];
    ranges[n - 1] = room(stack, n - 1, spread);
    for i in (0..n - 1).rev() {
        let (l, r) = limits(i);
        let (lo, up) = ranges[i + 1];
        if l > r || lo > up {
            return None;
        }
        let (first, last) = room(stack, i, spread);
        ranges[i] = ((lo - r).max(first), (up - l).min(last));
    }
    if ranges[0].0 > ranges[0].1 {
        return None;
    }
    let mut placed = vec![ranges[0].0];
    for i in 1..n {
        let (l, _) = limits(i - 1);
        placed.push((placed[i - 1] + l).max(ranges[i].0));
    }
    legal(stack, spread, separations, &placed).then_some(placed)
}

/// The least separation of a channel that is feasible at some offset.
fn least_open(stack: &Stack, i: usize) -> usize {
    (stack.floors[i]..).find(|t| limits(&stack.channels[i], *t).map_or(true, |(l, r)| l <= r)).expect("a separation")
}

/// The least separation of a channel that is feasible at every offset: its floor, or one more than its pairs where it has any.
pub fn least_free(stack: &Stack, i: usize) -> usize {
    (stack.floors[i]..).find(|t| limits(&stack.channels[i], *t).is_none()).expect("a separation")
}

/// The sum of these over the channels: from such a total on every strip may stand at its first position.
pub fn free_total(stack: &Stack) -> usize {
    (0..stack.channels.len()).map(|i| least_free(stack, i)).sum()
}

/// The sum of the least separations that are feasible at some offset: no total is less.
pub fn open_total(stack: &Stack) -> usize {
    (0..stack.channels.len()).map(|i| least_open(stack, i)).sum()
}

/// So much of a total is little: `brute` then tries all of it in each channel.
const LITTLE: usize = 12;

/// The separations of a total in dictionary order, each from the channel's floor. The last channel gets all that the others leave. Where an earlier one has
/// more than the least that is feasible at every offset, one less there and one more in the last channel is legal too and comes before: so no more is tried.
/// Unless every position is to be tried, those are passed over that leave too little for the channels above, or place no strips so far.
fn try_total(stack: &Stack, spread: i64, left: usize, chosen: &mut Vec<usize>, brute: bool) -> Option<Vec<i64>> {
    let i = chosen.len();
    if i == stack.channels.len() {
        // Something is left where there is no channel at all: a single strip has the total 0 only.
        if left > 0 {
            return None;
        }
        if brute {
            let mut placed = Vec::new();
            return place_by_trying(stack, spread, chosen, &mut placed).then_some(placed);
        }
        return place_by_ranges(stack, spread, chosen);
    }
    if !brute && place_by_ranges(stack, spread, chosen).is_none() {
        return None;
    }
    let above = i + 1..stack.channels.len();
    let is_last = above.is_empty();
    let least: usize = above.map(|c| if brute { stack.floors[c] } else { least_open(stack, c) }).sum();
    let most = left.checked_sub(least)?;
    let tried = match is_last {
        true => left..=left,
        _ if brute && left <= LITTLE => 0..=most,
        _ => stack.floors[i]..=most.min(least_free(stack, i)),
    };
    for t in tried {
        chosen.push(t);
        if let Some(placed) = try_total(stack, spread, left - t, chosen, brute) {
            return Some(placed);
        }
        chosen.pop();
    }
    None
}

pub fn longest(stack: &Stack) -> i64 {
    *stack.lengths.iter().max().unwrap()
}

/// The first row's spread: the greatest, over all strips, of length and least position. A free strip may stand at 0.
pub fn first(stack: &Stack) -> i64 {
    let ends = stack.lengths.iter().zip(&stack.windows).map(|(length, window)| length + window.map_or(0, |w| w.0));
    ends.max().unwrap()
}

/// No row's spread is greater. Where a channel has limits its two strips touch; with the same separations a run of touching strips can be moved left until one of
/// them is at its least position, and then ends here at the latest.
pub fn widest(stack: &Stack) -> i64 {
    let greatest = stack.windows.iter().flatten().map(|w| w.1).max().unwrap_or(0);
    greatest + stack.lengths.iter().sum::<i64>()
}

/// No row's spread of any stack is greater: nine strips of 1,000 beside the greatest position that can be written.
const LAST_SPREAD: i64 = 9_999 + 9 * 1_000;

/// Whether trying every position is soon done, at spreads up to a little above the last row's.
pub fn small(stack: &Stack) -> bool {
    stack.channels.len() <= 3 && longest(stack) <= 12 && widest(stack) <= 48 && stack.channels.iter().all(|c| c.len() <= 4)
}

/// The placement in a spread for a stated total, by the tie rule, or None if no legal placement has that total; `brute` tries every position.
pub fn place(stack: &Stack, spread: i64, total: usize, brute: bool) -> Option<Answer> {
    let mut separations = Vec::new();
    let positions = try_total(stack, spread, total, &mut separations, brute)?;
    Some(Answer { total, separations, positions })
}

/// The least total that a legal placement has, in a spread from the first row's upward, where none below a total is to be tried.
fn least_from(stack: &Stack, spread: i64, lowest: usize, brute: bool) -> usize {
    // With separations that are feasible at every offset each strip may stand at its least position, so some total is met.
    (lowest..).find(|total| place(stack, spread, *total, brute).is_some()).expect("a total")
}

/// The least total that a legal placement has, in a spread from the first row's upward.
pub fn least_total(stack: &Stack, spread: i64, brute: bool) -> usize {
    least_from(stack, spread, if brute { 0 } else { open_total(stack) }, brute)
}

/// The two together: the placement with the least total.
pub fn answer(stack: &Stack, spread: i64, brute: bool) -> Answer {
    place(stack, spread, least_total(stack, spread, brute), brute).expect("a placement with the least total")
}

/// Whether every position is tried: where that is soon done.
pub fn brute(stack: &Stack, spread: i64) -> bool {
    small(stack) && spread <= widest(stack) + 3
}

/// Refused as narrow below the first row's spread.
pub fn within_spread(stack: &Stack, spread: i64) -> Result<(), Refusal> {
    if spread < first(stack) {
        return Err((7, 0, 0));
    }
    Ok(())
}

/// The least total at any spread.
pub fn total_at(stack: &Stack, spread: i64) -> Result<usize, Refusal> {
    within_spread(stack, spread)?;
    Ok(least_total(stack, spread, brute(stack, spread)))
}

/// The placement at any spread for a stated total.
pub fn place_at(stack: &Stack, spread: i64, total: usize) -> Result<Answer, Refusal> {
    within_spread(stack, spread)?;
    place(stack, spread, total, brute(stack, spread)).ok_or((10, 0, 0))
}

/// A spread and its least total.
type Event = (i64, usize);

/// The spreads behind one and up to another at which the total falls. What is legal in a spread is so in a wider one, so no total rises, and between two equal
/// ones all are equal.
fn falls_between(stack: &Stack, from: Event, upto: Event, falls: &mut Vec<Event>) {
    if from.1 == upto.1 {
        return;
    }
    let spread = (from.0 + upto.0) / 2;
    if spread == from.0 {
        falls.push(upto);
        return;
    }
    let between = (spread, least_from(stack, spread, upto.1, false));
    falls_between(stack, from, between, falls);
    falls_between(stack, between, upto, falls);
}

/// The same from the first row on, every spread tried up to past the last at which a total can fall.
fn falls_by_trying(stack: &Stack) -> Vec<Event> {
    let mut falls: Vec<Event> = Vec::new();
    for spread in first(stack)..=widest(stack) + 3 {
        let total = least_total(stack, spread, true);
        if falls.last().map_or(true, |last| total < last.1) {
            falls.push((spread, total));
        }
    }
    falls
}

/// The rows of the table; `brute` tries every spread, and every position.
pub fn rows(stack: &Stack, brute: bool) -> Vec<(i64, Answer)> {
    let falls = if brute {
        falls_by_trying(stack)
    } else {
        let [from, upto] = [first(stack), LAST_SPREAD].map(|spread| (spread, least_total(stack, spread, false)));
        let mut falls = vec![from];
        falls_between(stack, from, upto, &mut falls);
        falls
    };
    falls
        .into_iter()
        .map(|(spread, total)| (spread, place(stack, spread, total, brute).expect("a placement with the least total")))
        .collect()
}

pub fn row_text(spread: i64, a: &Answer) -> String {
    let mut line = format!("ROW\t{}\t{}", spread, a.total);
    for t in &a.separations {
        line += &format!("\t{}", t);
    }
    for x in &a.positions {
        line += &format!("\t{}", x);
    }
    line + "\n"
}

pub fn table_text(stack: &Stack, rows: &[(i64, Answer)]) -> String {
    let mut text = format!("TABLE\t{}\n", stack.channels.len());
    for (spread, a) in rows {
        text += &row_text(*spread, a);
    }
    text
}
