//! The positions that a strip has in all legal placements of a small stack in a spread with a total, by trial of every placement with that sum: those of the top
//! strip have no gap (document 02, P8), nor have those of the bottom one, which is the top one of the stack upside down; those of a strip between may have some.

use crate::channel::Pair;
use crate::library;
use crate::random::Random;
use crate::reader::Stack;
use crate::{expect, has_floors, has_held, solver, Checked, Run};
use std::collections::BTreeSet;

/// What must have been met in a run of at least the usual counts; where a strip has no gap it has several positions.
pub const MET: [&str; 9] = [
    "top strips, positions without a gap",
    "top strips, positions without a gap with floors",
    "top strips, positions without a gap with windows",
    "bottom strips, positions without a gap",
    "bottom strips, positions without a gap with floors",
    "bottom strips, positions without a gap with windows",
    "middle strips, positions with a gap",
    "middle strips, positions with a gap with floors",
    "middle strips, positions with a gap with windows",
];

/// Totals with more placements are left out.
const MOST_PLACEMENTS: usize = 5000;

/// A channel of up to three pairs, of which all can be straight at once in about half of the cases.
fn channel(random: &mut Random, lower: i64, upper: i64) -> Vec<Pair> {
    if random.chance(8) {
        return Vec::new();
    }
    let m = 1 + random.below(3.min(lower.min(upper) as usize + 1));
    let q = random.rising(m, 0, upper);
    let reach = q[m - 1] - q[0];
    if reach > lower || random.chance(2) {
        return random.rising(m, 0, lower).into_iter().zip(q).collect();
    }
    let from = random.between(0, lower - reach);
    q.iter().map(|c| (from + c - q[0], *c)).collect()
}

/// Up to 3 channels of up to 3 pairs, floors up to 2, lengths up to 5, and a spread up to 8 in which the strips lie. In most of the stacks strips that nearly fill the
/// spread take turns with short ones: these have room on both sides of a gap.
fn small(random: &mut Random) -> (Stack, u32) {
    let (k, longest) = ([1, 2, 2, 3][random.below(4)], random.between(2, 5));
    let (apart, first) = (!random.chance(4), random.below(2));
    let length = |random: &mut Random, i: usize| match apart {
        true => [longest, random.between(1, 2)][(first + i) % 2],
        false => random.between(1, longest),
    };
    let lengths: Vec<i64> = (0..=k).map(|i| length(random, i)).collect();
    let channels = lengths.windows(2).map(|l| channel(random, l[0], l[1])).collect();
    let spread = if apart { longest + random.between(1, 3) } else { random.between(longest, 8) };
    let mut stack = random.limited(lengths, channels, spread, false);
    stack.floors.iter_mut().for_each(|floor| *floor = (*floor).min(2));
    (stack, spread as u32)
}

/// Every list of so many numbers with a sum.
fn with_sum(count: usize, sum: u32) -> Vec<Vec<u32>> {
    if count == 1 {
        return vec![vec![sum]];
    }
    let behind = |first: u32| with_sum(count - 1, sum - first).into_iter().map(move |rest| [vec![first], rest].concat());
    (0..=sum).flat_map(behind).collect()
}

/// Every list of positions of strips that then lie within a spread.
fn within(lengths: &[i64], spread: u32) -> Vec<Vec<u32>> {
    let Some((top, below)) = lengths.split_last() else {
        return vec![Vec::new()];
    };
    let below = within(below, spread);
    (0..=spread - *top as u32).flat_map(|x| below.iter().map(move |placed| [&placed[..], &[x]].concat())).collect()
}

fn has_gap(positions: &BTreeSet<u32>) -> bool {
    positions.iter().zip(positions.iter().skip(1)).any(|(x, next)| next - x > 1)
}

/// Adds for each strip its positions in the legal placements with these separations: by the library's trials, each of which must say what the reference says.
fn add_legal(stack: &Stack, text: &[u8], spread: u32, separations: &[u32], all: &[Vec<u32>], strips: &mut [BTreeSet<u32>]) -> Checked {
    let tracks: Vec<usize> = separations.iter().map(|t| *t as usize).collect();
    for positions in all {
        let columns: Vec<i64> = positions.iter().map(|x| *x as i64).collect();
        let legal = solver::legal(stack, spread as i64, &tracks, &columns);
        let told = library::try_numbers(text, spread, &library::numbers(0, separations, positions)[1..]);
        if told != if legal { 1 } else { 2 } {
            return Err(format!("trial at spread {} of {:?}, {:?}: found {}, due {}", spread, separations, positions, told, legal));
        }
        if legal {
            strips.iter_mut().zip(positions).for_each(|(strip, x)| _ = strip.insert(*x));
        }
    }
    Ok(())
}

impl Run {
    /// Three counts: of all stacks, of those with floors, of those with windows.
    fn count_strips(&mut self, stack: &Stack, counted: &[&'static str]) {
        self.count(counted[0]);
        if has_floors(stack) {
            self.count(counted[1]);
        }
        if has_held(stack) {
            self.count(counted[2]);
        }
    }

    fn strips_by_trial(&mut self, stack: &Stack, text: &[u8], spread: u32, total: u32) -> Checked {
        let k = stack.channels.len();
        let (lists, all) = (with_sum(k, total), within(&stack.lengths, spread));
        if lists.len() * all.len() > MOST_PLACEMENTS {
            self.count("positions by trial, too many placements");
            return Ok(());
        }
        let mut strips = vec![BTreeSet::new(); k + 1];
        for separations in &lists {
            add_legal(stack, text, spread, separations, &all, &mut strips)?;
        }
        for (i, counted) in [(k, &MET[..3]), (0, &MET[3..6])] {
            if has_gap(&strips[i]) {
                return Err(format!("strip {} at spread {} with total {}: positions {:?}", i, spread, total, strips[i]));
            }
            if strips[i].len() > 1 {
                self.count_strips(stack, counted);
            }
        }
        strips[1..k].iter().filter(|positions| has_gap(positions)).for_each(|_| self.count_strips(stack, &MET[6..]));
        Ok(())
    }
}

/// So many small stacks, each with its least total in a spread, one more and two more.
pub fn compare(run: &mut Run, count: u64) {
    for _ in 0..count {
        let (stack, spread) = small(&mut run.random);
        let text = run.random.text(&stack);
        let least = solver::least_total(&stack, spread as i64, true) as u32;
        for total in least..=least + 2 {
            let checked = run.strips_by_trial(&stack, &text, spread, total);
            expect("positions by trial", &text, checked);
        }
    }
}
