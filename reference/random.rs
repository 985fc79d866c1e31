//! Random stacks, their texts and totals, each from a seed. Half of the stacks have floors, and half have windows, whether they have floors or not.

use crate::channel::Pair;
use crate::reader::{self, Stack, Window};
use crate::solver::free_total;

/// The greatest position that can be written.
const LAST_POSITION: i64 = 9999;

/// How the strips of a stack are held: near the left; so, with greatest positions anywhere beyond; or anywhere.
#[derive(Clone, Copy, PartialEq)]
enum Held {
    Near,
    Beyond,
    Anywhere,
}

/// SplitMix64.
pub struct Random(pub u64);

impl Random {
    pub fn next(&mut self) -> u64 {
        self.0 = self.0.wrapping_add(0x9e3779b97f4a7c15);
        let mut z = self.0;
        z = (z ^ (z >> 30)).wrapping_mul(0xbf58476d1ce4e5b9);
        z = (z ^ (z >> 27)).wrapping_mul(0x94d049bb133111eb);
        z ^ (z >> 31)
    }

    /// From 0 to below n.
    pub fn below(&mut self, n: usize) -> usize {
        (self.next() % n as u64) as usize
    }

    /// From a to b inclusive.
    pub fn between(&mut self, a: i64, b: i64) -> i64 {
        a + self.below((b - a + 1) as usize) as i64
    }

    pub fn chance(&mut self, one_in: usize) -> bool {
        self.below(one_in) == 0
    }

    /// m rising terminals from 0 to length: anywhere, or bunched in a short part of the edge.
    fn terminals(&mut self, m: usize, length: i64) -> Vec<i64> {
        let tight = (m as i64 - 1 + self.between(0, 3)).clamp(m as i64 - 1, length);
        let (from, upto) = match self.below(5) {
            0 => (0, tight),
            1 => (length - tight, length),
            2 => {
                let from = self.between(0, length - tight);
                (from, from + tight)
            }
            _ => (0, length),
        };
        self.rising(m, from, upto)
    }

    /// m rising terminals from one column to another, or as many as there are.
    pub fn rising(&mut self, m: usize, from: i64, upto: i64) -> Vec<i64> {
        let mut left: Vec<i64> = (from..=upto).collect();
        while left.len() > m {
            left.remove(self.below(left.len()));
        }
        left
    }

    /// A channel between strips of these lengths, of up to so many pairs.
    pub fn channel(&mut self, lower: i64, upper: i64, most: usize) -> Vec<Pair> {
        let most = most.min(lower as usize + 1).min(upper as usize + 1);
        let m = if self.chance(8) { 0 } else { self.between(0, most as i64) as usize };
        if m == 0 {
            return Vec::new();
        }
        let p = self.terminals(m, lower);
        let q = self.terminals(m, upper);
        p.into_iter().zip(q).collect()
    }

    /// A stack of k channels, strips up to a length, and up to so many pairs in each channel. Windows near the left begin within one length more.
    pub fn stack(&mut self, k: usize, longest: i64, pairs: usize) -> Stack {
        let first = self.between(1, longest);
        let style = self.below(6);
        let length = |random: &mut Random| match style {
            0 => first,
            1 if random.chance(2) => 1,
            2 => random.between((longest - 3).max(1), longest),
            _ => random.between(1, longest),
        };
        let lengths: Vec<i64> = (0..=k).map(|_| length(self)).collect();
        let channels = (0..k).map(|i| self.channel(lengths[i], lengths[i + 1], pairs)).collect();
        self.limited(lengths, channels, 2 * longest, true)
    }

    /// A floor for a channel of m pairs: small, 1 the most often, or below half their count; unless it is to be low, also below their count or about one more,
    /// from where on every offset is feasible, the greatest, or any.
    fn floor(&mut self, m: usize, low: bool) -> usize {
        let floor = match self.below(if low { 2 } else { 7 }) {
            0 => [0, 1, 1, 2][self.below(4)],
            1 => self.below(1 + m / 2),
            2 => self.below(1 + m),
            3 | 4 => (m + self.below(5)).saturating_sub(1),
            5 => 64,
            _ => self.below(65),
        };
        floor.min(64)
    }

    /// Floors of channels: in one, in some, in each, or the same in each. One at least is not 0.
    fn floors(&mut self, channels: &[Vec<Pair>]) -> Vec<usize> {
        let (style, one, low) = (self.below(4), self.below(channels.len()), self.chance(2));
        let equal = self.floor(channels[one].len(), low);
        let mut floors = vec![0; channels.len()];
        for (i, floor) in floors.iter_mut().enumerate() {
            *floor = match style {
                0 if i != one => 0,
                1 if self.chance(2) => 0,
                2 => equal,
                _ => self.floor(channels[i].len(), low),
            };
        }
        floors[one] = floors[one].max(1);
        floors
    }

    /// A window that begins at a position up to this: of one position, of some, or up to where it may end.
    fn window(&mut self, last: i64, held: Held) -> Window {
        let (last, end) = match held {
            Held::Near => (last, last + 4),
            Held::Beyond => (last, LAST_POSITION),
            Held::Anywhere => (LAST_POSITION, LAST_POSITION),
        };
        let least = match self.below(4) {
            0 => 0,
            1 => last,
            _ => self.between(0, last),
        };
        let greatest = match self.below(4) {
            0 => least,
            1 => (least + self.between(0, 5)).min(end),
            2 => end,
            _ => self.between(least, end),
        };
        (least, greatest)
    }

    /// Windows of strips: of one, of some, of each, or the same of each, all held alike. Near the left a strip lies within a spread. One strip at least is held.
    fn windows(&mut self, lengths: &[i64], spread: i64, far: bool) -> Vec<Option<Window>> {
        let held = [Held::Near, Held::Near, Held::Beyond, Held::Anywhere][self.below(if far { 4 } else { 3 })];
        let (style, one) = (self.below(4), self.below(lengths.len()));
        let equal = self.window(spread - lengths.iter().max().unwrap(), held);
        let mut windows = vec![None; lengths.len()];
        for (i, window) in windows.iter_mut().enumerate() {
            *window = match style {
                0 if i != one => None,
                1 if i != one && self.chance(2) => None,
                2 => Some(equal),
                _ => Some(self.window(spread - lengths[i], held)),
            };
        }
        windows
    }

    /// The stack of these strips and channels, in half of the cases with floors, in half with windows: those near the left begin where the strip lies within a
    /// spread, and if there may be such, others anywhere.
    pub fn limited(&mut self, lengths: Vec<i64>, channels: Vec<Vec<Pair>>, spread: i64, far: bool) -> Stack {
        let floors = if self.chance(2) { self.floors(&channels) } else { vec![0; channels.len()] };
        let windows = if self.chance(2) { self.windows(&lengths, spread, far) } else { vec![None; lengths.len()] };
        Stack { lengths, windows, channels, floors }
    }

    /// Totals to be stated, where this is the least: about it, about the sum of the separations that are feasible at every offset, anywhere, and the greatest.
    pub fn totals(&mut self, stack: &Stack, least: u32) -> Vec<u32> {
        let free = free_total(stack) as u32;
        let mut all: Vec<u32> = (least.saturating_sub(2)..=least + 3).chain(free.saturating_sub(1)..=free + 1).collect();
        let far = self.next() as u32;
        all.extend([0, far >> self.below(24), far, u32::MAX]);
        all.sort();
        all.dedup();
        all
    }

    /// The text of a stack; floors of 0 are left out, or now and then some of them are written.
    pub fn text(&mut self, stack: &Stack) -> Vec<u8> {
        let mut text = reader::text(stack);
        let zeros = self.chance(4);
        for (i, floor) in stack.floors.iter().enumerate() {
            if *floor > 0 || zeros && self.chance(2) {
                text += &reader::line("GAP", &[i as i64 + 1, *floor as i64]);
            }
        }
        text.into_bytes()
    }
}
