//! The page of a channel written for speed in plain Rust: line by line from the bottom, each a copy of where paths go straight up, with this
//! track's runs drawn over it. It shares no code with reference/.

use super::solver::{finish, placement, read, Refusal, PAIRS};

const COLUMNS: usize = 64;
/// The number's three places and a space.
const BEFORE: usize = 4;
const WIDTH: usize = BEFORE + COLUMNS + 1;

type Line = [u8; WIDTH];

/// Puts the number of a track below 100 before a line.
fn number(line: &mut Line, track: usize) {
    let tens = if track < 10 { b' ' } else { b'0' + (track / 10) as u8 };
    line[..BEFORE].copy_from_slice(&[b' ', tens, b'0' + (track % 10) as u8, b' ']);
}

struct Drawing {
    /// By pair: where its path is below the track, and where it ends.
    at: [u8; PAIRS],
    upto: [u8; PAIRS],
    /// By pair: its lower column less its number, which never falls from pair to pair.
    levels: [u8; PAIRS],
    /// By pair: the first and the last pair of its level.
    first: [u8; PAIRS],
    last: [u8; PAIRS],
    /// By track above the lower edge's, as many as pairs, the only ones with runs: the paths that run right there, and left.
    right: [u32; PAIRS],
    left: [u32; PAIRS],
    /// The line of a track without runs.
    uprights: Line,
}

impl Drawing {
    fn new(lower: &[u8], upper: &[u8]) -> Drawing {
        let m = lower.len();
        let mut uprights = [b'.'; WIDTH];
        uprights[WIDTH - 1] = b'\n';
        let none = [0; PAIRS];
        let mut new =
            Drawing { at: none, upto: none, levels: none, first: none, last: none, right: [0; PAIRS], left: [0; PAIRS], uprights };
        for j in 0..m {
            new.at[j] = lower[j];
            new.upto[j] = upper[j];
            new.levels[j] = lower[j] - j as u8;
            new.first[j] = if j > 0 && new.levels[j] == new.levels[j - 1] { new.first[j - 1] } else { j as u8 };
            new.uprights[BEFORE + lower[j] as usize] = b'|';
        }
        for j in (0..m).rev() {
            new.last[j] = if j + 1 < m && new.levels[j] == new.levels[j + 1] { new.last[j + 1] } else { j as u8 };
            if lower[j] < upper[j] {
                new.right[new.last[j] as usize - j] |= 1 << j;
            } else if lower[j] > upper[j] {
                new.left[j - new.first[j] as usize] |= 1 << j;
            }
        }
        new
    }

    /// Draws the run of a path to a column on this line, and sets where it goes up.
    fn run(&mut self, line: &mut Line, j: usize, next: u8) {
        let (at, next) = (BEFORE + self.at[j] as usize, BEFORE + next as usize);
        line[at] = b'+';
        line[next] = b'+';
        let between = at.min(next) + 1..at.max(next);
        if !between.is_empty() {
            line[between].fill(b'-');
        }
        self.uprights[at] = b'.';
        self.uprights[next] = b'|';
        self.at[j] = (next - BEFORE) as u8;
    }

    /// Draws the runs on a track, counted from 0 above the lower edge's: each ends at the path's last column, or where the next pair further, or back, that is
    /// not passed yet makes it rise.
    fn runs(&mut self, line: &mut Line, track: usize, m: usize) {
        let mut right = self.right[track];
        while right != 0 {
            let j = right.trailing_zeros() as usize;
            right &= right - 1;
            let (other, upto) = (j + track + 1, self.upto[j]);
            if other < m && self.levels[other] + (j as u8) < upto {
                self.run(line, j, self.levels[other] + j as u8);
                self.right[self.last[other] as usize - j] |= 1 << j;
            } else {
                self.run(line, j, upto);
            }
        }
        let mut left = self.left[track];
        while left != 0 {
            let j = left.trailing_zeros() as usize;
            left &= left - 1;
            let (other, upto) = (j.wrapping_sub(track + 1), self.upto[j]);
            if other < m && self.levels[other] + (j as u8) > upto {
                self.run(line, j, self.levels[other] + j as u8);
                self.left[j - self.first[other] as usize] |= 1 << j;
            } else {
                self.run(line, j, upto);
            }
        }
    }

    /// A line for each track, the highest first.
    fn draw(&mut self, lines: &mut [Line], lower: &[u8], upper: &[u8]) {
        for (track, line) in lines.iter_mut().rev().enumerate() {
            number(&mut self.uprights, track);
            *line = self.uprights;
            if (1..=lower.len()).contains(&track) {
                self.runs(line, track - 1, lower.len());
            }
        }
        let t = lines.len() - 1;
        for (from, upto) in lower.iter().zip(upper) {
            lines[t][BEFORE + *from as usize] = b'o';
            lines[0][BEFORE + *upto as usize] = b'o';
        }
    }
}

fn write_page(text: &[u8], spread: u32, channel: u32, out: &mut [u8]) -> Result<usize, Refusal> {
    let stack = read(text)?;
    if !(1..=stack.k as u32).contains(&channel) {
        return Err((3, 0, 0));
    }
    let placement = placement(&stack, spread)?;
    if spread >= COLUMNS as u32 {
        return Err((9, 0, 0));
    }
    let i = channel as usize - 1;
    let page = out.get_mut(..WIDTH * (placement.separations[i] + 1)).ok_or((8, 0, 0))?;
    let columns = |terminals: [i16; PAIRS], strip: usize| terminals.map(|c| (placement.positions[strip] + c) as u8);
    let (lower, upper) = (columns(stack.lower[i], i), columns(stack.upper[i], i + 1));
    let (lower, upper) = (&lower[..stack.counts[i]], &upper[..stack.counts[i]]);
    Drawing::new(lower, upper).draw(page.as_chunks_mut().0, lower, upper);
    Ok(page.len())
}

/// Writes the page of a channel, from 1, and zeros behind it, or only zeros; the page's length.
pub fn page(text: &[u8], spread: u32, channel: u32, out: &mut [u8]) -> Result<usize, Refusal> {
    finish(write_page(text, spread, channel, out), out)
}
