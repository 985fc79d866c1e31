//! Whether a channel can be drawn, by a search over paths on the grid: document 01's rule with P4's tracks. L, R and P1's tracks have no part in it.
//! Every channel within small bounds is searched and set beside the condition with L and R, and beside a search for paths that stay inside the spread.

use crate::channel::{feasible, formerly_feasible, Pair};

/// Points of a grid, the one of column c and track v as bit v * columns + c. A single point is a set, too.
type Points = u128;

/// Larger grids are not searched.
const MOST_POINTS: usize = 120;

struct Grid {
    columns: usize,
    all: Points,
    /// The points from which a horizontal step to the left is allowed, and to the right.
    left: Points,
    right: Points,
    /// By pair: where its path begins and where it ends.
    ends: Vec<(Points, Points)>,
}

impl Grid {
    /// The grid of a channel, where the lower strip is at 0, with so many columns beyond the outermost terminals on each side; None if it is too large.
    fn new(pairs: &[Pair], t: usize, offset: i64, margin: i64) -> Option<Grid> {
        let ends: Vec<(i64, i64)> = pairs.iter().map(|p| (p.0, p.1 + offset)).collect();
        let first = ends.iter().map(|e| e.0.min(e.1)).min()? - margin;
        let columns = (ends.iter().map(|e| e.0.max(e.1)).max()? + margin - first + 1) as usize;
        if columns.checked_mul(t.checked_add(1)?)? > MOST_POINTS {
            return None;
        }
        let point = |track: usize, c: usize| 1 << (track * columns + c);
        let track = |v: usize| (0..columns).map(|c| point(v, c)).sum::<Points>();
        let runs: Points = (1..t).map(track).sum();
        let edge = |c: usize| (0..=t).map(|v| point(v, c)).sum::<Points>();
        Some(Grid {
            columns,
            all: (0..=t).map(track).sum(),
            left: runs & !edge(0),
            right: runs & !edge(columns - 1),
            ends: ends.iter().map(|e| (point(0, (e.0 - first) as usize), point(t, (e.1 - first) as usize))).collect(),
        })
    }

    fn column(&self, point: Points) -> usize {
        point.trailing_zeros() as usize % self.columns
    }

    /// The points one step from these.
    fn beside(&self, points: Points) -> Points {
        let along = (points & self.left) >> 1 | (points & self.right) << 1;
        (along | points >> self.columns | points << self.columns) & self.all
    }

    /// Whether a chain of steps over points that are not taken leads from a point to another.
    fn reaches(&self, from: Points, to: Points, taken: Points) -> bool {
        let mut reached = from;
        loop {
            let more = reached | self.beside(reached) & (!taken | to);
            if more == reached {
                return reached & to != 0;
            }
            reached = more;
        }
    }

    /// Whether the pairs from j on can be given paths over points that are not taken, where pair j's has its own points so far and goes on from the last. The
    /// ends of all pairs are taken. A path that comes beside itself could be cut short there, over fewer points: such paths are not tried. Nor are those that
    /// cut a pair's ends off from each other.
    fn goes_on(&self, j: usize, at: Points, own: Points, taken: Points) -> bool {
        let (_, end) = self.ends[j];
        if at == end {
            return self.begins(j + 1, taken);
        }
        if !self.reaches(at, end, taken) || self.ends[j + 1..].iter().any(|e| !self.reaches(e.0, e.1, taken)) {
            return false;
        }
        let mut left = self.beside(at) & (!taken | end);
        while left != 0 {
            // Up first where the end is further right, else left first: in this order room is soon left for the other pairs.
            let next = if self.column(end) > self.column(at) { 1 << (127 - left.leading_zeros()) } else { left & left.wrapping_neg() };
            left &= !next;
            if self.beside(next) & own & !at == 0 && self.goes_on(j, next, own | next, taken | next) {
                return true;
            }
        }
        false
    }

    fn begins(&self, j: usize, taken: Points) -> bool {
        self.ends.get(j).map_or(true, |e| self.goes_on(j, e.0, e.0, taken))
    }
}

/// Whether the pairs can be given paths, no point shared, with so many columns beyond the outermost terminals on each side; None if the grid is too large.
fn drawable_with(pairs: &[Pair], t: usize, offset: i64, margin: i64) -> Option<bool> {
    if pairs.is_empty() {
        return Some(true);
    }
    let grid = Grid::new(pairs, t, offset, margin)?;
    Some(grid.begins(0, grid.ends.iter().fold(0, |taken, e| taken | e.0 | e.1)))
}

/// So many columns beyond the outermost terminals on each side do as well as any number of them: a piece of a path that goes out there comes back on another of
/// the tracks 1 to t - 1, so there are at most (t - 1) / 2 such pieces; no two cross, so each can turn back in the first column beyond those between its two
/// tracks.
fn margin(t: usize) -> i64 {
    t.saturating_sub(1) as i64 / 2
}

/// Whether the pairs can be given paths in any columns.
pub fn drawable(pairs: &[Pair], t: usize, offset: i64) -> Option<bool> {
    drawable_with(pairs, t, offset, margin(t))
}

/// Whether they can be given paths between the outermost terminals. Where both strips lie within a spread so do their terminals, and such paths stay inside it.
pub fn drawable_inside(pairs: &[Pair], t: usize, offset: i64) -> Option<bool> {
    drawable_with(pairs, t, offset, 0)
}

/// The bounds of the comparison: up to so many pairs, terminals from 0 to this, separations up to two above the count of pairs, offsets up to this to each
/// side. Strips of that length touch up to an offset of the last terminal.
const PAIRS: usize = 4;
const LAST_TERMINAL: i64 = 5;
const FURTHEST: i64 = LAST_TERMINAL + 2;

/// What is counted of each channel, separation and offset; where it is drawable; and where it is not but was feasible before P4.
const ALL: &str = "channels searched for paths";
const DRAWABLE: &str = "channels searched, drawable";
const FORMERLY: &str = "channels searched, not drawable but allowed by the former rule";

/// The same answer with and without columns beyond the outermost terminals, where such columns are searched at all: from a separation of 3 on.
const DRAWABLE_INSIDE: &str = "channels searched, drawable inside the spread as with columns beyond";
const NOT_DRAWABLE_INSIDE: &str = "channels searched, not drawable inside the spread nor with columns beyond";

/// What must have been met: the last three of these, and both answers at separations 0, 1 and the count of pairs; at one more every channel is drawable.
pub const MET: [&str; 10] = [
    FORMERLY,
    DRAWABLE_INSIDE,
    NOT_DRAWABLE_INSIDE,
    "channels searched, drawable at 0",
    "channels searched, not drawable at 0",
    "channels searched, drawable at 1",
    "channels searched, not drawable at 1",
    "channels searched, drawable at the count of pairs",
    "channels searched, not drawable at the count of pairs",
    "channels searched, drawable at one more than the pairs",
];

/// Every choice of m rising terminals.
fn all_terminals(m: usize) -> Vec<Vec<i64>> {
    let chosen = |set: i64| (0..=LAST_TERMINAL).filter(|c| set >> c & 1 == 1).collect();
    (0..2 << LAST_TERMINAL).map(chosen).filter(|terminals: &Vec<i64>| terminals.len() == m).collect()
}

/// Every channel of m pairs.
fn all_channels(m: usize) -> Vec<Vec<Pair>> {
    let (lower, upper) = (all_terminals(m), all_terminals(m));
    let over = |p: &Vec<i64>| upper.iter().map(|q| p.iter().copied().zip(q.iter().copied()).collect()).collect::<Vec<_>>();
    lower.iter().flat_map(over).collect()
}

/// The search beside the condition and beside the search inside the spread, for one channel, separation and offset.
fn compare_one(pairs: &[Pair], t: usize, offset: i64, count: &mut impl FnMut(&'static str)) -> Result<(), String> {
    let found = drawable(pairs, t, offset);
    if found != Some(feasible(pairs, t, offset)) {
        return Err(format!("pairs {:?}, separation {}, offset {}: drawable by search: {:?}", pairs, t, offset, found));
    }
    let beyond = !pairs.is_empty() && margin(t) > 0;
    if beyond && drawable_inside(pairs, t, offset) != found {
        return Err(format!("pairs {:?}, separation {}, offset {}: not as inside the spread: {:?}", pairs, t, offset, found));
    }
    let found = found == Some(true);
    if beyond {
        count(if found { DRAWABLE_INSIDE } else { NOT_DRAWABLE_INSIDE });
    }
    count(ALL);
    if found {
        count(DRAWABLE);
    } else if formerly_feasible(pairs, t, offset) {
        count(FORMERLY);
    }
    let m = pairs.len();
    for (n, at) in [0, 1, m, m + 1].into_iter().enumerate() {
        if m > 0 && t == at {
            count(MET[3 + 2 * n + !found as usize]);
        }
    }
    Ok(())
}

/// Every channel within the bounds; the first difference.
pub fn compare(mut count: impl FnMut(&'static str)) -> Result<(), String> {
    for m in 0..=PAIRS {
        for pairs in all_channels(m) {
            for t in 0..=m + 2 {
                (-FURTHEST..=FURTHEST).try_for_each(|offset| compare_one(&pairs, t, offset, &mut count))?;
            }
        }
    }
    Ok(())
}
