//! When a channel can be wired: document 01's formulas on signed numbers, with the shift of document 02, P4.

pub type Pair = (i64, i64);

/// A condition on a channel's pairs, separation and offset.
pub type Condition<'a> = &'a dyn Fn(&[Pair], usize, i64) -> bool;

/// Document 01's L(t), or None where it sets no limit.
pub fn left_limit(pairs: &[Pair], t: usize) -> Option<i64> {
    (t..pairs.len()).map(|j| pairs[j - t].0 + t as i64 - pairs[j].1).max()
}

/// Document 01's R(t), or None where it sets no limit.
pub fn right_limit(pairs: &[Pair], t: usize) -> Option<i64> {
    (0..pairs.len().saturating_sub(t)).map(|j| pairs[j + t].0 - t as i64 - pairs[j].1).min()
}

/// The condition before P4: document 01's at t itself.
pub fn formerly_feasible(pairs: &[Pair], t: usize, offset: i64) -> bool {
    left_limit(pairs, t).map_or(true, |l| l <= offset) && right_limit(pairs, t).map_or(true, |r| offset <= r)
}

/// The separation at which the former condition decides by P4: one less from 1 on. An empty channel's condition is the same at all.
fn former(t: usize) -> usize {
    t.saturating_sub(1)
}

/// The least and the greatest feasible offset, or None where every offset is feasible: from one separation above the count of pairs on, or without pairs.
pub fn limits(pairs: &[Pair], t: usize) -> Option<(i64, i64)> {
    left_limit(pairs, former(t)).zip(right_limit(pairs, former(t)))
}

pub fn feasible(pairs: &[Pair], t: usize, offset: i64) -> bool {
    formerly_feasible(pairs, former(t), offset)
}
