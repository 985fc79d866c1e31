//! The page of a channel, by document 02, P1: each path point by point, the arms of its points, a line for each track.
//! The lower edge's track has no runs (P4), and with a floor (P2) there may be tracks above the runs: there paths go straight up.
//! What P1 says of the paths is looked at for every page; where it does not hold, the program ends with words.

use crate::reader::{Refusal, Stack};
use crate::solver::{within_spread, Answer};

/// Columns 0 to 63 are shown.
const COLUMNS: usize = 64;

/// Column and track.
type Point = (i64, i64);

/// The refusal for the channel or the spread, in the order of P1.
pub fn refusal(stack: &Stack, spread: i64, channel: i64) -> Option<Refusal> {
    if channel < 1 || channel > stack.channels.len() as i64 {
        return Some((3, 0, 0));
    }
    if let Err(narrow) = within_spread(stack, spread) {
        return Some(narrow);
    }
    (spread >= COLUMNS as i64).then_some((9, 0, 0))
}

/// The track on which pair j's path goes right from column c.
fn track_right(lower: &[i64], j: usize, c: i64) -> i64 {
    (1..lower.len() - j).filter(|n| lower[j + n] - *n as i64 <= c).count() as i64
}

/// The track on which pair j's path goes left from column c.
fn track_left(lower: &[i64], j: usize, c: i64) -> i64 {
    (1..=j).filter(|n| lower[j - n] + *n as i64 >= c).count() as i64
}

/// The points from the last one, upright, to a track.
fn upright(path: &mut Vec<Point>, track: i64) {
    let (c, mut at) = path[path.len() - 1];
    while at != track {
        at += (track - at).signum();
        path.push((c, at));
    }
}

/// P1's path of pair j to a column of track t, by the columns of the lower edge.
fn former_path(lower: &[i64], j: usize, end: i64, t: i64) -> Vec<Point> {
    let mut path = vec![(lower[j], 0)];
    let step = (end - lower[j]).signum();
    let mut c = lower[j];
    while c != end {
        let track = if step > 0 { track_right(lower, j, c) } else { track_left(lower, j, c) };
        upright(&mut path, track);
        c += step;
        path.push((c, track));
    }
    upright(&mut path, t);
    path
}

/// The path by P4: from separation 1 on the former one of one track less, one track higher, with an upright step below.
fn path(lower: &[i64], j: usize, end: i64, t: i64) -> Vec<Point> {
    if t == 0 {
        return former_path(lower, j, end, t);
    }
    let higher = former_path(lower, j, end, t - 1).into_iter().map(|(c, track)| (c, track + 1));
    std::iter::once((lower[j], 0)).chain(higher).collect()
}

/// Document 01's rule for one path, with P4's tracks.
fn check_path(path: &[Point], from: i64, upto: i64, t: i64) {
    assert_eq!(path.first(), Some(&(from, 0)), "a path begins elsewhere");
    assert_eq!(path.last(), Some(&(upto, t)), "a path ends elsewhere");
    assert!(path.iter().all(|p| 0 <= p.1 && p.1 <= t), "a path leaves the tracks: {:?}", path);
    for step in path.windows(2) {
        let (across, along) = ((step[1].0 - step[0].0).abs(), (step[1].1 - step[0].1).abs());
        assert_eq!(across + along, 1, "no unit step: {:?}", step);
        assert!(across == 0 || 0 < step[0].1 && step[0].1 < t, "a horizontal step along an edge: {:?}", step);
    }
}

/// The paths of a channel in a placement, each by the rule and within the spread.
fn paths(stack: &Stack, answer: &Answer, spread: i64, channel: usize) -> Vec<Vec<Point>> {
    let pairs = &stack.channels[channel - 1];
    let t = answer.separations[channel - 1] as i64;
    let lower: Vec<i64> = pairs.iter().map(|p| answer.positions[channel - 1] + p.0).collect();
    let upper: Vec<i64> = pairs.iter().map(|p| answer.positions[channel] + p.1).collect();
    let all: Vec<Vec<Point>> = (0..pairs.len()).map(|j| path(&lower, j, upper[j], t)).collect();
    for (j, path) in all.iter().enumerate() {
        check_path(path, lower[j], upper[j], t);
        assert!(path.iter().all(|p| 0 <= p.0 && p.0 <= spread), "a path leaves the spread: {:?}", path);
    }
    all
}

/// The arms of a point: left, right, up, down.
type Arms = [bool; 4];

fn character(arms: Arms) -> char {
    match (arms, arms.iter().filter(|a| **a).count()) {
        ([true, true, false, false], _) => '-',
        ([false, false, true, true], _) => '|',
        (_, 0 | 1) => 'o',
        (_, 2) => '+',
        _ => '#',
    }
}

/// Which arm leads from a point to the next.
fn arm(from: Point, to: Point) -> usize {
    [(-1, 0), (1, 0), (0, 1), (0, -1)].iter().position(|d| *d == (to.0 - from.0, to.1 - from.1)).expect("a unit step")
}

/// The arms of every point on a path, by track and column.
fn drawn(paths: &[Vec<Point>], t: usize) -> Vec<[Option<Arms>; COLUMNS]> {
    let mut all = vec![[None; COLUMNS]; t + 1];
    for path in paths {
        for &(c, track) in path {
            let before = all[track as usize][c as usize].replace([false; 4]);
            assert_eq!(before, None, "two paths share a point, or one visits it twice: {:?}", (c, track));
        }
        for step in path.windows(2) {
            for (from, to) in [(step[0], step[1]), (step[1], step[0])] {
                all[from.1 as usize][from.0 as usize].as_mut().unwrap()[arm(from, to)] = true;
            }
        }
    }
    all
}

/// The page of a channel, from 1, in the answer for a spread up to 63.
pub fn page(stack: &Stack, answer: &Answer, spread: i64, channel: usize) -> String {
    let paths = paths(stack, answer, spread, channel);
    let mut page = String::new();
    for (track, points) in drawn(&paths, answer.separations[channel - 1]).iter().enumerate().rev() {
        let line: String = points.iter().map(|p| p.map_or('.', character)).collect();
        page += &format!("{:>3} {}\n", track, line);
    }
    assert!(!page.contains('#'), "a point with three arms or four:\n{}", page);
    page
}
