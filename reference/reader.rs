//! A stack's text, read by document 01, "Lines and tabs" and "Sent back at the counter", and document 02, P2, P5 and P7, and written.

use crate::channel::Pair;

/// The least and the greatest position allowed.
pub type Window = (i64, i64);

#[derive(Clone, Debug, PartialEq)]
pub struct Stack {
    pub lengths: Vec<i64>,
    /// By strip, none where it is free.
    pub windows: Vec<Option<Window>>,
    pub channels: Vec<Vec<Pair>>,
    /// By channel, 0 without a `GAP` line.
    pub floors: Vec<usize>,
}

/// Number, line and field.
pub type Refusal = (u32, u32, u32);

/// A line's bytes without the line feed, and whether there is one.
pub type Line = (Vec<u8>, bool);

/// Refused as overlong above 8,192 bytes.
pub fn within_limit(text: &[u8]) -> Result<(), Refusal> {
    if text.len() > 8192 {
        return Err((1, 0, 0));
    }
    Ok(())
}

fn number(field: &[u8]) -> Option<i64> {
    let plain = field.iter().all(|b| b.is_ascii_digit());
    let zero_first = field.len() > 1 && field[0] == b'0';
    if !plain || zero_first || field.is_empty() || field.len() > 4 {
        return None;
    }
    std::str::from_utf8(field).unwrap().parse().ok()
}

/// Where so many fields are present, the first that is missing or extra by the counts allowed, which rise; none where the count is one of them.
fn wrong_field(present: usize, allowed: impl Iterator<Item = usize>) -> Option<usize> {
    let mut greatest = 0;
    for count in allowed {
        if count == present {
            return None;
        }
        if count > present {
            return Some(present + 1);
        }
        greatest = count;
    }
    Some(greatest + 1)
}

/// The numbers of line `at`, from 1, which is to begin with a word and have one of the counts of fields, the word's among them. Its layout is refused for the
/// line as a whole, then for the count of fields, then for each number from the left.
pub fn numbers(lines: &[Line], at: usize, word: &str, counts: impl Iterator<Item = usize>) -> Result<Vec<i64>, Refusal> {
    let line = at as u32;
    let (bytes, ended) = lines.get(at - 1).ok_or((2, line, 0))?;
    let fields: Vec<&[u8]> = bytes.split(|b| *b == 9).collect();
    if !*ended || fields[0] != word.as_bytes() {
        return Err((2, line, 0));
    }
    if let Some(field) = wrong_field(fields.len(), counts) {
        return Err((11, line, field as u32));
    }
    (2..).zip(&fields[1..]).map(|(n, field)| number(field).ok_or((12, line, n))).collect()
}

pub fn split_lines(text: &[u8]) -> Vec<Line> {
    let mut lines = Vec::new();
    let mut current = Vec::new();
    for &b in text {
        if b == 10 {
            lines.push((std::mem::take(&mut current), true));
        } else {
            current.push(b);
        }
    }
    if !current.is_empty() {
        lines.push((current, false));
    }
    lines
}

/// A strip's length, in field 2 of a line.
pub fn length(value: i64, line: u32) -> Result<i64, Refusal> {
    if value < 1 || value > 1000 {
        return Err((4, line, 2));
    }
    Ok(value)
}

/// The window in fields 3 and 4 of a line, by what is behind its length: two numbers or none.
fn window(values: &[i64], line: u32) -> Result<Option<Window>, Refusal> {
    match values {
        [least, greatest] if least > greatest => Err((14, line, 4)),
        [least, greatest] => Ok(Some((*least, *greatest))),
        _ => Ok(None),
    }
}

/// The pairs of a channel between strips of these lengths, by its terminals, of which there is an even number: from field 2 of a line on.
pub fn nets(values: &[i64], lower: i64, upper: i64, line: u32) -> Result<Vec<Pair>, Refusal> {
    if values.len() > 64 {
        return Err((3, line, 66));
    }
    for (n, &v) in values.iter().enumerate() {
        let field = n as u32 + 2;
        let end = if n % 2 == 0 { lower } else { upper };
        if v > end {
            return Err((5, line, field));
        }
        if n >= 2 && v <= values[n - 2] {
            return Err((6, line, field));
        }
    }
    Ok(values.chunks(2).map(|c| (c[0], c[1])).collect())
}

/// The floors of k channels, by the lines behind the last `NETS`.
fn gaps(lines: &[Line], k: usize) -> Result<Vec<usize>, Refusal> {
    let mut floors = vec![0; k];
    let mut before = 0;
    for at in 2 * k + 3..=lines.len() {
        let gap = numbers(lines, at, "GAP", [3].into_iter())?;
        let (line, channel, floor) = (at as u32, gap[0], gap[1]);
        if channel < 1 || channel > k as i64 {
            return Err((3, line, 2));
        }
        if floor > 64 {
            return Err((3, line, 3));
        }
        if channel <= before {
            return Err((6, line, 2));
        }
        before = channel;
        floors[channel as usize - 1] = floor as usize;
    }
    Ok(floors)
}

pub fn read(text: &[u8]) -> Result<Stack, Refusal> {
    within_limit(text)?;
    let lines = split_lines(text);
    let head = numbers(&lines, 1, "STACK", [2].into_iter())?;
    if head[0] < 1 || head[0] > 8 {
        return Err((3, 1, 2));
    }
    let k = head[0] as usize;
    let mut stack = Stack { lengths: Vec::new(), windows: Vec::new(), channels: Vec::new(), floors: Vec::new() };
    for at in 2..=k + 2 {
        let part = numbers(&lines, at, "PART", [2, 4].into_iter())?;
        stack.lengths.push(length(part[0], at as u32)?);
        stack.windows.push(window(&part[1..], at as u32)?);
    }
    for c in 0..k {
        let at = k + 3 + c;
        // The word and pairs of terminals, as many as there are: more than 32 are another fault.
        let values = numbers(&lines, at, "NETS", (1..).step_by(2))?;
        stack.channels.push(nets(&values, stack.lengths[c], stack.lengths[c + 1], at as u32)?);
    }
    stack.floors = gaps(&lines, k)?;
    Ok(stack)
}

/// A line of a word and numbers.
pub fn line(word: &str, numbers: &[i64]) -> String {
    let fields: String = numbers.iter().map(|n| format!("\t{}", n)).collect();
    format!("{}{}\n", word, fields)
}

/// A channel's terminals in the order of a `NETS` line.
pub fn terminals(channel: &[Pair]) -> Vec<i64> {
    channel.iter().flat_map(|(p, q)| [*p, *q]).collect()
}

/// The text of a stack without `GAP` lines.
pub fn text(stack: &Stack) -> String {
    let mut text = line("STACK", &[stack.channels.len() as i64]);
    for (length, window) in stack.lengths.iter().zip(&stack.windows) {
        text += &match window {
            Some((least, greatest)) => line("PART", &[*length, *least, *greatest]),
            None => line("PART", &[*length]),
        };
    }
    for channel in &stack.channels {
        text += &line("NETS", &terminals(channel));
    }
    text
}
