//! What is counted of refused texts: the number, the kind of line, what is wrong there, and which faults of the same line come behind the one given.

use crate::library::Refusal;
use crate::reader;

/// What must have been met in a run of at least the usual counts.
pub const MET: [&str; 47] = [
    "damaged texts, refused 1",
    "damaged texts, refused 2",
    "damaged texts, refused 3",
    "damaged texts, refused 4",
    "damaged texts, refused 5",
    "damaged texts, refused 6",
    "damaged texts, refused 11",
    "damaged texts, refused 12",
    "damaged texts, refused 14",
    "refusal 2 of a GAP line",
    "refusal 2 of another line behind NETS",
    "refusal 3 of a GAP line's channel",
    "refusal 3 of a GAP line's floor",
    "refusal 6 of a GAP line",
    "refusal 11 of a STACK line, a field missing",
    "refusal 11 of a STACK line, a field extra",
    "refusal 11 of a PART line, the length missing",
    "refusal 11 of a PART line, a greatest position missing",
    "refusal 11 of a PART line, a field extra",
    "refusal 11 of a NETS line, odd terminals",
    "refusal 11 of a NETS line, odd terminals above 64",
    "refusal 11 of a GAP line, a field missing",
    "refusal 11 of a GAP line, a field extra",
    "refusal 12 of a STACK line",
    "refusal 12 of a PART line's length",
    "refusal 12 of a PART line's length before a window",
    "refusal 12 of a PART line's least position",
    "refusal 12 of a PART line's greatest position",
    "refusal 12 of a NETS line",
    "refusal 12 of a NETS line, past the 64th terminal",
    "refusal 12 of a GAP line's channel",
    "refusal 12 of a GAP line's floor",
    "refusal 2 before 11 in a line",
    "refusal 2 before 12 in a line",
    "refusal 2 before 11 and 12 in a line",
    "refusal 2 before 11 in an unended line",
    "refusal 11 before 12 in a line",
    "refusal 12 before another in a line",
    "refusal 12 before 3 in a line",
    "refusal 12 before 5 further left",
    "refusal 12 before 6 further left",
    "refusal 12 before 3 in a GAP line",
    "refusal 12 before 4 in a PART line",
    "refusal 12 before 14 in a PART line",
    "refusal 4 before 14 in a PART line",
    "refusal 14 before another in a later line",
    "another refusal before 14 in a later line",
];

/// A text refused with this number: the first of MET are in this order.
fn numbered(number: u32) -> &'static str {
    let place = [1, 2, 3, 4, 5, 6, 11, 12, 14].iter().position(|n| *n == number);
    MET[place.expect("a number for a fault of the text")]
}

/// The word due at a line. A refusal behind the first line says that the first is good, so that k is at byte 6.
fn due_word(text: &[u8], line: usize) -> &'static str {
    if line == 1 {
        return "STACK";
    }
    let k = (text[6] - b'0') as usize;
    if line <= k + 2 {
        "PART"
    } else if line <= 2 * k + 2 {
        "NETS"
    } else {
        "GAP"
    }
}

/// The value of a number of up to four digits that is written as it is to be.
fn value(field: &[u8]) -> Option<u32> {
    let value = std::str::from_utf8(field).ok()?.parse::<u32>().ok()?;
    (value < 10_000 && value.to_string().as_bytes() == field).then_some(value)
}

/// What is wrong in a line of a kind, with the fields that it has.
fn kind(r: Refusal, due: &str, fields: &[&[u8]]) -> Option<&'static str> {
    let missing = r.2 as usize > fields.len();
    Some(match (r.0, due) {
        (2, "GAP") if fields[0] == b"GAP" => "refusal 2 of a GAP line",
        (2, "GAP") => "refusal 2 of another line behind NETS",
        (3, "GAP") if r.2 == 2 => "refusal 3 of a GAP line's channel",
        (3, "GAP") => "refusal 3 of a GAP line's floor",
        (6, "GAP") => "refusal 6 of a GAP line",
        (11, "STACK") if missing => "refusal 11 of a STACK line, a field missing",
        (11, "STACK") => "refusal 11 of a STACK line, a field extra",
        (11, "PART") if r.2 == 2 => "refusal 11 of a PART line, the length missing",
        (11, "PART") if missing => "refusal 11 of a PART line, a greatest position missing",
        (11, "PART") => "refusal 11 of a PART line, a field extra",
        (11, "NETS") if r.2 > 66 => "refusal 11 of a NETS line, odd terminals above 64",
        (11, "NETS") => "refusal 11 of a NETS line, odd terminals",
        (11, _) if missing => "refusal 11 of a GAP line, a field missing",
        (11, _) => "refusal 11 of a GAP line, a field extra",
        (12, "STACK") => "refusal 12 of a STACK line",
        (12, "PART") if r.2 == 3 => "refusal 12 of a PART line's least position",
        (12, "PART") if r.2 == 4 => "refusal 12 of a PART line's greatest position",
        (12, "PART") if fields.len() == 4 => "refusal 12 of a PART line's length before a window",
        (12, "PART") => "refusal 12 of a PART line's length",
        (12, "NETS") if r.2 > 65 => "refusal 12 of a NETS line, past the 64th terminal",
        (12, "NETS") => "refusal 12 of a NETS line",
        (12, _) if r.2 == 2 => "refusal 12 of a GAP line's channel",
        (12, _) => "refusal 12 of a GAP line's floor",
        _ => return None,
    })
}

/// Faults that come behind a fault of the line as a whole or a wrong count of fields, in the same line.
fn behind_count(r: Refusal, due: &str, numbers: &[Option<u32>], unended: bool) -> Vec<&'static str> {
    let wrong_count = match due {
        "NETS" => numbers.len() % 2 == 1,
        "GAP" => numbers.len() != 2,
        "PART" => numbers.len() != 1 && numbers.len() != 3,
        _ => numbers.len() != 1,
    };
    let mut all = match (r.0, wrong_count, numbers.contains(&None)) {
        (2, true, true) => vec!["refusal 2 before 11 and 12 in a line"],
        (2, true, _) => vec!["refusal 2 before 11 in a line"],
        (2, _, true) => vec!["refusal 2 before 12 in a line"],
        (11, _, true) => vec!["refusal 11 before 12 in a line"],
        _ => Vec::new(),
    };
    if r.0 == 2 && wrong_count && unended {
        all.push("refusal 2 before 11 in an unended line");
    }
    all
}

/// Faults that come behind an ill-formed number, the first of its line, in the same line.
fn behind_number(place: usize, due: &str, numbers: &[Option<u32>]) -> Vec<&'static str> {
    let mut all = Vec::new();
    if numbers[place + 1..].contains(&None) {
        all.push("refusal 12 before another in a line");
    }
    if due == "GAP" && (numbers[0].is_some_and(|channel| channel == 0 || channel > 8) || numbers[1].is_some_and(|floor| floor > 64)) {
        all.push("refusal 12 before 3 in a GAP line");
    }
    if due == "PART" && numbers[0].is_some_and(|length| length == 0 || length > 1000) {
        all.push("refusal 12 before 4 in a PART line");
    }
    if due == "PART" && is_inverted(numbers) {
        all.push("refusal 12 before 14 in a PART line");
    }
    if due == "NETS" {
        if numbers.len() > 64 {
            all.push("refusal 12 before 3 in a line");
        }
        if numbers[..place].iter().any(|v| *v > Some(1000)) {
            all.push("refusal 12 before 5 further left");
        }
        // All further left are well-formed.
        if numbers[..place].windows(3).any(|w| w[2] <= w[0]) {
            all.push("refusal 12 before 6 further left");
        }
    }
    all
}

/// Whether these are a length, a least position and a lesser greatest one, the last two well-formed.
fn is_inverted(numbers: &[Option<u32>]) -> bool {
    matches!(numbers, [_, Some(least), Some(greatest)] if least > greatest)
}

/// The numbers of a line, none for those that are ill-formed.
fn numbers_in(line: &[u8]) -> Vec<Option<u32>> {
    line.split(|b| *b == b'\t').skip(1).map(value).collect()
}

/// A refusal as 14 where another line is at fault too, behind it, or a refusal where 14 is.
fn in_later_lines(text: &[u8], r: Refusal) -> Option<&'static str> {
    let mut lines: Vec<&[u8]> = text.split(|b| *b == b'\n').collect();
    let at = r.1 as usize - 1;
    if r.0 == 14 {
        lines[at] = b"PART\t1000";
        return reader::read(&lines.join(&b'\n')).is_err().then_some("refusal 14 before another in a later line");
    }
    let is_part = |line: &&&[u8]| line.starts_with(b"PART\t");
    let behind = lines.iter().skip(at + 1).filter(is_part).any(|line| is_inverted(&numbers_in(line)));
    behind.then_some("another refusal before 14 in a later line")
}

/// All that is counted of a refused text.
pub fn met(text: &[u8], r: Refusal) -> Vec<&'static str> {
    let mut all = vec![numbered(r.0)];
    if r.1 == 0 {
        return all;
    }
    all.extend(in_later_lines(text, r));
    let due = due_word(text, r.1 as usize);
    let mut rest = text.split(|b| *b == b'\n').skip(r.1 as usize - 1);
    let line = rest.next().unwrap_or_default();
    let unended = rest.next().is_none();
    let fields: Vec<&[u8]> = line.split(|b| *b == b'\t').collect();
    let numbers = numbers_in(line);
    all.extend(kind(r, due, &fields));
    match r.0 {
        4 if is_inverted(&numbers) => all.push("refusal 4 before 14 in a PART line"),
        12 => all.extend(behind_number(r.2 as usize - 2, due, &numbers)),
        _ if !line.is_empty() => all.extend(behind_count(r, due, &numbers, unended && line.starts_with(due.as_bytes()))),
        _ => (),
    }
    all
}
