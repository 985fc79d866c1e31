//! Damage done to a stack's text, one kind at a time.

use crate::random::Random;

pub const KINDS: [&str; 40] = [
    "byte changed",
    "byte dropped",
    "byte doubled",
    "byte 0, 13, 32 or 255",
    "line moved",
    "line dropped",
    "line doubled",
    "line from elsewhere",
    "field emptied",
    "field dropped",
    "field doubled",
    "number changed",
    "length changed",
    "terminal changed",
    "leading zero",
    "five digits",
    "crowded",
    "cut short",
    "run on",
    "about 8,192 bytes",
    "fields added",
    "fields dropped",
    "ill-formed number",
    "several faults in one line",
    "NETS: several faults",
    "PART: window changed",
    "PART: window with a field less or more",
    "PART: window with an ill-formed number",
    "PART: least position above the greatest",
    "PART: several faults",
    "PART: least position above the greatest, and other damage",
    "GAP: another word",
    "GAP: field emptied, dropped or doubled",
    "GAP: ill-formed number",
    "GAP: channel or floor changed",
    "GAP: channel that does not rise",
    "GAP: moved up",
    "GAP: unended",
    "GAP: a line behind it",
    "GAP: several faults",
];

/// So many of them, from the first, are for lines of any words.
pub const OF_ANY_LINES: usize = 20;

const BYTES: &[u8] = b"0123456789\t\n\r -+.,/:STACKPARTNETSGAPstackgapROWTABLE\0\x0b\x7f\x80\xff";
const ODD_BYTES: [u8; 4] = [0, 13, 32, 255];
const NUMBERS: [&str; 16] = ["0", "1", "2", "8", "9", "10", "31", "32", "33", "64", "65", "99", "999", "1000", "1001", "9999"];
const ILL_FORMED: [&str; 18] =
    ["", "00", "01", "0000", "00000", "10000", "65537", "4294967297", "+1", "-1", " 1", "1 ", "x", "1x", "1.0", "\0", "1\r", "/"];
const LINES: [&str; 11] = [
    "\n",
    "STACK\t1\n",
    "PART\t4\n",
    "PART\t4\t1\t3\n",
    "PART\n",
    "NETS\n",
    "NETS\t0\t0\n",
    "GAP\t1\t1\n",
    "GAP\n",
    "FIX\t1\tGAP\t1\t1\n",
    "ROW\t4\t0\t0\t0\n",
];
const WORDS: [&str; 10] = ["gap", "Gap", "GA", "GAPS", "GAQ", "GAP ", " GAP", "", "NETS", "FIX"];

fn lines(text: &[u8]) -> Vec<Vec<u8>> {
    text.split_inclusive(|b| *b == 10).map(|l| l.to_vec()).collect()
}

/// The text with one field of one line that begins with the word changed; a field behind the word, where there is one.
fn with_field(random: &mut Random, text: &[u8], word: &str, change: impl Fn(&mut Random, &mut Vec<Vec<u8>>, usize)) -> Vec<u8> {
    let mut all = lines(text);
    let such: Vec<usize> = (0..all.len()).filter(|i| all[*i].starts_with(word.as_bytes())).collect();
    if such.is_empty() {
        return text.to_vec();
    }
    let at = such[random.below(such.len())];
    let ended = all[at].last() == Some(&10);
    let bare = all[at].strip_suffix(b"\n").unwrap_or(&all[at]);
    let mut fields: Vec<Vec<u8>> = bare.split(|b| *b == 9).map(|f| f.to_vec()).collect();
    let field = if fields.len() > 1 && !random.chance(12) { 1 + random.below(fields.len() - 1) } else { 0 };
    change(random, &mut fields, field);
    all[at] = fields.join(&9);
    if ended {
        all[at].push(10);
    }
    all.concat()
}

/// A text whose length is near 8,192: behind an accepted one, or a long line, or one long field.
fn near_limit(random: &mut Random, text: &[u8]) -> Vec<u8> {
    let mut long = match random.below(4) {
        0 => text.to_vec(),
        1 => b"STACK\t1\nPART\t9\nPART\t9\nNETS".to_vec(),
        2 => b"STACK\t".to_vec(),
        _ => Vec::new(),
    };
    let length = match random.below(6) {
        0 => 8191,
        1 | 2 => 8192,
        3 | 4 => 8193,
        _ => 8180 + random.below(300),
    };
    let filling: &[u8] = [&b"\t0"[..], b"\n", b"1", b"\t1\t2", b"NETS\n", b"PART\t1\n", b"GAP\t1\t0\n", b"\0", b"\xff"][random.below(9)];
    while long.len() < length {
        long.extend(filling);
    }
    long.truncate(length);
    if random.chance(2) {
        long[length - 1] = 10;
    }
    long
}

/// The lines of a text; where it has no `GAP` lines, some are put behind it.
fn with_gaps(random: &mut Random, text: &[u8]) -> Vec<Vec<u8>> {
    let mut all = lines(text);
    let k = all.iter().filter(|l| l.starts_with(b"NETS")).count();
    if !all.iter().any(|l| l.starts_with(b"GAP")) {
        let first = 1 + random.below(k.max(1));
        let channels = (1..=k.max(1)).filter(|c| *c == first || random.chance(2)).collect::<Vec<_>>();
        all.extend(channels.iter().map(|c| format!("GAP\t{}\t{}\n", c, random.below(65)).into_bytes()));
    }
    all
}

/// A field that is no number: with a zero or a sign before it, of five digits, or one of the list.
fn ill_formed(random: &mut Random, fields: &mut [Vec<u8>], n: usize) {
    match random.below(6) {
        0 => fields[n].insert(0, b'0'),
        1 => fields[n].insert(0, [b'+', b'-', b' ', b'.'][random.below(4)]),
        2 => fields[n] = (10_000 + random.below(90_000)).to_string().into_bytes(),
        _ => fields[n] = ILL_FORMED[random.below(ILL_FORMED.len())].into(),
    }
}

/// A field to be added: a number in its range or beyond, or one that is ill-formed.
fn any_field(random: &mut Random) -> Vec<u8> {
    if random.chance(2) {
        return NUMBERS[random.below(NUMBERS.len())].into();
    }
    ILL_FORMED[random.below(ILL_FORMED.len())].into()
}

/// One to four fields added at a place behind the word or at the end; now and then as many as make about 64 terminals.
fn add_fields(random: &mut Random, fields: &mut Vec<Vec<u8>>, n: usize) {
    let place = if random.chance(2) { fields.len() } else { n.max(1) };
    let count = if random.chance(8) { 66 - fields.len().min(60) + random.below(4) } else { 1 + random.below(4) };
    let alike = any_field(random);
    for _ in 0..count {
        let field = if random.chance(4) { any_field(random) } else { alike.clone() };
        fields.insert(place, field);
    }
}

/// One to four fields behind the word dropped, or all, from a place on.
fn drop_fields(random: &mut Random, fields: &mut Vec<Vec<u8>>, n: usize) {
    let place = if random.chance(4) { 1 } else { n.max(1) };
    let count = if random.chance(4) { fields.len() } else { 1 + random.below(4) };
    fields.drain(place..fields.len().min(place + count));
}

/// An ill-formed number and one to three more faults in a line: numbers beyond their range or ill-formed, terminals that do not rise, a crowd, another count of
/// fields, another word.
fn several_faults(random: &mut Random, fields: &mut Vec<Vec<u8>>, n: usize) {
    ill_formed(random, fields, n);
    for _ in 0..1 + random.below(3) {
        let other = random.below(fields.len());
        match random.below(8) {
            0 | 1 => fields[other] = NUMBERS[random.below(NUMBERS.len())].into(),
            2 => fields[other] = fields[other.saturating_sub(2)].clone(),
            3 | 4 => ill_formed(random, fields, other),
            5 => add_fields(random, fields, other),
            6 => drop_fields(random, fields, other),
            _ if random.chance(2) => fields[0].push(b'S'),
            _ => fields.resize(65 + random.below(5), b"7".into()),
        }
    }
}

/// An ill-formed terminal, further left one beyond every strip or equal to the one before it on its edge, and in short lines or now and then 64 terminals or
/// more. Their number stays even.
fn ill_formed_terminals(random: &mut Random, fields: &mut Vec<Vec<u8>>, n: usize) {
    if fields.len() < 5 || random.chance(3) {
        fields.resize(65 + 2 * random.below(3), b"7".into());
    }
    let place = if random.chance(2) { fields.len() - 1 - random.below(4) } else { n.clamp(1, fields.len() - 1) };
    let left = 1 + random.below(place);
    fields[left] = if random.chance(2) { b"1001".into() } else { fields[left.saturating_sub(2).max(1)].clone() };
    ill_formed(random, fields, place);
}

/// The ends of a window: of one position or more, near the left or anywhere.
fn window(random: &mut Random) -> [i64; 2] {
    let last = [9, 60, 9999][random.below(3)];
    let least = random.between(0, last);
    [least, [least, random.between(least, last), 9999][random.below(3)]]
}

/// A window whose least position is above the greatest.
fn inverted(random: &mut Random) -> [i64; 2] {
    let last = [9, 60, 9998][random.below(3)];
    let greatest = random.between(0, last);
    [[greatest + 1, random.between(greatest + 1, last + 1), 9999][random.below(3)], greatest]
}

/// Writes a window into the fields of a `PART` line.
fn put_window(fields: &mut [Vec<u8>], window: [i64; 2]) {
    for (field, end) in fields[2..].iter_mut().zip(window) {
        *field = end.to_string().into_bytes();
    }
}

/// Two or three faults of a `PART` line with a window: its length, its window turned about, an ill-formed number.
fn several_in_part(random: &mut Random, fields: &mut [Vec<u8>]) {
    let (kept, number) = (random.below(4), 1 + random.below(3));
    for fault in (0..3).filter(|fault| *fault != kept) {
        match fault {
            0 => fields[1] = ["0", "1001", "9999"][random.below(3)].into(),
            1 => put_window(fields, inverted(random)),
            _ => ill_formed(random, fields, number),
        }
    }
}

/// The text with damage of one kind to a `PART` line, which gets a window where it has none.
fn part_done(random: &mut Random, text: &[u8], kind: &str) -> Vec<u8> {
    let new = with_field(random, text, "PART", |random, fields, _| {
        let (written, number) = (window(random), 1 + random.below(3));
        if fields.len() != 4 {
            fields.resize(4, b"4".into());
            put_window(fields, written);
        }
        match kind {
            "PART: window changed" => put_window(fields, written),
            "PART: window with a field less or more" if random.chance(2) => fields.truncate(1 + random.below(3)),
            "PART: window with a field less or more" => fields.extend(std::iter::repeat(b"9".to_vec()).take(1 + random.below(3))),
            "PART: window with an ill-formed number" => ill_formed(random, fields, number),
            "PART: several faults" => several_in_part(random, fields),
            _ => put_window(fields, inverted(random)),
        }
    });
    match kind {
        "PART: least position above the greatest, and other damage" => {
            let other = random.below(OF_ANY_LINES - 1);
            done(random, &new, other)
        }
        _ => new,
    }
}

/// The text with damage to the fields of a line: of each word as often, so that it gets `GAP` lines where it has none. Now and then it ends with that line,
/// which is unended.
fn fields_done(random: &mut Random, text: &[u8], change: impl Fn(&mut Random, &mut Vec<Vec<u8>>, usize)) -> Vec<u8> {
    let word = ["STACK", "PART", "NETS", "GAP"][random.below(4)];
    let whole = if word == "GAP" { with_gaps(random, text).concat() } else { text.to_vec() };
    let mut new = with_field(random, &whole, word, change);
    if random.chance(10) {
        let changed = new.iter().zip(&whole).position(|(new, old)| new != old).unwrap_or(0);
        let end = (changed..new.len()).find(|at| new[*at] == 10).unwrap_or(new.len());
        new.truncate(end);
    }
    new
}

/// A field of a `GAP` line with a channel or a floor at the end of its range, or beyond.
fn gap_number(random: &mut Random, fields: &mut [Vec<u8>], n: usize, k: usize) {
    let value = match n {
        1 => [0, 1, k, k + 1, 9, 10, 9999][random.below(7)],
        _ => [0, 1, 63, 64, 65, 66, 256, 9999][random.below(8)],
    };
    fields[n] = value.to_string().into_bytes();
}

fn other_fields(random: &mut Random, fields: &mut Vec<Vec<u8>>, n: usize) {
    match random.below(3) {
        0 => fields[n].clear(),
        1 => {
            fields.remove(n);
        }
        _ => fields.insert(n, fields[n].clone()),
    }
}

/// The text, which gets `GAP` lines where it has none, with damage of one kind to them.
fn gap_done(random: &mut Random, text: &[u8], kind: &str) -> Vec<u8> {
    let mut all = with_gaps(random, text);
    let whole = all.concat();
    let k = all.iter().filter(|l| l.starts_with(b"NETS")).count();
    let gaps: Vec<usize> = (0..all.len()).filter(|i| all[*i].starts_with(b"GAP")).collect();
    let (at, other) = (gaps[random.below(gaps.len())], gaps[random.below(gaps.len())]);
    match kind {
        "GAP: another word" => all[at] = [WORDS[random.below(WORDS.len())].as_bytes(), &all[at][3..]].concat(),
        "GAP: field emptied, dropped or doubled" => return with_field(random, &whole, "GAP", other_fields),
        "GAP: ill-formed number" => return with_field(random, &whole, "GAP", |random, fields, n| ill_formed(random, fields, n)),
        "GAP: channel or floor changed" => return with_field(random, &whole, "GAP", |random, fields, n| gap_number(random, fields, n, k)),
        // A line again, behind itself, behind a later one or before itself.
        "GAP: channel that does not rise" => all.insert(at + 1, all[other].clone()),
        "GAP: moved up" => {
            let moved = all.remove(at);
            all.insert(random.below(gaps[0] + 1), moved);
        }
        "GAP: unended" => {
            all.truncate(at + 1);
            all[at].pop();
        }
        "GAP: a line behind it" => all.insert(at + 1, LINES[random.below(LINES.len())].as_bytes().to_vec()),
        _ => {
            let mut text = whole;
            for _ in 0..2 + random.below(3) {
                let one = ["GAP: channel or floor changed", "GAP: channel that does not rise", "GAP: ill-formed number"][random.below(3)];
                text = gap_done(random, &text, one);
            }
            return text;
        }
    }
    all.concat()
}

/// The text with damage of one kind.
pub fn done(random: &mut Random, text: &[u8], kind: usize) -> Vec<u8> {
    if text.is_empty() {
        return Vec::new();
    }
    let mut new = text.to_vec();
    let mut all = lines(text);
    let at = random.below(text.len());
    let line = random.below(all.len());
    match KINDS[kind] {
        "byte changed" => new[at] = if random.chance(4) { random.below(256) as u8 } else { BYTES[random.below(BYTES.len())] },
        "byte dropped" => {
            new.remove(at);
        }
        "byte doubled" => new.insert(at, text[at]),
        "byte 0, 13, 32 or 255" => {
            let byte = ODD_BYTES[random.below(4)];
            if random.chance(2) {
                new[at] = byte;
            } else {
                // Before a tab or a line feed as often as anywhere.
                let place = (at..text.len()).find(|i| text[*i] < 11).filter(|_| random.chance(2)).unwrap_or(at);
                new.insert(place, byte);
            }
        }
        "line moved" => {
            let moved = all.remove(line);
            let place = random.below(all.len() + 1);
            all.insert(place, moved);
            new = all.concat();
        }
        "line dropped" => {
            all.remove(line);
            new = all.concat();
        }
        "line doubled" => {
            let again = all[line].clone();
            all.insert(line, again);
            new = all.concat();
        }
        "line from elsewhere" => {
            let other = LINES[random.below(LINES.len())].as_bytes().to_vec();
            if random.chance(2) {
                all[line] = other;
            } else {
                all.insert(line, other);
            }
            new = all.concat();
        }
        "field emptied" => new = with_field(random, text, "", |_, fields, n| fields[n].clear()),
        "field dropped" => {
            new = with_field(random, text, "", |_, fields, n| {
                fields.remove(n);
            })
        }
        "field doubled" => new = with_field(random, text, "", |_, fields, n| fields.insert(n, fields[n].clone())),
        "number changed" => {
            new = with_field(random, text, "", |random, fields, n| fields[n] = NUMBERS[random.below(NUMBERS.len())].as_bytes().to_vec())
        }
        "length changed" => {
            new = with_field(random, text, "PART", |random, fields, n| {
                let value = [0, 1, 1000, 1001, random.below(10000)][random.below(5)];
                fields[n] = value.to_string().into_bytes();
            })
        }
        "terminal changed" => {
            new = with_field(random, text, "NETS", |random, fields, n| {
                // About the terminal before it on its edge, or after it, or any in the line.
                let other = [n.saturating_sub(2), n + 2, random.below(fields.len())][random.below(3)];
                let value = fields.get(other).and_then(|f| std::str::from_utf8(f).ok()).and_then(|f| f.parse::<i64>().ok()).unwrap_or(7);
                fields[n] = (value + random.between(-1, 1)).max(0).to_string().into_bytes();
            })
        }
        "leading zero" => new = with_field(random, text, "", |_, fields, n| fields[n].insert(0, b'0')),
        "five digits" => {
            new = with_field(random, text, "", |random, fields, n| {
                let digits = 5 + random.below(3);
                while fields[n].len() < digits {
                    fields[n].push(b'0' + random.below(10) as u8);
                }
            })
        }
        "crowded" => {
            // From 31 to 35 pairs in a line, rising or not.
            let count = 2 * (31 + random.below(5)) - random.below(8) / 7;
            let step = random.below(8).min(1);
            let numbers: String = (0..count).map(|j| format!("\t{}", j / 2 * step)).collect();
            let place = (line..all.len()).find(|i| all[*i].starts_with(b"NETS")).unwrap_or(line);
            all[place] = format!("NETS{}\n", numbers).into_bytes();
            new = all.concat();
        }
        "cut short" => new.truncate(if random.chance(3) { text.len() - 1 } else { at }),
        "run on" => new.extend([&b"\n"[..], b"\t", b"0", b"NETS\n", b"\0", b"NETS\t0\t0\n", b"GAP\t1\t2\n", b"GAP\t1\t2"][random.below(8)]),
        "about 8,192 bytes" => new = near_limit(random, text),
        "fields added" => new = fields_done(random, text, add_fields),
        "fields dropped" => new = fields_done(random, text, drop_fields),
        "ill-formed number" => new = fields_done(random, text, |random, fields, n| ill_formed(random, fields, n)),
        "several faults in one line" => new = fields_done(random, text, several_faults),
        "NETS: several faults" => new = with_field(random, text, "NETS", ill_formed_terminals),
        kind if kind.starts_with("PART") => new = part_done(random, text, kind),
        kind => new = gap_done(random, text, kind),
    }
    new
}
