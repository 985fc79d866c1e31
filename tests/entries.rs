//! The entries of the proved library on texts whose answers are written out here, from documents 01 and 02. It stops at the first difference.

#[allow(dead_code)]
#[path = "../reference/channel.rs"]
mod channel;
mod library;
#[allow(dead_code)]
#[path = "../reference/reader.rs"]
mod reader;
#[allow(dead_code)]
#[path = "../reference/session.rs"]
mod session;
mod sessions;
#[allow(dead_code)]
#[path = "../reference/solver.rs"]
mod solver;
#[allow(dead_code)]
#[path = "../reference/specimens.rs"]
mod specimens;
#[path = "../reference/turn.rs"]
mod turn;
mod turned;
mod windows;

use library::{code, Refusal};

const A: &str = "STACK\t1\nPART\t4\nPART\t4\nNETS\t0\t2\t2\t4\n";

/// Enough for every table: the first line, and rows for totals from 0 to eight times 33 above the floors. Enough for every page: 65 lines.
const TABLE_BYTES: usize = 8 + 265 * 92;
const PAGE_BYTES: usize = 65 * 69;

fn fail(what: &str, text: &[u8], found: String, due: String) -> ! {
    println!("{}: found {}, due {}; the text:\n{}", what, found, due, text.escape_ascii());
    std::process::exit(1);
}

fn same<T: PartialEq + std::fmt::Debug>(what: &str, text: &[u8], found: T, due: T) {
    if found != due {
        fail(what, text, format!("{:?}", found), format!("{:?}", due));
    }
}

/// What a call with a space must tell and leave there, where this is to be written: zeros behind it, or in the whole space for a refusal and short space.
fn in_space<T: Clone + Default>(due: &Result<Vec<T>, Refusal>, told: u64, space: usize) -> (u64, Vec<T>) {
    let (told, mut left) = match due {
        Ok(all) if all.len() <= space => (told, all.clone()),
        Ok(_) => (code((8, 0, 0)), Vec::new()),
        Err(r) => (code(*r), Vec::new()),
    };
    left.resize(space, T::default());
    (told, left)
}

/// The table in a space of 255s: its code, and the space behind it.
fn table_in(text: &[u8], space: usize) -> (u64, Vec<u8>) {
    let mut output = vec![255; space];
    let told = library::write_table(text, &mut output);
    (told, output)
}

/// A table with zeros behind it in every longer space, and short space with zeros in every shorter one.
fn check_table(name: &str, text: &[u8], table: &str) {
    let length = table.len();
    let due = Ok(table.as_bytes().to_vec());
    for space in [0, 1, length - 1, length, length + 1, length + 100, TABLE_BYTES] {
        let due = in_space(&due, length as u64, space);
        same(&format!("{}, table in {} bytes", name, space), text, table_in(text, space), due);
    }
}

/// A page in a space of 255s: its code, and the space behind it.
fn page_in(text: &[u8], spread: u32, channel: u32, space: usize) -> (u64, Vec<u8>) {
    let mut output = vec![255; space];
    let told = library::write_page(text, spread, channel, &mut output);
    (told, output)
}

/// A page with zeros behind it in every longer space, and short space with zeros in every shorter one; or its refusal in every space.
fn check_page(name: &str, text: &str, spread: u32, channel: u32, due: Result<String, Refusal>) {
    let length = due.as_ref().map_or(69, |page| page.len());
    let due = due.map(String::into_bytes);
    for space in [0, 1, length - 1, length, length + 1, PAGE_BYTES, 5000] {
        let due = in_space(&due, length as u64, space);
        let what = format!("{}, page {} at {} in {} bytes", name, channel, spread, space);
        same(&what, text.as_bytes(), page_in(text.as_bytes(), spread, channel, space), due);
    }
}

/// A placement in a space of so many numbers, none of them zero before: its code, and the space behind it.
fn placed_in(space: usize, place: impl Fn(&mut [u32]) -> u64) -> (u64, Vec<u32>) {
    let mut output: Vec<u32> = (0..space as u32).map(|i| u32::MAX - i).collect();
    let told = place(&mut output);
    (told, output)
}

/// A placement with zeros behind it in every longer space, and short space with zeros in every shorter one; or its refusal in every space.
fn check_placed(what: &str, text: &[u8], due: Result<[u32; 18], Refusal>, place: impl Fn(&mut [u32]) -> u64) {
    let due = due.map(|numbers| numbers.to_vec());
    for space in [0, 1, 17, 18, 19, 40] {
        same(&format!("{}, in {} numbers", what, space), text, placed_in(space, &place), in_space(&due, 0, space));
    }
}

/// The placement for a stated total, or its refusal. A placement is legal by a trial.
fn check_place(name: &str, text: &[u8], spread: u32, total: u32, due: Result<[u32; 18], Refusal>) {
    let what = format!("{} at {}, placed with {}", name, spread, total);
    check_placed(&what, text, due, |output| library::place_in(text, spread, total, output));
    if let Ok(numbers) = due {
        same(&format!("{}, trial", what), text, library::try_numbers(text, spread, &numbers[1..]), 1);
        same(&format!("{}, the sum", what), text, numbers[1..9].iter().sum(), total);
    }
}

/// The least total, or the refusal; then 10 for totals below it.
fn check_total(name: &str, text: &[u8], spread: u32, due: Result<u32, Refusal>) {
    same(
        &format!("{} at {}, least total", name, spread),
        text,
        library::least_total(text, spread),
        due.map_or_else(code, |total| total as u64),
    );
    if let Ok(total @ 1..) = due {
        for below in [0, total / 2, total - 1] {
            check_place(name, text, spread, below, Err((10, 0, 0)));
        }
    }
}

/// A refusal of the total, and of the placement for every total.
fn check_refused_spread(name: &str, text: &[u8], spread: u32, due: Refusal) {
    check_total(name, text, spread, Err(due));
    for total in [0, 2, 1000, u32::MAX] {
        check_place(name, text, spread, total, Err(due));
    }
}

/// A refused text: every entry says so, with zeros in every other place.
fn check_refused(name: &str, text: &[u8], due: Refusal) {
    same(&format!("{}, the independent reader", name), text, reader::read(text).map(|_| ()), Err(due));
    for space in [0, 1, 50, 300] {
        same(&format!("{}, table in {} bytes", name, space), text, table_in(text, space), (code(due), vec![0; space]));
    }
    for spread in [0, 4, 1000, u32::MAX] {
        check_refused_spread(name, text, spread, due);
        same(&format!("{}, trial at {}", name, spread), text, library::try_placement(text, spread, &[0; 17]), code(due));
        for channel in [0, 1, 9] {
            let what = format!("{}, page {} at {}", name, channel, spread);
            same(&what, text, page_in(text, spread, channel, 70), (code(due), vec![0; 70]));
        }
    }
}

/// The least total at a spread, and its placement: separations, positions.
fn check_answer(name: &str, text: &str, spread: u32, total: u32, separations: &[u32], positions: &[u32]) {
    check_total(name, text.as_bytes(), spread, Ok(total));
    check_place(name, text.as_bytes(), spread, total, Ok(library::numbers(total, separations, positions)));
}

fn check_narrow(name: &str, text: &str, spread: u32) {
    check_refused_spread(name, text.as_bytes(), spread, (7, 0, 0));
}

/// A text of k channels without pairs between strips of one length.
fn bare(k: usize, length: u32) -> String {
    format!("STACK\t{}\n{}{}", k, format!("PART\t{}\n", length).repeat(k + 1), "NETS\n".repeat(k))
}

/// A line put in place of line n, from 1.
fn put_line(text: &[u8], n: usize, line: &[u8]) -> Vec<u8> {
    let mut lines: Vec<&[u8]> = text.split_inclusive(|b| *b == b'\n').collect();
    let line = [line, b"\n"].concat();
    lines[n - 1] = &line;
    lines.concat()
}

/// A line put in place of line n of A.
fn with_line(n: usize, line: &str) -> Vec<u8> {
    put_line(A.as_bytes(), n, line.as_bytes())
}

fn with_byte(n: usize, line: &str, byte: u8) -> Vec<u8> {
    let mut text = with_line(n, line);
    let at = text.iter().position(|b| *b == b'?').expect("a place for the byte");
    text[at] = byte;
    text
}

/// As many bytes as asked for: A with further lines behind it.
fn long_text(bytes: usize) -> Vec<u8> {
    let mut text = A.as_bytes().to_vec();
    text.resize(bytes, b'\n');
    text
}

/// `GAP` lines of channels from 1 on.
fn gaps(floors: &[u32]) -> String {
    floors.iter().enumerate().map(|(i, floor)| format!("GAP\t{}\t{}\n", i + 1, floor)).collect()
}

/// A text with its name and its refusal: number, line and field.
type Refused = (&'static str, Vec<u8>, Refusal);

/// Lines behind A, of one channel: the first is line 5. Spaces stand for tabs.
const BEHIND_A: [(&str, &str, Refusal); 43] = [
    ("another word", "GOP 1 1\n", (2, 5, 0)),
    ("lower case", "gap 1 1\n", (2, 5, 0)),
    ("a longer word", "GAPS 1 1\n", (2, 5, 0)),
    ("a shorter word", "GA 1 1\n", (2, 5, 0)),
    ("FIX", "FIX 4 NETS\n", (2, 5, 0)),
    ("GAP alone", "GAP\n", (11, 5, 2)),
    ("GAP with one number", "GAP 1\n", (11, 5, 3)),
    ("GAP with three numbers", "GAP 1 1 1\n", (11, 5, 4)),
    ("GAP with a tab behind", "GAP 1 1 \n", (11, 5, 4)),
    ("GAP with a tab before", " GAP 1 1\n", (2, 5, 0)),
    ("GAP with an empty channel", "GAP  1\n", (12, 5, 2)),
    ("GAP with an empty floor", "GAP 1 \n", (12, 5, 3)),
    ("GAP with two tabs", "GAP  \n", (12, 5, 2)),
    ("channel with a leading zero", "GAP 01 1\n", (12, 5, 2)),
    ("floor with a leading zero", "GAP 1 01\n", (12, 5, 3)),
    ("floor 00", "GAP 1 00\n", (12, 5, 3)),
    ("channel with five digits", "GAP 10000 1\n", (12, 5, 2)),
    ("floor with five digits", "GAP 1 10000\n", (12, 5, 3)),
    ("channel with a sign", "GAP +1 1\n", (12, 5, 2)),
    ("floor below 0", "GAP 1 -1\n", (12, 5, 3)),
    ("floor with a letter", "GAP 1 1x\n", (12, 5, 3)),
    ("two empty lines", "\n\n", (2, 5, 0)),
    ("unended GAP", "GAP 1 1", (2, 5, 0)),
    ("unended word", "GAP", (2, 5, 0)),
    ("channel 0", "GAP 0 1\n", (3, 5, 2)),
    ("channel 2 of 1", "GAP 2 1\n", (3, 5, 2)),
    ("channel 9,999", "GAP 9999 1\n", (3, 5, 2)),
    ("floor 65", "GAP 1 65\n", (3, 5, 3)),
    ("floor 9,999", "GAP 1 9999\n", (3, 5, 3)),
    ("channel before floor", "GAP 0 65\n", (3, 5, 2)),
    ("channel before floor", "GAP 2 9999\n", (3, 5, 2)),
    ("layout before channel", "GAP 0\n", (11, 5, 3)),
    ("layout before channel and floor", "GAP 0 065\n", (12, 5, 3)),
    ("unended before channel and floor", "GAP 2 65", (2, 5, 0)),
    ("equal channels", "GAP 1 1\nGAP 1 1\n", (6, 6, 2)),
    ("equal channels, floors 0", "GAP 1 0\nGAP 1 0\n", (6, 6, 2)),
    ("floor before equal channels", "GAP 1 1\nGAP 1 65\n", (3, 6, 3)),
    ("layout before equal channels", "GAP 1 1\nGAP 1\n", (11, 6, 3)),
    ("equal channels before a later floor", "GAP 1 1\nGAP 1 1\nGAP 1 65\n", (6, 6, 2)),
    ("floor before a later line", "GAP 1 65\nNETS\n", (3, 5, 3)),
    ("NETS behind GAP", "GAP 1 1\nNETS\n", (2, 6, 0)),
    ("an empty line behind GAP", "GAP 1 1\n\n", (2, 6, 0)),
    ("an unended GAP behind GAP", "GAP 1 1\nGAP 2 1", (2, 6, 0)),
];

/// Lines behind B, of two channels: the first is line 7. Spaces stand for tabs.
const BEHIND_B: [(&str, &str, Refusal); 13] = [
    ("channel 3 of 2", "GAP 3 1\n", (3, 7, 2)),
    ("falling channels", "GAP 2 1\nGAP 1 1\n", (6, 8, 2)),
    ("equal channels", "GAP 2 1\nGAP 2 2\n", (6, 8, 2)),
    ("channel 3 behind 1", "GAP 1 1\nGAP 3 1\n", (3, 8, 2)),
    ("channel 0 behind 2", "GAP 2 1\nGAP 0 1\n", (3, 8, 2)),
    ("floor before falling channels", "GAP 2 1\nGAP 1 65\n", (3, 8, 3)),
    ("channel before floor behind 2", "GAP 2 1\nGAP 3 65\n", (3, 8, 2)),
    ("floor of the second", "GAP 1 64\nGAP 2 65\n", (3, 8, 3)),
    ("a third that does not rise", "GAP 1 1\nGAP 2 1\nGAP 2 0\n", (6, 9, 2)),
    ("a third that is none", "GAP 1 1\nGAP 2 1\nGAP 3 0\n", (3, 9, 2)),
    ("another word as a third", "GAP 1 1\nGAP 2 1\nROW 4\n", (2, 9, 0)),
    ("layout before falling channels", "GAP 2\nGAP 1 1\n", (11, 7, 3)),
    ("falling channels before layout", "GAP 2 1\nGAP 1 1\nGAP\n", (6, 8, 2)),
];

/// Texts refused for a `GAP` line or where it stands, or before it for something else.
fn refused_gaps() -> Vec<Refused> {
    let b = specimens::tabbed(specimens::TABLES[1].1);
    let behind = |text: &str, lines: &str| [text.as_bytes(), specimens::tabbed(lines).as_bytes()].concat();
    let mut all = Vec::new();
    all.extend(BEHIND_A.map(|(name, lines, due)| (name, behind(A, lines), due)));
    all.extend(BEHIND_B.map(|(name, lines, due)| (name, behind(&b, lines), due)));
    for (name, text, due) in &specimens::TABLES[4..8] {
        let due = library::refusal_in(due).expect("a refusal");
        all.push((*name, behind(&specimens::tabbed(text), "GAP 0 65\nGAP\n"), due));
    }
    let eight = bare(8, 1) + &gaps(&[0; 8]);
    all.push(("a ninth GAP line, channel 9", behind(&eight, "GAP 9 0\n"), (3, 27, 2)));
    all.push(("a ninth GAP line, channel 8", behind(&eight, "GAP 8 0\n"), (6, 27, 2)));
    all.push(("eight GAP lines and another word", behind(&eight, "NETS\n"), (2, 27, 0)));
    all.push(("GAP for PART", with_line(3, "GAP\t1\t1"), (2, 3, 0)));
    all.push(("GAP for NETS", with_line(4, "GAP\t1\t1"), (2, 4, 0)));
    all.push(("GAP before NETS", with_line(4, "GAP\t1\t1\nNETS\t0\t2\t2\t4"), (2, 4, 0)));
    all.push(("GAP before each NETS", b.replace("NETS", "GAP\t1\t1\nNETS").into_bytes(), (2, 5, 0)));
    all.push(("GAP before the last NETS", bare(2, 4).replace("NETS\nNETS", "NETS\nGAP\t1\t1\nNETS").into_bytes(), (2, 6, 0)));
    let many = behind(A, &"GAP 1 0\n".repeat(1100));
    all.push(("8,192 bytes of GAP lines", many[..8192].to_vec(), (6, 6, 2)));
    all.push(("8,193 bytes of GAP lines", many[..8193].to_vec(), (1, 0, 0)));
    for (name, byte) in ODD_BYTES {
        for line in ["?GAP\t1\t1", "GAP?\t1\t1"] {
            all.push((name, with_byte(4, &format!("NETS\n{}", line), byte), (2, 5, 0)));
        }
        for (line, field) in [("GAP\t?\t1", 2), ("GAP\t1?\t1", 2), ("GAP\t1\t1?", 3)] {
            all.push((name, with_byte(4, &format!("NETS\n{}", line), byte), (12, 5, field)));
        }
    }
    all
}

const ODD_BYTES: [(&str, u8); 4] = [("byte 0", 0), ("byte 13", 13), ("byte 32", 32), ("byte 255", 255)];

/// Texts that document 01 refuses, with P5's numbers for their layout.
fn refused() -> Vec<Refused> {
    let mut all = vec![
        ("E: empty text", Vec::new(), (2, 1, 0)),
        ("F: length 0", with_line(2, "PART\t0"), (4, 2, 2)),
        ("G: overhang on the upper strip", with_line(4, "NETS\t0\t2\t2\t5"), (5, 4, 5)),
        ("H: crossing", with_line(4, "NETS\t0\t2\t0\t4"), (6, 4, 4)),
        ("33 pairs", specimens::tabbed(&specimens::pairs(33)).into_bytes(), (3, 4, 66)),
        ("33 pairs that cross", format!("STACK\t1\nPART\t40\nPART\t40\nNETS{}\n", "\t1\t1".repeat(33)).into_bytes(), (3, 4, 66)),
        ("length 1,001", with_line(3, "PART\t1001"), (4, 3, 2)),
        ("8,193 bytes", long_text(8193), (1, 0, 0)),
        ("100,000 bytes of 255", vec![255; 100_000], (1, 0, 0)),
        ("8,192 bytes with extra lines", long_text(8192), (2, 5, 0)),
        ("a lone line feed", b"\n".to_vec(), (2, 1, 0)),
        ("a lone zero byte", vec![0], (2, 1, 0)),
        ("a lone word", b"STACK".to_vec(), (2, 1, 0)),
        ("only the first line", b"STACK\t1\n".to_vec(), (2, 2, 0)),
        ("no channel", with_line(1, "STACK\t0"), (3, 1, 2)),
        ("nine channels", with_line(1, "STACK\t9"), (3, 1, 2)),
        ("9,999 channels", with_line(1, "STACK\t9999"), (3, 1, 2)),
        ("STACK in small letters", with_line(1, "stack\t1"), (2, 1, 0)),
        ("STACK with a letter more", with_line(1, "STACKS\t1"), (2, 1, 0)),
        ("STACK with a letter less", with_line(1, "STAC\t1"), (2, 1, 0)),
        ("STACK with a space", with_line(1, "STACK 1"), (2, 1, 0)),
        ("STACK with two numbers", with_line(1, "STACK\t1\t1"), (11, 1, 3)),
        ("STACK without a number", with_line(1, "STACK"), (11, 1, 2)),
        ("STACK with an empty field", with_line(1, "STACK\t"), (12, 1, 2)),
        ("STACK with a leading zero", with_line(1, "STACK\t01"), (12, 1, 2)),
        ("STACK with five digits", with_line(1, "STACK\t10000"), (12, 1, 2)),
        ("STACK with a sign", with_line(1, "STACK\t+1"), (12, 1, 2)),
        ("an empty line first", [b"\n", A.as_bytes()].concat(), (2, 1, 0)),
        ("PART for STACK", with_line(1, "PART\t1"), (2, 1, 0)),
        ("wrong word for PART", with_line(2, "PORT\t4"), (2, 2, 0)),
        ("NETS for PART", with_line(3, "NETS\t4"), (2, 3, 0)),
        ("PART without a number", with_line(2, "PART"), (11, 2, 2)),
        ("PART with an empty field", with_line(2, "PART\t"), (12, 2, 2)),
        ("PART with two numbers", with_line(3, "PART\t4\t4"), (11, 3, 4)),
        ("PART with a tab behind", with_line(2, "PART\t4\t"), (11, 2, 4)),
        ("PART with two tabs", with_line(2, "PART\t\t4"), (11, 2, 4)),
        ("PART with a leading zero", with_line(2, "PART\t04"), (12, 2, 2)),
        ("PART with 00", with_line(2, "PART\t00"), (12, 2, 2)),
        ("PART with five digits", with_line(3, "PART\t00004"), (12, 3, 2)),
        ("PART with 9,999", with_line(2, "PART\t9999"), (4, 2, 2)),
        ("an empty line for PART", with_line(3, ""), (2, 3, 0)),
        ("a PART line less", b"STACK\t1\nPART\t4\nNETS\t0\t2\t2\t4\n".to_vec(), (2, 3, 0)),
        ("wrong word for NETS", with_line(4, "NET\t0\t2\t2\t4"), (2, 4, 0)),
        ("NETS with an odd number of terminals", with_line(4, "NETS\t0\t2\t2"), (11, 4, 5)),
        ("NETS with a tab alone", with_line(4, "NETS\t"), (11, 4, 3)),
        ("NETS with an empty field", with_line(4, "NETS\t0\t\t2\t4"), (12, 4, 3)),
        ("NETS with a tab behind", with_line(4, "NETS\t0\t2\t2\t4\t"), (11, 4, 7)),
        ("NETS with a leading zero", with_line(4, "NETS\t0\t02\t2\t4"), (12, 4, 3)),
        ("NETS with five digits", with_line(4, "NETS\t0\t2\t2\t40000"), (12, 4, 5)),
        ("NETS: overhang on the lower strip", with_line(4, "NETS\t5\t2"), (5, 4, 2)),
        ("NETS: equal terminals below", with_line(4, "NETS\t0\t2\t0\t3"), (6, 4, 4)),
        ("NETS: equal terminals above", with_line(4, "NETS\t0\t2\t1\t2"), (6, 4, 5)),
        ("NETS: falling terminals above", with_line(4, "NETS\t0\t2\t1\t1"), (6, 4, 5)),
        ("no NETS line", b"STACK\t1\nPART\t4\nPART\t4\n".to_vec(), (2, 4, 0)),
        ("an extra line", [A.as_bytes(), b"NETS\n"].concat(), (2, 5, 0)),
        ("an extra empty line", [A.as_bytes(), b"\n"].concat(), (2, 5, 0)),
        ("an extra unended line", [A.as_bytes(), b"x"].concat(), (2, 5, 0)),
        ("unended NETS", A.as_bytes()[..A.len() - 1].to_vec(), (2, 4, 0)),
        ("unended PART", b"STACK\t1\nPART\t4\nPART\t4".to_vec(), (2, 3, 0)),
        ("unended STACK", b"STACK\t1".to_vec(), (2, 1, 0)),
        ("crossing at an earlier field than overhang", with_line(4, "NETS\t3\t2\t2\t1\t9\t3"), (6, 4, 4)),
        ("overhang and crossing of one field", with_line(4, "NETS\t0\t4\t9\t3"), (5, 4, 4)),
        ("crossing, then overhang", with_line(4, "NETS\t0\t2\t0\t9"), (6, 4, 4)),
        ("layout before overhang in a line", with_line(4, "NETS\t9\t9\t9"), (11, 4, 5)),
        ("length before a later layout", [&with_line(2, "PART\t0")[..A.len() - 5], b"x"].concat(), (4, 2, 2)),
        ("NETS fault before the extra line", [&with_line(4, "NETS\t0\t5")[..], b"NETS\n"].concat(), (5, 4, 3)),
        ("crowd before length", b"STACK\t9\nPART\t0\n".to_vec(), (3, 1, 2)),
        ("layout of STACK before crowd", b"STACK\t9\t1\n".to_vec(), (11, 1, 3)),
        ("fault of the second channel", b"STACK\t2\nPART\t4\nPART\t4\nPART\t2\nNETS\t0\t4\nNETS\t4\t3\n".to_vec(), (5, 6, 3)),
        ("eight channels, one PART less", format!("STACK\t8\n{}{}", "PART\t1\n".repeat(8), "NETS\n".repeat(8)).into_bytes(), (2, 10, 0)),
        ("eight channels, an extra line", (bare(8, 1) + "NETS\n").into_bytes(), (2, 19, 0)),
    ];
    for (name, byte) in ODD_BYTES {
        all.push((name, with_byte(1, "STACK\t1?", byte), (12, 1, 2)));
        all.push((name, with_byte(1, "STAC?\t1", byte), (2, 1, 0)));
        all.push((name, with_byte(2, "PART\t4?", byte), (12, 2, 2)));
        all.push((name, with_byte(3, "PAR?\t4", byte), (2, 3, 0)));
        all.push((name, with_byte(4, "NETS\t0\t2\t2\t?", byte), (12, 4, 5)));
        all.push((name, with_byte(4, "?NETS", byte), (2, 4, 0)));
    }
    all
}

/// B with floors and windows, an accepted text with a line of each kind: `STACK` is line 1, `PART` lines 2 to 4, of which 2 and 4 have windows, `NETS` 5 and
/// 6, `GAP` 7 and 8.
fn limited_b() -> Vec<u8> {
    let b = specimens::TABLES.iter().find(|s| s.0 == "B, floors 2 and 5, windows").expect("B with floors and windows");
    specimens::tabbed(b.1).into_bytes()
}

/// By word: numbers of fields that a line may not have, each with the first field that is missing or extra.
const WRONG_COUNTS: [(&str, &[(usize, u32)]); 4] = [
    ("STACK", &[(1, 2), (3, 3), (4, 3), (67, 3)]),
    ("PART", &[(1, 2), (3, 4), (5, 5), (6, 5), (67, 5)]),
    ("NETS", &[(2, 3), (4, 5), (6, 7), (64, 65), (66, 67), (68, 69), (2000, 2001)]),
    ("GAP", &[(1, 2), (2, 3), (4, 4), (5, 4), (68, 4)]),
];

/// Every line of B with floors and windows with every wrong count of fields: good numbers, empty fields and other ill-formed numbers behind the word.
fn refused_counts() -> Vec<Refused> {
    let text = limited_b();
    let mut all = Vec::new();
    for (n, line) in (1..).zip(text.split(|b| *b == b'\n')) {
        let counts = WRONG_COUNTS.iter().filter(|w| line.starts_with(w.0.as_bytes())).flat_map(|w| w.1.iter().map(|c| (w.0, c)));
        for (word, (fields, due)) in counts {
            for number in ["1", "", "x", "01"] {
                let line = word.to_string() + &format!("\t{}", number).repeat(fields - 1);
                all.push(("a wrong count of fields", put_line(&text, n, line.as_bytes()), (11, n as u32, *due)));
                if *fields == 1 {
                    break;
                }
            }
        }
    }
    all
}

/// Numbers that are ill-formed. 2^32 + 1 and 2^16 + 1 would be 1 if they were cut to 32 or 16 bits.
const ILL_FORMED: [(&str, &[u8]); 22] = [
    ("an empty number", b""),
    ("a leading zero", b"01"),
    ("00", b"00"),
    ("0000", b"0000"),
    ("five digits", b"10000"),
    ("five zeros", b"00000"),
    ("a plus", b"+1"),
    ("a minus", b"-1"),
    ("a space before", b" 1"),
    ("a space behind", b"1 "),
    ("a space alone", b" "),
    ("a letter", b"x"),
    ("a letter behind a digit", b"1x"),
    ("a point", b"1.0"),
    ("byte 0 alone", b"\0"),
    ("byte 0 behind", b"1\0"),
    ("byte 13 behind", b"1\r"),
    ("byte 255", b"1\xff"),
    ("2^32 + 1", b"4294967297"),
    ("2^16 + 1", b"65537"),
    ("the byte before the digits", b"/"),
    ("the byte behind the digits", b":"),
];

/// A line with each of its numbers ill-formed in every way: what is wrong, the number's field, and the line.
fn ill_formed_lines(line: &[u8]) -> Vec<(&'static str, u32, Vec<u8>)> {
    let fields: Vec<&[u8]> = line.split(|b| *b == b'\t').collect();
    let mut all = Vec::new();
    for place in 1..fields.len() {
        for (name, number) in ILL_FORMED {
            let mut fields = fields.clone();
            fields[place] = number;
            all.push((name, place as u32 + 1, fields.join(&b'\t')));
        }
    }
    all
}

/// Every number of B with floors and windows ill-formed in every way.
fn refused_numbers() -> Vec<Refused> {
    let text = limited_b();
    let mut all = Vec::new();
    for (n, line) in (1..).zip(text.split(|b| *b == b'\n')) {
        all.extend(ill_formed_lines(line).into_iter().map(|(name, field, line)| (name, put_line(&text, n, &line), (12, n as u32, field))));
    }
    all
}

/// So many terminals, the ill-formed fields among them, and the refusal's number and field.
const MANY_TERMINALS: [(usize, &[usize], u32, u32); 25] = [
    (1, &[], 11, 3),
    (1, &[2], 11, 3),
    (3, &[], 11, 5),
    (3, &[4], 11, 5),
    (63, &[], 11, 65),
    (63, &[64], 11, 65),
    (64, &[2], 12, 2),
    (64, &[33], 12, 33),
    (64, &[65], 12, 65),
    (65, &[], 11, 67),
    (65, &[2], 11, 67),
    (65, &[66], 11, 67),
    (66, &[], 3, 66),
    (66, &[2], 12, 2),
    (66, &[65], 12, 65),
    (66, &[66], 12, 66),
    (66, &[67], 12, 67),
    (67, &[], 11, 69),
    (67, &[67], 11, 69),
    (68, &[], 3, 66),
    (68, &[66, 69], 12, 66),
    (68, &[68, 69], 12, 68),
    (999, &[2], 11, 1001),
    (1000, &[1001], 12, 1001),
    (1000, &[], 3, 66),
];

/// Channels with about the greatest number of terminals, or more: first the count of fields, then the numbers, then the crowd. None is within its strip.
fn refused_terminals() -> Vec<Refused> {
    let mut all = Vec::new();
    for n in [5, 6] {
        for (terminals, ill_formed, number, field) in MANY_TERMINALS {
            let numbers = (2..terminals + 2).map(|field| if ill_formed.contains(&field) { "\t-" } else { "\t9" });
            let line = "NETS".to_string() + &numbers.collect::<String>();
            all.push(("many terminals", put_line(&limited_b(), n, line.as_bytes()), (number, n as u32, field)));
        }
    }
    all
}

/// Lines in place of some of B with floors and windows, by number. Spaces stand for tabs.
type Changes = &'static [(usize, &'static str)];

/// A line in place of one of B with floors and windows, with faults of layout and others at once. Spaces stand for tabs.
const IN_ONE_LINE: [(&str, usize, &str, Refusal); 59] = [
    ("word before count and number", 1, "STOCK x 2", (2, 1, 0)),
    ("word before count and number", 2, "PORT x x", (2, 2, 0)),
    ("word before count", 3, "PARTS", (2, 3, 0)),
    ("word before number and length", 4, "part 00", (2, 4, 0)),
    ("word before count and number", 5, "NET 0 x 2", (2, 5, 0)),
    ("word before count, number and crossing", 6, "NETZ 0 x 0", (2, 6, 0)),
    ("word before count", 7, "GAPS 1", (2, 7, 0)),
    ("word before number and floor", 8, "gap x 65", (2, 8, 0)),
    ("the word of another line before its count", 4, "NETS 0", (2, 4, 0)),
    ("the word of another line before its number", 5, "PART x", (2, 5, 0)),
    ("the word of another line before its count", 6, "GAP 1", (2, 6, 0)),
    ("a tab before the word", 1, " STACK 2", (2, 1, 0)),
    ("a tab before the word", 5, " NETS 0 2 2", (2, 5, 0)),
    ("a tab alone", 6, " ", (2, 6, 0)),
    ("a tab alone", 7, " ", (2, 7, 0)),
    ("a doubled tab", 1, "STACK  2", (11, 1, 3)),
    ("a doubled tab", 3, "PART  4", (11, 3, 4)),
    ("a doubled tab behind the word", 5, "NETS  0 2 2 4", (11, 5, 7)),
    ("a doubled tab in the middle", 6, "NETS 0 2  2 4", (11, 6, 7)),
    ("two doubled tabs", 5, "NETS 0  2  2 4", (12, 5, 3)),
    ("a doubled tab behind the word", 7, "GAP  1 2", (11, 7, 4)),
    ("a doubled tab in the middle", 8, "GAP 2  5", (11, 8, 4)),
    ("a tab behind", 1, "STACK 2 ", (11, 1, 3)),
    ("a tab behind", 4, "PART 4 ", (11, 4, 4)),
    ("a tab behind", 6, "NETS 0 2 2 4 ", (11, 6, 7)),
    ("two tabs behind", 6, "NETS 0 2 2 4  ", (12, 6, 6)),
    ("three tabs behind", 6, "NETS 0 2 2 4   ", (11, 6, 9)),
    ("two tabs alone", 5, "NETS  ", (12, 5, 2)),
    ("a tab behind", 7, "GAP 1 2 ", (11, 7, 4)),
    ("a tab for the floor", 7, "GAP 3 ", (12, 7, 3)),
    ("count before number and crowd", 1, "STACK 09 9", (11, 1, 3)),
    ("count before crowd", 1, "STACK 0 ", (11, 1, 3)),
    ("number before crowd", 1, "STACK 009", (12, 1, 2)),
    ("count before number and length", 2, "PART 0 x", (11, 2, 4)),
    ("count before length", 3, "PART 1001 4", (11, 3, 4)),
    ("number before length", 4, "PART 01001", (12, 4, 2)),
    ("number before length", 4, "PART 0x", (12, 4, 2)),
    ("count before overhang", 5, "NETS 9 2 2", (11, 5, 5)),
    ("count before crossing", 5, "NETS 0 2 0", (11, 5, 5)),
    ("count before number and overhang", 6, "NETS 9 x 2", (11, 6, 5)),
    ("number before overhang further left", 5, "NETS 9 2 x 4", (12, 5, 4)),
    ("number before overhang next to it", 6, "NETS 0 2 9 x", (12, 6, 5)),
    ("number before overhang further right", 6, "NETS x 9 2 4", (12, 6, 2)),
    ("number before crossing further left", 5, "NETS 0 2 0 x", (12, 5, 5)),
    ("number before crossing and overhang", 6, "NETS 2 0 2 0 9 x", (12, 6, 7)),
    ("number before crossing further right", 6, "NETS 0 x 0 4", (12, 6, 3)),
    ("the left one of two numbers", 5, "NETS 0 x 2 y", (12, 5, 3)),
    ("the left one of two numbers", 6, "NETS x 2 2 ", (12, 6, 2)),
    ("the left one of four numbers", 6, "NETS 00 01 -1 x", (12, 6, 2)),
    ("the left one of two numbers", 7, "GAP 01 01", (12, 7, 2)),
    ("count before channel", 7, "GAP 3", (11, 7, 3)),
    ("count before channel, floor and number", 7, "GAP 0 65 x", (11, 7, 4)),
    ("number before channel", 7, "GAP 0 x", (12, 7, 3)),
    ("number before floor", 7, "GAP x 65", (12, 7, 2)),
    ("count before channel behind another", 8, "GAP 0", (11, 8, 3)),
    ("count before crossing and floor", 8, "GAP 1 65 1", (11, 8, 4)),
    ("number before crossing", 8, "GAP 1 ", (12, 8, 3)),
    ("number before crossing and floor", 8, "GAP 1 065", (12, 8, 3)),
    ("number before channel behind another", 8, "GAP 0 05", (12, 8, 3)),
];

/// Faults of several lines at once: that of the first line is given.
const IN_SEVERAL_LINES: [(&str, Changes, Refusal); 38] = [
    ("12 before 2", &[(1, "STACK 02"), (2, "PORT 4")], (12, 1, 2)),
    ("12 before 2", &[(2, "PART x"), (3, "PORT 4")], (12, 2, 2)),
    ("12 before 2", &[(4, "PART "), (5, "NET")], (12, 4, 2)),
    ("12 before 2", &[(5, "NETS 0 x"), (6, "")], (12, 5, 3)),
    ("12 before 2", &[(7, "GAP 1 x"), (8, "ROW 4")], (12, 7, 3)),
    ("11 before 2", &[(1, "STACK"), (2, "PORT 4")], (11, 1, 2)),
    ("11 before 2", &[(3, "PART 4 4"), (4, "NETS")], (11, 3, 4)),
    ("11 before 2", &[(6, "NETS 0"), (7, "NETS")], (11, 6, 3)),
    ("11 before 2", &[(7, "GAP"), (8, "GOP 2 5")], (11, 7, 2)),
    ("2 before 11", &[(1, "STACKS"), (2, "PART")], (2, 1, 0)),
    ("2 before 11", &[(5, "NET"), (6, "NETS 0")], (2, 5, 0)),
    ("2 before 12", &[(2, "PORT 4"), (3, "PART x")], (2, 2, 0)),
    ("2 before 12", &[(6, "PART 4"), (7, "GAP x 1")], (2, 6, 0)),
    ("11 before 12", &[(2, "PART"), (3, "PART x")], (11, 2, 2)),
    ("12 before 11", &[(2, "PART x"), (3, "PART")], (12, 2, 2)),
    ("12 before 11", &[(5, "NETS 0 2 2 04"), (6, "NETS 0")], (12, 5, 5)),
    ("11 before 11", &[(5, "NETS 0 2 2"), (6, "NETS 0")], (11, 5, 5)),
    ("12 before 12", &[(6, "NETS 0 2 x 4"), (7, "GAP x 1")], (12, 6, 4)),
    ("11 before 3, 4, 5 and 6", &[(1, "STACK 9 9"), (2, "PART 0"), (5, "NETS 9 9"), (6, "NETS 0 0 0 0")], (11, 1, 3)),
    ("11 before 4", &[(2, "PART 4 4"), (3, "PART 0")], (11, 2, 4)),
    ("12 before 4", &[(2, "PART x"), (3, "PART 0")], (12, 2, 2)),
    ("11 before 5", &[(5, "NETS 0"), (6, "NETS 9 9")], (11, 5, 3)),
    ("12 before 6", &[(5, "NETS 0 x"), (6, "NETS 0 2 0 4")], (12, 5, 3)),
    ("11 before 3", &[(7, "GAP 1"), (8, "GAP 3 65")], (11, 7, 3)),
    ("3 before 11", &[(1, "STACK 9"), (2, "PART")], (3, 1, 2)),
    ("3 before 12", &[(1, "STACK 0"), (2, "PART x")], (3, 1, 2)),
    ("4 before 11", &[(2, "PART 0"), (3, "PART")], (4, 2, 2)),
    ("4 before 12", &[(3, "PART 1001"), (4, "PART x")], (4, 3, 2)),
    ("4 before 11 of another word", &[(4, "PART 0"), (5, "NETS 0")], (4, 4, 2)),
    ("5 before 11", &[(5, "NETS 0 5"), (6, "NETS 0")], (5, 5, 3)),
    ("5 before 12", &[(6, "NETS 5 0"), (7, "GAP 1 x")], (5, 6, 2)),
    ("6 before 11", &[(5, "NETS 0 2 0 4"), (6, "NETS 0 2 2")], (6, 5, 4)),
    ("3 of a channel before 11", &[(7, "GAP 3 1"), (8, "GAP")], (3, 7, 2)),
    ("3 of a floor before 12", &[(7, "GAP 1 65"), (8, "GAP 2 x")], (3, 7, 3)),
    ("6 of a GAP line before 11", &[(8, "GAP 1 1\nGAP 2")], (6, 8, 2)),
    ("an extra line before its count and number", &[(8, "GAP 2 5\nNETS x")], (2, 9, 0)),
    ("a third GAP line: 11 before 6", &[(8, "GAP 2 5\nGAP 2")], (11, 9, 3)),
    ("a third GAP line: 12 before 3", &[(8, "GAP 2 5\nGAP x 65")], (12, 9, 2)),
];

/// Lines of B with floors and windows at which the text ends without a line feed: other faults of the line come behind that. Spaces stand for tabs.
const UNENDED: [(usize, &str); 12] = [
    (1, "STACK  "),
    (1, "STACK 2 2"),
    (1, "STACK x"),
    (2, "PART "),
    (4, "PART 4 x"),
    (5, "NETS 0"),
    (5, "NETS "),
    (6, "NETS 0 2 2 x"),
    (6, "NETS 9 2 x"),
    (7, "GAP 1"),
    (7, "GAP 1 x"),
    (8, "GAP 1 1 1"),
];

/// Texts of about the greatest length with a fault of layout in their first line.
fn refused_long() -> Vec<Refused> {
    let long = |line: &str, bytes: usize| [line.as_bytes(), &vec![b'\n'; bytes - line.len()]].concat();
    let fields = |bytes: usize| "STACK".to_string() + &"\t1".repeat((bytes - 6) / 2);
    vec![
        ("8,192 bytes behind an ill-formed number", long("STACK\tx", 8192), (12, 1, 2)),
        ("overlong before an ill-formed number", long("STACK\tx", 8193), (1, 0, 0)),
        ("8,192 bytes behind a missing number", long("STACK", 8192), (11, 1, 2)),
        ("overlong before a missing number", long("STACK", 8193), (1, 0, 0)),
        ("8,192 bytes of numbers in one line", long(&fields(8192), 8192), (11, 1, 3)),
        ("8,194 bytes of numbers in one line", long(&fields(8194), 8194), (1, 0, 0)),
        ("8,191 bytes of an unended line", fields(8192).into_bytes(), (2, 1, 0)),
    ]
}

/// Texts refused for their layout by P5, or before it or behind it for something else.
fn refused_layout() -> Vec<Refused> {
    let text = limited_b();
    let put = |text: &[u8], n: usize, line: &str| put_line(text, n, specimens::tabbed(line).as_bytes());
    let mut all = [refused_counts(), refused_numbers(), refused_terminals(), refused_long()].concat();
    all.extend(IN_ONE_LINE.map(|(name, n, line, due)| (name, put(&text, n, line), due)));
    for (name, changes, due) in IN_SEVERAL_LINES {
        all.push((name, changes.iter().fold(text.clone(), |text, (n, line)| put(&text, *n, line)), due));
    }
    for (n, line) in UNENDED {
        let before = text.split_inclusive(|b| *b == b'\n').take(n - 1);
        let line = specimens::tabbed(line).into_bytes();
        all.push(("unended before its count and numbers", before.chain([&line[..]]).collect::<Vec<_>>().concat(), (2, n as u32, 0)));
    }
    let crowded = put(&text, 5, &("NETS".to_string() + &" 0 0".repeat(33)));
    all.push(("3 of a channel before 11", put(&crowded, 6, "NETS 0"), (3, 5, 66)));
    all.push(("3 of a channel before 12", put(&crowded, 6, "NETS x 0"), (3, 5, 66)));
    all.push(("11 before a missing line", b"STACK\t2\nPART\n".to_vec(), (11, 2, 2)));
    all.push(("12 before a missing line", b"STACK\t2\nPART\t04\n".to_vec(), (12, 2, 2)));
    all
}

/// Texts that are accepted, with their tables.
fn accepted() -> Vec<(&'static str, Vec<u8>, String)> {
    let mut all = Vec::new();
    for (name, text, table) in specimens::TABLES.iter().filter(|s| s.2.starts_with("TABLE")) {
        all.push((*name, specimens::tabbed(text).into_bytes(), specimens::tabbed(table)));
    }
    let pairs = specimens::tabbed(&specimens::pairs(32)).into_bytes();
    all.push(("32 pairs", pairs, "TABLE\t1\nROW\t40\t0\t0\t0\t0\n".to_string()));
    let zeros = "\t0".repeat(8 + 9 + 1);
    all.push(("eight channels of length 1,000", bare(8, 1000).into_bytes(), format!("TABLE\t8\nROW\t1000{}\n", zeros)));
    all.push(("eight channels of length 1", bare(8, 1).into_bytes(), format!("TABLE\t8\nROW\t1{}\n", zeros)));
    let positions = "\t0".repeat(9);
    let highest = (bare(8, 1) + &gaps(&[64; 8])).into_bytes();
    all.push(("eight floors of 64", highest, format!("TABLE\t8\nROW\t1\t512{}{}\n", "\t64".repeat(8), positions)));
    let rising = (bare(8, 1000) + &gaps(&[1, 2, 3, 4, 5, 6, 7, 8])).into_bytes();
    all.push(("floors 1 to 8", rising, format!("TABLE\t8\nROW\t1000\t36\t1\t2\t3\t4\t5\t6\t7\t8{}\n", positions)));
    for (name, floor) in [("32 pairs, floor 1", 1), ("32 pairs, floor 33", 33)] {
        let text = (specimens::tabbed(&specimens::pairs(32)) + &gaps(&[floor])).into_bytes();
        all.push((name, text, format!("TABLE\t1\nROW\t40\t{0}\t{0}\t0\t0\n", floor)));
    }
    all
}

/// A longer table and then a shorter one in the same space.
fn check_reused_space() {
    let (b, c) = (specimens::tabbed(specimens::TABLES[1].1), specimens::tabbed(specimens::TABLES[2].1));
    let (longer, shorter) = (specimens::tabbed(specimens::TABLES[1].2), specimens::tabbed(specimens::TABLES[2].2));
    let mut output = [255; 200];
    same("B", b.as_bytes(), library::write_table(b.as_bytes(), &mut output), longer.len() as u64);
    same("C in B's space", c.as_bytes(), library::write_table(c.as_bytes(), &mut output), shorter.len() as u64);
    same("C in B's space", c.as_bytes(), &output[..shorter.len()], shorter.as_bytes());
    same("behind C in B's space", c.as_bytes(), output[shorter.len()..].iter().all(|b| *b == 0), true);
}

fn check_answers() {
    let (b, c, d) =
        (specimens::tabbed(specimens::TABLES[1].1), specimens::tabbed(specimens::TABLES[2].1), specimens::tabbed(specimens::TABLES[3].1));
    for spread in 0..4 {
        check_narrow("A", A, spread);
        check_narrow("B", &b, spread);
    }
    for (spread, total, position) in [(4, 3, 0), (5, 2, 1), (6, 0, 2), (7, 0, 2), (100, 0, 2), (u32::MAX, 0, 2)] {
        check_answer("A", A, spread, total, &[total], &[position, 0]);
    }
    for (spread, total, separations, positions) in [
        (4, 6, [3, 3], [0, 0, 0]),
        (5, 5, [2, 3], [1, 0, 0]),
        (6, 3, [0, 3], [2, 0, 0]),
        (7, 2, [0, 2], [3, 1, 0]),
        (8, 0, [0, 0], [4, 2, 0]),
        (9, 0, [0, 0], [4, 2, 0]),
        (u32::MAX, 0, [0, 0], [4, 2, 0]),
    ] {
        check_answer("B", &b, spread, total, &separations, &positions);
    }
    check_trial("B at 6: separations 3, 0 are legal too", &b, 6, &[3, 0], &[0, 2, 0], true);
    check_narrow("C", &c, 4);
    for spread in [5, 6, 1000] {
        check_answer("C", &c, spread, 0, &[0], &[0, 0]);
    }
    check_answer("D", &d, 1, 2, &[2], &[0, 0]);
    for spread in [2, 3, u32::MAX] {
        check_answer("D", &d, spread, 0, &[0], &[0, 1]);
    }
}

/// Answers with floors at their rows, between and past them.
fn check_floors() {
    let b = specimens::tabbed(specimens::TABLES[1].1);
    let with = |text: &str, lines: &str| text.to_string() + &specimens::tabbed(lines);
    for (spread, total, position) in [(4, 3, 0), (5, 2, 1), (6, 1, 2), (7, 1, 2), (u32::MAX, 1, 2)] {
        check_answer("A, floor 1", &with(A, "GAP 1 1\n"), spread, total, &[total], &[position, 0]);
    }
    for (spread, total, position) in [(4, 3, 0), (5, 2, 1), (6, 2, 1), (u32::MAX, 2, 1)] {
        check_answer("A, floor 2", &with(A, "GAP 1 2\n"), spread, total, &[total], &[position, 0]);
    }
    for (spread, floor) in [(4, 3), (5, 3), (6, 4), (100, 64), (u32::MAX, 64)] {
        check_answer("A, floor 3 and more", &with(A, &format!("GAP 1 {}\n", floor)), spread, floor, &[floor], &[0, 0]);
    }
    check_answer("A, floor 0", &with(A, "GAP 1 0\n"), 6, 0, &[0], &[2, 0]);
    check_narrow("A, floor 64", &with(A, "GAP 1 64\n"), 3);
    for (spread, total, separations, positions) in [
        (4, 6, [3, 3], [0, 0, 0]),
        (5, 5, [2, 3], [1, 0, 0]),
        (6, 3, [3, 0], [0, 2, 0]),
        (7, 2, [2, 0], [3, 2, 0]),
        (8, 1, [1, 0], [4, 2, 0]),
        (u32::MAX, 1, [1, 0], [4, 2, 0]),
    ] {
        check_answer("B, floor 1 below", &with(&b, "GAP 1 1\n"), spread, total, &separations, &positions);
    }
    for floor in [3, 4] {
        let text = with(&b, &format!("GAP 2 {}\n", floor));
        for (spread, first, position) in [(4, 3, 0), (5, 2, 1), (6, 0, 2), (7, 0, 2), (u32::MAX, 0, 2)] {
            check_answer("B, floor 3 or 4 above", &text, spread, first + floor, &[first, floor], &[position, 0, 0]);
        }
    }
    check_answer("no pairs, floor 7", &(bare(1, 3) + &gaps(&[7])), 3, 7, &[7], &[0, 0]);
    check_answer("eight floors of 64", &(bare(8, 1) + &gaps(&[64; 8])), 1, 512, &[64; 8], &[0; 9]);
}

fn check_trial(name: &str, text: &str, spread: u32, separations: &[u32], positions: &[u32], legal: bool) {
    let placement = &library::numbers(0, separations, positions)[1..];
    let what = format!("{}, trial at {} of {:?}, {:?}", name, spread, separations, positions);
    same(&what, text.as_bytes(), library::try_numbers(text.as_bytes(), spread, placement), if legal { 1 } else { 2 });
}

/// Trials of separations at a floor, below it and above.
fn check_floor_trials() {
    let floor = |floor: u32| A.to_string() + &gaps(&[floor]);
    check_trial("at floor 0", &floor(0), 6, &[0], &[2, 0], true);
    check_trial("below floor 1", &floor(1), 6, &[0], &[2, 0], false);
    check_trial("at floor 1", &floor(1), 6, &[1], &[2, 0], true);
    check_trial("at floor 1 where the pairs need 2", &floor(1), 6, &[1], &[1, 0], false);
    check_trial("at floor 1 where the pairs need 3", &floor(1), 6, &[1], &[0, 0], false);
    check_trial("at floor 2", &floor(2), 5, &[2], &[1, 0], true);
    check_trial("at floor 2 where the pairs need 3", &floor(2), 4, &[2], &[0, 0], false);
    check_trial("at floor 3", &floor(3), 4, &[3], &[0, 0], true);
    for (t, due) in [(0, false), (2, false), (62, false), (63, false), (64, true), (65, true), (u32::MAX, true)] {
        check_trial("floor 64", &floor(64), 4, &[t], &[0, 0], due);
        check_trial("floor 64, a narrow spread", &floor(64), 3, &[t], &[0, 0], false);
        check_trial("floor 64, no pairs", &(bare(1, 4) + &gaps(&[64])), 4, &[t], &[0, 0], due);
    }
    check_trial("a floor in an unused place", &floor(64), 4, &[64, 64], &[0, 0], false);
    let eight = bare(8, 1) + &gaps(&[64; 8]);
    check_trial("eight floors of 64", &eight, 1, &[64; 8], &[0; 9], true);
    for channel in 0..8 {
        let mut separations = [64; 8];
        separations[channel] = 63;
        check_trial("one of eight below its floor", &eight, 1, &separations, &[0; 9], false);
    }
}

/// Channels with their limits: the least and the greatest offset for each separation from 0 to the count of pairs, None where no offset is feasible. From one
/// more than the count on every offset is.
type Limits = &'static [Option<(i64, i64)>];
const LIMITS: [(&str, Limits); 7] = [
    ("NETS", &[]),
    ("NETS 1 0", &[Some((1, 1)), Some((1, 1))]),
    ("NETS 0 2 2 4", &[Some((-2, -2)), Some((-2, -2)), Some((-3, -1))]),
    ("NETS 0 0 1 1", &[Some((0, 0)), Some((0, 0)), Some((0, 0))]),
    ("NETS 1 2 2 3", &[Some((-1, -1)), Some((-1, -1)), Some((-1, -1))]),
    ("NETS 0 0 3 1 4 2", &[None, None, Some((2, 2)), Some((0, 2))]),
    ("NETS 0 1 3 4 6 6 9 10", &[None, None, Some((-2, 1)), Some((-4, 3)), Some((-7, 5))]),
];

/// Trials around both limits of every separation up to two above the count of pairs, and of a great one; with a floor of the separation and of one more.
fn check_limit_trials() {
    for (nets, limits) in LIMITS {
        let text = format!("STACK\t1\nPART\t10\nPART\t10\n{}\n", specimens::tabbed(nets));
        for t in (0..=limits.len() + 1).chain([1000]) {
            for offset in -12..=12 {
                let legal = limits.get(t).map_or(true, |l| l.is_some_and(|(low, high)| low <= offset && offset <= high));
                let (separations, positions) = ([t as u32], [12, (12 + offset) as u32]);
                check_trial(nets, &text, 34, &separations, &positions, legal);
                if t < 64 {
                    check_trial(nets, &(text.clone() + &gaps(&[t as u32])), 34, &separations, &positions, legal);
                    check_trial(nets, &(text.clone() + &gaps(&[t as u32 + 1])), 34, &separations, &positions, false);
                }
            }
        }
    }
}

/// The specimens' trials; then trials at the ends of every range, and numbers in unused places.
fn check_trials() {
    for (name, text, spread, separations, positions, legal) in specimens::TRIALS {
        check_trial(name, &specimens::tabbed(text), spread, separations, positions, legal);
    }
    let answer = [0, 0, 0, 0, 0, 0, 0, 0, 2, 0, 0, 0, 0, 0, 0, 0, 0];
    let judge = |name: &str, spread: u32, places: &[(usize, u32)], due: u64| {
        let mut placement = answer;
        for (at, v) in places {
            placement[*at] = *v;
        }
        same(name, A.as_bytes(), library::try_placement(A.as_bytes(), spread, &placement), due);
    };
    judge("A's answer at 6", 6, &[], 1);
    judge("a spread less", 5, &[], 2);
    judge("at spread 0", 0, &[], 2);
    judge("a position more", 7, &[(8, 3)], 2);
    judge("a position less", 6, &[(8, 1)], 2);
    judge("the offset turned", 6, &[(8, 0), (9, 2)], 2);
    judge("a separation of 1", 6, &[(0, 1)], 1);
    judge("a separation of 1 at another offset", 6, &[(0, 1), (8, 1)], 2);
    judge("a separation of 2 at the offset 0", 6, &[(0, 2), (8, 0)], 2);
    judge("a separation of 3 at any offset", 6, &[(0, 3), (8, 0)], 1);
    judge("the greatest separation", 6, &[(0, u32::MAX)], 1);
    judge("the greatest position", u32::MAX, &[(8, u32::MAX)], 2);
    judge("the greatest position that lies within", u32::MAX, &[(8, u32::MAX - 4), (9, u32::MAX - 6)], 1);
    for place in (1..8).chain(10..17) {
        judge("an unused place that is not zero", 6, &[(place, 1)], 2);
        judge("an unused place that is not zero", 6, &[(place, u32::MAX)], 2);
    }
    for count in [0, 16, 18] {
        let placement = vec![0; count];
        same("another count of numbers", A.as_bytes(), library::try_numbers(A.as_bytes(), 6, &placement), 2);
    }
}

/// Stated totals: small ones, about the greatest count of pairs and one more, about the greatest floor, about eight times each, and up to the greatest number.
const STATED: [u32; 33] = [
    0, 1, 2, 3, 4, 5, 6, 7, 31, 32, 33, 34, 63, 64, 65, 255, 256, 257, 263, 264, 265, 511, 512, 513, 1000, 65535, 65536, 2147483647,
    2147483648, 2147483649, 4294967293, 4294967294, 4294967295,
];

/// Every stated total at a spread: 10 below the least; from there on `first` gives the separations of all channels but the last, which gets the rest, and the
/// positions.
fn check_stated(name: &str, text: &str, spread: u32, least: u32, first: impl Fn(u32) -> (Vec<u32>, Vec<u32>)) {
    check_total(name, text.as_bytes(), spread, Ok(least));
    for total in STATED.into_iter().chain([least, least + 1, least + 2]) {
        let due = if total < least {
            Err((10, 0, 0))
        } else {
            let (mut separations, positions) = first(total);
            separations.push(total - separations.iter().sum::<u32>());
            Ok(library::numbers(total, &separations, &positions))
        };
        check_place(name, text.as_bytes(), spread, total, due);
    }
}

/// How far to the right of its upper strip A's lower one stands at least with so many tracks: straight, also with one track, two columns; with two one to three,
/// with three any.
fn right(t: u32) -> u32 {
    [2, 2, 1, 0][t.min(3) as usize]
}

/// The specimens' placements for stated totals, and every stated total of the specimens.
fn check_places() {
    for (name, text, spread, due) in specimens::SPREADS {
        let text = specimens::tabbed(text).into_bytes();
        let due = library::placement_in(due);
        check_total(name, &text, spread, due.map(|numbers| numbers[0]));
        check_place(name, &text, spread, due.map_or(0, |numbers| numbers[0]), due);
    }
    for (name, text, spread, total, due) in specimens::PLACES {
        check_place(name, specimens::tabbed(text).as_bytes(), spread, total, library::placement_in(due));
    }
    for (spread, least) in [(4, 3), (5, 2), (6, 0), (7, 0), (63, 0), (64, 0), (1000, 0), (u32::MAX, 0)] {
        check_stated("A", A, spread, least, |total| (vec![], vec![right(total), 0]));
        for floor in [1, 2, 3, 4, 64] {
            let text = A.to_string() + &gaps(&[floor]);
            check_stated("A with a floor", &text, spread, floor.max(least), |total| (vec![], vec![right(total), 0]));
        }
    }
    let [b, c, d] = [1, 2, 3].map(|n: usize| specimens::tabbed(specimens::TABLES[n].1));
    for (spread, least, first) in [(4, 6, 3), (5, 5, 2), (6, 3, 0), (7, 2, 0), (8, 0, 0), (9, 0, 0), (64, 0, 0), (u32::MAX, 0, 0)] {
        // Channel 1 has what the spread asks for, channel 2 the rest.
        let due = |first: u32| move |total: u32| (vec![first], vec![right(first) + right(total - first), right(total - first), 0]);
        check_stated("B", &b, spread, least, due(first));
        // With a floor of 1 below and 3 above: the floors, where the spread asks for less.
        let first = first.max(1);
        check_stated("B with floors", &(b.clone() + &gaps(&[1, 3])), spread, first + 3, due(first));
    }
    for spread in [5, 6, 64, u32::MAX] {
        check_stated("C", &c, spread, 0, |_| (vec![], vec![0, 0]));
        for floor in [1, 3] {
            check_stated("C with a floor", &(c.clone() + &gaps(&[floor])), spread, floor, |_| (vec![], vec![0, 0]));
        }
    }
    for floor in [0, 1, 2] {
        let text = d.clone() + &gaps(&[floor]);
        check_stated("D", &text, 1, 2, |_| (vec![], vec![0, 0]));
        for spread in [2, 3, 64, u32::MAX] {
            check_stated("D", &text, spread, floor, |total| (vec![], vec![0, (total < 2) as u32]));
        }
    }
}

/// Stated totals of stacks at the limits: no pairs, eight floors of 64, 32 pairs in one channel and in each of eight; strips longer than a page shows.
fn check_places_at_limits() {
    for spread in [1, 63, 64, u32::MAX] {
        check_stated("eight without pairs", &bare(8, 1), spread, 0, |_| (vec![0; 7], vec![0; 9]));
        check_stated("eight floors of 64", &(bare(8, 1) + &gaps(&[64; 8])), spread, 512, |_| (vec![64; 7], vec![0; 9]));
        check_stated("floors 1 to 7", &(bare(8, 1) + &gaps(&[1, 2, 3, 4, 5, 6, 7])), spread, 28, |_| ((1..=7).collect(), vec![0; 9]));
    }
    for right in [true, false] {
        let (text, _) = bundle(32, right);
        check_stated("bundle", &text, 63, 33, |_| (vec![], vec![0, 0]));
        check_stated("bundle with a floor", &(text.clone() + &gaps(&[64])), 63, 64, |_| (vec![], vec![0, 0]));
        let lines: Vec<&str> = text.lines().collect();
        let eight = format!("STACK\t8\n{}{}", format!("{}\n", lines[1]).repeat(9), format!("{}\n", lines[3]).repeat(8));
        check_stated("eight bundles", &eight, 63, 264, |_| (vec![33; 7], vec![0; 9]));
        check_stated("eight bundles with floors", &(eight + &gaps(&[64; 8])), 63, 512, |_| (vec![64; 7], vec![0; 9]));
    }
    let long = "STACK\t2\nPART\t100\nPART\t4\nPART\t1000\nNETS\nNETS\nGAP\t1\t5\nGAP\t2\t2\n";
    for spread in [0, 4, 63, 64, 100, 999] {
        check_narrow("long", long, spread);
    }
    for spread in [1000, 1001, 2000, u32::MAX] {
        check_stated("long", long, spread, 7, |_| (vec![5], vec![0; 3]));
    }
}

/// m pairs whose paths each go m columns right, or left, between strips just long enough: each has a run on a track of its own, none along the edges, so m + 1
/// tracks are needed at the strips' length. The text, and the lines of the page.
fn bundle(m: usize, right: bool) -> (String, Vec<String>) {
    let nets: String = (0..m).map(|j| if right { format!("\t{}\t{}", j, m + j) } else { format!("\t{}\t{}", m + j, j) }).collect();
    let text = format!("STACK\t1\nPART\t{0}\nPART\t{0}\nNETS{1}\n", 2 * m - 1, nets);
    let (near, far) = ("o".repeat(m), ".".repeat(m) + &"o".repeat(m));
    let mut lines = vec![format!("{:>3} {}", m + 1, if right { &far } else { &near })];
    for track in (1..=m).rev() {
        // Of the other paths some go up before the run, some behind it.
        let (before, behind) = if right { (m - track, track - 1) } else { (track - 1, m - track) };
        lines.push(format!("{:>3} {}+{}+{}", track, "|".repeat(before), "-".repeat(m - 1), "|".repeat(behind)));
    }
    lines.push(format!("  0 {}", if right { near } else { far }));
    (text, lines)
}

/// The lines of a page of two tracks or more when its channel gets t tracks: above its own ones the paths go straight up.
fn taller(lines: &[&str], t: usize) -> Vec<String> {
    let ends = &lines[0][4..];
    let mut all = vec![format!("{:>3} {}", t, ends)];
    all.extend((lines.len() - 1..t).rev().map(|track| format!("{:>3} {}", track, ends.replace('o', "|"))));
    all.extend(lines[1..].iter().map(|l| l.to_string()));
    all
}

/// Pages of channels whose floor is above what their pairs need, up to 65 lines.
fn check_tall_pages() {
    let check = |name: &str, text: &str, spread: u32, t: usize, lines: &[&str]| {
        let lines = taller(lines, t);
        let lines: Vec<&str> = lines.iter().map(|l| &l[..]).collect();
        same(name, text.as_bytes(), lines.len(), t + 1);
        check_page(name, text, spread, 1, Ok(specimens::page(&lines)));
    };
    for t in [3, 4, 9, 10, 33, 63, 64] {
        check("A", &(A.to_string() + &gaps(&[t])), 6, t as usize, &["  3 ..o.o", "  2 .++.|", "  1 +++-+", "  0 o.o"]);
        let empty: Vec<String> = (0..=t).rev().map(|track| format!("{:>3} ", track)).collect();
        let empty: Vec<&str> = empty.iter().map(|l| &l[..]).collect();
        check_page("no pairs", &(bare(1, 5) + &gaps(&[t])), 63, 1, Ok(specimens::page(&empty)));
    }
    for (m, right, t) in [(9, true, 11), (10, false, 64), (32, true, 33), (32, true, 34), (32, true, 64), (32, false, 64)] {
        let (text, lines) = bundle(m, right);
        let lines: Vec<&str> = lines.iter().map(|l| &l[..]).collect();
        check("bundle", &(text + &gaps(&[t])), 2 * m as u32 - 1, t as usize, &lines);
    }
    same("the longest page", A.as_bytes(), page_in((A.to_string() + &gaps(&[64])).as_bytes(), 4, 1, PAGE_BYTES).0, PAGE_BYTES as u64);
}

/// The pages of the specimens; then pages of the last column, of two tracks, without pairs, of two digits and of 34 lines.
fn check_pages() {
    for (name, text, spread, channel, due) in specimens::PAGES {
        check_page(name, &specimens::tabbed(text), spread, channel, due.map(specimens::page));
    }
    let wide = "STACK\t1\nPART\t63\nPART\t63\nNETS\t0\t63\n";
    let lines = [&format!("  2 {}o", ".".repeat(63))[..], &format!("  1 +{}+", "-".repeat(62)), "  0 o"];
    check_page("wide", wide, 63, 1, Ok(specimens::page(&lines)));
    let last = "STACK\t1\nPART\t63\nPART\t63\nNETS\t63\t63\n";
    check_page("last column", last, 63, 1, Ok(specimens::page(&[&format!("  0 {}o", ".".repeat(63))])));
    for (name, text, spread, ends) in [
        ("last column, floor 1", last.to_string(), 63, ".".repeat(63) + "o"),
        ("32 pairs, floor 1", specimens::tabbed(&specimens::pairs(32)), 40, "o".repeat(32)),
    ] {
        let lines = [&format!("  1 {}", ends)[..], &format!("  0 {}", ends)];
        check_page(name, &(text + &gaps(&[1])), spread, 1, Ok(specimens::page(&lines)));
    }
    check_page("second of two without pairs", &bare(2, 3), 3, 2, Ok(specimens::page(&["  0 "])));
    check_page("eighth of eight without pairs", &bare(8, 1), 63, 8, Ok(specimens::page(&["  0 "])));
    for (m, right) in [(9, true), (10, true), (10, false), (11, false), (32, true), (32, false)] {
        let (text, lines) = bundle(m, right);
        let lines: Vec<&str> = lines.iter().map(|l| &l[..]).collect();
        check_page("bundle", &text, 2 * m as u32 - 1, 1, Ok(specimens::page(&lines)));
    }
}

/// The refusals of a page in order, besides those of the specimens.
fn check_page_refusals() {
    let long = "STACK\t1\nPART\t100\nPART\t4\nNETS\n";
    for (name, text, spread, channel, number) in [
        ("A", A, 4, u32::MAX, 3),
        ("no such channel before narrow", A, 3, 2, 3),
        ("no such channel before broad", A, u32::MAX, 0, 3),
        ("no such channel before narrow and broad", long, 80, 2, 3),
        ("A", A, 0, 1, 7),
        ("A", A, u32::MAX, 1, 9),
        ("narrow before broad", long, 80, 1, 7),
        ("broad", long, 100, 1, 9),
        ("two without pairs", &bare(2, 3), 3, 3, 3),
        ("eight without pairs", &bare(8, 1), 1, 9, 3),
    ] {
        check_page(name, text, spread, channel, Err((number, 0, 0)));
    }
}

fn main() {
    let (mut refused, mut accepted) = (refused(), accepted());
    refused.extend(refused_gaps());
    refused.extend(refused_layout());
    refused.extend(windows::refused());
    accepted.extend(windows::accepted());
    for (name, text, due) in &refused {
        check_refused(name, text, *due);
    }
    for (name, text, table) in &accepted {
        same(&format!("{}, the independent reader", name), text, reader::read(text).is_ok(), true);
        check_table(name, text, table);
    }
    same("A's table", A.as_bytes(), table_in(A.as_bytes(), 51).0, 50);
    same("A's table in 49 bytes", A.as_bytes(), table_in(A.as_bytes(), 49), (code((8, 0, 0)), vec![0; 49]));
    check_reused_space();
    check_answers();
    check_floors();
    check_trials();
    check_floor_trials();
    check_limit_trials();
    check_places();
    check_places_at_limits();
    check_pages();
    check_tall_pages();
    check_page_refusals();
    windows::check();
    turned::check();
    let (steps, no_steps) = sessions::check();
    let [counts, numbers, windows] = [11, 12, 14].map(|number| refused.iter().filter(|r| r.2 .0 == number).count());
    println!(
        "entries: {} refused texts, {} of them as 11, {} as 12 and {} as 14, {} tables, totals, placements, trials and pages of the specimens, their sessions and {} \
         refused texts of steps, {} of them as 2: no difference",
        refused.len(),
        counts,
        numbers,
        windows,
        accepted.len(),
        steps,
        no_steps
    );
}
