//! The specimens of document 01 with P4's tracks: a stack's text with what it is answered, their pages by P1 too; then with floors, by P2, and for greater
//! totals, by P3; faults of layout by P5; sessions by P6; windows by P7.
//! Tabs are written as spaces here.

/// Specimen A's text, and lines behind it.
macro_rules! a {
    ($behind:literal) => {
        concat!("STACK 1\nPART 4\nPART 4\nNETS 0 2 2 4\n", $behind)
    };
}

/// Specimen B's text, and lines behind it.
macro_rules! b {
    ($behind:literal) => {
        concat!("STACK 2\nPART 4\nPART 4\nPART 4\nNETS 0 2 2 4\nNETS 0 2 2 4\n", $behind)
    };
}

/// Specimen D's text, and lines behind it.
macro_rules! d {
    ($behind:literal) => {
        concat!("STACK 1\nPART 1\nPART 1\nNETS 1 0\n", $behind)
    };
}

/// Specimen A with other `PART` lines.
macro_rules! held {
    ($lower:literal, $upper:literal) => {
        concat!("STACK 1\nPART ", $lower, "\nPART ", $upper, "\nNETS 0 2 2 4\n")
    };
}

const A_TABLE: &str = "TABLE 1\nROW 4 3 3 0 0\nROW 5 2 2 1 0\nROW 6 0 0 2 0\n";
const FLOOR_1: &str = a!("GAP 1 1\n");
const FLOOR_2: &str = a!("GAP 1 2\n");
const FLOOR_3: &str = a!("GAP 1 3\n");
const FLOOR_4: &str = a!("GAP 1 4\n");
const FLOOR_64: &str = a!("GAP 1 64\n");
const FLOOR_65: &str = a!("GAP 1 65\n");
const FLOOR_BELOW: &str = b!("GAP 1 1\n");
const FLOOR_ABOVE: &str = b!("GAP 2 1\n");
const NO_PAIRS: &str = "STACK 1\nPART 3\nPART 5\nNETS\nGAP 1 3\n";
const NO_PAIRS_1: &str = "STACK 1\nPART 3\nPART 5\nNETS\nGAP 1 1\n";
const D_FLOOR_1: &str = d!("GAP 1 1\n");
const FROM_1: &str = held!("4 1 3", "4");
const AT_0: &str = held!("4 0 0", "4");
const UPPER_AT_3: &str = held!("4", "4 3 3");
const UPPER_LAST: &str = held!("4", "4 9999 9999");
const APART: &str = held!("4 0 1", "4 5 9");
const MIDDLE_AT_2: &str = "STACK 2\nPART 4\nPART 4 2 2\nPART 4\nNETS 0 2 2 4\nNETS 0 2 2 4\n";
const LONG_LAST: &str = "STACK 1\nPART 1000 9999 9999\nPART 1000\nNETS\n";

/// The text, and the table or the refusal's line.
pub const TABLES: [(&str, &str, &str); 70] = [
    ("A", a!(""), A_TABLE),
    ("B", b!(""), "TABLE 2\nROW 4 6 3 3 0 0 0\nROW 5 5 2 3 1 0 0\nROW 6 3 0 3 2 0 0\nROW 7 2 0 2 3 1 0\nROW 8 0 0 0 4 2 0\n"),
    ("C", "STACK 1\nPART 3\nPART 5\nNETS\n", "TABLE 1\nROW 5 0 0 0 0\n"),
    ("D", d!(""), "TABLE 1\nROW 1 2 2 0 0\nROW 2 0 0 0 1\n"),
    ("E", "", "2 1 0\n"),
    ("F", "STACK 1\nPART 0\nPART 4\nNETS 0 2 2 4\n", "4 2 2\n"),
    ("G", "STACK 1\nPART 4\nPART 4\nNETS 0 2 2 5\n", "5 4 5\n"),
    ("H", "STACK 1\nPART 4\nPART 4\nNETS 0 2 0 4\n", "6 4 4\n"),
    ("length 1,000", "STACK 1\nPART 1000\nPART 1000\nNETS\n", "TABLE 1\nROW 1000 0 0 0 0\n"),
    ("length 1,001", "STACK 1\nPART 1000\nPART 1001\nNETS\n", "4 3 2\n"),
    ("no channel", "STACK 0\nPART 1\n", "3 1 2\n"),
    ("nine channels", "STACK 9\n", "3 1 2\n"),
    ("A, floor 0", a!("GAP 1 0\n"), A_TABLE),
    // With a separation of 1 the strips stand as with 0.
    ("A, floor 1", FLOOR_1, "TABLE 1\nROW 4 3 3 0 0\nROW 5 2 2 1 0\nROW 6 1 1 2 0\n"),
    ("A, floor 2", FLOOR_2, "TABLE 1\nROW 4 3 3 0 0\nROW 5 2 2 1 0\n"),
    ("A, floor 3", FLOOR_3, "TABLE 1\nROW 4 3 3 0 0\n"),
    ("A, floor 4", FLOOR_4, "TABLE 1\nROW 4 4 4 0 0\n"),
    ("A, floor 64", FLOOR_64, "TABLE 1\nROW 4 64 64 0 0\n"),
    // At spread 6 the floor forbids separations 0, 3, at 7 it forbids 0, 2; the totals are met by 3, 0 and 2, 0.
    (
        "B, floor 1 below",
        FLOOR_BELOW,
        "TABLE 2\nROW 4 6 3 3 0 0 0\nROW 5 5 2 3 1 0 0\nROW 6 3 3 0 0 2 0\nROW 7 2 2 0 3 2 0\nROW 8 1 1 0 4 2 0\n",
    ),
    (
        "B, floor 1 above",
        FLOOR_ABOVE,
        "TABLE 2\nROW 4 6 3 3 0 0 0\nROW 5 5 2 3 1 0 0\nROW 6 3 0 3 2 0 0\nROW 7 2 0 2 3 1 0\nROW 8 1 0 1 4 2 0\n",
    ),
    ("B, floors 2 and 5", b!("GAP 1 2\nGAP 2 5\n"), "TABLE 2\nROW 4 8 3 5 0 0 0\nROW 5 7 2 5 1 0 0\n"),
    ("C, floor 1", NO_PAIRS_1, "TABLE 1\nROW 5 1 1 0 0\n"),
    ("C, floor 3", NO_PAIRS, "TABLE 1\nROW 5 3 3 0 0\n"),
    ("D, floor 1", D_FLOOR_1, "TABLE 1\nROW 1 2 2 0 0\nROW 2 1 1 0 1\n"),
    ("D, floor 2", d!("GAP 1 2\n"), "TABLE 1\nROW 1 2 2 0 0\n"),
    ("GAP with one number", a!("GAP 1\n"), "11 5 3\n"),
    ("GAP with one number, ill-formed", a!("GAP x\n"), "11 5 3\n"),
    ("GAP with an ill-formed number", a!("GAP 1 01\n"), "12 5 3\n"),
    ("NETS with a terminal less", "STACK 1\nPART 4\nPART 4\nNETS 0 2 2\n", "11 4 5\n"),
    ("NETS and a lone tab", "STACK 1\nPART 4\nPART 4\nNETS \n", "11 4 3\n"),
    ("NETS with an ill-formed number", "STACK 1\nPART 4\nPART 4\nNETS 9 2 x 4\n", "12 4 4\n"),
    ("PART without a length", "STACK 1\nPART 4\nPART\nNETS\n", "11 3 2\n"),
    ("PART with a number more", "STACK 1\nPART 0 4\nPART\nNETS\n", "11 2 4\n"),
    ("STACK and a lone tab", "STACK \n", "12 1 2\n"),
    ("STACK unended", "STACK", "2 1 0\n"),
    ("GAP before NETS", "STACK 1\nPART 4\nPART 4\nGAP 1 1\nNETS 0 2 2 4\n", "2 4 0\n"),
    ("a line behind GAP", a!("GAP 1 1\nNETS\n"), "2 6 0\n"),
    ("GAP of channel 0", a!("GAP 0 65\n"), "3 5 2\n"),
    ("GAP of channel 2", a!("GAP 2 65\n"), "3 5 2\n"),
    ("floor 65", FLOOR_65, "3 5 3\n"),
    ("GAP twice", a!("GAP 1 1\nGAP 1 1\n"), "6 6 2\n"),
    ("GAP twice, floor 65", a!("GAP 1 1\nGAP 1 65\n"), "3 6 3\n"),
    // At 10 two tracks in each channel, at 12 three in one: so there is a row for each total from 0 to 6 but 1.
    (
        "six rows",
        "STACK 2\nPART 8\nPART 8\nPART 8\nNETS 0 4 4 8\nNETS 0 4 4 8\n",
        "TABLE 2\nROW 8 6 3 3 0 0 0\nROW 9 5 2 3 1 0 0\nROW 10 4 2 2 2 1 0\nROW 12 3 0 3 4 0 0\nROW 13 2 0 2 5 1 0\nROW 16 0 0 0 8 4 0\n",
    ),
    ("A, the lower strip at 1 to 3", FROM_1, "TABLE 1\nROW 5 2 2 1 0\nROW 6 0 0 2 0\n"),
    // No offset is below 0, and three tracks are needed for ever.
    ("A, the lower strip at 0", AT_0, "TABLE 1\nROW 4 3 3 0 0\n"),
    ("A, the lower strip at 0 to 9,999", held!("4 0 9999", "4"), A_TABLE),
    ("A, the lower strip at 2 to 9,999", held!("4 2 9999", "4"), "TABLE 1\nROW 6 0 0 2 0\n"),
    ("A, the lower strip at 1", held!("4 1 1", "4"), "TABLE 1\nROW 5 2 2 1 0\n"),
    ("A, the upper strip at 3", UPPER_AT_3, "TABLE 1\nROW 7 3 3 0 3\nROW 8 2 2 4 3\nROW 9 0 0 5 3\n"),
    ("A, the upper strip at 9,999", UPPER_LAST, "TABLE 1\nROW 10003 3 3 0 9999\nROW 10004 2 2 10000 9999\nROW 10005 0 0 10001 9999\n"),
    // A free strip may stand beyond 9,999, this one not.
    ("A, the upper strip at 9,999, the lower at 0 to 9,999", held!("4 0 9999", "4 9999 9999"), "TABLE 1\nROW 10003 3 3 0 9999\n"),
    ("A, windows apart", APART, "TABLE 1\nROW 9 3 3 0 5\n"),
    // Past the sum of the lengths, 8: two strips that are straight stand at 7 and 5, or further right.
    ("A, the upper strip from 5 on", held!("4", "4 5 9"), "TABLE 1\nROW 9 3 3 0 5\nROW 10 2 2 6 5\nROW 11 0 0 7 5\n"),
    ("A, the lower strip at 1 to 3, floor 1", concat!(held!("4 1 3", "4"), "GAP 1 1\n"), "TABLE 1\nROW 5 2 2 1 0\nROW 6 1 1 2 0\n"),
    ("A, the lower strip at 0, floor 4", concat!(held!("4 0 0", "4"), "GAP 1 4\n"), "TABLE 1\nROW 4 4 4 0 0\n"),
    ("B, the middle strip at 2", MIDDLE_AT_2, "TABLE 2\nROW 6 3 3 0 0 2 0\nROW 7 2 2 0 3 2 0\nROW 8 0 0 0 4 2 0\n"),
    (
        "B, floors 2 and 5, windows",
        "STACK 2\nPART 4 1 3\nPART 4\nPART 4 0 9\nNETS 0 2 2 4\nNETS 0 2 2 4\nGAP 1 2\nGAP 2 5\n",
        "TABLE 2\nROW 5 7 2 5 1 0 0\n",
    ),
    ("C, both strips held", "STACK 1\nPART 3 4 6\nPART 5 0 9\nNETS\n", "TABLE 1\nROW 7 0 0 4 0\n"),
    ("D, the lower strip at 5", "STACK 1\nPART 1 5 5\nPART 1\nNETS 1 0\n", "TABLE 1\nROW 6 2 2 5 0\nROW 7 0 0 5 6\n"),
    ("length 1,000 at 9,999", LONG_LAST, "TABLE 1\nROW 10999 0 0 9999 0\n"),
    ("a least position alone", held!("4 1", "4"), "11 2 4\n"),
    ("a window and a number more", held!("4 1 3 5", "0"), "11 2 5\n"),
    ("a window with an ill-formed least position", held!("0 x 1", "4"), "12 2 3\n"),
    ("a window with an ill-formed greatest position", held!("0 3 01", "4"), "12 2 4\n"),
    ("a window with five digits", held!("4 1 10000", "4"), "12 2 4\n"),
    ("a length before its window", held!("0 3 1", "4"), "4 2 2\n"),
    ("a least position above the greatest", held!("4 3 1", "x"), "14 2 4\n"),
    ("a least position one above the greatest", held!("4", "4 9999 9998"), "14 3 4\n"),
    ("a fault before a least position above the greatest", held!("4 x 1", "4 3 1"), "12 2 3\n"),
    ("a length before a later window", held!("1001", "4 3 1"), "4 2 2\n"),
];

/// The text, a spread, and the row or the refusal's line.
pub const SPREADS: [(&str, &str, u32, &str); 26] = [
    ("A at 3", TABLES[0].1, 3, "7 0 0\n"),
    ("A at 100", TABLES[0].1, 100, "ROW 100 0 0 2 0\n"),
    ("B at 6", TABLES[1].1, 6, "ROW 6 3 0 3 2 0 0\n"),
    ("A at the widest", TABLES[0].1, u32::MAX, "ROW 4294967295 0 0 2 0\n"),
    ("A, floor 1, at 6", FLOOR_1, 6, "ROW 6 1 1 2 0\n"),
    ("A, floor 1, at 5", FLOOR_1, 5, "ROW 5 2 2 1 0\n"),
    ("A, floor 2, at 6", FLOOR_2, 6, "ROW 6 2 2 1 0\n"),
    ("A, floor 3, at 6", FLOOR_3, 6, "ROW 6 3 3 0 0\n"),
    ("A, floor 64, at 3", FLOOR_64, 3, "7 0 0\n"),
    ("B, floor 1 below, at 8", FLOOR_BELOW, 8, "ROW 8 1 1 0 4 2 0\n"),
    ("B, floor 1 below, at 9", FLOOR_BELOW, 9, "ROW 9 1 1 0 4 2 0\n"),
    ("B, floor 1 above, at 8", FLOOR_ABOVE, 8, "ROW 8 1 0 1 4 2 0\n"),
    ("D, floor 1, at 3", D_FLOOR_1, 3, "ROW 3 1 1 0 1\n"),
    ("A, the lower strip at 1 to 3, at 4", FROM_1, 4, "7 0 0\n"),
    ("A, the lower strip at 1 to 3, at 5", FROM_1, 5, "ROW 5 2 2 1 0\n"),
    ("A, the lower strip at 1 to 3, at 100", FROM_1, 100, "ROW 100 0 0 2 0\n"),
    ("A, the lower strip at 0, at the widest", AT_0, u32::MAX, "ROW 4294967295 3 3 0 0\n"),
    ("A, the upper strip at 3, at 6", UPPER_AT_3, 6, "7 0 0\n"),
    ("A, the upper strip at 3, at 8", UPPER_AT_3, 8, "ROW 8 2 2 4 3\n"),
    ("A, the upper strip at 9,999, at 10,002", UPPER_LAST, 10002, "7 0 0\n"),
    ("A, the upper strip at 9,999, at 10,003", UPPER_LAST, 10003, "ROW 10003 3 3 0 9999\n"),
    ("A, the upper strip at 9,999, at the widest", UPPER_LAST, u32::MAX, "ROW 4294967295 0 0 10001 9999\n"),
    ("A, windows apart, at 8", APART, 8, "7 0 0\n"),
    ("A, windows apart, at the widest", APART, u32::MAX, "ROW 4294967295 3 3 0 5\n"),
    ("B, the middle strip at 2, at 6", MIDDLE_AT_2, 6, "ROW 6 3 3 0 0 2 0\n"),
    ("length 1,000 at 9,999, at 10,998", LONG_LAST, 10998, "7 0 0\n"),
];

/// The least total at spread 6 has channel 1 at 2, so that strip 1 stands at 1 and channel 2 is straight. With one track more channel 1 is straight, and
/// channel 2 needs three: the surplus goes into the middle, and none into the last channel, which is straight both times.
const MIDDLE: &str = "STACK 3\nPART 4\nPART 4\nPART 4\nPART 4\nNETS 0 2 2 4\nNETS 1 2 2 3\nNETS 0 0\n";

/// The text, a spread, a stated total, and the row or the refusal's line.
pub const PLACES: [(&str, &str, u32, u32, &str); 83] = [
    ("A at 4", TABLES[0].1, 4, 3, "ROW 4 3 3 0 0\n"),
    ("A at 4, one below", TABLES[0].1, 4, 2, "10 0 0\n"),
    ("A at 4, none", TABLES[0].1, 4, 0, "10 0 0\n"),
    ("A at 4, one more", TABLES[0].1, 4, 4, "ROW 4 4 4 0 0\n"),
    ("A at 4, many more", TABLES[0].1, 4, 1000, "ROW 4 1000 1000 0 0\n"),
    ("A at 4, the most", TABLES[0].1, 4, u32::MAX, "ROW 4 4294967295 4294967295 0 0\n"),
    ("A at 5, none", TABLES[0].1, 5, 0, "10 0 0\n"),
    ("A at 5, one below", TABLES[0].1, 5, 1, "10 0 0\n"),
    ("A at 5", TABLES[0].1, 5, 2, "ROW 5 2 2 1 0\n"),
    ("A at 5, one more", TABLES[0].1, 5, 3, "ROW 5 3 3 0 0\n"),
    ("A at 6", TABLES[0].1, 6, 0, "ROW 6 0 0 2 0\n"),
    ("A at 6, one more", TABLES[0].1, 6, 1, "ROW 6 1 1 2 0\n"),
    ("A at 6, two more", TABLES[0].1, 6, 2, "ROW 6 2 2 1 0\n"),
    ("A at 6, three more", TABLES[0].1, 6, 3, "ROW 6 3 3 0 0\n"),
    ("A at 100, one more", TABLES[0].1, 100, 1, "ROW 100 1 1 2 0\n"),
    ("A at the widest, the most", TABLES[0].1, u32::MAX, u32::MAX, "ROW 4294967295 4294967295 4294967295 0 0\n"),
    ("A at 3, none: 7 before 10", TABLES[0].1, 3, 0, "7 0 0\n"),
    ("A at 3", TABLES[0].1, 3, 3, "7 0 0\n"),
    ("B at 4, one below", TABLES[1].1, 4, 5, "10 0 0\n"),
    ("B at 4", TABLES[1].1, 4, 6, "ROW 4 6 3 3 0 0 0\n"),
    ("B at 4, one more", TABLES[1].1, 4, 7, "ROW 4 7 3 4 0 0 0\n"),
    ("B at 5, one below", TABLES[1].1, 5, 4, "10 0 0\n"),
    ("B at 5", TABLES[1].1, 5, 5, "ROW 5 5 2 3 1 0 0\n"),
    ("B at 5, one more", TABLES[1].1, 5, 6, "ROW 5 6 2 4 1 0 0\n"),
    ("B at 6, one below", TABLES[1].1, 6, 2, "10 0 0\n"),
    ("B at 6", TABLES[1].1, 6, 3, "ROW 6 3 0 3 2 0 0\n"),
    ("B at 6, one more", TABLES[1].1, 6, 4, "ROW 6 4 0 4 2 0 0\n"),
    ("B at 6, three more", TABLES[1].1, 6, 6, "ROW 6 6 0 6 2 0 0\n"),
    ("B at 6, the most", TABLES[1].1, 6, u32::MAX, "ROW 6 4294967295 0 4294967295 2 0 0\n"),
    ("B at 7, one below", TABLES[1].1, 7, 1, "10 0 0\n"),
    ("B at 7", TABLES[1].1, 7, 2, "ROW 7 2 0 2 3 1 0\n"),
    ("B at 7, one more", TABLES[1].1, 7, 3, "ROW 7 3 0 3 2 0 0\n"),
    ("B at 8", TABLES[1].1, 8, 0, "ROW 8 0 0 0 4 2 0\n"),
    ("B at 8, one more", TABLES[1].1, 8, 1, "ROW 8 1 0 1 4 2 0\n"),
    ("B at 8, two more", TABLES[1].1, 8, 2, "ROW 8 2 0 2 3 1 0\n"),
    ("B at 8, three more", TABLES[1].1, 8, 3, "ROW 8 3 0 3 2 0 0\n"),
    ("C at 5", TABLES[2].1, 5, 0, "ROW 5 0 0 0 0\n"),
    ("C at 5, one more", TABLES[2].1, 5, 1, "ROW 5 1 1 0 0\n"),
    ("C at 5, nine more", TABLES[2].1, 5, 9, "ROW 5 9 9 0 0\n"),
    ("D at 1, none", TABLES[3].1, 1, 0, "10 0 0\n"),
    ("D at 1, one below", TABLES[3].1, 1, 1, "10 0 0\n"),
    ("D at 1", TABLES[3].1, 1, 2, "ROW 1 2 2 0 0\n"),
    ("D at 2", TABLES[3].1, 2, 0, "ROW 2 0 0 0 1\n"),
    ("D at 2, one more", TABLES[3].1, 2, 1, "ROW 2 1 1 0 1\n"),
    ("D at 2, two more", TABLES[3].1, 2, 2, "ROW 2 2 2 0 0\n"),
    ("E: 2 before 7 and 10", TABLES[4].1, 0, 0, "2 1 0\n"),
    ("H: 6 before 7 and 10", TABLES[7].1, 3, 0, "6 4 4\n"),
    ("middle at 6, none", MIDDLE, 6, 0, "10 0 0\n"),
    ("middle at 6, one below", MIDDLE, 6, 1, "10 0 0\n"),
    ("middle at 6", MIDDLE, 6, 2, "ROW 6 2 2 0 0 2 1 0 0\n"),
    ("middle at 6, one more", MIDDLE, 6, 3, "ROW 6 3 0 3 0 2 0 0 0\n"),
    ("middle at 6, two more", MIDDLE, 6, 4, "ROW 6 4 0 3 1 2 0 0 0\n"),
    ("middle at 6, the most", MIDDLE, 6, u32::MAX, "ROW 6 4294967295 0 3 4294967292 2 0 0 0\n"),
    ("A, floor 1, at 6, none", FLOOR_1, 6, 0, "10 0 0\n"),
    ("A, floor 1, at 6", FLOOR_1, 6, 1, "ROW 6 1 1 2 0\n"),
    ("A, floor 1, at 6, one more", FLOOR_1, 6, 2, "ROW 6 2 2 1 0\n"),
    ("A, floor 1, at 6, two more", FLOOR_1, 6, 3, "ROW 6 3 3 0 0\n"),
    ("A, floor 1, at 64, none: 9 is of pages", FLOOR_1, 64, 0, "10 0 0\n"),
    ("A, floor 64, at 4, one below", FLOOR_64, 4, 63, "10 0 0\n"),
    ("A, floor 64, at 4", FLOOR_64, 4, 64, "ROW 4 64 64 0 0\n"),
    ("A, floor 64, at 4, one more", FLOOR_64, 4, 65, "ROW 4 65 65 0 0\n"),
    // With one track more channel 1 comes down from 3 to its floor: separations 2, 2 are legal too and come behind 1, 3.
    ("B, floor 1 below, at 6, one more", FLOOR_BELOW, 6, 4, "ROW 6 4 1 3 2 0 0\n"),
    ("B, floor 1 below, at 8", FLOOR_BELOW, 8, 1, "ROW 8 1 1 0 4 2 0\n"),
    ("B, floor 1 below, at 8, one more", FLOOR_BELOW, 8, 2, "ROW 8 2 1 1 4 2 0\n"),
    ("B, floor 1 below, at 8, two more", FLOOR_BELOW, 8, 3, "ROW 8 3 1 2 3 1 0\n"),
    ("B, floor 1 below, at 8, three more", FLOOR_BELOW, 8, 4, "ROW 8 4 1 3 2 0 0\n"),
    ("B, floor 1 above, at 8, none", FLOOR_ABOVE, 8, 0, "10 0 0\n"),
    ("C, floor 1, at 5, one more", NO_PAIRS_1, 5, 2, "ROW 5 2 2 0 0\n"),
    ("C, floor 3, at 5, one below", NO_PAIRS, 5, 2, "10 0 0\n"),
    ("C, floor 3, at 5, four more", NO_PAIRS, 5, 7, "ROW 5 7 7 0 0\n"),
    ("D, floor 1, at 2, one more", D_FLOOR_1, 2, 2, "ROW 2 2 2 0 0\n"),
    ("A, the lower strip at 1 to 3, at 4: 7 before 10", FROM_1, 4, 0, "7 0 0\n"),
    ("A, the lower strip at 1 to 3, at 5, one below", FROM_1, 5, 1, "10 0 0\n"),
    ("A, the lower strip at 1 to 3, at 6, two more", FROM_1, 6, 2, "ROW 6 2 2 1 0\n"),
    ("A, the lower strip at 1 to 3, at 6, three more", FROM_1, 6, 3, "ROW 6 3 3 1 0\n"),
    ("A, the lower strip at 0, at 100, one below", AT_0, 100, 2, "10 0 0\n"),
    ("A, the upper strip at 3, at 9, one more", UPPER_AT_3, 9, 1, "ROW 9 1 1 5 3\n"),
    ("A, the upper strip at 3, at 9, two more", UPPER_AT_3, 9, 2, "ROW 9 2 2 4 3\n"),
    ("A, the upper strip at 3, at 9, the most", UPPER_AT_3, 9, u32::MAX, "ROW 9 4294967295 4294967295 0 3\n"),
    ("A, the upper strip at 9,999, at 20,000, two more", UPPER_LAST, 20000, 2, "ROW 20000 2 2 10000 9999\n"),
    ("B, the middle strip at 2, at 6, one below", MIDDLE_AT_2, 6, 2, "10 0 0\n"),
    ("B, the middle strip at 2, at 6, one more", MIDDLE_AT_2, 6, 4, "ROW 6 4 3 1 0 2 0\n"),
    ("B, the middle strip at 2, at 8, three more", MIDDLE_AT_2, 8, 3, "ROW 8 3 0 3 4 2 0\n"),
];

/// The text, a spread, separations and positions, and whether they are legal. A's offsets: -2 with 0 and 1, -3 to -1 with 2, every one from 3 on.
pub const TRIALS: [(&str, &str, u32, &[u32], &[u32], bool); 54] = [
    ("B at 6 with 3, 0: its total too", TABLES[1].1, 6, &[3, 0], &[0, 2, 0], true),
    ("B at 6 with 2, 2", TABLES[1].1, 6, &[2, 2], &[2, 1, 0], true),
    ("B at 6 with 1, 1: legal before P4", TABLES[1].1, 6, &[1, 1], &[2, 1, 0], false),
    ("B at 5 with 1, 1", TABLES[1].1, 5, &[1, 1], &[1, 0, 0], false),
    ("B at 8 with 1, 1", TABLES[1].1, 8, &[1, 1], &[4, 2, 0], true),
    ("A at 4 with 2: its row before P4", TABLES[0].1, 4, &[2], &[0, 0], false),
    ("A at 5 with 1: its row before P4", TABLES[0].1, 5, &[1], &[1, 0], false),
    ("A at 4 with 3", TABLES[0].1, 4, &[3], &[0, 0], true),
    ("A at 5 with 2", TABLES[0].1, 5, &[2], &[1, 0], true),
    ("A at 6 with 0", TABLES[0].1, 6, &[0], &[2, 0], true),
    ("A at 5 with 0", TABLES[0].1, 5, &[0], &[2, 0], false),
    ("A at 6 with 0, offset -1", TABLES[0].1, 6, &[0], &[1, 0], false),
    ("A at 7 with 0, offset -3", TABLES[0].1, 7, &[0], &[3, 0], false),
    ("A at 6 with 1", TABLES[0].1, 6, &[1], &[2, 0], true),
    ("A at 5 with 1", TABLES[0].1, 5, &[1], &[2, 0], false),
    ("A at 6 with 1, offset -1", TABLES[0].1, 6, &[1], &[1, 0], false),
    ("A at 7 with 1, offset -3", TABLES[0].1, 7, &[1], &[3, 0], false),
    ("A at 7 with 2, offset -3", TABLES[0].1, 7, &[2], &[3, 0], true),
    ("A at 8 with 2, offset -4", TABLES[0].1, 8, &[2], &[4, 0], false),
    ("A at 8 with 3, offset -4", TABLES[0].1, 8, &[3], &[4, 0], true),
    ("A, floor 1, at 6 with 1", FLOOR_1, 6, &[1], &[2, 0], true),
    ("A, floor 1, at 6 with 1, offset -1", FLOOR_1, 6, &[1], &[1, 0], false),
    ("A, floor 1, at 6 with 0", FLOOR_1, 6, &[0], &[2, 0], false),
    ("A, floor 2, at 6 with 2", FLOOR_2, 6, &[2], &[2, 0], true),
    ("A, floor 2, at 6 with 1", FLOOR_2, 6, &[1], &[2, 0], false),
    ("A, floor 64, at 4 with 64", FLOOR_64, 4, &[64], &[0, 0], true),
    ("A, floor 64, at 4 with 63", FLOOR_64, 4, &[63], &[0, 0], false),
    ("B, floor 1 above, at 8 with 0, 1", FLOOR_ABOVE, 8, &[0, 1], &[4, 2, 0], true),
    ("B, floor 1 above, at 8 with 0, 0", FLOOR_ABOVE, 8, &[0, 0], &[4, 2, 0], false),
    ("C, floor 1, at 5 with 1", NO_PAIRS_1, 5, &[1], &[2, 0], true),
    ("C, floor 1, at 5 with 0", NO_PAIRS_1, 5, &[0], &[2, 0], false),
    ("C, floor 3, at 5 with 3", NO_PAIRS, 5, &[3], &[2, 0], true),
    ("C, floor 3, at 5 with 2", NO_PAIRS, 5, &[2], &[2, 0], false),
    ("D at 1 with 1: its row before P4", TABLES[3].1, 1, &[1], &[0, 0], false),
    ("D at 1 with 2", TABLES[3].1, 1, &[2], &[0, 0], true),
    ("D at 2 with 1", TABLES[3].1, 2, &[1], &[0, 1], true),
    ("A, the lower strip at 1 to 3, straight at 2", FROM_1, 6, &[0], &[2, 0], true),
    ("A, the lower strip at 1 to 3, straight at 3", FROM_1, 7, &[0], &[3, 1], true),
    ("A, the lower strip at 1 to 3, straight at 4", FROM_1, 8, &[0], &[4, 2], false),
    ("A, the lower strip at 1 to 3, at 1", FROM_1, 5, &[3], &[1, 0], true),
    ("A, the lower strip at 1 to 3, at 0", FROM_1, 5, &[3], &[0, 0], false),
    ("A, the lower strip at 1 to 3, at 3", FROM_1, 8, &[3], &[3, 4], true),
    ("A, the lower strip at 1 to 3, at 4", FROM_1, 8, &[3], &[4, 4], false),
    ("A, the lower strip at 1 to 3, at 3 beyond the spread", FROM_1, 6, &[3], &[3, 0], false),
    ("A, the lower strip at 1 to 3, below the first row", FROM_1, 4, &[3], &[0, 0], false),
    ("A, the lower strip at 1 to 3, below the first row, at 1", FROM_1, 4, &[3], &[1, 0], false),
    ("A, the lower strip at 1 to 3, too few tracks", FROM_1, 6, &[1], &[1, 0], false),
    ("A, the upper strip at 9,999", UPPER_LAST, 10005, &[0], &[10001, 9999], true),
    ("A, the upper strip at 9,999, at 10,000", UPPER_LAST, 10006, &[0], &[10002, 10000], false),
    ("A, the upper strip at 9,999, at 9,998", UPPER_LAST, 10005, &[0], &[10000, 9998], false),
    ("A, windows apart", APART, 13, &[3], &[1, 9], true),
    ("A, windows apart, too few tracks", APART, 13, &[2], &[1, 5], false),
    ("B, the middle strip at 2", MIDDLE_AT_2, 8, &[0, 0], &[4, 2, 0], true),
    ("B, the middle strip at 3", MIDDLE_AT_2, 9, &[0, 0], &[5, 3, 1], false),
];

const TWO_LEFT: &str = "STACK 1\nPART 4\nPART 4\nNETS 0 0 3 1 4 2\n";
const STRAIGHT: &str = "STACK 1\nPART 1\nPART 1\nNETS 0 0\nGAP 1 2\n";
const STRAIGHT_1: &str = "STACK 1\nPART 1\nPART 1\nNETS 0 0\nGAP 1 1\n";
const BOTH_WAYS: &str = "STACK 1\nPART 6\nPART 6\nNETS 1 0 2 1 4 5 5 6\n";
const THREE_RIGHT: &str = "STACK 1\nPART 5\nPART 5\nNETS 0 3 1 4 2 5\n";
const THREE_LEFT: &str = "STACK 1\nPART 5\nPART 5\nNETS 3 0 4 1 5 2\n";

/// The lines of a page, each up to its last character that is not a dot, or the refusal.
type Page = Result<&'static [&'static str], (u32, u32, u32)>;

/// A's pages with offsets -2, -1 and 0.
const A_1: Page = Ok(&["  1 ..o.o", "  0 ..o.o"]);
const A_2: Page = Ok(&["  2 ..o.o", "  1 .++++", "  0 .o.o"]);
const A_3: Page = Ok(&["  3 ..o.o", "  2 .++.|", "  1 +++-+", "  0 o.o"]);
const A_4: Page = Ok(&["  4 ..o.o", "  3 ..|.|", "  2 .++.|", "  1 +++-+", "  0 o.o"]);
const D_2: Page = Ok(&["  2 o", "  1 ++", "  0 .o"]);

/// The text, a spread, a channel, and the page.
pub const PAGES: [(&str, &str, u32, u32, Page); 54] = [
    ("A at 4", TABLES[0].1, 4, 1, A_3),
    ("A at 5", TABLES[0].1, 5, 1, A_2),
    ("A at 6", TABLES[0].1, 6, 1, Ok(&["  0 ..o.o"])),
    ("A at 63", TABLES[0].1, 63, 1, Ok(&["  0 ..o.o"])),
    ("B at 5, channel 1", TABLES[1].1, 5, 1, A_2),
    ("B at 5, channel 2", TABLES[1].1, 5, 2, A_3),
    ("B at 7, channel 1", TABLES[1].1, 7, 1, Ok(&["  0 ...o.o"])),
    ("B at 7, channel 2", TABLES[1].1, 7, 2, A_2),
    ("C at 5", TABLES[2].1, 5, 1, Ok(&["  0 "])),
    ("C at 63", TABLES[2].1, 63, 1, Ok(&["  0 "])),
    ("D at 1", TABLES[3].1, 1, 1, D_2),
    ("D at 2", TABLES[3].1, 2, 1, Ok(&["  0 .o"])),
    ("two to the left", TWO_LEFT, 4, 1, Ok(&["  3 ooo", "  2 ||+-+", "  1 |+-+|", "  0 o..oo"])),
    ("both ways", BOTH_WAYS, 6, 1, Ok(&["  3 oo...oo", "  2 |++.++|", "  1 ++|.|++", "  0 .oo.oo"])),
    ("three to the right", THREE_RIGHT, 5, 1, Ok(&["  4 ...ooo", "  3 +--+||", "  2 |+--+|", "  1 ||+--+", "  0 ooo"])),
    ("three to the left", THREE_LEFT, 5, 1, Ok(&["  4 ooo", "  3 ||+--+", "  2 |+--+|", "  1 +--+||", "  0 ...ooo"])),
    ("E, channel 0, at 64", TABLES[4].1, 64, 0, Err((2, 1, 0))),
    ("H, channel 2, at 3", TABLES[7].1, 3, 2, Err((6, 4, 4))),
    ("H at 3", TABLES[7].1, 3, 1, Err((6, 4, 4))),
    ("H at 64", TABLES[7].1, 64, 1, Err((6, 4, 4))),
    ("A, channel 0", TABLES[0].1, 4, 0, Err((3, 0, 0))),
    ("A, channel 2", TABLES[0].1, 4, 2, Err((3, 0, 0))),
    ("B, channel 3", TABLES[1].1, 4, 3, Err((3, 0, 0))),
    ("A, channel 0, at 3", TABLES[0].1, 3, 0, Err((3, 0, 0))),
    ("A, channel 2, at 64", TABLES[0].1, 64, 2, Err((3, 0, 0))),
    ("A at 3", TABLES[0].1, 3, 1, Err((7, 0, 0))),
    ("A at 64", TABLES[0].1, 64, 1, Err((9, 0, 0))),
    ("length 1,000 at 999", TABLES[8].1, 999, 1, Err((7, 0, 0))),
    ("length 1,000 at 1,000", TABLES[8].1, 1000, 1, Err((9, 0, 0))),
    ("A, floor 1, at 6", FLOOR_1, 6, 1, A_1),
    ("A, floor 2, at 6", FLOOR_2, 6, 1, A_2),
    ("A, floor 3, at 6", FLOOR_3, 6, 1, A_3),
    ("A, floor 4, at 6", FLOOR_4, 6, 1, A_4),
    ("B, floor 3 above, at 6", b!("GAP 2 3\n"), 6, 2, A_3),
    ("B, floor 4 above, at 6", b!("GAP 2 4\n"), 6, 2, A_4),
    ("B, floor 1 below, at 8, channel 1", FLOOR_BELOW, 8, 1, Ok(&["  1 ....o.o", "  0 ....o.o"])),
    ("C, floor 1, at 63", NO_PAIRS_1, 63, 1, Ok(&["  1 ", "  0 "])),
    ("C, floor 3, at 63", NO_PAIRS, 63, 1, Ok(&["  3 ", "  2 ", "  1 ", "  0 "])),
    ("D, floor 1, at 2", D_FLOOR_1, 2, 1, Ok(&["  1 .o", "  0 .o"])),
    ("straight, floor 1, at 1", STRAIGHT_1, 1, 1, Ok(&["  1 o", "  0 o"])),
    ("straight, floor 2, at 1", STRAIGHT, 1, 1, Ok(&["  2 o", "  1 |", "  0 o"])),
    ("floor 65, channel 2, at 3", FLOOR_65, 3, 2, Err((3, 5, 3))),
    ("A, floor 64, at 64", FLOOR_64, 64, 1, Err((9, 0, 0))),
    ("A, the lower strip at 1 to 3, at 5", FROM_1, 5, 1, A_2),
    ("A, the lower strip at 0, at 63", AT_0, 63, 1, A_3),
    ("A, the upper strip at 3, at 7", UPPER_AT_3, 7, 1, Ok(&["  3 .....o.o", "  2 .+---+.|", "  1 +++----+", "  0 o.o"])),
    ("A, the upper strip at 3, at 8", UPPER_AT_3, 8, 1, Ok(&["  2 .....o.o", "  1 ....++++", "  0 ....o.o"])),
    ("A, the upper strip at 3, at 9", UPPER_AT_3, 9, 1, Ok(&["  0 .....o.o"])),
    ("B, the middle strip at 2, at 7, channel 1", MIDDLE_AT_2, 7, 1, Ok(&["  2 ....o.o", "  1 ...++++", "  0 ...o.o"])),
    ("A, the lower strip at 1 to 3, channel 2, at 4", FROM_1, 4, 2, Err((3, 0, 0))),
    ("A, the lower strip at 1 to 3, at 4", FROM_1, 4, 1, Err((7, 0, 0))),
    ("A, the upper strip at 9,999, at 64: 7 before 9", UPPER_LAST, 64, 1, Err((7, 0, 0))),
    ("A, the upper strip at 9,999, at 10,003", UPPER_LAST, 10003, 1, Err((9, 0, 0))),
    ("a least position above the greatest, channel 2, at 3", held!("4 3 1", "4"), 3, 2, Err((14, 2, 4))),
];

/// The step that adds a strip of 4 with specimen A's channel.
macro_rules! add_a {
    () => {
        "ADD\nPART 4\nNETS 0 2 2 4\n"
    };
}

/// A text of steps, a spread, and for each step the row or the refusal's line.
pub const SESSIONS: [(&str, &str, u32, &str); 8] = [
    (
        "A and B by steps",
        concat!("BEGIN\nPART 4\n", add_a!(), add_a!(), "OFF\nOFF\nOFF\n"),
        5,
        "ROW 5 0 0\nROW 5 2 2 1 0\nROW 5 5 2 3 1 0 0\nROW 5 2 2 1 0\nROW 5 0 0\n13 0 0\n",
    ),
    ("C by steps", "BEGIN\nPART 3\nADD\nPART 5\nNETS\nOFF\n", 5, "ROW 5 0 0\nROW 5 0 0 0 0\nROW 5 0 0\n"),
    ("D by steps", "BEGIN\nPART 1\nADD\nPART 1\nNETS 1 0\nOFF\n", 2, "ROW 2 0 0\nROW 2 0 0 0 1\nROW 2 0 0\n"),
    ("a spread below the longest strip", "BEGIN\nPART 3\nADD\nPART 5\nNETS\nOFF\n", 4, "ROW 4 0 0\n7 0 0\nROW 4 0 0\n"),
    // Only a strip at 2 has a straight channel above it, which leads to 0; from there every channel has three tracks.
    (
        "up to nine strips and down to one",
        concat!(
            "BEGIN\nPART 4\n",
            add_a!(),
            add_a!(),
            add_a!(),
            add_a!(),
            add_a!(),
            add_a!(),
            add_a!(),
            add_a!(),
            add_a!(),
            "OFF\nOFF\nOFF\nOFF\nOFF\nOFF\nOFF\nOFF\nOFF\n"
        ),
        6,
        "ROW 6 0 0\n\
         ROW 6 0 0 2 0\n\
         ROW 6 3 0 3 2 0 0\n\
         ROW 6 3 0 3 0 2 0 2 0\n\
         ROW 6 6 0 3 0 3 2 0 2 0 0\n\
         ROW 6 6 0 3 0 3 0 2 0 2 0 2 0\n\
         ROW 6 9 0 3 0 3 0 3 2 0 2 0 2 0 0\n\
         ROW 6 9 0 3 0 3 0 3 0 2 0 2 0 2 0 2 0\n\
         ROW 6 12 0 3 0 3 0 3 0 3 2 0 2 0 2 0 2 0 0\n\
         3 0 0\n\
         ROW 6 9 0 3 0 3 0 3 0 2 0 2 0 2 0 2 0\n\
         ROW 6 9 0 3 0 3 0 3 2 0 2 0 2 0 0\n\
         ROW 6 6 0 3 0 3 0 2 0 2 0 2 0\n\
         ROW 6 6 0 3 0 3 2 0 2 0 0\n\
         ROW 6 3 0 3 0 2 0 2 0\n\
         ROW 6 3 0 3 2 0 0\n\
         ROW 6 0 0 2 0\n\
         ROW 6 0 0\n\
         13 0 0\n",
    ),
    (
        "refused steps on an empty session",
        "OFF\nADD\nPART 4\nNETS\nADD\nPART 0\nNETS 1\nBEGIN\nPART 1001\nOFF\nBEGIN\nPART 4\nBEGIN\nPART 0\nADD\nPART 4\nNETS\n",
        4,
        "13 0 0\n13 0 0\n13 0 0\n4 0 2\n13 0 0\nROW 4 0 0\n4 0 2\n13 0 0\n",
    ),
    (
        "refused steps between others",
        concat!(
            "BEGIN\nPART 4\nADD\nPART 1001\nNETS 9\nADD\nPART 4\nNETS 9 2 2\nADD\nPART 4\nNETS 0 2 2 5\n",
            add_a!(),
            "ADD\nPART 4\nNETS 0 2 0 4\nADD\nPART 5\nNETS 4 5\nOFF\n",
            add_a!()
        ),
        4,
        "ROW 4 0 0\n4 0 2\n11 0 5\n5 0 5\nROW 4 3 3 0 0\n6 0 4\n7 0 0\nROW 4 3 3 0 0\nROW 4 6 3 3 0 0 0\n",
    ),
    (
        "a beginning in the middle",
        concat!("BEGIN\nPART 4\n", add_a!(), add_a!(), "BEGIN\nPART 3\nADD\nPART 5\nNETS\n", "BEGIN\nPART 4\n", add_a!()),
        u32::MAX,
        "ROW 4294967295 0 0\n\
         ROW 4294967295 0 0 2 0\n\
         ROW 4294967295 0 0 0 4 2 0\n\
         ROW 4294967295 0 0\n\
         ROW 4294967295 0 0 0 0\n\
         ROW 4294967295 0 0\n\
         ROW 4294967295 0 0 2 0\n",
    ),
];

/// A page's text: its lines with dots up to column 63.
pub fn page(lines: &[&str]) -> String {
    lines.iter().map(|l| format!("{:.<68}\n", l)).collect()
}

/// A text of one channel with so many pairs between strips of 40.
pub fn pairs(m: usize) -> String {
    let nets: String = (0..m).map(|j| format!(" {} {}", j, j)).collect();
    format!("STACK 1\nPART 40\nPART 40\nNETS{}\n", nets)
}

/// With tabs for spaces.
pub fn tabbed(text: &str) -> String {
    text.replace(' ', "\t")
}
