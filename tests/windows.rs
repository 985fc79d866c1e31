//! Strips held by a mounting hole, by document 02, P7: refused lines, tables, answers and trials of texts whose `PART` lines have windows, written out.

use crate::{
    bare, check_answer, check_narrow, check_page, check_stated, check_trial, gaps, put_line, right, specimens, Changes, Refused, A,
};

/// Lines in place of some of A's: the first fault by line is given, and within a line the count, then the numbers, then the length, then the window.
const REFUSED: [(&str, Changes, (u32, u32, u32)); 68] = [
    ("a least position alone", &[(2, "PART 4 1")], (11, 2, 4)),
    ("a least position alone", &[(3, "PART 4 0")], (11, 3, 4)),
    ("an ill-formed number alone", &[(2, "PART 4 x")], (11, 2, 4)),
    ("a tab behind the length", &[(3, "PART 4 ")], (11, 3, 4)),
    ("two tabs behind the length", &[(2, "PART 4  ")], (12, 2, 3)),
    ("a tab behind a least position", &[(2, "PART 4 1 ")], (12, 2, 4)),
    ("a tab behind a window", &[(2, "PART 4 1 3 ")], (11, 2, 5)),
    ("a number behind a window", &[(3, "PART 4 1 3 5")], (11, 3, 5)),
    ("two numbers behind a window", &[(2, "PART 4 1 3 5 7")], (11, 2, 5)),
    ("five numbers behind a window", &[(2, "PART 4 1 3 5 7 9 11 13")], (11, 2, 5)),
    ("a doubled tab before a window", &[(2, "PART 4  1 3")], (11, 2, 5)),
    ("a length left out before a window", &[(2, "PART  1 3")], (12, 2, 2)),
    ("a least position left out", &[(2, "PART 4  3")], (12, 2, 3)),
    ("a window without a length", &[(2, "PART 1 3")], (11, 2, 4)),
    ("least position with five digits", &[(2, "PART 4 10000 10001")], (12, 2, 3)),
    ("greatest position with five digits", &[(2, "PART 4 0 10000")], (12, 2, 4)),
    ("least position with a leading zero", &[(3, "PART 4 01 3")], (12, 3, 3)),
    ("greatest position with a leading zero", &[(3, "PART 4 1 03")], (12, 3, 4)),
    ("least position 00", &[(2, "PART 4 00 3")], (12, 2, 3)),
    ("least position below 0", &[(2, "PART 4 -1 3")], (12, 2, 3)),
    ("greatest position with a sign", &[(2, "PART 4 1 +3")], (12, 2, 4)),
    ("the left one of three ill-formed numbers", &[(2, "PART x y z")], (12, 2, 2)),
    ("the left one of two ill-formed numbers", &[(2, "PART 4 y z")], (12, 2, 3)),
    ("count before numbers", &[(2, "PART x y")], (11, 2, 4)),
    ("count before numbers", &[(2, "PART x y z 1")], (11, 2, 5)),
    ("count before length", &[(2, "PART 0 1")], (11, 2, 4)),
    ("count before length and window", &[(2, "PART 0 3 1 1")], (11, 2, 5)),
    ("count before window", &[(2, "PART 4 3 1 1")], (11, 2, 5)),
    ("number before length", &[(2, "PART 0 x 3")], (12, 2, 3)),
    ("number before length", &[(2, "PART 1001 1 x")], (12, 2, 4)),
    ("number before window", &[(2, "PART x 3 1")], (12, 2, 2)),
    ("number before window", &[(2, "PART 04 9999 0")], (12, 2, 2)),
    ("length 0 with a window", &[(2, "PART 0 1 3")], (4, 2, 2)),
    ("length 1,001 with a window", &[(3, "PART 1001 0 0")], (4, 3, 2)),
    ("length before window", &[(2, "PART 0 3 1")], (4, 2, 2)),
    ("length before window", &[(3, "PART 1001 3 1")], (4, 3, 2)),
    ("length before window", &[(2, "PART 9999 9999 9998")], (4, 2, 2)),
    ("least position above the greatest", &[(2, "PART 4 3 1")], (14, 2, 4)),
    ("least position 1, greatest 0", &[(2, "PART 4 1 0")], (14, 2, 4)),
    ("least position 9,999, greatest 9,998", &[(3, "PART 4 9999 9998")], (14, 3, 4)),
    ("least position 9,999, greatest 0", &[(3, "PART 4 9999 0")], (14, 3, 4)),
    ("least position 10, greatest 9", &[(2, "PART 4 10 9")], (14, 2, 4)),
    ("least position 1,000, greatest 999", &[(2, "PART 4 1000 999")], (14, 2, 4)),
    ("least position above the greatest, length 1", &[(2, "PART 1 1 0")], (14, 2, 4)),
    ("least position above the greatest, length 1,000", &[(2, "PART 1000 1 0")], (14, 2, 4)),
    ("word before window", &[(2, "PORT 4 3 1")], (2, 2, 0)),
    ("14 before 14", &[(2, "PART 4 3 1"), (3, "PART 4 2 1")], (14, 2, 4)),
    ("14 before 2", &[(2, "PART 4 3 1"), (3, "PORT 4")], (14, 2, 4)),
    ("14 before 2 of another word", &[(3, "PART 4 3 1"), (4, "NET")], (14, 3, 4)),
    ("14 before 4", &[(2, "PART 4 3 1"), (3, "PART 0")], (14, 2, 4)),
    ("14 before 11", &[(2, "PART 4 3 1"), (3, "PART 4 1")], (14, 2, 4)),
    ("14 before 12", &[(2, "PART 4 3 1"), (3, "PART 4 x 3")], (14, 2, 4)),
    ("14 before 5", &[(3, "PART 4 3 1"), (4, "NETS 0 5")], (14, 3, 4)),
    ("14 before 6", &[(3, "PART 4 3 1"), (4, "NETS 0 2 0 4")], (14, 3, 4)),
    ("14 before 11 of terminals", &[(2, "PART 4 3 1"), (4, "NETS 0")], (14, 2, 4)),
    ("14 before 3 of a GAP line", &[(3, "PART 4 3 1"), (4, "NETS\nGAP 2 65")], (14, 3, 4)),
    ("14 before an extra line", &[(3, "PART 4 3 1"), (4, "NETS\nNETS")], (14, 3, 4)),
    ("2 before 14", &[(2, "PORT 4"), (3, "PART 4 3 1")], (2, 2, 0)),
    ("3 before 14", &[(1, "STACK 9"), (2, "PART 4 3 1")], (3, 1, 2)),
    ("4 before 14", &[(2, "PART 1001"), (3, "PART 4 3 1")], (4, 2, 2)),
    ("4 beside a window before 14", &[(2, "PART 0 1 3"), (3, "PART 4 3 1")], (4, 2, 2)),
    ("11 before 14", &[(2, "PART 4 3"), (3, "PART 4 3 1")], (11, 2, 4)),
    ("12 before 14", &[(2, "PART 4 x 1"), (3, "PART 4 3 1")], (12, 2, 3)),
    ("14 behind a good window", &[(2, "PART 4 1 3"), (3, "PART 4 3 1")], (14, 3, 4)),
    ("overhang by the length, not the window", &[(3, "PART 4 0 9999"), (4, "NETS 0 2 2 5")], (5, 4, 5)),
    ("crossing behind windows", &[(2, "PART 4 1 3"), (3, "PART 4 0 0"), (4, "NETS 0 2 0 4")], (6, 4, 4)),
    ("three numbers for k", &[(1, "STACK 1 1 3")], (11, 1, 3)),
    ("an ill-formed number of a later line", &[(2, "PART 4 1 3"), (3, "PART x 1 3")], (12, 3, 2)),
];

/// A with other lines in place of some. Spaces stand for tabs.
fn changed(changes: Changes) -> Vec<u8> {
    changes.iter().fold(A.as_bytes().to_vec(), |text, (n, line)| put_line(&text, *n, specimens::tabbed(line).as_bytes()))
}

/// A with windows behind the lengths, each with a tab before, or none.
fn held(lower: &str, upper: &str) -> String {
    specimens::tabbed(&format!("STACK 1\nPART 4{}\nPART 4{}\nNETS 0 2 2 4\n", lower, upper))
}

/// Texts refused for a window, or before it or behind it for something else.
pub fn refused() -> Vec<Refused> {
    let mut all: Vec<Refused> = REFUSED.iter().map(|(name, changes, due)| (*name, changed(changes), *due)).collect();
    let unended = |line: &str| specimens::tabbed(&format!("STACK 1\n{}", line)).into_bytes();
    all.push(("unended before window", unended("PART 4 3 1"), (2, 2, 0)));
    all.push(("unended window", unended("PART 4 1 3"), (2, 2, 0)));
    all.push(("14 before a missing line", unended("PART 4 3 1\n"), (14, 2, 4)));
    for n in 2..=10 {
        let eight = put_line(bare(8, 1).as_bytes(), n, b"PART\t1\t8\t7");
        all.push(("one of nine least positions above the greatest", eight, (14, n as u32, 4)));
    }
    for (bytes, due) in [(8192, (14, 2, 4)), (8193, (1, 0, 0))] {
        let mut long = changed(&[(2, "PART 4 3 1")]);
        long.resize(bytes, b'\n');
        all.push(("a least position above the greatest in a long text", long, due));
    }
    all
}

/// Nine strips of 1,000 of which the bottom one is held at 9,999, each one's right end joined to the left end of the next: straight channels lead from 9,999 to
/// 17,999, the last position, in 18,999, the last spread that a table can have. In the first row all but the bottom strip stand at the left.
fn to_the_last_spread() -> (String, String) {
    let text = bare(8, 1000).replacen("1000", "1000\t9999\t9999", 1).replace("NETS", "NETS\t1000\t0");
    let positions = |first: u32| (0..8).map(|i| format!("\t{}", first + 1000 * i)).collect::<String>();
    let zeros = "\t0".repeat(7);
    let rows = format!("ROW\t10999\t2\t2{0}\t9999{1}\nROW\t18999\t0\t0{0}\t9999{2}\n", zeros, positions(0), positions(10999));
    (text, format!("TABLE\t8\n{}", rows))
}

/// Texts that are accepted, with their tables, besides the specimens.
pub fn accepted() -> Vec<(&'static str, Vec<u8>, String)> {
    let (furthest, table) = to_the_last_spread();
    let all_last = bare(8, 1000).replace("1000", "1000\t9999\t9999");
    let stairs = (0..9).fold(bare(8, 1), |text, i| text.replacen("PART\t1\n", &format!("PART\t1\t{0}\t{0}\n", 7 * i), 1));
    let floors = held("\t1\t3", "\t0\t9") + &gaps(&[64]);
    let zeros = "\t0".repeat(9);
    vec![
        ("up to the last spread", furthest.into_bytes(), table),
        ("nine strips of 1,000 at 9,999", all_last.into_bytes(), format!("TABLE\t8\nROW\t10999{}{}\n", zeros, "\t9999".repeat(9))),
        ("nine strips on stairs", stairs.into_bytes(), format!("TABLE\t8\nROW\t57{}\t0\t7\t14\t21\t28\t35\t42\t49\t56\n", zeros)),
        ("windows and the greatest floor", floors.into_bytes(), "TABLE\t1\nROW\t5\t64\t64\t1\t0\n".to_string()),
    ]
}

/// Stated totals with strips held: the separation says how far right of its upper strip A's lower one stands at least.
fn check_places() {
    let from_1 = held("\t1\t3", "");
    for spread in 0..5 {
        check_narrow("the lower strip at 1 to 3", &from_1, spread);
    }
    for (spread, least) in [(5, 2), (6, 0), (7, 0), (8, 0), (63, 0), (64, 0), (u32::MAX, 0)] {
        check_stated("the lower strip at 1 to 3", &from_1, spread, least, |total| (vec![], vec![right(total).max(1), 0]));
    }
    for (window, at) in [("\t3\t3", 3), ("\t3\t9999", 3), ("\t59\t60", 59), ("\t9999\t9999", 9999)] {
        let text = held("", window);
        check_narrow("the upper strip held", &text, at + 3);
        check_narrow("the upper strip held", &text, 4);
        let lower = |total: u32| if total > 2 { 0 } else { at + right(total) };
        for (spread, least) in [(at + 4, 3), (at + 5, 2), (at + 6, 0), (at + 7, 0), (20_000, 0), (u32::MAX, 0)] {
            check_stated("the upper strip held", &text, spread, least, |total| (vec![], vec![lower(total), at]));
            let floored = text.clone() + &gaps(&[1]);
            check_stated("the upper strip held, floor 1", &floored, spread, least.max(1), |total| (vec![], vec![lower(total), at]));
        }
    }
    for spread in [9, 10, 13, 64, u32::MAX] {
        check_stated("windows apart", &held("\t0\t1", "\t5\t9"), spread, 3, |_| (vec![], vec![0, 5]));
        check_stated("the lower strip at 0", &held("\t0\t0", ""), spread, 3, |_| (vec![], vec![0, 0]));
    }
    let (furthest, _) = to_the_last_spread();
    check_narrow("up to the last spread", &furthest, 10998);
    let positions = |first: u32| -> Vec<u32> { [9999].into_iter().chain((0..8).map(|i| first + 1000 * i)).collect() };
    for spread in [10999, 11000, 11998] {
        check_answer("up to the last spread", &furthest, spread, 2, &[2, 0, 0, 0, 0, 0, 0, 0], &positions(0));
    }
    // All but the top strip to the right: the two tracks are in the last channel.
    let mut top_left = positions(10999);
    top_left[8] = 0;
    for spread in [17999, 18000, 18998] {
        check_answer("up to the last spread", &furthest, spread, 2, &[0, 0, 0, 0, 0, 0, 0, 2], &top_left);
    }
    for spread in [18999, 19000, 65535, u32::MAX] {
        check_answer("up to the last spread", &furthest, spread, 0, &[0; 8], &positions(10999));
    }
}

/// Trials around both ends of windows, in spreads in which the strip then lies or not; with three tracks every offset is feasible.
fn check_trials() {
    for (least, greatest) in [(0, 0), (0, 2), (1, 3), (7, 7), (60, 64), (9998, 9999), (0, 9999), (9999, 9999)] {
        let window = format!("\t{}\t{}", least, greatest);
        for position in [0, 1, 2, 3, 4, least.max(1) - 1, least, least + 1, greatest.max(1) - 1, greatest, greatest + 1, 10_000, u32::MAX] {
            for spread in [4, least + 3, least + 4, greatest + 3, greatest + 4, greatest + 5, 20_000, u32::MAX] {
                let inside = least <= position && position <= greatest && position as u64 + 4 <= spread as u64;
                let free = position as u64 + 4 <= spread as u64;
                check_trial("the lower strip held", &held(&window, ""), spread, &[3], &[position, 0], inside);
                check_trial("the upper strip held", &held("", &window), spread, &[3], &[0, position], inside);
                check_trial("no strip held", A, spread, &[3], &[position, 0], free);
                check_trial("below the floor", &(held(&window, "") + &gaps(&[4])), spread, &[3], &[position, 0], false);
            }
        }
    }
    let (furthest, _) = to_the_last_spread();
    let straight: Vec<u32> = (0..9).map(|i| 9999 + 1000 * i).collect();
    check_trial("up to the last spread", &furthest, 18999, &[0; 8], &straight, true);
    check_trial("up to the last spread, a spread less", &furthest, 18998, &[0; 8], &straight, false);
    let moved: Vec<u32> = straight.iter().map(|x| x - 1).collect();
    check_trial("up to the last spread, all one to the left", &furthest, 18999, &[0; 8], &moved, false);
}

/// Pages of strips that are held: a placement at the last column that is shown, and refusals in order.
fn check_pages() {
    let last = held("\t59\t59", "");
    let ends = |column: usize| format!("{}o.o", ".".repeat(column));
    check_page("straight up to the last column", &last, 63, 1, Ok(specimens::page(&[&format!("  0 {}", ends(59))])));
    check_page("up to the last column", &last, 62, 1, Err((7, 0, 0)));
    check_page("up to the last column", &last, 64, 1, Err((9, 0, 0)));
    check_page("up to the last column", &last, 62, 2, Err((3, 0, 0)));
    let apart = held("\t0\t1", "\t59\t63");
    let lines =
        [format!("  3 {}", ends(61)), format!("  2 .+{}+.|", "-".repeat(59)), format!("  1 +++{}+", "-".repeat(60)), "  0 o.o".to_string()];
    check_page("far apart", &apart, 63, 1, Ok(specimens::page(&lines.iter().map(|l| &l[..]).collect::<Vec<_>>())));
    check_page("held beyond the page", &held("\t60\t60", ""), 63, 1, Err((7, 0, 0)));
    check_page("held beyond the page", &held("\t60\t60", ""), 64, 1, Err((9, 0, 0)));
}

/// Answers, trials and pages besides the specimens.
pub fn check() {
    check_places();
    check_trials();
    check_pages();
}
