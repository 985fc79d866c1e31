//! Cards turned over, by document 02, P8: texts and those of the cards upside down and mirrored, with the tables and totals of both; then the positions that
//! the strips of a card have in all legal placements with a total. Written out.

use crate::reader::Stack;
use crate::{check_narrow, check_table, check_total, library, reader, same, solver, specimens, turn};

/// A text and its table. Spaces stand for tabs.
type Card = (&'static str, &'static str);

/// A card and the card turned over, which have the same totals: each from its spread on, the first of them at the first row.
struct Turned {
    name: &'static str,
    card: Card,
    turned: Card,
    totals: &'static [(u32, u32)],
}

const A: Card = ("STACK 1\nPART 4\nPART 4\nNETS 0 2 2 4\n", "TABLE 1\nROW 4 3 3 0 0\nROW 5 2 2 1 0\nROW 6 0 0 2 0\n");

/// A with its edges exchanged; as both strips are 4 long and the terminals are 0, 2 and 2, 4, it is A's mirror image too.
const A_TURNED: Card = ("STACK 1\nPART 4\nPART 4\nNETS 2 0 4 2\n", "TABLE 1\nROW 4 3 3 0 0\nROW 5 2 2 0 1\nROW 6 0 0 0 2\n");

const UPSIDE_DOWN: [Turned; 2] = [
    Turned { name: "A", card: A, turned: A_TURNED, totals: &[(4, 3), (5, 2), (6, 0)] },
    // Both channels are straight where the upper strip is two columns further left. The middle strip is held from 1 on, so the first row is 5. At 6 separations
    // 2, 2 and 3, 1 are legal, upside down 2, 2 and 1, 3: the first in dictionary order are not the same placement.
    Turned {
        name: "floor and windows",
        card: (
            "STACK 2\nPART 4\nPART 4 1 9\nPART 5 0 3\nNETS 0 2 2 4\nNETS 1 3\nGAP 2 1\n",
            "TABLE 2\nROW 5 5 3 2 0 1 0\nROW 6 4 2 2 2 1 0\nROW 7 2 0 2 3 1 0\nROW 8 1 0 1 4 2 0\n",
        ),
        turned: (
            "STACK 2\nPART 5 0 3\nPART 4 1 9\nPART 4\nNETS 3 1\nNETS 2 0 4 2\nGAP 1 1\n",
            "TABLE 2\nROW 5 5 2 3 0 1 0\nROW 6 4 1 3 0 2 0\nROW 7 2 2 0 0 1 3\nROW 8 1 1 0 0 2 4\n",
        ),
        totals: &[(5, 5), (6, 4), (7, 2), (8, 1)],
    },
];

const MIRRORED: [Turned; 2] = [
    Turned { name: "A", card: A, turned: A_TURNED, totals: &[(4, 3), (5, 2), (6, 0)] },
    // Straight with offsets -2 and -2, mirrored 6 - 5 + 2 = 3 and 5 - 3 + 2 = 4: 10 columns in both cards.
    Turned {
        name: "lengths 6, 5 and 3",
        card: (
            "STACK 2\nPART 6\nPART 5\nPART 3\nNETS 0 2 2 4\nNETS 0 2\nGAP 1 1\n",
            "TABLE 2\nROW 6 5 3 2 0 0 0\nROW 7 3 3 0 0 2 0\nROW 9 2 2 0 3 2 0\nROW 10 1 1 0 4 2 0\n",
        ),
        turned: (
            "STACK 2\nPART 6\nPART 5\nPART 3\nNETS 4 1 6 3\nNETS 5 1\nGAP 1 1\n",
            "TABLE 2\nROW 6 5 3 2 0 0 0\nROW 7 3 3 0 0 0 4\nROW 9 2 2 0 0 2 6\nROW 10 1 1 0 0 3 7\n",
        ),
        totals: &[(6, 5), (7, 3), (9, 2), (10, 1)],
    },
];

/// Cards with a held strip and what they are with every terminal counted from the other end, the windows as they are: other totals.
const HELD: [(&str, Card, Card); 2] = [
    // A is straight where the lower strip is further right, which it cannot be; the other one where the upper strip is.
    (
        "A, the lower strip at 0",
        ("STACK 1\nPART 4 0 0\nPART 4\nNETS 0 2 2 4\n", "TABLE 1\nROW 4 3 3 0 0\n"),
        ("STACK 1\nPART 4 0 0\nPART 4\nNETS 2 0 4 2\n", "TABLE 1\nROW 4 3 3 0 0\nROW 5 2 2 0 1\nROW 6 0 0 0 2\n"),
    ),
    // Straight with offsets -2 and 3 and the bottom strip at 2; with 1 and -1 it can be at 1, but the middle one then ends at 7.
    (
        "floor, the bottom strip at 1 or 2",
        ("STACK 2\nPART 4 1 2\nPART 5\nPART 3\nNETS 0 2 2 4\nNETS 3 0\nGAP 2 1\n", "TABLE 2\nROW 5 4 2 2 1 0 0\nROW 6 1 0 1 2 0 3\n"),
        (
            "STACK 2\nPART 4 1 2\nPART 5\nPART 3\nNETS 2 1 4 3\nNETS 2 3\nGAP 2 1\n",
            "TABLE 2\nROW 5 5 3 2 1 0 0\nROW 6 3 2 1 1 1 0\nROW 7 1 0 1 1 2 1\n",
        ),
    ),
];

/// A card of two channels, a spread and a total, and each strip's positions in the legal placements.
struct Positions {
    name: &'static str,
    text: &'static str,
    spread: u32,
    total: u32,
    due: [&'static [u32]; 3],
}

/// The middle strip is straight below at 0 with the bottom strip at 1, straight above at 2 with the top strip at 0.
const GAP_AT_1: &str = "STACK 2\nPART 2\nPART 1\nPART 2\nNETS 0 1\nNETS 0 2\n";

/// The middle strip is straight below at 0, and straight above at 3 with the top strip at 1. The floor above is 1.
const GAP_TO_3: &str = "STACK 2\nPART 2 1 1\nPART 1\nPART 2 1 2\nNETS 0 1\nNETS 0 2\nGAP 2 1\n";

/// Straight with all strips at 3. With two tracks below the middle strip may be up to two columns further right, with two above the top strip one to each side.
const TOGETHER: &str = "STACK 2\nPART 3 3 3\nPART 3 3 5\nPART 3\nNETS 0 0 3 3\nNETS 0 0 2 2\n";

const POSITIONS: [Positions; 7] = [
    Positions { name: "a gap at 1", text: GAP_AT_1, spread: 3, total: 2, due: [&[0, 1], &[0, 2], &[0, 1]] },
    Positions { name: "no gap with a total of 4", text: GAP_AT_1, spread: 3, total: 4, due: [&[0, 1], &[0, 1, 2], &[0, 1]] },
    Positions { name: "floor and windows, straight below", text: GAP_TO_3, spread: 4, total: 2, due: [&[1], &[0], &[1, 2]] },
    // Separations 0, 3 and 1, 2 leave the middle strip at 0; with 2, 1 it is at 3 and the top strip at 1.
    Positions { name: "floor and windows, a gap from 0 to 3", text: GAP_TO_3, spread: 4, total: 3, due: [&[1], &[0, 3], &[1, 2]] },
    Positions { name: "floor and windows, no gap", text: GAP_TO_3, spread: 4, total: 4, due: [&[1], &[0, 1, 2, 3], &[1, 2]] },
    // The top strip is at 3 to 5 with separations 2, 0 and at 2 to 4 with 0, 2.
    Positions { name: "two lists of separations", text: TOGETHER, spread: 9, total: 2, due: [&[3], &[3, 4, 5], &[2, 3, 4, 5]] },
    Positions { name: "straight", text: TOGETHER, spread: 9, total: 0, due: [&[3], &[3], &[3]] },
];

fn read(text: &str) -> Stack {
    reader::read(specimens::tabbed(text).as_bytes()).expect("an accepted text")
}

fn check_card(name: &str, card: &Card) {
    let (text, table) = (specimens::tabbed(card.0), specimens::tabbed(card.1));
    check_table(name, text.as_bytes(), &table);
    let stack = read(card.0);
    same(&format!("{}, the independent table", name), text.as_bytes(), solver::table_text(&stack, &solver::rows(&stack, false)), table);
}

/// The totals of a card from below the first row to far past the last, those of a row up to the next one.
fn check_totals(name: &str, card: &Card, totals: &[(u32, u32)]) {
    let text = specimens::tabbed(card.0);
    check_narrow(name, &text, totals[0].0 - 1);
    let ends = totals[1..].iter().map(|next| next.0 - 1).chain([u32::MAX]);
    for ((from, total), upto) in totals.iter().zip(ends) {
        for spread in [*from, (from + 1).min(upto), upto] {
            check_total(name, text.as_bytes(), spread, Ok(*total));
        }
    }
}

/// Cards turned over in one way, which the independent program turns into each other.
fn check_turned(way: &str, all: &[Turned], turn: fn(&Stack) -> Option<Stack>) {
    for Turned { name, card, turned, totals } in all {
        for (name, from, to) in [(name.to_string(), card, turned), (format!("{} {}", name, way), turned, card)] {
            check_card(&name, from);
            check_totals(&name, from, totals);
            same(&format!("{}, turned over", name), from.0.as_bytes(), turn(&read(from.0)), Some(read(to.0)));
        }
    }
}

/// The positions by trial of every placement.
fn check_positions(case: &Positions) {
    let text = specimens::tabbed(case.text);
    let stack = read(case.text);
    let mut found = [const { Vec::new() }; 3];
    for t in 0..=case.total {
        for n in 0..(case.spread + 1).pow(3) {
            let positions = [1, case.spread + 1, (case.spread + 1).pow(2)].map(|size| n / size % (case.spread + 1));
            let placement = library::numbers(0, &[t, case.total - t], &positions);
            let told = library::try_numbers(text.as_bytes(), case.spread, &placement[1..]);
            let legal = solver::legal(&stack, case.spread as i64, &[t, case.total - t].map(|t| t as usize), &positions.map(|x| x as i64));
            same(&format!("{}, trial of {:?}", case.name, placement), text.as_bytes(), told, if legal { 1 } else { 2 });
            if legal {
                found.iter_mut().zip(positions).for_each(|(strip, x)| strip.push(x));
            }
        }
    }
    found.iter_mut().for_each(|strip| {
        strip.sort();
        strip.dedup();
    });
    same(&format!("{}, positions", case.name), text.as_bytes(), found, case.due.map(|strip| strip.to_vec()));
}

pub fn check() {
    check_turned("upside down", &UPSIDE_DOWN, |stack| Some(turn::upside_down(stack)));
    check_turned("mirrored", &MIRRORED, turn::left_to_right);
    for (name, card, mirrored) in &HELD {
        check_card(name, card);
        check_card(name, mirrored);
        same(name, card.0.as_bytes(), turn::left_to_right(&read(card.0)), None);
        same(name, card.0.as_bytes(), turn::with_ends_reversed(&read(card.0)), read(mirrored.0));
    }
    POSITIONS.iter().for_each(check_positions);
}
