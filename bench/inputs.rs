//! The inputs of the comparison: eight channels of 32 pairs each, made from fixed seeds; for pages one channel of 32 pairs; besides stacks with strips held for
//! which many spreads are evaluated, as they were found.

const CHANNELS: usize = 8;
const PAIRS: usize = 32;

/// Xorshift, 64 bits.
struct Random(u64);

impl Random {
    /// From 0 to below n.
    fn below(&mut self, n: u64) -> u64 {
        self.0 ^= self.0 << 13;
        self.0 ^= self.0 >> 7;
        self.0 ^= self.0 << 17;
        self.0 % n
    }

    /// Rising terminals, as many as the limit of pairs, from one column to another.
    fn terminals(&mut self, from: u64, upto: u64) -> Vec<u64> {
        self.some_terminals(PAIRS, from, upto)
    }

    /// So many rising terminals from one column to another.
    fn some_terminals(&mut self, pairs: usize, from: u64, upto: u64) -> Vec<u64> {
        let mut all: Vec<u64> = (from..=upto).collect();
        while all.len() > pairs {
            all.remove(self.below(all.len() as u64) as usize);
        }
        all
    }
}

type Terminals = Vec<u64>;

/// The least and the greatest position of a strip.
type Window = (u64, u64);

fn text(lengths: &[u64], channels: &[(Terminals, Terminals)]) -> String {
    held_text(lengths, &vec![None; lengths.len()], channels)
}

/// The text of a stack with strips held.
fn held_text(lengths: &[u64], windows: &[Option<Window>], channels: &[(Terminals, Terminals)]) -> String {
    let mut text = format!("STACK\t{}\n", channels.len());
    for (length, window) in lengths.iter().zip(windows) {
        let ends = window.map_or(String::new(), |(least, greatest)| format!("\t{}\t{}", least, greatest));
        text += &format!("PART\t{}{}\n", length, ends);
    }
    for (lower, upper) in channels {
        text += "NETS";
        for (p, q) in lower.iter().zip(upper) {
            text += &format!("\t{}\t{}", p, q);
        }
        text += "\n";
    }
    text
}

/// Lengths about 40, terminals anywhere.
fn short() -> String {
    let mut random = Random(1);
    let lengths: Vec<u64> = (0..=CHANNELS).map(|_| 36 + random.below(9)).collect();
    let channels: Vec<_> = lengths.windows(2).map(|l| (random.terminals(0, l[0]), random.terminals(0, l[1]))).collect();
    text(&lengths, &channels)
}

/// Lengths of 1,000, terminals anywhere.
fn long() -> String {
    let mut random = Random(2);
    let channels: Vec<_> = (0..CHANNELS).map(|_| (random.terminals(0, 1000), random.terminals(0, 1000))).collect();
    text(&[1000; CHANNELS + 1], &channels)
}

/// Lengths of 1,000, terminals bunched at the lower strip's left end and the upper strip's right end.
fn skewed() -> String {
    let mut random = Random(3);
    let channels: Vec<_> = (0..CHANNELS).map(|_| (random.terminals(0, 120), random.terminals(880, 1000))).collect();
    text(&[1000; CHANNELS + 1], &channels)
}

/// As `skewed`, with a floor in each channel: below what the pairs need at every spread, between that and the most they need, and above it.
fn floors() -> String {
    let mut random = Random(4);
    let channels: Vec<_> = (0..CHANNELS).map(|_| (random.terminals(0, 120), random.terminals(880, 1000))).collect();
    let floors = [1, 4, 8, 12, 16, 24, 32, 64];
    let gaps: String = floors.iter().enumerate().map(|(i, floor)| format!("GAP\t{}\t{}\n", i + 1, floor)).collect();
    text(&[1000; CHANNELS + 1], &channels) + &gaps
}

/// Many rows: each column more saves a track in one channel, the last one two, channel 1 first. Neighbouring channels are drawn to opposite sides.
fn rows() -> String {
    let near: Terminals = (0..PAIRS as u64).map(|j| 2 * j).collect();
    let channel = |i: usize| {
        let far = near.iter().map(|p| p + (PAIRS * (i + 1)) as u64).collect();
        if i % 2 == 0 {
            (near.clone(), far)
        } else {
            (far, near.clone())
        }
    };
    let channels: Vec<_> = (0..CHANNELS).map(channel).collect();
    text(&[(2 * (PAIRS - 1) + PAIRS * CHANNELS) as u64; CHANNELS + 1], &channels)
}

/// Lengths of 1,000, terminals far apart, each edge's about a constant away from the other's: two tracks a channel, once the strips are moved.
fn loose() -> String {
    let mut random = Random(5);
    let mut edge = || {
        let first = random.below(100);
        (0..PAIRS as u64).map(|j| 28 * j + first + random.below(12)).collect::<Terminals>()
    };
    let channels: Vec<_> = (0..CHANNELS).map(|_| (edge(), edge())).collect();
    text(&[1000; CHANNELS + 1], &channels)
}

/// Strips from 400 to 500, terminals of neighbouring strips drawn apart, to one side and the other in turns. Four strips are held: at a hole of one position, at
/// short slots and at a long one.
fn windows() -> String {
    let mut random = Random(8);
    let lengths: Vec<u64> = (0..=CHANNELS).map(|_| 400 + random.below(101)).collect();
    let mut channel = |i: usize| {
        let (near, far) = (random.terminals(0, 200), random.terminals(200, 400));
        if i % 2 == 0 {
            (near, far)
        } else {
            (far, near)
        }
    };
    let channels: Vec<_> = (0..CHANNELS).map(&mut channel).collect();
    let windows = [None, Some((40, 52)), None, Some((120, 120)), None, Some((60, 300)), None, Some((0, 90)), None];
    held_text(&lengths, &windows, &channels)
}

// Stacks found by hill climbing, from random ones with up to 12 pairs a channel by small changes. Spaces stand for tabs.

/// Four channels, lengths up to 400, windows up to 2,000: the most spreads evaluated besides the rows that were found, 51.
const HELD: &str = "STACK 4\n\
     PART 23 1007 1049\n\
     PART 24 999 1002\n\
     PART 352 644 679\n\
     PART 199 812 1460\n\
     PART 346\n\
     NETS 7 9 8 13 15 16 17 20\n\
     NETS 1 350\n\
     NETS 315 6 317 7 319 23 322 57 330 70 335 85 336 90 338 103 344 109 346 115 349 132\n\
     NETS 76 11 94 13 103 56 115 87 122 97 148 106 150 133 154 154 170 163 172 178 186 197 187 316\n";

/// Three channels, lengths up to 1,000, windows up to 9,999: the most spreads evaluated besides the rows that were found, 38.
const STUCK: &str = "STACK 3\n\
     PART 116 1903 7803\n\
     PART 537 1500 1504\n\
     PART 258 1733 5228\n\
     PART 977\n\
     NETS 21 178 23 384 45 401 57 412 73 420 78 428 100 506 112 537\n\
     NETS 314 24 374 45 400 66 403 75 419 81 436 87 441 101 465 112 485 173 521 253\n\
     NETS 43 19 63 41 101 81 109 198 126 227 159 237 161 299 192 309 216 317 239 481 247 520 255 694\n";

/// Four channels, lengths up to 400, windows up to 2,000: if of an end it were only known whether it may grow, 935 spreads would be evaluated for four rows; by
/// growing ends it is six.
const WEDGED: &str = "STACK 4\n\
     PART 204 1857 2000\n\
     PART 321 968 1799\n\
     PART 398 1195 2000\n\
     PART 364\n\
     PART 397\n\
     NETS 28 1 55 81 59 91 69 114 85 128 93 200 148 207 159 243 161 290 192 318\n\
     NETS 265 2 315 41\n\
     NETS 364 7 371 14\n\
     NETS 330 15 331 33 352 380\n";

/// So many channels of so many pairs between strips of one length; terminals as in `skewed`: within an eighth of the length at opposite ends.
pub fn sized(channels: usize, pairs: usize, length: u64) -> String {
    let mut random = Random(7);
    let bunch = length / 8;
    let all: Vec<_> =
        (0..channels).map(|_| (random.some_terminals(pairs, 0, bunch), random.some_terminals(pairs, length - bunch, length))).collect();
    text(&vec![length; channels + 1], &all)
}

/// One channel between strips of 63, the last that a page shows, by pair; 33 tracks are needed, a run on each of 32.
fn paged(pair: impl Fn(u64) -> (u64, u64)) -> String {
    text(&[63; 2], &[(0..PAIRS as u64).map(pair).unzip()])
}

pub fn all() -> [(&'static str, String); 13] {
    [
        ("short", short()),
        ("long", long()),
        ("skewed", skewed()),
        ("rows", rows()),
        ("loose", loose()),
        ("floors", floors()),
        ("windows", windows()),
        ("held", HELD.replace(' ', "\t")),
        ("stuck", STUCK.replace(' ', "\t")),
        ("wedged", WEDGED.replace(' ', "\t")),
        ("right", paged(|j| (j, 32 + j))),
        ("left", paged(|j| (32 + j, j))),
        ("stairs", paged(|j| (2 * j, 32 + j))),
    ]
}
