//! The proved library's job written for speed in plain Rust: a stack's text in; its table, or for one spread its least total or its placement for a total
//! out; pages are in page.rs.
//! It shares no code with reference/.

const CHANNELS: usize = 8;
const STRIPS: usize = CHANNELS + 1;
pub const PAIRS: usize = 32;
/// Separations with limits: 0 and one for each pair.
const LIMITED: usize = PAIRS + 1;
/// Totals above the floors: a channel needs no more than its pairs do, or its floor.
const TOTALS: usize = CHANNELS * LIMITED + 1;
const GREATEST_FLOOR: i16 = 64;

// Columns fit sixteen bits, so that a vector holds many: nine strips of 1,000 beside a position of 9,999 are 18,999 wide. Where a separation may be closed,
// sums stop at the ends of the sixteen bits.

/// No start of a span that is not empty is greater, shifted back or not.
const REACH: i16 = 20_000;
/// A shift beyond every position, for a separation that is feasible at no offset or, turned about, at every one.
const CLOSED: i16 = 32_000;
/// The start of an empty span, which ends as far on the other side. No shift by a strip's length brings it within reach, or beyond the sixteen bits.
const NOWHERE: i16 = 31_000;

/// Number, line and field.
pub type Refusal = (u32, u32, u32);

pub struct Stack {
    pub k: usize,
    lengths: [i16; STRIPS],
    /// The least and the greatest position; that of a free strip is nowhere.
    windows: [[i16; 2]; STRIPS],
    pub counts: [usize; CHANNELS],
    pub lower: [[i16; PAIRS]; CHANNELS],
    pub upper: [[i16; PAIRS]; CHANNELS],
    floors: [usize; CHANNELS],
}

/// A number's value and what is behind it.
fn number(text: &[u8]) -> Option<(i16, &[u8])> {
    let mut value = 0;
    let mut digits = 0;
    while let Some(byte @ b'0'..=b'9') = text.get(digits) {
        if digits == 4 || (digits == 1 && value == 0) {
            return None;
        }
        value = 10 * value + (byte - b'0') as i16;
        digits += 1;
    }
    if digits == 0 {
        return None;
    }
    Some((value, &text[digits..]))
}

/// Whether line `at` has as many numbers as are due; if not, the first that is missing or extra.
fn counted(at: u32, count: usize, due: usize) -> Result<(), Refusal> {
    if count == due {
        return Ok(());
    }
    Err((11, at, count.min(due) as u32 + 2))
}

/// The refusal of line `at` whose number `place`, from 0, is ill-formed, by the text from there on: the line's end and the count come first.
#[cold]
fn ill_formed(text: &[u8], at: u32, place: usize, due: impl Fn(usize) -> usize) -> Refusal {
    let Some(length) = text.iter().position(|b| *b == b'\n') else {
        return (2, at, 0);
    };
    let count = place + 1 + text[..length].iter().filter(|b| **b == b'\t').count();
    counted(at, count, due(count)).err().unwrap_or((12, at, place as u32 + 2))
}

/// The count of numbers behind the word in the text's first line, which is line `at`, the first of them kept, and the text behind the line. `due` says how many
/// numbers a line with so many should have.
fn line<'a>(text: &'a [u8], at: u32, word: &[u8], due: impl Fn(usize) -> usize, kept: &mut [i16]) -> Result<(usize, &'a [u8]), Refusal> {
    let mut rest = text.strip_prefix(word).ok_or((2, at, 0))?;
    let mut count = 0;
    loop {
        match rest {
            [b'\n', behind @ ..] => return counted(at, count, due(count)).map(|_| (count, behind)),
            [b'\t', field @ ..] => {
                let (value, behind) = number(field).ok_or_else(|| ill_formed(field, at, count, &due))?;
                if let Some(place) = kept.get_mut(count) {
                    *place = value;
                }
                count += 1;
                rest = behind;
            }
            // Digits and something else behind them.
            [_, ..] if count > 0 => return Err(ill_formed(rest, at, count - 1, due)),
            // A longer word, or the end of the text.
            _ => return Err((2, at, 0)),
        }
    }
}

/// The one number of a line.
fn single<'a>(text: &'a [u8], at: u32, word: &[u8]) -> Result<(i16, &'a [u8]), Refusal> {
    let mut kept = [0];
    let (_, behind) = line(text, at, word, |_| 1, &mut kept)?;
    Ok((kept[0], behind))
}

/// The window of a strip that is free.
const FREE: [i16; 2] = [0, NOWHERE];

/// The length and the window of a strip.
fn part(text: &[u8], at: u32) -> Result<(i16, [i16; 2], &[u8]), Refusal> {
    let mut kept = [0; 3];
    let (count, behind) = line(text, at, b"PART", |count| if count < 2 { 1 } else { 3 }, &mut kept)?;
    let [length, least, greatest] = kept;
    if !(1..=1000).contains(&length) {
        return Err((4, at, 2));
    }
    if least > greatest {
        return Err((14, at, 4));
    }
    Ok((length, if count == 1 { FREE } else { [least, greatest] }, behind))
}

/// The floors of k channels, from the lines behind line `at`.
fn gaps(text: &[u8], k: usize, mut at: u32) -> Result<[usize; CHANNELS], Refusal> {
    let mut floors = [0; CHANNELS];
    let mut rest = text;
    let mut before = 0;
    while !rest.is_empty() {
        at += 1;
        let mut kept = [0; 2];
        let (_, behind) = line(rest, at, b"GAP", |_| 2, &mut kept)?;
        let [channel, floor] = kept;
        if !(1..=k as i16).contains(&channel) {
            return Err((3, at, 2));
        }
        if floor > GREATEST_FLOOR {
            return Err((3, at, 3));
        }
        if channel <= before {
            return Err((6, at, 2));
        }
        before = channel;
        floors[channel as usize - 1] = floor as usize;
        rest = behind;
    }
    Ok(floors)
}

pub fn read(text: &[u8]) -> Result<Stack, Refusal> {
    if text.len() > 8192 {
        return Err((1, 0, 0));
    }
    let (k, mut rest) = single(text, 1, b"STACK")?;
    if !(1..=8).contains(&k) {
        return Err((3, 1, 2));
    }
    let k = k as usize;
    let none = [[0; PAIRS]; CHANNELS];
    let mut stack =
        Stack { k, lengths: [0; STRIPS], windows: [FREE; STRIPS], counts: [0; CHANNELS], lower: none, upper: none, floors: [0; CHANNELS] };
    let mut at = 1;
    for (length, window) in stack.lengths.iter_mut().zip(&mut stack.windows).take(k + 1) {
        at += 1;
        (*length, *window, rest) = part(rest, at)?;
    }
    for i in 0..k {
        at += 1;
        let mut kept = [0; 2 * PAIRS];
        let (count, behind) = line(rest, at, b"NETS", |count| count + count % 2, &mut kept)?;
        rest = behind;
        if count > 2 * PAIRS {
            return Err((3, at, 66));
        }
        stack.counts[i] = count / 2;
        let mut before = [-1, -1];
        for j in 0..count {
            let side = j % 2;
            if kept[j] > stack.lengths[i + side] {
                return Err((5, at, j as u32 + 2));
            }
            if kept[j] <= before[side] {
                return Err((6, at, j as u32 + 2));
            }
            before[side] = kept[j];
        }
        for (j, pair) in kept[..count].chunks_exact(2).enumerate() {
            stack.lower[i][j] = pair[0];
            stack.upper[i][j] = pair[1];
        }
    }
    stack.floors = gaps(rest, k, at)?;
    Ok(stack)
}

// From here on separations and totals are counted above the floors: a channel of m pairs and a floor is like one whose first limits are
// left out, so floors cost nothing.

/// The limits of one channel, that of separation t in place PAIRS - t, so that limits and spans run the same way when a total is
/// parted between a separation and the channels above. From a separation of `count` on every offset is feasible.
#[derive(Clone, Copy)]
struct Limits {
    low: [i16; LIMITED],
    high: [i16; LIMITED],
    least: usize,
    count: usize,
    /// Whether separation 0 has limits, and is not closed.
    straight: bool,
}

fn limits(p: &[i16], q: &[i16], floor: usize) -> Limits {
    let m = p.len();
    let count = if m == 0 { 0 } else { (m + 1).saturating_sub(floor) };
    let mut limits = Limits { low: [CLOSED; LIMITED], high: [-CLOSED; LIMITED], least: count, count, straight: false };
    for t in (floor.max(1)..=m).rev() {
        // Those that document 01 has for one track less.
        let less = t - 1;
        let low = p.iter().zip(&q[less..]).map(|(p, q)| p - q).max().unwrap_or(0) + less as i16;
        let high = p[less..].iter().zip(q).map(|(p, q)| p - q).min().unwrap_or(0) - less as i16;
        if low > high {
            return limits;
        }
        limits.set(t - floor, (low, high));
    }
    if floor == 0 && m > 0 {
        limits.set(0, limits.at(1));
    }
    limits
}

impl Limits {
    fn at(&self, t: usize) -> (i16, i16) {
        if t >= self.count {
            return (-CLOSED, CLOSED);
        }
        (self.low[PAIRS - t], self.high[PAIRS - t])
    }

    /// Sets the limits of a separation less than all before.
    fn set(&mut self, t: usize, limits: (i16, i16)) {
        self.least = t;
        self.straight = t == 0;
        (self.low[PAIRS - t], self.high[PAIRS - t]) = limits;
    }
}

/// Positions from a start to below an end, and a growing end: in a spread wider by d the end is no further than it is or than the growing end is by d. The
/// growing end is known only where strips are held; where all are free, it is the end itself.
#[derive(Clone, Copy)]
struct Span {
    from: i16,
    upto: i16,
    grows: i16,
}

/// No positions, and no end that grows.
const EMPTY: Span = Span { from: NOWHERE, upto: -NOWHERE, grows: -NOWHERE };

impl Span {
    fn is_open(&self) -> bool {
        self.from < self.upto
    }

    /// What of it lies in a window. The growing end is that of the one that ends first, the window's where both end together.
    fn within(&self, window: &Span) -> Span {
        let grows = if self.upto < window.upto { self.grows } else { window.grows };
        Span { from: self.from.max(window.from), upto: self.upto.min(window.upto), grows }
    }

    /// By how much the spread must grow before the end may come beyond a position.
    fn lacks(&self, position: i16) -> i16 {
        if self.upto > position {
            return 0;
        }
        (position + 1).saturating_sub(self.grows)
    }
}

/// The spans of one strip by total: positions from which the strips above can be placed with at most that total.
/// That of total v is in place PAIRS + v, behind empty ones.
#[derive(Clone, Copy)]
struct Spans {
    from: [i16; PAIRS + TOTALS],
    upto: [i16; PAIRS + TOTALS],
    grows: [i16; PAIRS + TOTALS],
}

impl Spans {
    fn at(&self, v: usize) -> Span {
        let place = PAIRS + v;
        Span { from: self.from[place], upto: self.upto[place], grows: self.grows[place] }
    }

    fn set<const HELD: bool>(&mut self, v: usize, span: Span) {
        let place = PAIRS + v;
        (self.from[place], self.upto[place]) = (span.from, span.upto);
        if HELD {
            self.grows[place] = span.grows;
        }
    }

    fn is_open(&self, v: usize) -> bool {
        self.at(v).is_open()
    }

    /// The nearest start and the furthest ends of the spans for what separations below their count leave of total v, shifted back by the limits. Separation 0,
    /// feasible in few channels, is left out of the loop, which then has as many turns as there are pairs: whole vectors.
    fn shifted_back<const HELD: bool>(&self, limits: &Limits, v: usize) -> Span {
        let from: &[i16; LIMITED] = self.from[v..v + LIMITED].try_into().unwrap();
        let upto: &[i16; LIMITED] = self.upto[v..v + LIMITED].try_into().unwrap();
        let grows: &[i16; LIMITED] = self.grows[v..v + LIMITED].try_into().unwrap();
        let mut span = EMPTY;
        for place in 0..PAIRS {
            span.from = span.from.min(from[place].saturating_sub(limits.high[place]));
            span.upto = span.upto.max(upto[place].saturating_sub(limits.low[place]));
            if HELD {
                span.grows = span.grows.max(grows[place].saturating_sub(limits.low[place]));
            }
        }
        if limits.straight {
            span.from = span.from.min(from[PAIRS] - limits.high[PAIRS]);
            span.upto = span.upto.max(upto[PAIRS] - limits.low[PAIRS]);
            if HELD {
                span.grows = span.grows.max(grows[PAIRS].saturating_sub(limits.low[PAIRS]));
            }
        }
        span
    }
}

struct Solver {
    k: usize,
    lengths: [i16; STRIPS],
    limits: [Limits; CHANNELS],
    /// By strip: the sum of the counts of the channels above it.
    most: [usize; STRIPS],
    /// No total is less.
    least: usize,
    floors: [usize; CHANNELS],
    held: [[i16; 2]; STRIPS],
    /// The positions of each strip in the spread at hand.
    windows: [Span; STRIPS],
    spans: [Spans; STRIPS],
}

pub struct Placement {
    total: usize,
    pub separations: [usize; CHANNELS],
    pub positions: [i16; STRIPS],
}

impl Solver {
    fn new(stack: &Stack) -> Solver {
        let none = Limits { low: [0; LIMITED], high: [0; LIMITED], least: 0, count: 0, straight: false };
        let mut solver = Solver {
            k: stack.k,
            lengths: stack.lengths,
            limits: [none; CHANNELS],
            most: [0; STRIPS],
            least: 0,
            floors: stack.floors,
            held: stack.windows,
            windows: [EMPTY; STRIPS],
            spans: [Spans { from: [NOWHERE; PAIRS + TOTALS], upto: [-NOWHERE; PAIRS + TOTALS], grows: [-NOWHERE; PAIRS + TOTALS] }; STRIPS],
        };
        for i in (0..stack.k).rev() {
            let m = stack.counts[i];
            solver.limits[i] = limits(&stack.lower[i][..m], &stack.upper[i][..m], stack.floors[i]);
            solver.most[i] = solver.most[i + 1] + solver.limits[i].count;
            solver.least += solver.limits[i].least;
        }
        solver
    }

    /// The narrowest spread in which every strip can stand.
    fn first(&self) -> i16 {
        self.lengths.iter().zip(&self.held).map(|(length, held)| length + held[0]).max().unwrap_or(0)
    }

    /// Leftmost placements never reach beyond: in each run of strips that touch one is at its least position.
    fn widest(&self) -> i16 {
        self.held.iter().map(|held| held[0]).max().unwrap_or(0) + self.lengths.iter().sum::<i16>()
    }

    /// A spread as far as it matters.
    fn within(&self, spread: u32) -> Result<i16, Refusal> {
        if spread < self.first() as u32 {
            return Err((7, 0, 0));
        }
        Ok(spread.min(self.widest() as u32) as i16)
    }

    /// Writes the span of strip i for total v. Answers by how much it is short, NOWHERE if it is not or is far from open.
    #[inline(always)]
    fn cell<const HELD: bool>(&mut self, i: usize, v: usize) -> i16 {
        let (own, above) = self.spans.split_at_mut(i + 1);
        let (own, above) = (&mut own[i], &above[0]);
        let limits = &self.limits[i];
        let window = &self.windows[i];
        if v > self.most[i] {
            // More than the channels above can use.
            own.set::<HELD>(v, own.at(v - 1));
            return NOWHERE;
        }
        if v >= limits.count && above.is_open(v - limits.count) {
            own.set::<HELD>(v, *window);
            return NOWHERE;
        }
        let reached = above.shifted_back::<HELD>(limits, v);
        let span = reached.within(window);
        if span.is_open() {
            own.set::<HELD>(v, span);
            return NOWHERE;
        }
        own.set::<HELD>(v, EMPTY);
        if span.from > REACH {
            return NOWHERE;
        }
        if HELD {
            reached.lacks(span.from).max(window.lacks(span.from))
        } else {
            span.from + 1 - span.upto
        }
    }

    /// Where the greatest position is reached, a window's end does not grow.
    fn set_windows(&mut self, spread: i16) {
        for i in 0..=self.k {
            let [least, greatest] = self.held[i];
            let last = spread - self.lengths[i];
            let upto = last.min(greatest) + 1;
            self.windows[i] = Span { from: least, upto, grows: if last < greatest { upto } else { -NOWHERE } };
        }
    }

    /// The first total that fits in a spread, and by how much the spread must grow before a smaller one may: that needs the growing ends where strips are held.
    fn scan<const HELD: bool>(&mut self, spread: i16) -> (usize, i16) {
        self.set_windows(spread);
        let top = self.windows[self.k];
        let mut jump = NOWHERE;
        for v in 0..=self.most[0] {
            let mut short = NOWHERE;
            self.spans[self.k].set::<HELD>(v, top);
            for i in (0..self.k).rev() {
                short = short.min(self.cell::<HELD>(i, v));
            }
            if self.spans[0].is_open(v) {
                return (v, jump);
            }
            jump = jump.min(short);
        }
        unreachable!("at the sum of the counts every position serves")
    }

    /// Whether a total fits in a spread. Fills the spans that its placement needs: none where every channel may have its count.
    fn fill(&mut self, spread: i16, total: usize) -> bool {
        self.set_windows(spread);
        if total >= self.most[0] {
            return true;
        }
        let top = self.windows[self.k];
        for v in 0..=total {
            self.spans[self.k].set::<false>(v, top);
            for i in (1..self.k).rev() {
                self.cell::<false>(i, v);
            }
        }
        self.cell::<false>(0, total);
        self.spans[0].is_open(total)
    }

    /// The span of a strip for a total: all of its window where the channels above may have their counts.
    fn span(&self, i: usize, v: usize) -> Span {
        if v >= self.most[i] {
            return self.windows[i];
        }
        self.spans[i].at(v)
    }

    /// The placement for a total that fits, by the tie rule, with the floors added, from the spans of a scan or of `fill`. A channel but the last never gets
    /// more than its count: one track less there and one more in the last serves too, and comes before.
    fn place(&self, total: usize) -> Placement {
        let k = self.k;
        let mut placement = Placement { total, separations: [0; CHANNELS], positions: [0; STRIPS] };
        let mut left = total;
        let mut span = self.windows[0];
        for i in 0..k - 1 {
            let limits = &self.limits[i];
            let mut t = limits.least;
            loop {
                let (low, high) = limits.at(t);
                let reached = Span { from: span.from + low, upto: span.upto.saturating_add(high), ..EMPTY };
                if reached.within(&self.span(i + 1, left - t)).is_open() {
                    span = reached.within(&self.windows[i + 1]);
                    break;
                }
                t += 1;
            }
            placement.separations[i] = t;
            left -= t;
        }
        placement.separations[k - 1] = left;
        let mut starts = self.windows.map(|window| window.from);
        for i in (0..k).rev() {
            let (_, high) = self.limits[i].at(placement.separations[i]);
            starts[i] = (starts[i + 1] - high).max(starts[i]);
        }
        placement.positions[0] = starts[0];
        for i in 0..k {
            let (low, _) = self.limits[i].at(placement.separations[i]);
            placement.positions[i + 1] = (placement.positions[i] + low).max(starts[i + 1]);
        }
        for (t, floor) in placement.separations.iter_mut().zip(self.floors) {
            *t += floor;
            placement.total += floor;
        }
        placement
    }
}

/// The placement with the least total at a spread.
pub fn placement(stack: &Stack, spread: u32) -> Result<Placement, Refusal> {
    let mut solver = Solver::new(stack);
    let (total, _) = solver.scan::<false>(solver.within(spread)?);
    Ok(solver.place(total))
}

/// The first row's spread.
#[allow(dead_code)]
pub fn first_spread(text: &[u8]) -> Result<u32, Refusal> {
    Ok(Solver::new(&read(text)?).first() as u32)
}

/// The least total at a spread.
pub fn total(text: &[u8], spread: u32) -> Result<u32, Refusal> {
    let stack = read(text)?;
    let mut solver = Solver::new(&stack);
    let (total, _) = solver.scan::<false>(solver.within(spread)?);
    Ok((total + stack.floors.iter().sum::<usize>()) as u32)
}

/// The stated total, eight separations and nine positions at a spread; zeros in unused places.
pub fn place(text: &[u8], spread: u32, total: u32) -> Result<[u32; 18], Refusal> {
    let stack = read(text)?;
    let mut solver = Solver::new(&stack);
    let spread = solver.within(spread)?;
    let above = (total as usize).checked_sub(stack.floors.iter().sum()).ok_or((10, 0, 0))?;
    if !solver.fill(spread, above) {
        return Err((10, 0, 0));
    }
    let placement = solver.place(above);
    let mut numbers = [0; 18];
    numbers[0] = total;
    for (place, t) in numbers[1..9].iter_mut().zip(placement.separations) {
        *place = t as u32;
    }
    for (place, x) in numbers[9..].iter_mut().zip(placement.positions) {
        *place = x as u32;
    }
    Ok(numbers)
}

/// A line being written, no longer than a row can be.
struct Line {
    bytes: [u8; 96],
    length: usize,
}

impl Line {
    fn new(word: &[u8]) -> Line {
        let mut line = Line { bytes: [0; 96], length: word.len() };
        line.bytes[..word.len()].copy_from_slice(word);
        line
    }

    /// A tab and a number below 100,000.
    fn number(&mut self, value: u32) {
        let digits = [value / 10000, value / 1000 % 10, value / 100 % 10, value / 10 % 10, value % 10];
        let skipped = (value < 10) as usize + (value < 100) as usize + (value < 1000) as usize + (value < 10000) as usize;
        self.byte(b'\t');
        for digit in &digits[skipped..] {
            self.byte(b'0' + *digit as u8);
        }
    }

    fn byte(&mut self, byte: u8) {
        self.bytes[self.length] = byte;
        self.length += 1;
    }

    /// Ends the line and copies it to the output's place `at`; the end of it there.
    fn end(mut self, out: &mut [u8], at: usize) -> Result<usize, Refusal> {
        self.byte(b'\n');
        let space = out.get_mut(at..at + self.length).ok_or((8, 0, 0))?;
        space.copy_from_slice(&self.bytes[..self.length]);
        Ok(at + self.length)
    }
}

fn write_row(out: &mut [u8], at: usize, k: usize, spread: i16, placement: &Placement) -> Result<usize, Refusal> {
    let mut line = Line::new(b"ROW");
    line.number(spread as u32);
    line.number(placement.total as u32);
    for t in &placement.separations[..k] {
        line.number(*t as u32);
    }
    for x in &placement.positions[..=k] {
        line.number(*x as u32);
    }
    line.end(out, at)
}

/// Hands on each row's spread and placement; how many spreads were evaluated.
fn walk<const HELD: bool>(solver: &mut Solver, mut row: impl FnMut(i16, &Placement) -> Result<(), Refusal>) -> Result<usize, Refusal> {
    let mut least = usize::MAX;
    let mut spread = solver.first();
    let widest = solver.widest();
    let mut evaluations = 0;
    while spread <= widest && least > solver.least {
        let (total, jump) = solver.scan::<HELD>(spread);
        evaluations += 1;
        if total < least {
            least = total;
            row(spread, &solver.place(total))?;
        }
        spread = spread.saturating_add(jump);
    }
    Ok(evaluations)
}

/// The same, with growing ends only where a strip is held.
fn walk_rows(stack: &Stack, row: impl FnMut(i16, &Placement) -> Result<(), Refusal>) -> Result<usize, Refusal> {
    let mut solver = Solver::new(stack);
    if stack.windows.iter().all(|window| *window == FREE) {
        walk::<false>(&mut solver, row)
    } else {
        walk::<true>(&mut solver, row)
    }
}

/// How many rows a table has, and how many spreads are evaluated for it.
#[allow(dead_code)]
pub fn evaluations(text: &[u8]) -> Result<(usize, usize), Refusal> {
    let mut rows = 0;
    let evaluations = walk_rows(&read(text)?, |_, _| {
        rows += 1;
        Ok(())
    })?;
    Ok((rows, evaluations))
}

fn write_table(text: &[u8], out: &mut [u8]) -> Result<usize, Refusal> {
    let stack = read(text)?;
    let mut line = Line::new(b"TABLE");
    line.number(stack.k as u32);
    let mut at = line.end(out, 0)?;
    walk_rows(&stack, |spread, placement| {
        at = write_row(out, at, stack.k, spread, placement)?;
        Ok(())
    })?;
    Ok(at)
}

/// Zeros behind what is written, or in the whole output.
pub fn finish(written: Result<usize, Refusal>, out: &mut [u8]) -> Result<usize, Refusal> {
    out[written.unwrap_or(0)..].fill(0);
    written
}

/// Writes the table and zeros behind it, or only zeros; the table's length.
pub fn table(text: &[u8], out: &mut [u8]) -> Result<usize, Refusal> {
    finish(write_table(text, out), out)
}
