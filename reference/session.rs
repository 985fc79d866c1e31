//! Sessions, by document 02, P6: strips that come and go, and texts of steps.

use crate::channel::Pair;
use crate::reader::{length, line, nets, numbers, split_lines, terminals, within_limit, Line, Refusal, Stack};
use crate::solver::{self, Answer};

/// A step with its numbers: lengths, and terminals in the order of a `NETS` line.
#[derive(Clone, Debug, PartialEq)]
pub enum Step {
    Begin(i64),
    Add(i64, Vec<i64>),
    Off,
}

impl Step {
    /// The lines of a step in a text.
    fn text(&self) -> String {
        match self {
            Step::Begin(length) => line("BEGIN", &[]) + &line("PART", &[*length]),
            Step::Add(length, terminals) => line("ADD", &[]) + &line("PART", &[*length]) + &line("NETS", terminals),
            Step::Off => line("OFF", &[]),
        }
    }

    /// How many lines these are.
    fn lines(&self) -> usize {
        match self {
            Step::Begin(_) => 2,
            Step::Add(..) => 3,
            Step::Off => 1,
        }
    }
}

/// Strips from the bottom and the channels between them; an empty session has none.
#[derive(Clone, Debug, Default, PartialEq)]
pub struct Session {
    pub lengths: Vec<i64>,
    pub channels: Vec<Vec<Pair>>,
}

impl Session {
    /// One step, or its refusal: then the session stays as it was, or is empty behind a beginning.
    pub fn take(&mut self, step: &Step) -> Result<(), Refusal> {
        match step {
            Step::Begin(value) => {
                *self = Session::default();
                self.lengths.push(length(*value, 0)?);
            }
            Step::Add(value, terminals) => {
                let channel = self.channel_below(*value, terminals)?;
                self.lengths.push(*value);
                self.channels.push(channel);
            }
            Step::Off if self.lengths.len() < 2 => return Err((13, 0, 0)),
            Step::Off => {
                self.lengths.pop();
                self.channels.pop();
            }
        }
        Ok(())
    }

    /// The channel between the top strip and one of this length, if that may be added.
    fn channel_below(&self, value: i64, terminals: &[i64]) -> Result<Vec<Pair>, Refusal> {
        let top = *self.lengths.last().ok_or((13, 0, 0))?;
        if self.lengths.len() == 9 {
            return Err((3, 0, 0));
        }
        let upper = length(value, 0)?;
        if terminals.len() % 2 == 1 {
            return Err((11, 0, terminals.len() as u32 + 2));
        }
        nets(terminals, top, upper, 0)
    }

    /// The same stack: a single strip is one without channels. Every floor is 0, every strip free.
    pub fn stack(&self) -> Result<Stack, Refusal> {
        if self.lengths.is_empty() {
            return Err((13, 0, 0));
        }
        let (windows, floors) = (vec![None; self.lengths.len()], vec![0; self.channels.len()]);
        Ok(Stack { lengths: self.lengths.clone(), windows, channels: self.channels.clone(), floors })
    }

    /// The least total at a spread.
    pub fn total(&self, spread: i64) -> Result<usize, Refusal> {
        solver::total_at(&self.stack()?, spread)
    }

    /// The placement at a spread for a stated total.
    pub fn place(&self, spread: i64, total: usize) -> Result<Answer, Refusal> {
        solver::place_at(&self.stack()?, spread, total)
    }
}

/// The step whose lines begin at a line, from 1, or the first line that is none of its lines.
fn step_at(lines: &[Line], at: usize) -> Result<Step, usize> {
    let part = |at: usize| numbers(lines, at, "PART", [2].into_iter()).map(|n| n[0]).map_err(|_| at);
    let nets = |at: usize| numbers(lines, at, "NETS", 1..).map_err(|_| at);
    let (word, ended) = &lines[at - 1];
    match &word[..] {
        b"BEGIN" if *ended => Ok(Step::Begin(part(at + 1)?)),
        b"ADD" if *ended => Ok(Step::Add(part(at + 1)?, nets(at + 2)?)),
        b"OFF" if *ended => Ok(Step::Off),
        _ => Err(at),
    }
}

/// The steps of a text in their order. A line that is no line of a step, or is missing, stands in place of its step, and the next step is due behind it.
pub fn steps(text: &[u8]) -> Vec<Result<Step, usize>> {
    let lines = split_lines(text);
    let mut all = Vec::new();
    let mut at = 1;
    while at <= lines.len() {
        let step = step_at(&lines, at);
        at = match &step {
            Ok(step) => at + step.lines(),
            Err(line) => line + 1,
        };
        all.push(step);
    }
    all
}

/// The text of these steps.
pub fn text(steps: &[Step]) -> String {
    steps.iter().map(Step::text).collect()
}

/// The texts of the first step, of the first two and so on, where every line is a line of a step.
pub fn prefixes(all: &[u8]) -> Vec<String> {
    let steps: Result<Vec<Step>, usize> = steps(all).into_iter().collect();
    let steps = steps.expect("lines of steps");
    (1..=steps.len()).map(|n| text(&steps[..n])).collect()
}

/// The steps that make the session of a stack, without its floors and windows.
pub fn steps_to(stack: &Stack) -> Vec<Step> {
    let add = |(length, channel): (&i64, &Vec<Pair>)| Step::Add(*length, terminals(channel));
    let added = stack.lengths[1..].iter().zip(&stack.channels).map(add);
    std::iter::once(Step::Begin(stack.lengths[0])).chain(added).collect()
}

/// The session that a text of steps makes from an empty one, or the refusal of the text or of its last step.
pub fn after(text: &[u8]) -> Result<Session, Refusal> {
    within_limit(text)?;
    let steps: Result<Vec<Step>, usize> = steps(text).into_iter().collect();
    let mut session = Session::default();
    let mut last = Ok(());
    for step in steps.map_err(|line| (2, line as u32, 0))? {
        last = session.take(&step);
    }
    last.map(|_| session)
}
