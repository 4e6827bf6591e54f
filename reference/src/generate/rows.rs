//! Random rows of calls, and lines that are no calls.

use crate::game::{Game, LOST};
use crate::random::Random;
use crate::tally::{written, Call, Tally, Told};
use crate::winning::Values;

const NO_CALLS: [&str; 6] = ["once more", "open", "set", "opens 1", "counts", "open x"];

/// What is handed to the program as one line, and what it has to tell: nothing where the line is no call.
pub struct Line {
    pub text: String,
    pub call: Option<Call>,
    pub told: Option<Told>,
}

/// A row; after each closing the position is asked for.
pub fn row(random: &mut Random, game: &Game, values: &Values) -> Vec<Line> {
    let mut tally = Tally::new(game, values);
    let habits = [random.between(1, 8), random.between(1, 6), random.between(1, 8)];
    let mut left = random.between(1, 40);
    let mut lines = Vec::new();
    while left > 0 {
        let call = call(random, game, &tally, habits);
        lines.push(line(call, &mut tally));
        if lines.last().is_some_and(|line| line.text == "close") {
            lines.push(line(Call::Position, &mut tally));
        }
        if random.once_in(60) {
            lines.push(Line { text: random.pick(&NO_CALLS).to_string(), call: None, told: None });
        }
        left = if tally.position() == LOST { left / 2 } else { left - 1 };
    }
    lines
}

fn line(call: Call, tally: &mut Tally) -> Line {
    Line { text: written(call), call: Some(call), told: Some(tally.take(call)) }
}

fn call(random: &mut Random, game: &Game, tally: &Tally, habits: [usize; 3]) -> Call {
    let [sets, stray, spoils] = habits;
    if random.once_in(4 * stray) {
        return any_call(random);
    }
    if random.once_in(5) {
        return random.pick(&[Call::Position, Call::Count, Call::Spoiling]);
    }
    if !tally.is_open() {
        let input = random.below(game.input_numbers());
        let spoiling = tally.spoiling().filter(|_| random.below(8) < spoils);
        return Call::Open(spoiling.unwrap_or(input));
    }
    match random.below(12) {
        0 => Call::Abandon,
        k if k <= sets => Call::Set(random.below(game.output_numbers())),
        _ => Call::Close,
    }
}

/// A call that may be out of range, or not allowed where it stands.
fn any_call(random: &mut Random) -> Call {
    let number = match random.below(4) {
        0 => random.below(4),
        1 => random.below(17),
        2 => random.below(300),
        _ => random.pick(&[255, 256, 257, 65536, 1 << 32, 16, 15]),
    };
    match random.below(7) {
        0 | 1 => Call::Open(number),
        2 | 3 => Call::Set(number),
        4 => Call::Close,
        _ => Call::Abandon,
    }
}
