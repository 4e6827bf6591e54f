//! How long positions can be held, by the sets of positions in which the controller can remain for so many rounds: the
//! first has all positions, and the next one those from which it can be kept to. Answers and spoiling inputs follow.

use crate::game::{Game, Round, LOST};

/// The order of the cases is the order of counts.
#[derive(Clone, Copy, PartialEq, Eq, PartialOrd, Ord, Debug)]
pub enum Count {
    Lost,
    Limited(usize),
    Unlimited,
}

/// The count of each position; entry 0 is that of lost.
pub fn counts(game: &Game) -> Vec<Count> {
    let mut counts = vec![Count::Lost; game.size + 1];
    let mut remain: Vec<bool> = (0..=game.size).map(|p| p != LOST).collect();
    for rounds in 0.. {
        for position in game.positions().filter(|&p| remain[p]) {
            counts[position] = Count::Limited(rounds);
        }
        let next: Vec<bool> = (0..=game.size).map(|p| remain[p] && can_keep_to(game, p, &remain)).collect();
        if next == remain {
            break;
        }
        remain = next;
    }
    for position in game.positions().filter(|&p| remain[p]) {
        counts[position] = Count::Unlimited;
    }
    counts
}

/// Whatever the input, some output leads into the set.
fn can_keep_to(game: &Game, position: usize, set: &[bool]) -> bool {
    let leads = |input, output| set[game.after(position, Round { input, output })];
    (0..game.input_numbers()).all(|input| (0..game.output_numbers()).any(|output| leads(input, output)))
}

/// What a book says of a game.
#[derive(Clone, PartialEq, Debug)]
pub struct Values {
    /// Entry 0 is that of lost.
    pub counts: Vec<Count>,
    /// The answers of each position, entry 0 unused.
    pub answers: Vec<Vec<usize>>,
    /// Of limited positions only.
    pub spoiling: Vec<Option<usize>>,
}

pub fn values(game: &Game) -> Values {
    let counts = counts(game);
    let answers: Vec<Vec<usize>> = (0..=game.size).map(|p| answers(game, &counts, p)).collect();
    let spoiling = (0..=game.size).map(|p| spoiling(game, &counts, p, &answers[p])).collect();
    Values { counts, answers, spoiling }
}

/// To each input, the lowest of the outputs whose move counts most.
fn answers(game: &Game, counts: &[Count], position: usize) -> Vec<usize> {
    if position == LOST {
        return Vec::new();
    }
    let best = |input| {
        let count = |output: &usize| counts[game.after(position, Round { input, output: *output })];
        let most = (0..game.output_numbers()).map(|o| count(&o)).max();
        (0..game.output_numbers()).position(|o| Some(count(&o)) == most).expect("there is an output")
    };
    (0..game.input_numbers()).map(best).collect()
}

/// The lowest of the inputs whose answer's move counts least.
fn spoiling(game: &Game, counts: &[Count], position: usize, answers: &[usize]) -> Option<usize> {
    if !matches!(counts[position], Count::Limited(_)) {
        return None;
    }
    let left: Vec<Count> = answers
        .iter()
        .enumerate()
        .map(|(input, &output)| counts[game.after(position, Round { input, output })])
        .collect();
    let least = left.iter().min();
    left.iter().position(|count| Some(count) == least)
}
