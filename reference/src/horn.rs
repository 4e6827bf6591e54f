//! How long positions can be held, by Horn clauses. A variable says that a position, a position with an input, or a
//! position with an input and an output is losing:
//!
//! - a move that is lost is losing, and so is a move to a losing position;
//! - a position with an input is losing when it is with every output;
//! - a position is losing when it is with some input.
//!
//! The least solution is found by propagating what is new, first come first served, each clause by the number of its
//! premises still open. The step at which a position turns out to be losing is one more than its count.

use crate::game::{Game, Round, LOST};
use crate::winning::Count;
use std::collections::VecDeque;

struct Clauses<'g> {
    game: &'g Game,
    /// For each position, the positions and inputs with a move to it, as often as there are moves.
    into: Vec<Vec<(usize, usize)>>,
    /// For each position and input, the outputs not yet losing.
    open: Vec<usize>,
    /// For each position, the step at which it turned out to be losing.
    losing: Vec<Option<usize>>,
}

/// The count of each position; entry 0 is that of lost.
pub fn counts(game: &Game) -> Vec<Count> {
    let mut clauses = Clauses::of(game);
    let mut news = VecDeque::from([LOST]);
    while let Some(place) = news.pop_front() {
        news.extend(clauses.propagate(place));
    }
    let count = |step: &Option<usize>| {
        step.map_or(Count::Unlimited, |s| if s == 0 { Count::Lost } else { Count::Limited(s - 1) })
    };
    clauses.losing.iter().map(count).collect()
}

impl Clauses<'_> {
    fn of(game: &Game) -> Clauses<'_> {
        let mut into = vec![Vec::new(); game.size + 1];
        for position in game.positions() {
            for round in Round::all(game.inputs, game.outputs) {
                into[game.after(position, round)].push((position, round.input));
            }
        }
        let open = vec![game.output_numbers(); (game.size + 1) * game.input_numbers()];
        let mut losing = vec![None; game.size + 1];
        losing[LOST] = Some(0);
        Clauses { game, into, open, losing }
    }

    /// The positions that turn out to be losing because this one is.
    fn propagate(&mut self, place: usize) -> Vec<usize> {
        let step = self.losing[place].expect("only losing places are propagated") + 1;
        let mut found = Vec::new();
        for (position, input) in std::mem::take(&mut self.into[place]) {
            let row = position * self.game.input_numbers() + input;
            self.open[row] -= 1;
            if self.open[row] == 0 && self.losing[position].is_none() {
                self.losing[position] = Some(step);
                found.push(position);
            }
        }
        found
    }
}
