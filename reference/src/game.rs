//! Games: positions from 1, and a move for each position, input and output; 0 is lost.

use crate::signals::Signal;

pub const LOST: usize = 0;
pub const MOST_POSITIONS: usize = 255;

#[derive(Clone, Copy, PartialEq, Eq, Debug)]
pub struct Round {
    pub input: usize,
    pub output: usize,
}

impl Round {
    pub fn has(&self, signal: Signal) -> bool {
        match signal {
            Signal::Input(k) => self.input >> k & 1 == 1,
            Signal::Output(k) => self.output >> k & 1 == 1,
        }
    }

    /// All rounds, inputs ascending, and for each input the outputs ascending.
    pub fn all(inputs: usize, outputs: usize) -> Vec<Round> {
        (0..1 << inputs).flat_map(|input| (0..1 << outputs).map(move |output| Round { input, output })).collect()
    }

    /// The low bits that a game of fewer signals reads.
    pub fn low(&self, game: &Game) -> Round {
        Round { input: self.input % game.input_numbers(), output: self.output % game.output_numbers() }
    }
}

#[derive(Clone, PartialEq, Debug)]
pub struct Game {
    pub inputs: usize,
    pub outputs: usize,
    pub size: usize,
    pub start: usize,
    moves: Vec<usize>,
}

impl Game {
    /// The moves are given position by position, in the order of `Round::all`.
    pub fn new(inputs: usize, outputs: usize, size: usize, start: usize, moves: Vec<usize>) -> Game {
        assert_eq!(moves.len(), size << (inputs + outputs));
        Game { inputs, outputs, size, start, moves }
    }

    pub fn input_numbers(&self) -> usize {
        1 << self.inputs
    }

    pub fn output_numbers(&self) -> usize {
        1 << self.outputs
    }

    pub fn positions(&self) -> std::ops::RangeInclusive<usize> {
        1..=self.size
    }

    /// Where a round leads from a position.
    pub fn after(&self, position: usize, round: Round) -> usize {
        let row = (position - 1) * self.input_numbers() + round.input;
        self.moves[row * self.output_numbers() + round.output]
    }

    /// Where rounds lead from the start; lost is never left.
    pub fn reached(&self, rounds: &[Round]) -> usize {
        let step = |position, round: &Round| if position == LOST { LOST } else { self.after(position, *round) };
        rounds.iter().fold(self.start, step)
    }

    /// Both games at once, on the same signals.
    pub fn pair(one: &Game, two: &Game) -> Game {
        let (inputs, outputs) = (one.inputs.max(two.inputs), one.outputs.max(two.outputs));
        let size = one.size * two.size;
        if size == 0 || size > MOST_POSITIONS {
            return Game::new(inputs, outputs, 0, LOST, Vec::new());
        }
        let both = |a: usize, b: usize| if a == LOST || b == LOST { LOST } else { (a - 1) * two.size + b };
        let places = one.positions().flat_map(|a| two.positions().map(move |b| (a, b)));
        let rounds = Round::all(inputs, outputs);
        let row = |(a, b)| rounds.iter().map(move |r| both(one.after(a, r.low(one)), two.after(b, r.low(two))));
        let moves = places.flat_map(row).collect();
        Game::new(inputs, outputs, size, both(one.start, two.start), moves)
    }
}
