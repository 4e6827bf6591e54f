//! Counts by trying controllers, for small games: a controller is a table with an output for each row of inputs up to
//! and with the present round, and all tables are tried against all rows of inputs.

use crate::game::{Game, Round, LOST};

/// At most so many tables are tried.
const MOST_TABLES: usize = 1 << 12;

/// Whether some controller holds so many rounds from the position, or None where there are too many to try.
pub fn some_holds(game: &Game, position: usize, rounds: u32) -> Option<bool> {
    let rows: usize = (1..=rounds).map(|n| game.input_numbers().pow(n)).sum();
    let tables = game.output_numbers().checked_pow(rows as u32)?;
    (tables <= MOST_TABLES).then(|| (0..tables).any(|table| holds(game, position, rounds, table)))
}

fn holds(game: &Game, position: usize, rounds: u32, table: usize) -> bool {
    let all_inputs = game.input_numbers().pow(rounds);
    (0..all_inputs).all(|inputs| survives(game, position, rounds, table, inputs))
}

/// Plays one row of inputs, packed into a number, the first as its highest digit.
fn survives(game: &Game, position: usize, rounds: u32, table: usize, inputs: usize) -> bool {
    let base = game.input_numbers();
    let mut place = position;
    let mut first_row = 0;
    for round in 1..=rounds {
        let so_far = inputs / base.pow(rounds - round);
        let output = digit(table, game.output_numbers(), first_row + so_far);
        place = game.after(place, Round { input: so_far % base, output });
        if place == LOST {
            return false;
        }
        first_row += base.pow(round);
    }
    true
}

fn digit(number: usize, base: usize, index: usize) -> usize {
    number / base.pow(index as u32) % base
}

#[cfg(test)]
mod tests {
    use super::*;
    use crate::winning::{counts, Count};

    #[test]
    fn a_controller_knows_the_inputs_so_far() {
        // Position 1: the output has to be the input. Position 2: nothing is right with input 1.
        let game = Game::new(1, 1, 2, 1, vec![1, 0, 0, 2, 1, 1, 0, 0]);
        assert_eq!(counts(&game), [Count::Lost, Count::Limited(1), Count::Limited(0)]);
        assert_eq!(some_holds(&game, 1, 1), Some(true));
        assert_eq!(some_holds(&game, 1, 2), Some(false));
        assert_eq!(some_holds(&game, 2, 1), Some(false));
    }
}
