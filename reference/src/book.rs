//! The bytes of a book, and when bytes are the game's book.

use crate::game::Game;
use crate::refusal::Refusal;
use crate::winning::{Count, Values};

const INPUT_NUMBERS: usize = 16;

pub fn book(game: &Game, values: &Values) -> Vec<u8> {
    let byte = |number: usize| u8::try_from(number).expect("all numbers of a book but counts fit a byte");
    let header = [1, byte(game.inputs), byte(game.outputs), byte(game.size), byte(game.start), 0, 0, 0];
    let records = game.positions().flat_map(|position| record(values, position));
    header.into_iter().chain(records).collect()
}

fn record(values: &Values, position: usize) -> Vec<u8> {
    let (status, count) = match values.counts[position] {
        Count::Unlimited => (1, 0),
        Count::Limited(count) => (2, count),
        Count::Lost => unreachable!("positions are not lost"),
    };
    let [high, low] = u16::try_from(count).expect("a count is below the number of positions").to_be_bytes();
    let spoiling = values.spoiling[position].unwrap_or(0) as u8;
    let mut bytes = vec![status, 0, 0, 0, high, low, spoiling, 0];
    bytes.extend(values.answers[position].iter().map(|&answer| answer as u8));
    bytes.resize(8 + INPUT_NUMBERS, 0);
    bytes
}

/// Accepts the game's own book and nothing else.
pub fn accept(game: &Game, own: &[u8], bytes: &[u8]) -> Result<(), Refusal> {
    if game.size == 0 {
        return Err(Refusal::new(17, 0));
    }
    if bytes != own {
        return Err(Refusal::new(18, 0));
    }
    Ok(())
}

#[cfg(test)]
mod tests {
    use super::*;
    use crate::winning::values;

    #[test]
    fn the_example() {
        let game = Game::new(1, 1, 2, 1, vec![1, 0, 0, 2, 1, 0, 0, 0]);
        let due = [
            &[1, 1, 1, 2, 1, 0, 0, 0, 2, 0, 0, 0, 0, 1, 1, 0, 0, 1][..],
            &[0; 14],
            &[2, 0, 0, 0, 0, 0, 1, 0],
            &[0; 16],
        ];
        let own = book(&game, &values(&game));
        assert_eq!(own, due.concat());
        assert_eq!(accept(&game, &own, &own[..55]), Err(Refusal::new(18, 0)));
    }
}
