//! Drawings of games: which bytes are one, what is wrong with others, and the game that is drawn.

use crate::game::{Game, LOST};
use crate::refusal::Refusal;
use std::collections::{BTreeMap, BTreeSet};

const HEADER: usize = 8;
const MOST_SIGNALS: u8 = 4;
const MOST_RECORDS: usize = 4000;

/// Bytes with a header, a length and fields that are right, indices aside.
struct Drawing<'b> {
    bytes: &'b [u8],
    positions: usize,
    records: usize,
}

/// A move as it is drawn: position, input, output.
type Move = (usize, usize, usize);

pub fn read(bytes: &[u8]) -> Result<Game, Refusal> {
    let drawing = Drawing::of(bytes)?;
    let chains = drawing.chains()?;
    let mut moves: BTreeMap<Move, usize> = BTreeMap::new();
    for (position, record) in chains {
        let place = drawing.record(record);
        let drawn = (position, bytes[place] as usize, bytes[place + 1] as usize);
        if moves.insert(drawn, bytes[place + 2] as usize).is_some() {
            return Err(Refusal::new(16, place));
        }
    }
    Ok(drawing.game(&moves))
}

fn wrong_unless(right: bool, place: usize) -> Result<(), Refusal> {
    if right {
        Ok(())
    } else {
        Err(Refusal::new(14, place))
    }
}

fn word(bytes: &[u8], place: usize) -> usize {
    bytes[place] as usize * 256 + bytes[place + 1] as usize
}

impl Drawing<'_> {
    fn of(bytes: &[u8]) -> Result<Drawing<'_>, Refusal> {
        wrong_unless(bytes.len() >= HEADER, bytes.len())?;
        wrong_unless(bytes[0] <= MOST_SIGNALS, 0)?;
        wrong_unless(bytes[1] <= MOST_SIGNALS, 1)?;
        wrong_unless(bytes[2] >= 1, 2)?;
        wrong_unless((1..=bytes[2]).contains(&bytes[3]), 3)?;
        let (positions, records) = (bytes[2] as usize, word(bytes, 4));
        wrong_unless(records <= MOST_RECORDS, 4)?;
        wrong_unless(word(bytes, 6) == 0, 6)?;
        wrong_unless(bytes.len() == HEADER + 2 * positions + 8 * records, bytes.len())?;
        let drawing = Drawing { bytes, positions, records };
        (1..=records).try_for_each(|record| drawing.fields(drawing.record(record)))?;
        Ok(drawing)
    }

    fn fields(&self, place: usize) -> Result<(), Refusal> {
        let field = |k: usize| self.bytes[place + k] as usize;
        wrong_unless(field(0) < 1 << self.bytes[0], place)?;
        wrong_unless(field(1) < 1 << self.bytes[1], place + 1)?;
        wrong_unless((1..=self.positions).contains(&field(2)), place + 2)?;
        wrong_unless(field(3) == 0, place + 3)?;
        wrong_unless(field(6) == 0 && field(7) == 0, place + 6)
    }

    /// The place of a record.
    fn record(&self, number: usize) -> usize {
        HEADER + 2 * self.positions + 8 * (number - 1)
    }

    /// Every record with its position, in the order of the chains.
    fn chains(&self) -> Result<Vec<(usize, usize)>, Refusal> {
        let mut reached = BTreeSet::new();
        let mut chains = Vec::new();
        for position in 1..=self.positions {
            self.follow(position, &mut reached, &mut chains)?;
        }
        match (1..=self.records).find(|record| !reached.contains(record)) {
            Some(record) => Err(Refusal::new(15, self.record(record))),
            None => Ok(chains),
        }
    }

    fn follow(
        &self,
        position: usize,
        reached: &mut BTreeSet<usize>,
        chains: &mut Vec<(usize, usize)>,
    ) -> Result<(), Refusal> {
        let mut index = HEADER + 2 * (position - 1);
        while word(self.bytes, index) != 0 {
            let record = word(self.bytes, index);
            if record > self.records || !reached.insert(record) {
                return Err(Refusal::new(15, index));
            }
            chains.push((position, record));
            index = self.record(record) + 4;
        }
        Ok(())
    }

    fn game(&self, drawn: &BTreeMap<Move, usize>) -> Game {
        let (inputs, outputs) = (self.bytes[0] as usize, self.bytes[1] as usize);
        let outputs_of = |position, input| (0..1 << outputs).map(move |output| (position, input, output));
        let inputs_of = |position| (0..1 << inputs).flat_map(move |input| outputs_of(position, input));
        let questions = (1..=self.positions).flat_map(inputs_of);
        let moves = questions.map(|question| drawn.get(&question).copied().unwrap_or(LOST)).collect();
        Game::new(inputs, outputs, self.positions, self.bytes[3] as usize, moves)
    }
}

#[cfg(test)]
mod tests {
    use super::*;
    use crate::winning::{counts, Count};

    const EXAMPLE: [u8; 36] =
        [1, 1, 2, 1, 0, 3, 0, 0, 0, 1, 0, 3, 0, 0, 1, 0, 0, 2, 0, 0, 1, 1, 2, 0, 0, 0, 0, 0, 0, 0, 1, 0, 0, 0, 0, 0];

    fn with(place: usize, byte: u8) -> Result<Game, Refusal> {
        let mut bytes = EXAMPLE;
        bytes[place] = byte;
        read(&bytes)
    }

    #[test]
    fn the_example_and_what_can_be_wrong_with_it() {
        let game = read(&EXAMPLE).unwrap();
        assert_eq!(counts(&game), [Count::Lost, Count::Limited(1), Count::Limited(0)]);
        assert_eq!(read(&EXAMPLE[..7]), Err(Refusal::new(14, 7)));
        assert_eq!(read(&EXAMPLE[..35]), Err(Refusal::new(14, 35)));
        assert_eq!(with(35, 1), Err(Refusal::new(14, 34)));
        assert_eq!(with(25, 1), Err(Refusal::new(15, 24)));
        assert_eq!(with(11, 0), Err(Refusal::new(15, 28)));
        let mut repeat = EXAMPLE;
        repeat[20..22].fill(0);
        assert_eq!(read(&repeat), Err(Refusal::new(16, 20)));
    }
}
