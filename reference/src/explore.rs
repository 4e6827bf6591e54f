//! The game of a rule: its positions are the lists of duty sets that rounds reach.

use crate::game::{Game, Round, LOST, MOST_POSITIONS};
use crate::lists::{and, or, List, Set, Width};
use crate::parts::{Made, Parts};
use crate::refusal::Refusal;
use crate::rule::Rule;
use crate::signals::Signals;
use std::collections::BTreeMap;

pub fn explore(rule: &Rule, signals: &Signals) -> Result<Game, Refusal> {
    let parts = Parts::of(rule);
    let start = list_of(&parts, parts.len() - 1).map_err(|_| Refusal::new(11, 0))?;
    if start.is_lost() {
        return Err(Refusal::new(10, 0));
    }
    let rounds = Round::all(signals.inputs.len(), signals.outputs.len());
    let after = rounds.iter().map(|round| parts_after(&parts, *round)).collect();
    let mut search = Search { parts, after, lists: vec![start.clone()], numbers: BTreeMap::from([(start, 1)]) };
    let moves = search.moves()?;
    Ok(Game::new(signals.inputs.len(), signals.outputs.len(), search.lists.len(), 1, moves))
}

/// The list of a part.
fn list_of(parts: &Parts, part: usize) -> Width {
    match (parts.made(part), parts.tree(part)) {
        (Made::And(p, q), _) => and(&list_of(parts, p), &list_of(parts, q)),
        (Made::Or(p, q), _) => or(&list_of(parts, p), &list_of(parts, q)),
        (Made::Alone, Rule::Constant(value)) => Ok(constant(*value)),
        _ => Ok(List::duty(parts.duty(part).expect("all other parts are duties"))),
    }
}

fn constant(value: bool) -> List {
    if value {
        List::met()
    } else {
        List::lost()
    }
}

/// The list of every part after a round. Sides have lower numbers, so theirs are there already.
fn parts_after(parts: &Parts, round: Round) -> Vec<Width> {
    let mut after: Vec<Width> = Vec::new();
    for part in 0..parts.len() {
        let list = match (parts.made(part), parts.tree(part)) {
            (Made::Next(p), _) => list_of(parts, p),
            (Made::Release(p, q), _) => and(&after[q], &or(&after[p], &list_of(parts, part))),
            (Made::And(p, q), _) => and(&after[p], &after[q]),
            (Made::Or(p, q), _) => or(&after[p], &after[q]),
            (Made::Alone, Rule::Literal(signal, on)) => Ok(constant(round.has(*signal) == *on)),
            (Made::Alone, rule) => Ok(constant(*rule == Rule::Constant(true))),
        };
        after.push(list);
    }
    after
}

struct Search<'r> {
    parts: Parts<'r>,
    /// For each round, each part after it.
    after: Vec<Vec<Width>>,
    lists: Vec<List>,
    numbers: BTreeMap<List, usize>,
}

impl Search<'_> {
    /// All moves, position by position; the lists grow on the way.
    fn moves(&mut self) -> Result<Vec<usize>, Refusal> {
        let mut moves = Vec::new();
        while moves.len() < self.lists.len() * self.after.len() {
            let position = moves.len() / self.after.len() + 1;
            let round = moves.len() % self.after.len();
            let list = self.list_after(position, round).map_err(|_| Refusal::new(11, position))?;
            moves.push(self.number(list)?);
        }
        Ok(moves)
    }

    fn list_after(&self, position: usize, round: usize) -> Width {
        let mut sets = self.lists[position - 1].sets().iter();
        sets.try_fold(List::lost(), |list, set| or(&Ok(list), &self.set_after(*set, round)))
    }

    fn set_after(&self, set: Set, round: usize) -> Width {
        let mut duties = self.parts.duties().iter().enumerate().filter(|(d, _)| set >> d & 1 == 1);
        duties.try_fold(List::met(), |list, (_, part)| and(&Ok(list), &self.after[round][*part]))
    }

    fn number(&mut self, list: List) -> Result<usize, Refusal> {
        if list.is_lost() {
            return Ok(LOST);
        }
        if let Some(number) = self.numbers.get(&list) {
            return Ok(*number);
        }
        if self.lists.len() == MOST_POSITIONS {
            return Err(Refusal::new(12, 0));
        }
        self.lists.push(list.clone());
        self.numbers.insert(list, self.lists.len());
        Ok(self.lists.len())
    }
}

#[cfg(test)]
mod tests {
    use super::*;
    use crate::winning::{values, Count};
    use crate::{rule, signals};

    fn game(signals: &str, text: &str) -> Result<Game, Refusal> {
        let signals = signals::read(signals.as_bytes()).unwrap();
        explore(&rule::read(text.as_bytes(), &signals).unwrap(), &signals)
    }

    fn door(text: &str) -> (usize, Count) {
        let game = game("in door out lock", text).unwrap();
        (game.size, values(&game).counts[1])
    }

    #[test]
    fn sizes_and_counts() {
        assert_eq!(door("true"), (1, Count::Unlimited));
        assert_eq!(door("X false"), (1, Count::Limited(0)));
        assert_eq!(door("G (!door | lock)"), (1, Count::Unlimited));
        assert_eq!(door("G (!door | X lock)"), (2, Count::Unlimited));
        assert_eq!(door("X X door"), (4, Count::Limited(2)));
        assert_eq!(door("X lock & X !lock"), (2, Count::Limited(1)));
        assert_eq!(door("lock R door"), (2, Count::Limited(0)));
        assert_eq!(door("G(!door|XXXXXXX lock)").0, 128);
    }

    #[test]
    fn refusals() {
        let wide = "(a|Xa)&(b|Xb)&(c|Xc)&(d|Xd)&(e|Xe)&(f|Xf)";
        let six = |text: &str| game("in a b c out d e f", text).map(|g| g.size);
        assert_eq!(six(wide), Err(Refusal::new(11, 0)));
        assert_eq!(six(&format!("false & ({wide})")), Err(Refusal::new(11, 0)));
        assert_eq!(six(&format!("true | X({wide})")), Ok(1));
        assert_eq!(six(&format!("X X({wide})")), Err(Refusal::new(11, 2)));
        assert_eq!(game("in door out lock", "false"), Err(Refusal::new(10, 0)));
        assert_eq!(game("in door out lock", "G(!door|XXXXXXXX lock)"), Err(Refusal::new(12, 0)));
    }
}
