//! When a rule is lost, by its negation alone: negation is pushed down to the literals, so that release becomes until,
//! and what comes out is true of a finite row of rounds or not. A constant is judged behind the last round too; nothing
//! else is true there by itself.

use crate::game::Round;
use crate::rule::Rule;
use crate::signals::Signal;

#[derive(Clone, Debug)]
pub enum Goal {
    Constant(bool),
    Literal(Signal, bool),
    Next(Box<Goal>),
    Until(Box<Goal>, Box<Goal>),
    And(Box<Goal>, Box<Goal>),
    Or(Box<Goal>, Box<Goal>),
}

impl Goal {
    /// The negation of a rule.
    pub fn against(rule: &Rule) -> Goal {
        let not = |side: &Rule| Box::new(Goal::against(side));
        match rule {
            Rule::Constant(value) => Goal::Constant(!value),
            Rule::Literal(signal, on) => Goal::Literal(*signal, !on),
            Rule::Next(body) => Goal::Next(not(body)),
            Rule::Release(left, right) => Goal::Until(not(left), not(right)),
            Rule::And(left, right) => Goal::Or(not(left), not(right)),
            Rule::Or(left, right) => Goal::And(not(left), not(right)),
        }
    }

    /// The negation is true of these rounds.
    pub fn is_true(&self, rounds: &[Round]) -> bool {
        self.everywhere(rounds)[0]
    }

    /// Whether it is true at each round, and, as the last entry, behind the last one.
    fn everywhere(&self, rounds: &[Round]) -> Vec<bool> {
        let places = 0..=rounds.len();
        match self {
            Goal::Constant(value) => places.map(|_| *value).collect(),
            Goal::Literal(signal, on) => places.map(|x| rounds.get(x).is_some_and(|r| r.has(*signal) == *on)).collect(),
            Goal::Next(body) => {
                let body = body.everywhere(rounds);
                places.map(|x| x < rounds.len() && body[x + 1]).collect()
            }
            Goal::And(left, right) => {
                let (left, right) = (left.everywhere(rounds), right.everywhere(rounds));
                places.map(|x| left[x] && right[x]).collect()
            }
            Goal::Or(left, right) => {
                let (left, right) = (left.everywhere(rounds), right.everywhere(rounds));
                places.map(|x| left[x] || right[x]).collect()
            }
            Goal::Until(left, right) => {
                let (left, right) = (left.everywhere(rounds), right.everywhere(rounds));
                let met = |x: usize, y: usize| right[y] && (x..y).all(|z| left[z]);
                places.map(|x| (x..rounds.len()).any(|y| met(x, y))).collect()
            }
        }
    }
}

#[cfg(test)]
mod tests {
    use super::*;
    use crate::{rule, signals};

    /// The rule is lost after these outputs, door off, and not before.
    fn lost_after(text: &str, outputs: &[usize]) -> bool {
        let signals = signals::read(b"in door out lock").unwrap();
        let goal = Goal::against(&rule::read(text.as_bytes(), &signals).unwrap());
        let rounds: Vec<Round> = outputs.iter().map(|&output| Round { input: 0, output }).collect();
        goal.is_true(&rounds) && !(0..rounds.len()).any(|n| goal.is_true(&rounds[..n]))
    }

    #[test]
    fn the_end_of_the_rounds() {
        assert!(lost_after("false", &[]));
        assert!(lost_after("X false", &[0]));
        assert!(lost_after("G false", &[0]));
        assert!(lost_after("X X false", &[0, 0]));
        assert!(lost_after("X G false", &[0, 0]));
        assert!(lost_after("X lock", &[0, 0]));
        assert!(lost_after("X lock & X !lock", &[1, 1]));
        assert!(lost_after("lock R door", &[0]));
    }
}
