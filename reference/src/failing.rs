//! When a rule fails, as docs/RULES.md says it, place by place: the same verdict as the negation's, said the other way
//! round.

use crate::game::Round;
use crate::rule::Rule;

pub fn fails(rule: &Rule, rounds: &[Round]) -> bool {
    places(rule, rounds)[0]
}

/// Whether it fails at each round, and, as the last entry, behind the last one.
fn places(rule: &Rule, rounds: &[Round]) -> Vec<bool> {
    let mut fails = vec![false; rounds.len() + 1];
    match rule {
        Rule::Constant(value) => fails.fill(!value),
        Rule::Literal(signal, on) => {
            rounds.iter().zip(&mut fails).for_each(|(round, fails)| *fails = round.has(*signal) != *on);
        }
        Rule::Next(body) => fails[..rounds.len()].copy_from_slice(&places(body, rounds)[1..]),
        Rule::And(left, right) | Rule::Or(left, right) => {
            let sides = places(left, rounds).into_iter().zip(places(right, rounds));
            let either = matches!(rule, Rule::And(..));
            fails = sides.map(|(a, b)| if either { a || b } else { a && b }).collect();
        }
        Rule::Release(left, right) => {
            let (left, right) = (places(left, rounds), places(right, rounds));
            // It fails here when its right side does, or when its left side does and it fails in the next round.
            for place in (0..rounds.len()).rev() {
                fails[place] = right[place] || left[place] && fails[place + 1];
            }
        }
    }
    fails
}
