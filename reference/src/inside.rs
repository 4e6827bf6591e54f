//! The reference against itself: what it has in two ways has to come to the same.

use crate::controllers;
use crate::game::{Game, Round, LOST};
use crate::horn;
use crate::random::Random;
use crate::report::Report;
use crate::source::Read;
use crate::winning::{Count, Values};

/// Winning sets, Horn clauses and, where the game is small, all controllers.
pub fn counts(game: &Game, values: &Values, report: &mut Report) -> Result<(), String> {
    if horn::counts(game) != values.counts {
        return Err("the Horn clauses and the winning sets give different counts".into());
    }
    report.count("counts: winning sets and Horn clauses");
    for position in game.positions().take(4) {
        (1..=4).try_for_each(|rounds| controllers(game, values, position, rounds, report))?;
    }
    Ok(())
}

fn controllers(game: &Game, values: &Values, position: usize, rounds: u32, report: &mut Report) -> Result<(), String> {
    let Some(held) = controllers::some_holds(game, position, rounds) else {
        return Ok(());
    };
    report.count("counts: controllers tried");
    if held != (values.counts[position] >= Count::Limited(rounds as usize)) {
        return Err(format!("trying controllers: position {position} is held for {rounds}: {held}"));
    }
    Ok(())
}

/// Random rounds: the game is lost after them exactly when the negation of a rule is true of them.
pub fn verdicts(read: &[Read], game: &Game, random: &mut Random, report: &mut Report) -> Result<(), String> {
    let mut rounds: Vec<Round> = Vec::new();
    for _ in 0..random.between(1, 10) {
        let lost = read.iter().any(|source| source.is_lost_after(&rounds));
        if lost != (game.reached(&rounds) == LOST) {
            return Err(format!("lists of duties and the negation differ after {rounds:?}"));
        }
        if read.iter().any(|source| !source.agrees_on(&rounds)) {
            return Err(format!("a rule fails and its negation is not true, or the other way round, after {rounds:?}"));
        }
        report.count("verdicts: lists and negation");
        let (input, output) = (random.below(game.input_numbers()), random.below(game.output_numbers()));
        rounds.push(Round { input, output });
    }
    Ok(())
}

#[cfg(test)]
mod tests {
    use super::*;
    use crate::generate;
    use crate::source::read;
    use crate::winning::values;

    #[test]
    fn random_games() {
        let mut report = Report::default();
        for case in 0..2000 {
            let mut random = Random::of_case(7, case);
            let sources: Result<Vec<Read>, _> = generate::sources(&mut random).iter().map(read).collect();
            let Ok(sources) = sources else { continue };
            let paired = sources[1..].iter().fold(sources[0].game.clone(), |one, two| Game::pair(&one, &two.game));
            if paired.size > 0 {
                counts(&paired, &values(&paired), &mut report).unwrap();
                verdicts(&sources, &paired, &mut random, &mut report).unwrap();
            }
        }
        // Clauses, controllers and verdicts all came about.
        assert_eq!(report.print().lines().count(), 3);
    }
}
