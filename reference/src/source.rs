//! Where a game comes from: a drawing or two texts, and one of them or a pair.

use crate::diagram;
use crate::explore::explore;
use crate::failing::fails;
use crate::game::{Game, Round, LOST};
use crate::negation::Goal;
use crate::refusal::Refusal;
use crate::rule::{self, Rule};
use crate::signals::{self, Signals};

#[derive(Clone, PartialEq, Debug)]
pub enum Source {
    Diagram(Vec<u8>),
    Texts { signals: Vec<u8>, rule: Vec<u8> },
}

/// What is refused of a source.
#[derive(Clone, Copy, PartialEq, Debug)]
pub enum Within {
    Diagram,
    Signals,
    Rule,
    /// The game of the rule, which has no place in a text.
    RuleGame,
}

#[derive(Clone, Copy, PartialEq, Debug)]
pub struct Refused {
    pub refusal: Refusal,
    pub within: Within,
}

impl Within {
    fn refused(self) -> impl Fn(Refusal) -> Refused {
        move |refusal| Refused { refusal, within: self }
    }
}

/// What a source says, read.
pub struct Read {
    pub game: Game,
    /// The rule of texts.
    pub said: Option<Rule>,
}

/// The signals and the rule in two texts.
pub fn read_texts(signals: &[u8], rule: &[u8]) -> Result<(Signals, Rule), Refused> {
    let signals = signals::read(signals).map_err(Within::Signals.refused())?;
    let rule = rule::read(rule, &signals).map_err(Within::Rule.refused())?;
    Ok((signals, rule))
}

pub fn read(source: &Source) -> Result<Read, Refused> {
    match source {
        Source::Diagram(bytes) => {
            let game = diagram::read(bytes).map_err(Within::Diagram.refused())?;
            Ok(Read { game, said: None })
        }
        Source::Texts { signals, rule } => {
            let (signals, rule) = read_texts(signals, rule)?;
            let game = explore(&rule, &signals).map_err(Within::RuleGame.refused())?;
            Ok(Read { game, said: Some(rule) })
        }
    }
}

impl Read {
    /// Lost after these rounds, of which the low bits are read: by the negation of the rule where there is one, else by
    /// the moves that are drawn.
    pub fn is_lost_after(&self, rounds: &[Round]) -> bool {
        let low: Vec<Round> = rounds.iter().map(|round| round.low(&self.game)).collect();
        match &self.said {
            Some(rule) => Goal::against(rule).is_true(&low),
            None => self.game.reached(&low) == LOST,
        }
    }

    /// A rule fails after these rounds exactly when its negation is true of them.
    pub fn agrees_on(&self, rounds: &[Round]) -> bool {
        let low: Vec<Round> = rounds.iter().map(|round| round.low(&self.game)).collect();
        self.said.iter().all(|rule| fails(rule, &low) == Goal::against(rule).is_true(&low))
    }
}
