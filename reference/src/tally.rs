//! Rows of calls: what each is told, by the closed rounds and the open one.

use crate::game::{Game, Round, LOST};
use crate::refusal::Refusal;
use crate::winning::{Count, Values};
use std::fmt;

#[derive(Clone, Copy, PartialEq, Debug)]
pub enum Call {
    Open(usize),
    Set(usize),
    Close,
    Abandon,
    Position,
    Count,
    Spoiling,
}

/// What a call is told.
#[derive(Clone, Copy, PartialEq, Debug)]
pub enum Told {
    Output(usize),
    Set,
    Closed,
    Abandoned,
    Position(Option<usize>),
    Count(Count),
    Spoiling(Option<usize>),
    Refused(Refusal),
    NotAllowed,
}

impl fmt::Display for Told {
    /// A line of `run`; of a refusal only its head.
    fn fmt(&self, f: &mut fmt::Formatter) -> fmt::Result {
        let or_none = |number: &Option<usize>| number.map_or("none".into(), |n| n.to_string());
        match self {
            Told::Output(output) => write!(f, "output {output}"),
            Told::Set => write!(f, "set"),
            Told::Closed => write!(f, "closed"),
            Told::Abandoned => write!(f, "abandoned"),
            Told::Position(position) => write!(f, "position {}", or_none(position)),
            Told::Count(Count::Lost) => write!(f, "count -1"),
            Told::Count(Count::Limited(count)) => write!(f, "count {count}"),
            Told::Count(Count::Unlimited) => write!(f, "count unlimited"),
            Told::Spoiling(input) => write!(f, "spoiling {}", or_none(input)),
            Told::Refused(refusal) => write!(f, "{}", refusal.head()),
            Told::NotAllowed => write!(f, "not allowed here"),
        }
    }
}

pub struct Tally<'g> {
    game: &'g Game,
    values: &'g Values,
    pub closed: Vec<Round>,
    open: Option<Round>,
}

impl<'g> Tally<'g> {
    pub fn new(game: &'g Game, values: &'g Values) -> Tally<'g> {
        Tally { game, values, closed: Vec::new(), open: None }
    }

    pub fn position(&self) -> usize {
        self.game.reached(&self.closed)
    }

    pub fn count(&self) -> Count {
        self.values.counts[self.position()]
    }

    pub fn is_open(&self) -> bool {
        self.open.is_some()
    }

    pub fn spoiling(&self) -> Option<usize> {
        self.values.spoiling[self.position()]
    }

    pub fn take(&mut self, call: Call) -> Told {
        match (call, self.open) {
            (Call::Open(_), Some(_)) | (Call::Set(_) | Call::Close | Call::Abandon, None) => Told::NotAllowed,
            (Call::Open(input), None) => self.open(input),
            (Call::Set(output), Some(round)) => self.set(Round { output, ..round }),
            (Call::Close, Some(round)) => {
                self.closed.push(round);
                self.open = None;
                Told::Closed
            }
            (Call::Abandon, Some(_)) => {
                self.open = None;
                Told::Abandoned
            }
            (Call::Position, _) => Told::Position(Some(self.position()).filter(|p| *p != LOST)),
            (Call::Count, _) => Told::Count(self.count()),
            (Call::Spoiling, _) => Told::Spoiling(self.spoiling()),
        }
    }

    fn open(&mut self, input: usize) -> Told {
        if self.position() == LOST {
            return Told::Refused(Refusal::new(20, 0));
        }
        if input >= self.game.input_numbers() {
            return Told::Refused(Refusal::new(19, 0));
        }
        let output = self.values.answers[self.position()][input];
        self.open = Some(Round { input, output });
        Told::Output(output)
    }

    fn set(&mut self, round: Round) -> Told {
        if round.output >= self.game.output_numbers() {
            return Told::Refused(Refusal::new(19, 0));
        }
        self.open = Some(round);
        Told::Set
    }
}

/// A call as it is written for the program.
pub fn written(call: Call) -> String {
    match call {
        Call::Open(input) => format!("open {input}"),
        Call::Set(output) => format!("set {output}"),
        Call::Close => "close".into(),
        Call::Abandon => "abandon".into(),
        Call::Position => "position".into(),
        Call::Count => "count".into(),
        Call::Spoiling => "spoiling".into(),
    }
}
