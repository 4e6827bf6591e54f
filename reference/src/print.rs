//! What the program prints of a game, and of a refused source.

use crate::game::{Game, Round, LOST};
use crate::source::{Refused, Within};
use crate::winning::{Count, Values};

fn counted(number: usize, what: &str) -> String {
    let plural = if number == 1 { "" } else { "s" };
    format!("{number} {what}{plural}")
}

fn header(game: &Game) -> String {
    let (inputs, outputs) = (counted(game.inputs, "input"), counted(game.outputs, "output"));
    format!("game: {inputs}, {outputs}, {}, start {}\n", counted(game.size, "position"), game.start)
}

/// The table of `solve`.
pub fn solved(game: &Game, values: &Values) -> String {
    let positions = game.positions().map(|position| {
        let answers: String = values.answers[position].iter().map(|answer| format!(" {answer}")).collect();
        let status = match (values.counts[position], values.spoiling[position]) {
            (Count::Limited(count), Some(input)) => format!("limited, count {count}, spoiling input {input}"),
            _ => "unlimited".into(),
        };
        format!("position {position}: {status}, answers{answers}\n")
    });
    let book = format!("book: {} bytes\n", 8 + 24 * game.size);
    [header(game)].into_iter().chain(positions).chain([book]).collect()
}

/// The moves of `show`.
pub fn moves(game: &Game) -> String {
    let row = |position: usize, input: usize| {
        let to = |output| match game.after(position, Round { input, output }) {
            LOST => format!("output {output} lost"),
            next => format!("output {output} to {next}"),
        };
        let all: Vec<String> = (0..game.output_numbers()).map(to).collect();
        format!("  input {input}: {}\n", all.join(", "))
    };
    let rows = |position| (0..game.input_numbers()).map(move |input| row(position, input)).collect::<String>();
    let positions = game.positions().map(|position| format!("position {position}\n{}", rows(position)));
    [header(game)].into_iter().chain(positions).collect()
}

/// Two lines below a refusal of a text: its line with the place, and a caret below the place.
pub fn caret(text: &[u8], place: usize) -> String {
    let begin = text[..place].iter().rposition(|&b| b == b'\n').map_or(0, |feed| feed + 1);
    let end = text[place..].iter().position(|&b| b == b'\n').map_or(text.len(), |feed| place + feed);
    let line = String::from_utf8_lossy(&text[begin..end]);
    format!("{line}\n{}^\n", " ".repeat(place - begin))
}

impl Refused {
    /// What stands below the first line.
    pub fn below(&self, signals: &[u8], rule: &[u8]) -> String {
        match self.within {
            Within::Signals => caret(signals, self.refusal.place),
            Within::Rule => caret(rule, self.refusal.place),
            Within::Diagram | Within::RuleGame => String::new(),
        }
    }
}
