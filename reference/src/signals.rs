//! Signals texts: `in`, names, `out`, names. Each word is judged by what stands before it.

use crate::refusal::Refusal;
use crate::words::{words, Kind, Word, LONGEST_TEXT};

const LONGEST_NAME: usize = 8;
const MOST_SIGNALS: usize = 4;

#[derive(Clone, Debug, Default, PartialEq)]
pub struct Signals {
    pub inputs: Vec<Vec<u8>>,
    pub outputs: Vec<Vec<u8>>,
}

/// An input or an output by its number.
#[derive(Clone, Copy, PartialEq, Eq, PartialOrd, Ord, Debug)]
pub enum Signal {
    Input(usize),
    Output(usize),
}

impl Signals {
    pub fn find(&self, name: &[u8]) -> Option<Signal> {
        let input = self.inputs.iter().position(|n| n == name).map(Signal::Input);
        input.or_else(|| self.outputs.iter().position(|n| n == name).map(Signal::Output))
    }

    pub fn name(&self, signal: Signal) -> &[u8] {
        match signal {
            Signal::Input(k) => &self.inputs[k],
            Signal::Output(k) => &self.outputs[k],
        }
    }
}

pub fn read(text: &[u8]) -> Result<Signals, Refusal> {
    if text.len() > LONGEST_TEXT {
        return Err(Refusal::new(1, 0));
    }
    let all = words(text);
    for (index, word) in all.iter().enumerate() {
        if let Some(number) = fault(&all[..index], word) {
            return Err(Refusal::new(number, word.place));
        }
    }
    let out = all.iter().position(|w| w.kind == Kind::Out).ok_or(Refusal::new(3, text.len()))?;
    Ok(Signals { inputs: names(&all[1..out]), outputs: names(&all[out + 1..]) })
}

/// The lowest number of what is wrong with a word behind words that are right.
fn fault(before: &[Word], word: &Word) -> Option<u8> {
    let out = before.iter().position(|w| w.kind == Kind::Out);
    let fits = match word.kind {
        Kind::Strange => return Some(2),
        Kind::In => before.is_empty(),
        Kind::Out => !before.is_empty() && out.is_none(),
        Kind::Name => !before.is_empty(),
        _ => false,
    };
    if !fits {
        return Some(3);
    }
    if word.kind != Kind::Name {
        return None;
    }
    let repeated = before.iter().any(|w| w.bytes == word.bytes);
    let beside = before.len() - out.unwrap_or(0) - 1;
    if repeated || word.bytes.len() > LONGEST_NAME {
        return Some(4);
    }
    (beside >= MOST_SIGNALS).then_some(6)
}

fn names(words: &[Word]) -> Vec<Vec<u8>> {
    words.iter().map(|w| w.bytes.to_vec()).collect()
}

#[cfg(test)]
mod tests {
    use super::*;

    #[test]
    fn refusals_of_signals_texts() {
        let cases = [
            ("in\tout", 2, 2),
            ("", 3, 0),
            ("in", 3, 2),
            ("in X out", 3, 3),
            ("in a true out", 3, 5),
            ("in out out", 3, 7),
            ("in abcdefghi out", 4, 3),
            ("in door door out", 4, 8),
            ("in a b c d a out", 4, 11),
            ("in a b c d e out", 6, 11),
            ("in out a b c d e", 6, 15),
        ];
        for (text, number, place) in cases {
            assert_eq!(read(text.as_bytes()), Err(Refusal::new(number, place)), "{text}");
        }
        for text in ["in out", "in door out lock ajar", "in abcdefgh out", "in a b c d out e f g h"] {
            assert!(read(text.as_bytes()).is_ok(), "{text}");
        }
    }
}
