//! Rule texts: their refusals by the grammar, and the tree of a text that reads, by splitting it at its weakest word.

use crate::grammar::{Readings, Step};
use crate::parts;
use crate::refusal::Refusal;
use crate::signals::{Signal, Signals};
use crate::words::{words, Kind, Word, LONGEST_TEXT};

#[derive(Clone, PartialEq, Eq, PartialOrd, Ord, Debug)]
pub enum Rule {
    Constant(bool),
    Literal(Signal, bool),
    Next(Box<Rule>),
    Release(Box<Rule>, Box<Rule>),
    And(Box<Rule>, Box<Rule>),
    Or(Box<Rule>, Box<Rule>),
}

impl Rule {
    pub fn next(body: Rule) -> Rule {
        Rule::Next(Box::new(body))
    }

    pub fn release(left: Rule, right: Rule) -> Rule {
        Rule::Release(Box::new(left), Box::new(right))
    }

    pub fn always(body: Rule) -> Rule {
        Rule::release(Rule::Constant(false), body)
    }

    pub fn and(left: Rule, right: Rule) -> Rule {
        Rule::And(Box::new(left), Box::new(right))
    }

    pub fn or(left: Rule, right: Rule) -> Rule {
        Rule::Or(Box::new(left), Box::new(right))
    }
}

pub fn read(text: &[u8], signals: &Signals) -> Result<Rule, Refusal> {
    if text.len() > LONGEST_TEXT {
        return Err(Refusal::new(1, 0));
    }
    let all = words(text);
    let mut readings = Readings::new();
    for word in &all {
        if let Some(number) = fault(&mut readings, word, signals) {
            return Err(Refusal::new(number, word.place));
        }
    }
    if !readings.is_whole() {
        return Err(Refusal::new(3, text.len()));
    }
    let rule = tree(&all, signals);
    if parts::is_too_large(&rule) {
        return Err(Refusal::new(9, 0));
    }
    Ok(rule)
}

/// The number of what is wrong with a word behind words that can begin a rule.
fn fault(readings: &mut Readings, word: &Word, signals: &Signals) -> Option<u8> {
    match word.kind {
        Kind::Strange => return Some(2),
        Kind::Mark(b'U' | b'F') => return Some(7),
        _ => {}
    }
    match readings.take(word.kind) {
        Step::Misplaced => Some(3),
        Step::TooDeep => Some(8),
        Step::Fits => {
            let unknown = word.kind == Kind::Name && signals.find(word.bytes).is_none();
            unknown.then_some(5)
        }
    }
}

/// The tree of words that are a rule: the first `R` outside brackets has all the rest on its right.
fn tree(words: &[Word], signals: &Signals) -> Rule {
    let sides = split(words, b'R');
    let last = sides.len() - 1;
    let whole = choice(sides[last], signals);
    let released = sides[..last].iter().rev();
    released.fold(whole, |right, left| Rule::release(choice(left, signals), right))
}

fn choice(words: &[Word], signals: &Signals) -> Rule {
    let joins = split(words, b'|').into_iter().map(|join| self::join(join, signals));
    joins.reduce(Rule::or).expect("a split has one piece at least")
}

fn join(words: &[Word], signals: &Signals) -> Rule {
    let units = split(words, b'&').into_iter().map(|unit| self::unit(unit, signals));
    units.reduce(Rule::and).expect("a split has one piece at least")
}

fn unit(words: &[Word], signals: &Signals) -> Rule {
    match words[0].kind {
        Kind::True => Rule::Constant(true),
        Kind::False => Rule::Constant(false),
        Kind::Name => literal(&words[0], true, signals),
        Kind::Mark(b'!') => literal(&words[1], false, signals),
        Kind::Mark(b'X') => Rule::next(unit(&words[1..], signals)),
        Kind::Mark(b'G') => Rule::always(unit(&words[1..], signals)),
        _ => tree(&words[1..words.len() - 1], signals),
    }
}

fn literal(word: &Word, positive: bool, signals: &Signals) -> Rule {
    Rule::Literal(signals.find(word.bytes).expect("unknown names are refused before"), positive)
}

/// The pieces between the marks that stand outside all brackets.
fn split<'w, 't>(words: &'w [Word<'t>], mark: u8) -> Vec<&'w [Word<'t>]> {
    let mut open = 0;
    let is_split = |word: &Word| {
        match word.kind {
            Kind::Mark(b'(') => open += 1,
            Kind::Mark(b')') => open -= 1,
            _ => {}
        }
        open == 0 && word.kind == Kind::Mark(mark)
    };
    words.split(is_split).collect()
}

#[cfg(test)]
mod tests {
    use super::*;
    use crate::signals;

    fn door() -> Signals {
        signals::read(b"in door out lock").unwrap()
    }

    fn said(text: &str) -> Result<Rule, Refusal> {
        read(text.as_bytes(), &door())
    }

    #[test]
    fn trees_group_as_written() {
        for (text, same) in [
            ("G lock & door", "(G lock) & door"),
            ("X lock R door", "(X lock) R door"),
            ("door & lock & door", "(door & lock) & door"),
            ("lock R door R lock", "lock R (door R lock)"),
            ("door | lock & door | lock R !door", "((door | (lock & door)) | lock) R (!door)"),
            ("G door", "false R door"),
        ] {
            assert_eq!(said(text).unwrap(), said(same).unwrap(), "{text}");
        }
    }

    #[test]
    fn refusals_of_rule_texts() {
        let longer = |n: usize, unit: &str, end: &str| format!("{}{end}", unit.repeat(n));
        let cases = [
            (" ".repeat(1025), 1, 0),
            ("lock ^ door".into(), 2, 5),
            (longer(32, "X", "^"), 2, 32),
            ("".into(), 3, 0),
            (" ".repeat(1024), 3, 1024),
            ("lock | out".into(), 3, 7),
            ("lock)".into(), 3, 4),
            ("doordoordoor".into(), 5, 0),
            ("!U".into(), 7, 1),
            (longer(33, "X", ")"), 8, 32),
            (longer(33, "(", "lock"), 8, 32),
            (longer(32, "X", " lock"), 9, 0),
            (longer(32, "lock R ", "lock"), 9, 0),
            (longer(32, "door|lock|", "true"), 9, 0),
        ];
        for (text, number, place) in cases {
            assert_eq!(said(&text), Err(Refusal::new(number, place)), "{text}");
        }
    }
}
