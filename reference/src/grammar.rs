//! Which words can begin a rule: the grammar as it is written down, with the levels in its symbols, and all ways to read
//! the words so far kept side by side (Earley's method). Nothing here knows what a rule means.

use crate::words::Kind;

pub const MOST_LEVELS: u8 = 32;

#[derive(Clone, Copy, PartialEq, Eq, Debug)]
pub enum Symbol {
    Rule(u8),
    Choice(u8),
    Join(u8),
    Unit(u8),
    Word(Kind),
}
use Symbol::{Choice, Join, Rule, Unit, Word};

fn mark(byte: u8) -> Symbol {
    Word(Kind::Mark(byte))
}

/// The ways to make a symbol that stands inside so many levels.
fn ways(symbol: Symbol) -> Vec<Vec<Symbol>> {
    match symbol {
        Rule(l) => vec![vec![Choice(l)], vec![Choice(l), mark(b'R'), Rule(l + 1)]],
        Choice(l) => vec![vec![Join(l)], vec![Choice(l), mark(b'|'), Join(l)]],
        Join(l) => vec![vec![Unit(l)], vec![Join(l), mark(b'&'), Unit(l)]],
        Unit(l) => vec![
            vec![Word(Kind::True)],
            vec![Word(Kind::False)],
            vec![Word(Kind::Name)],
            vec![mark(b'!'), Word(Kind::Name)],
            vec![mark(b'X'), Unit(l + 1)],
            vec![mark(b'G'), Unit(l + 1)],
            vec![mark(b'('), Rule(l + 1), mark(b')')],
        ],
        Word(_) => Vec::new(),
    }
}

/// A way to make `made`, done up to `done`, begun behind the word number `from`.
#[derive(Clone, PartialEq, Eq, Debug)]
struct Item {
    made: Symbol,
    way: Vec<Symbol>,
    done: usize,
    from: usize,
}

impl Item {
    fn next(&self) -> Option<Symbol> {
        self.way.get(self.done).copied()
    }

    fn advanced(&self) -> Item {
        Item { done: self.done + 1, ..self.clone() }
    }

    /// What is due next stands deeper than a rule may go.
    fn is_too_deep(&self) -> bool {
        matches!(self.next(), Some(Rule(l) | Unit(l)) if l > MOST_LEVELS)
    }
}

/// What one more word comes to.
#[derive(Clone, Copy, PartialEq, Eq, Debug)]
pub enum Step {
    Fits,
    Misplaced,
    TooDeep,
}

/// All readings of the words so far.
pub struct Readings {
    sets: Vec<Vec<Item>>,
}

impl Readings {
    pub fn new() -> Readings {
        let mut readings = Readings { sets: vec![Vec::new()] };
        readings.predict(Rule(0));
        readings.close();
        readings
    }

    /// Takes one more word, if a rule can go on with it.
    pub fn take(&mut self, kind: Kind) -> Step {
        let last = self.sets.last().expect("there is a set for no words");
        let found: Vec<Item> = last.iter().filter(|i| i.next() == Some(Word(kind))).map(Item::advanced).collect();
        if found.is_empty() {
            return Step::Misplaced;
        }
        let shallow: Vec<Item> = found.into_iter().filter(|i| !i.is_too_deep()).collect();
        if shallow.is_empty() {
            return Step::TooDeep;
        }
        self.sets.push(shallow);
        self.close();
        Step::Fits
    }

    /// The words so far are a rule.
    pub fn is_whole(&self) -> bool {
        let last = self.sets.last().expect("there is a set for no words");
        last.iter().any(|i| i.made == Rule(0) && i.from == 0 && i.next().is_none())
    }

    fn add(&mut self, item: Item) {
        let last = self.sets.last_mut().expect("there is a set for no words");
        if !last.contains(&item) {
            last.push(item);
        }
    }

    fn predict(&mut self, symbol: Symbol) {
        let from = self.sets.len() - 1;
        for way in ways(symbol) {
            self.add(Item { made: symbol, way, done: 0, from });
        }
    }

    /// A whole symbol moves on everything that waited for it where it began.
    fn complete(&mut self, whole: &Item) {
        let waiting = self.sets[whole.from].iter().filter(|i| i.next() == Some(whole.made));
        let moved: Vec<Item> = waiting.map(Item::advanced).collect();
        moved.into_iter().for_each(|item| self.add(item));
    }

    /// Adds to the last set what follows from what it has.
    fn close(&mut self) {
        let last = self.sets.len() - 1;
        let mut seen = 0;
        while seen < self.sets[last].len() {
            let item = self.sets[last][seen].clone();
            match item.next() {
                None => self.complete(&item),
                Some(Word(_)) => {}
                Some(symbol) => self.predict(symbol),
            }
            seen += 1;
        }
    }
}

#[cfg(test)]
mod tests {
    use super::*;
    use crate::words::words;

    fn first_bad(text: &str) -> Option<(usize, Step)> {
        let mut readings = Readings::new();
        let step = |w: &crate::words::Word| match readings.take(w.kind) {
            Step::Fits => None,
            other => Some((w.place, other)),
        };
        words(text.as_bytes()).iter().find_map(step)
    }

    #[test]
    fn levels_and_misplaced_words() {
        assert_eq!(first_bad("lock R (X door & lock)"), None);
        assert_eq!(first_bad("! true"), Some((2, Step::Misplaced)));
        assert_eq!(first_bad(&["X"; 33].concat()), Some((32, Step::TooDeep)));
        assert_eq!(first_bad(&format!("{})", ["X"; 32].concat())), Some((32, Step::Misplaced)));
        assert_eq!(first_bad(&["lock"; 34].join("R")), Some((32 * 5 + 4, Step::TooDeep)));
    }
}
