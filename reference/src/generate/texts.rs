//! Random signals texts and rule texts: right ones by the grammar, and others that have something wrong with them.

use super::{extremes, mutations};
use crate::random::Random;
use crate::source::Source;

const NAMES: [&str; 16] = [
    "door", "lock", "load", "clamp", "a", "b", "c9", "in1", "outa", "truex", "falsey", "abcdefgh", "x", "g", "r2d2",
    "f",
];

/// The words of a text before they are set.
pub type Words = Vec<Vec<u8>>;

/// Names of inputs, and of outputs.
pub struct Names {
    pub inputs: Vec<&'static str>,
    pub outputs: Vec<&'static str>,
}

impl Names {
    pub fn random(random: &mut Random) -> Names {
        let inputs = random.pick(&[0, 1, 1, 1, 2, 2, 2, 3, 4]);
        let outputs = random.pick(&[0, 1, 1, 1, 2, 2, 2, 3, 4]);
        Names::of(random, inputs, outputs)
    }

    pub fn of(random: &mut Random, inputs: usize, outputs: usize) -> Names {
        let mut left = NAMES.to_vec();
        let mut draw = |_| left.swap_remove(random.below(left.len()));
        let inputs = (0..inputs).map(&mut draw).collect();
        Names { inputs, outputs: (0..outputs).map(&mut draw).collect() }
    }

    pub fn all(&self) -> Vec<&'static str> {
        self.inputs.iter().chain(&self.outputs).copied().collect()
    }

    /// A name of these, or one that is none where there are none.
    pub fn pick(&self, random: &mut Random) -> &'static str {
        let all = self.all();
        if all.is_empty() {
            return "luck";
        }
        random.pick(&all)
    }

    pub fn words(&self) -> Words {
        let inputs = self.inputs.iter().map(|n| n.as_bytes());
        let outputs = self.outputs.iter().map(|n| n.as_bytes());
        let all = [&b"in"[..]].into_iter().chain(inputs).chain([&b"out"[..]]).chain(outputs);
        all.map(<[u8]>::to_vec).collect()
    }
}

pub fn source(random: &mut Random) -> Source {
    let names = Names::random(random);
    match random.weighted(&[40, 12, 12, 6, 12, 18]) {
        0 => small(random),
        1 => {
            let size = random.between(6, 24);
            served(random, &names, size)
        }
        2 => mutations::rule_words(random, &names),
        3 => mutations::soup(random, &names),
        4 => mutations::any_bytes(random, &names),
        _ => extremes::source(random),
    }
}

/// Texts that read.
pub fn small(random: &mut Random) -> Source {
    let names = Names::random(random);
    let size = random.between(1, 6);
    served(random, &names, size)
}

fn served(random: &mut Random, names: &Names, size: usize) -> Source {
    let words = rule(random, names, size);
    Source::Texts { signals: set(random, &names.words()), rule: set(random, &words) }
}

/// The words of a rule with so many leaves.
pub fn rule(random: &mut Random, names: &Names, size: usize) -> Words {
    let mut writer = Writer { random, names, words: Vec::new() };
    writer.rule(size);
    writer.words
}

struct Writer<'w> {
    random: &'w mut Random,
    names: &'w Names,
    words: Words,
}

impl Writer<'_> {
    fn word(&mut self, word: &str) {
        self.words.push(word.as_bytes().to_vec());
    }

    /// The size of the left side, once in `share` times and where there are two leaves.
    fn left(&mut self, size: usize, share: usize) -> Option<usize> {
        (size > 1 && self.random.once_in(share)).then(|| self.random.between(1, size - 1))
    }

    fn rule(&mut self, size: usize) {
        let Some(left) = self.left(size, 4) else { return self.choice(size) };
        self.choice(left);
        self.word("R");
        self.rule(size - left);
    }

    fn choice(&mut self, size: usize) {
        let Some(left) = self.left(size, 3) else { return self.join(size) };
        self.choice(left);
        self.word("|");
        self.join(size - left);
    }

    fn join(&mut self, size: usize) {
        let Some(left) = self.left(size, 2) else { return self.unit(size) };
        self.join(left);
        self.word("&");
        self.unit(size - left);
    }

    fn unit(&mut self, size: usize) {
        let mark = self.random.pick(&["", "", "X", "X", "G"]);
        if !mark.is_empty() {
            self.word(mark);
            return self.unit(size);
        }
        if size < 2 && !self.random.once_in(12) {
            return self.leaf();
        }
        self.word("(");
        self.rule(size);
        self.word(")");
    }

    fn leaf(&mut self) {
        match self.random.weighted(&[9, 7, 1, 1]) {
            0 => {}
            1 => self.word("!"),
            2 => return self.word("true"),
            _ => return self.word("false"),
        }
        let name = self.names.pick(self.random);
        self.word(name);
    }
}

/// Sets words as a text: blanks where two runs would meet, and elsewhere as it comes.
pub fn set(random: &mut Random, words: &[Vec<u8>]) -> Vec<u8> {
    let wild = random.once_in(4);
    let dense = random.once_in(3);
    let mut text = Vec::new();
    for word in words {
        let meets = |end: Option<&u8>| end.is_some_and(|b| b.is_ascii_lowercase() || b.is_ascii_digit());
        let blanks = match (wild, dense) {
            (true, _) => random.below(3),
            (_, dense) => usize::from(!dense && !text.is_empty()),
        };
        let needed = usize::from(meets(text.last()) && meets(word.first()));
        let blank = |random: &mut Random| if random.once_in(6) { b'\n' } else { b' ' };
        text.extend((0..blanks.max(needed)).map(|_| blank(random)));
        text.extend(word);
    }
    let behind = if wild { random.below(3) } else { 0 };
    text.extend((0..behind).map(|_| random.pick(b" \n")));
    text
}
