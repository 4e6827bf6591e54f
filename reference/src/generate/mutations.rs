//! Texts with something wrong: words that are added, dropped, doubled, exchanged or made up, and bytes likewise.

use super::texts::{rule, set, Names, Words};
use crate::random::Random;
use crate::source::Source;

const STRAY: &str = "X G R U F & | ! ( ) in out true false luck abcdefghi ^ 9 \t";

fn stray(random: &mut Random, names: &Names) -> Vec<u8> {
    let name = names.pick(random);
    let all: Vec<&str> = STRAY.split(' ').collect();
    let word = if random.once_in(4) { name } else { random.pick(&all) };
    word.as_bytes().to_vec()
}

fn change_word(random: &mut Random, names: &Names, words: &mut Words) {
    let at = random.below(words.len() + 1);
    let other = random.below(words.len().max(1));
    match random.below(5) {
        0 if at < words.len() => drop(words.remove(at)),
        1 if at < words.len() => words.swap(at, other),
        2 if at < words.len() => words.insert(at, words[other].clone()),
        3 if at < words.len() => words[at] = stray(random, names),
        _ => words.insert(at, stray(random, names)),
    }
}

fn change_byte(random: &mut Random, text: &mut Vec<u8>) {
    let at = random.below(text.len() + 1);
    let byte = match random.below(3) {
        0 => random.byte(),
        1 => random.pick(b"ab19XGRUF&|!() \n\t\r"),
        _ => text.get(at).copied().unwrap_or(b' '),
    };
    match random.below(3) {
        0 if at < text.len() => drop(text.remove(at)),
        1 if at < text.len() => text[at] = byte,
        _ => text.insert(at, byte),
    }
}

/// A rule, or signals, with some words changed.
pub fn rule_words(random: &mut Random, names: &Names) -> Source {
    let size = random.between(1, 8);
    let mut said = rule(random, names, size);
    let mut signals = names.words();
    let changed = if random.once_in(3) { &mut signals } else { &mut said };
    for _ in 0..random.between(1, 3) {
        change_word(random, names, changed);
    }
    Source::Texts { signals: set(random, &signals), rule: set(random, &said) }
}

/// Words as they come.
pub fn soup(random: &mut Random, names: &Names) -> Source {
    let mut words = |most: usize| -> Words { (0..random.below(most)).map(|_| stray(random, names)).collect() };
    let (signals, said) = (words(6), words(10));
    let signals = if random.once_in(4) { signals } else { names.words() };
    Source::Texts { signals: set(random, &signals), rule: set(random, &said) }
}

/// Texts with some bytes changed.
pub fn any_bytes(random: &mut Random, names: &Names) -> Source {
    let size = random.between(1, 8);
    let words = rule(random, names, size);
    let mut said = set(random, &words);
    let mut signals = set(random, &names.words());
    let changed = if random.once_in(3) { &mut signals } else { &mut said };
    for _ in 0..random.between(1, 3) {
        change_byte(random, changed);
    }
    Source::Texts { signals, rule: said }
}
