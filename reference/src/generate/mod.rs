//! Random cases. Nothing here is checked by itself: what is made is judged by the reference, so a case may be anything,
//! and the weights only see to it that everything comes about.

pub mod books;
pub mod diagrams;
pub mod extremes;
pub mod mutations;
pub mod rows;
pub mod texts;

use crate::random::Random;
use crate::source::Source;

/// The sources of one case.
pub fn sources(random: &mut Random) -> Vec<Source> {
    match random.weighted(&[50, 30, 19, 1]) {
        0 => vec![texts::source(random)],
        1 => vec![diagrams::source(random)],
        2 => vec![either(random), either(random)],
        _ => large_pair(random),
    }
}

/// A source of a pair, mostly a small one.
fn either(random: &mut Random) -> Source {
    match random.weighted(&[3, 1, 4]) {
        0 => texts::small(random),
        1 => texts::source(random),
        _ => diagrams::source(random),
    }
}

/// Two drawings that have 255 positions together, or 256.
fn large_pair(random: &mut Random) -> Vec<Source> {
    let (one, two) =
        random.pick(&[(15, 17), (17, 15), (5, 51), (51, 5), (85, 3), (3, 85), (1, 255), (255, 1), (16, 16), (2, 128)]);
    vec![diagrams::sized(random, one), diagrams::sized(random, two)]
}
