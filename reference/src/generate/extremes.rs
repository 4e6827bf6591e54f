//! Texts at the limits: of bytes, signals, levels, parts, duties, sets of a list and positions.

use super::texts::{rule, set, Names, Words};
use crate::random::Random;
use crate::source::Source;

fn words(text: &str) -> Words {
    text.split_whitespace().map(|w| w.as_bytes().to_vec()).collect()
}

pub fn source(random: &mut Random) -> Source {
    match random.weighted(&[2, 2, 5, 3, 3, 4, 4, 2, 5, 2]) {
        0 => long(random),
        1 => crowded(random),
        2 => deep(random),
        3 => many_parts(random),
        4 => many_duties(random),
        5 => wide(random),
        6 => wide_by_count(random),
        7 => wide_on_the_way(random),
        8 => many_positions(random),
        _ => start_lost(random),
    }
}

fn with_rule(random: &mut Random, names: &Names, words: &[Vec<u8>]) -> Source {
    Source::Texts { signals: set(random, &names.words()), rule: set(random, words) }
}

fn spread(random: &mut Random, text: &mut Vec<u8>) {
    let length = if random.once_in(8) { random.between(1029, 5000) } else { random.between(1021, 1028) };
    let blank = |random: &mut Random| random.pick(b"  \n");
    let before = random.below(length.saturating_sub(text.len()) + 1);
    let lead: Vec<u8> = (0..before).map(|_| blank(random)).collect();
    text.splice(0..0, lead);
    while text.len() < length {
        text.push(blank(random));
    }
}

/// A text of about 1,024 bytes.
fn long(random: &mut Random) -> Source {
    let names = Names::random(random);
    let size = random.between(0, 3);
    let said = if size == 0 { Vec::new() } else { rule(random, &names, size) };
    let (mut signals, mut said) = (set(random, &names.words()), set(random, &said));
    let changed = if random.once_in(3) { &mut signals } else { &mut said };
    spread(random, changed);
    Source::Texts { signals, rule: said }
}

/// Four or five signals on a side, and names that are long or repeated.
fn crowded(random: &mut Random) -> Source {
    let (inputs, outputs) = (random.between(3, 5), random.between(3, 5));
    let names = Names::of(random, inputs, outputs);
    let mut signals = names.words();
    if random.once_in(2) {
        let at = random.below(signals.len());
        signals[at] = random.pick(&["abcdefghi", "abcdefgh", "door", "lock", "b"]).as_bytes().to_vec();
    }
    let said = rule(random, &names, 2);
    Source::Texts { signals: set(random, &signals), rule: set(random, &said) }
}

/// About 32 levels.
fn deep(random: &mut Random) -> Source {
    let names = Names::of(random, 1, 1);
    let levels = random.between(30, 35);
    let only = random.pick(&["", "", "X", "G", "(", "R"]);
    let mut said: Words = Vec::new();
    for _ in 0..levels {
        let level = if only.is_empty() { random.pick(&["X", "G", "(", "(", "(", "R"]) } else { only };
        let in_unit = said.last().is_some_and(|w| w == b"X" || w == b"G");
        match level {
            "R" if in_unit => said.extend(words("(")),
            "R" => said.extend(words(&format!("{} R", names.pick(random)))),
            _ => said.extend(words(level)),
        }
    }
    let brackets = said.iter().filter(|w| *w == b"(").count();
    let name = names.pick(random);
    said.extend(words(random.pick(&[name, "true", "false", ")", "^", "true & false", "false | U", "true R true"])));
    let closed = if random.once_in(6) { random.below(brackets + 2) } else { brackets };
    said.extend((0..closed).map(|_| b")".to_vec()));
    with_rule(random, &names, &said)
}

/// About 64 parts.
fn many_parts(random: &mut Random) -> Source {
    let names = Names::of(random, 1, 1);
    let mark = random.pick(&["|", "&"]);
    let all = names.all();
    let terms = random.between(60, 67);
    let mut said: Words = words(all[0]);
    for k in 1..terms {
        said.extend(words(mark));
        said.extend(words(all[k % 2]));
    }
    if random.once_in(4) {
        said.extend(words(random.pick(&["^", "luck", "X", "R true"])));
    }
    with_rule(random, &names, &said)
}

/// About 32 duties.
fn many_duties(random: &mut Random) -> Source {
    let names = Names::of(random, 1, 1);
    let levels = random.between(28, 32);
    let only = random.pick(&["X", "G", ""]);
    let mut said: Words = Vec::new();
    for _ in 0..levels {
        said.extend(words(if only.is_empty() { random.pick(&["X", "G"]) } else { only }));
    }
    said.extend(words(names.pick(random)));
    for _ in 0..random.below(5) {
        said.extend(words(random.pick(&["& X", "| X", "& G", "| G X", "& !"])));
        said.extend(words(names.pick(random)));
    }
    with_rule(random, &names, &said)
}

/// Lists of about 32 sets, at the start or after some rounds.
fn wide(random: &mut Random) -> Source {
    let (inputs, outputs) = (random.between(1, 3), random.between(2, 4));
    let names = Names::of(random, inputs, outputs);
    let all = names.all();
    let pair = |random: &mut Random, k: usize| {
        let name = all[k % all.len()];
        let other = random.pick(&all);
        let not = random.pick(&["", "", "!"]);
        let next = random.pick(&["X", "X X", "G", "X !"]);
        let other = if next.ends_with('!') || random.once_in(2) { name } else { other };
        format!("( {not} {name} | {next} {other} )")
    };
    let units: Vec<String> = (0..random.between(4, 7)).map(|k| pair(random, k)).collect();
    let body = units.join(" & ");
    let body = inside(random, &all, &body);
    with_rule(random, &names, &words(&body))
}

/// Lists of 30 to 34 sets: units of so many alternatives, all of them different, and some more alternatives beside.
fn wide_by_count(random: &mut Random) -> Source {
    let (inputs, outputs) = (random.between(1, 3), random.between(2, 4));
    let names = Names::of(random, inputs, outputs);
    let all = names.all();
    let mut atoms = (0..).map(|k| format!("{}{}", "X ".repeat(k / all.len()), all[k % all.len()]));
    let mut choice = |size: usize| atoms.by_ref().take(size).collect::<Vec<String>>().join(" | ");
    let factors: &[usize] =
        random.pick(&[&[2, 2, 2, 2, 2], &[4, 8], &[5, 6], &[3, 10], &[2, 16], &[2, 15], &[2, 4, 4]]);
    let units: Vec<String> = factors.iter().map(|size| format!("( {} )", choice(*size))).collect();
    let beside = random.below(4);
    let beside = if beside == 0 { String::new() } else { format!("| {}", choice(beside)) };
    let body = inside(random, &all, &format!("( {} ) {beside}", units.join(" & ")));
    with_rule(random, &names, &words(&body))
}

/// Duties of one set that are too wide together after a round, or are not since others cannot be met: the order decides.
fn wide_on_the_way(random: &mut Random) -> Source {
    let names = Names::of(random, 2, 2);
    let all = names.all();
    let mut atoms = (0..).map(|k| format!("{}{}", "X ".repeat(k / all.len()), all[k % all.len()]));
    let mut choice = |size: usize| format!("X ( {} )", atoms.by_ref().take(size).collect::<Vec<String>>().join(" | "));
    let (name, other) = (random.pick(&all), random.pick(&all));
    let mut left = vec![choice(random.between(4, 7)), choice(random.between(5, 8)), name.into(), format!("! {other}")];
    let mut said = left.swap_remove(random.below(4));
    while !left.is_empty() {
        let next = left.swap_remove(random.below(left.len()));
        said = if random.once_in(8) { format!("( {said} ) | {next}") } else { format!("{said} & {next}") };
    }
    with_rule(random, &names, &words(&said))
}

/// Puts what may be too wide where it is needed at once, later, or never.
fn inside(random: &mut Random, all: &[&str], body: &str) -> String {
    let name = random.pick(all);
    match random.below(8) {
        0 | 1 => body.into(),
        2 => format!("X ( {body} )"),
        3 => format!("true | X ( {body} )"),
        4 => format!("{} & ( {body} )", random.pick(&["false", "true", "X false"])),
        5 => format!("G ( ! {name} | X ( {body} ) )"),
        6 => format!("{name} R ( X X ( {body} ) )"),
        _ => format!("( {name} R ( {body} ) ) | X {name}"),
    }
}

/// Up to 256 positions and more: what was owed in the last rounds is remembered.
fn many_positions(random: &mut Random) -> Source {
    let names = Names::of(random, 1, 2);
    let (input, output) = (names.inputs[0], names.outputs[0]);
    let delay = |rounds: usize| "X ".repeat(rounds);
    let mut one = |most: usize| {
        let not = random.pick(&["!", ""]);
        format!("G ( {not} {input} | {} {output} )", delay(random.between(1, most)))
    };
    let (single, left, right, held) = (one(8), one(5), one(4), one(7));
    let said = match random.below(5) {
        0 => single,
        1 => format!("{left} & {right}"),
        2 => format!("{right} R {left}"),
        3 => format!("{} {} & {held}", delay(random.between(0, 7)), names.outputs[1]),
        // Exactly 255.
        _ => format!("{} {} & G ( ! {input} | {} {output} )", delay(6), names.outputs[1], delay(7)),
    };
    with_rule(random, &names, &words(&said))
}

/// Rules that cannot be met from the start, or nearly so.
fn start_lost(random: &mut Random) -> Source {
    let names = Names::random(random);
    let size = random.between(1, 4);
    let mut said = words(random.pick(&["false &", "false |", "( false ) &", "X false &", "G false &", "true &"]));
    said.push(b"(".to_vec());
    said.extend(rule(random, &names, size));
    said.push(b")".to_vec());
    if random.once_in(2) {
        said.extend(words("& false"));
    }
    with_rule(random, &names, &said)
}
