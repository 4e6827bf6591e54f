//! Random drawings: right ones with their records in any order, and others with something wrong.

use crate::random::Random;
use crate::source::Source;

const HEADER: usize = 8;

/// The numbers in the header, and the moves of each position, each by input, output and destination.
struct Plan {
    inputs: usize,
    outputs: usize,
    start: usize,
    chains: Vec<Vec<[usize; 3]>>,
}

pub fn source(random: &mut Random) -> Source {
    let plan = if random.once_in(150) { crowded(random) } else { plan(random) };
    let mut bytes = drawn(random, &plan);
    if random.once_in(3) {
        for _ in 0..random.between(1, 2) {
            spoil(random, plan.chains.len(), &mut bytes);
        }
    }
    Source::Diagram(bytes)
}

/// A right drawing of so many positions, with few signals.
pub fn sized(random: &mut Random, size: usize) -> Source {
    let (inputs, outputs) = (random.between(0, 2), random.between(0, 1));
    let plan = filled(random, inputs, outputs, size);
    Source::Diagram(drawn(random, &plan))
}

fn plan(random: &mut Random) -> Plan {
    let (inputs, outputs) = (random.pick(&[0, 1, 1, 1, 2, 2, 3, 4]), random.pick(&[0, 1, 1, 1, 2, 2, 3, 4]));
    let rounds = 1 << (inputs + outputs);
    let most = (if random.once_in(20) { 4100 } else { 300 } / rounds).clamp(1, 255);
    let size = match random.below(4) {
        0 => random.between(1, most),
        _ => random.between(1, most.min(9)),
    };
    filled(random, inputs, outputs, size)
}

fn filled(random: &mut Random, inputs: usize, outputs: usize, size: usize) -> Plan {
    let (gaps, falling) = (random.pick(&[2, 3, 5, 20, 400]), random.once_in(3));
    let chains = (1..=size).map(|position| chain(random, position, size, [inputs, outputs, gaps], falling)).collect();
    Plan { inputs, outputs, start: random.between(1, size), chains }
}

/// About 4,000 records.
fn crowded(random: &mut Random) -> Plan {
    let mut chains: Vec<Vec<[usize; 3]>> =
        (1..=16).map(|position| chain(random, position, 16, [4, 4, 1 << 40], false)).collect();
    for _ in random.between(3997, 4003)..4096 {
        chains[random.below(16)].pop();
    }
    Plan { inputs: 4, outputs: 4, start: random.between(1, 16), chains }
}

/// The moves of a position, in any order; one in `gaps` is left out.
fn chain(random: &mut Random, position: usize, size: usize, shape: [usize; 3], falling: bool) -> Vec<[usize; 3]> {
    let [inputs, outputs, gaps] = shape;
    let mut moves: Vec<[usize; 3]> = Vec::new();
    for round in 0..1 << (inputs + outputs) {
        let last = falling && position == size;
        let to = if falling && !random.once_in(6) { (position + 1).min(size) } else { random.between(1, size) };
        if !last && !random.once_in(gaps) {
            let at = random.below(moves.len() + 1);
            moves.insert(at, [round >> outputs, round % (1 << outputs), to]);
        }
    }
    moves
}

/// The bytes, the records standing in any order or in that of the chains.
fn drawn(random: &mut Random, plan: &Plan) -> Vec<u8> {
    let size = plan.chains.len();
    let records: usize = plan.chains.iter().map(Vec::len).sum();
    let mut numbers: Vec<usize> = (1..=records).collect();
    if !random.once_in(4) {
        (1..records).for_each(|k| numbers.swap(k, random.below(k + 1)));
    }
    let mut bytes = vec![plan.inputs as u8, plan.outputs as u8, size as u8, plan.start as u8];
    bytes.extend((records as u16).to_be_bytes());
    bytes.resize(HEADER + 2 * size + 8 * records, 0);
    let mut free = numbers.into_iter();
    for (position, chain) in plan.chains.iter().enumerate() {
        let mut index = HEADER + 2 * position;
        for &[input, output, to] in chain {
            let record = free.next().expect("there is a number for each record");
            let place = HEADER + 2 * size + 8 * (record - 1);
            bytes[index..index + 2].copy_from_slice(&(record as u16).to_be_bytes());
            bytes[place..place + 3].copy_from_slice(&[input as u8, output as u8, to as u8]);
            index = place + 4;
        }
    }
    bytes
}

/// Makes one thing wrong, or at least other.
fn spoil(random: &mut Random, size: usize, bytes: &mut Vec<u8>) {
    let records = bytes.len().saturating_sub(HEADER + 2 * size) / 8;
    let record = |random: &mut Random| HEADER + 2 * size + 8 * random.below(records.max(1));
    match random.below(8) {
        0 => {
            let at = random.below(HEADER);
            put(bytes, at, random.pick(&[0, 1, 2, 4, 5, 255]));
        }
        1 => bytes.truncate(random.below(bytes.len() + 1)),
        2 => (0..random.between(1, 9)).for_each(|_| bytes.push(0)),
        3 => {
            let (from, to) = (record(random), record(random));
            let field = bytes.get(from..from + 2).map(<[u8]>::to_vec).unwrap_or_default();
            field.iter().enumerate().for_each(|(k, byte)| put(bytes, to + k, *byte));
        }
        4 => {
            let at = if random.once_in(2) { HEADER + 2 * random.below(size) } else { record(random) + 4 };
            let index = random.below(records + 3) as u16;
            index.to_be_bytes().iter().enumerate().for_each(|(k, byte)| put(bytes, at + k, *byte));
        }
        5 => {
            let at = record(random) + random.below(8);
            put(bytes, at, random.below(18) as u8);
        }
        _ => {
            let at = random.below(bytes.len().max(1));
            put(bytes, at, random.byte());
        }
    }
}

fn put(bytes: &mut [u8], place: usize, byte: u8) {
    if let Some(there) = bytes.get_mut(place) {
        *there = byte;
    }
}
