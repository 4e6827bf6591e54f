//! The product as a C library: its calls, as its header declares them, lent slices only.

use crate::refusal::Refusal;
use crate::source::{Refused, Source, Within};
use crate::tally::{Call, Told};
use crate::winning::Count;

#[repr(C)]
#[derive(Clone, Copy, PartialEq, Debug)]
pub struct Outcome {
    number: u32,
    layer: u32,
    text: u32,
    place: usize,
    length: usize,
}

#[repr(C)]
#[derive(Clone, Copy, PartialEq, Debug)]
pub struct Entry {
    pub kind: u8,
    pub number: u8,
}

#[repr(C)]
#[derive(Clone, Copy, PartialEq, Debug)]
pub struct Answer {
    pub kind: u32,
    pub value: i32,
    pub position: u32,
    pub count: i32,
}

#[link(name = "cuzzambra", kind = "static")]
extern "C" {
    fn cuzzambra_solve_rule(
        signals: *const u8,
        signals_length: usize,
        rule: *const u8,
        rule_length: usize,
        book: *mut u8,
        book_length: usize,
    ) -> Outcome;
    fn cuzzambra_solve_diagram(diagram: *const u8, diagram_length: usize, book: *mut u8, book_length: usize)
        -> Outcome;
    fn cuzzambra_accept_rule(
        signals: *const u8,
        signals_length: usize,
        rule: *const u8,
        rule_length: usize,
        book: *const u8,
        book_length: usize,
    ) -> Outcome;
    fn cuzzambra_accept_diagram(
        diagram: *const u8,
        diagram_length: usize,
        book: *const u8,
        book_length: usize,
    ) -> Outcome;
    fn cuzzambra_replay_rule(
        signals: *const u8,
        signals_length: usize,
        rule: *const u8,
        rule_length: usize,
        book: *const u8,
        book_length: usize,
        row: *const Entry,
        row_length: usize,
        answers: *mut Answer,
        answers_length: usize,
    ) -> Outcome;
    fn cuzzambra_replay_diagram(
        diagram: *const u8,
        diagram_length: usize,
        book: *const u8,
        book_length: usize,
        row: *const Entry,
        row_length: usize,
        answers: *mut Answer,
        answers_length: usize,
    ) -> Outcome;
}

pub fn solve(source: &Source, book: &mut [u8]) -> Outcome {
    let (b, b_len) = (book.as_mut_ptr(), book.len());
    // SAFETY: all buffers are slices of the lengths given; the written one is borrowed alone. So in the other two calls.
    match source {
        Source::Diagram(d) => unsafe { cuzzambra_solve_diagram(d.as_ptr(), d.len(), b, b_len) },
        Source::Texts { signals: s, rule: r } => unsafe {
            cuzzambra_solve_rule(s.as_ptr(), s.len(), r.as_ptr(), r.len(), b, b_len)
        },
    }
}

pub fn accept(source: &Source, book: &[u8]) -> Outcome {
    let (b, b_len) = (book.as_ptr(), book.len());
    match source {
        Source::Diagram(d) => unsafe { cuzzambra_accept_diagram(d.as_ptr(), d.len(), b, b_len) },
        Source::Texts { signals: s, rule: r } => unsafe {
            cuzzambra_accept_rule(s.as_ptr(), s.len(), r.as_ptr(), r.len(), b, b_len)
        },
    }
}

pub fn replay(source: &Source, book: &[u8], row: &[Entry], answers: &mut [Answer]) -> Outcome {
    let (b, b_len) = (book.as_ptr(), book.len());
    let (c, c_len) = (row.as_ptr(), row.len());
    let (a, a_len) = (answers.as_mut_ptr(), answers.len());
    match source {
        Source::Diagram(d) => unsafe { cuzzambra_replay_diagram(d.as_ptr(), d.len(), b, b_len, c, c_len, a, a_len) },
        Source::Texts { signals: s, rule: r } => unsafe {
            cuzzambra_replay_rule(s.as_ptr(), s.len(), r.as_ptr(), r.len(), b, b_len, c, c_len, a, a_len)
        },
    }
}

const LAYERS: [&str; 9] = ["text", "signals", "rule", "compile", "store", "diagram", "game", "run", "solve"];

impl Outcome {
    pub fn served(length: usize) -> Outcome {
        Outcome { number: 0, layer: 0, text: 0, place: 0, length }
    }

    /// A refusal that stands in no text.
    pub fn refused(refusal: Refusal) -> Outcome {
        let layer = LAYERS.iter().position(|layer| *layer == refusal.layer()).expect("all layers are listed") + 1;
        Outcome { number: refusal.number.into(), layer: layer as u32, text: 0, place: refusal.place, length: 0 }
    }

    pub fn of_source(refused: Refused) -> Outcome {
        let text = match refused.within {
            Within::Signals => 1,
            Within::Rule => 2,
            Within::Diagram | Within::RuleGame => 0,
        };
        Outcome { text, ..Outcome::refused(refused.refusal) }
    }
}

const REFUSED: u32 = 8;
const NOT_ALLOWED: u32 = 9;
const UNLIMITED: i32 = 65536;

impl Entry {
    /// No game has 255 as an input or output, nor any higher number.
    pub fn of(call: Call) -> Entry {
        let low = |number: usize| number.min(255) as u8;
        let (kind, number) = match call {
            Call::Open(input) => (1, low(input)),
            Call::Set(output) => (2, low(output)),
            Call::Close => (3, 0),
            Call::Abandon => (4, 0),
            Call::Position => (5, 0),
            Call::Count => (6, 0),
            Call::Spoiling => (7, 0),
        };
        Entry { kind, number }
    }
}

impl Answer {
    pub fn of(call: Call, told: Told, position: usize, count: Count) -> Answer {
        let or = |number: Option<usize>, none: i32| number.map_or(none, |n| n as i32);
        let (kind, value) = match told {
            Told::Refused(refusal) => (REFUSED, refusal.number.into()),
            Told::NotAllowed => (NOT_ALLOWED, 0),
            Told::Output(output) => (Entry::of(call).kind.into(), output as i32),
            Told::Position(position) => (Entry::of(call).kind.into(), or(position, 0)),
            Told::Spoiling(input) => (Entry::of(call).kind.into(), or(input, -1)),
            Told::Count(count) => (Entry::of(call).kind.into(), number(count)),
            Told::Set | Told::Closed | Told::Abandoned => (Entry::of(call).kind.into(), 0),
        };
        Answer { kind, value, position: position as u32, count: number(count) }
    }
}

fn number(count: Count) -> i32 {
    match count {
        Count::Lost => -1,
        Count::Limited(count) => count as i32,
        Count::Unlimited => UNLIMITED,
    }
}
