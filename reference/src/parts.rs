//! The parts of a rule in the order in which they are completed, and its duties.

use crate::rule::Rule;
use crate::signals::Signals;
use std::collections::BTreeMap;

pub const MOST_PARTS: usize = 64;
pub const MOST_DUTIES: usize = 32;

/// A part by the numbers of its sides.
#[derive(Clone, Copy, PartialEq, Eq, Debug)]
pub enum Made {
    Alone,
    Next(usize),
    Release(usize, usize),
    And(usize, usize),
    Or(usize, usize),
}

/// All parts of a rule: part k is the k-th tree.
pub struct Parts<'r> {
    trees: Vec<&'r Rule>,
    numbers: BTreeMap<&'r Rule, usize>,
    duties: Vec<usize>,
}

impl<'r> Parts<'r> {
    pub fn of(rule: &'r Rule) -> Parts<'r> {
        let mut parts = Parts { trees: Vec::new(), numbers: BTreeMap::new(), duties: Vec::new() };
        parts.complete(rule);
        parts.duties = (0..parts.len()).filter(|&k| is_duty(parts.trees[k])).collect();
        parts
    }

    fn complete(&mut self, rule: &'r Rule) {
        match rule {
            Rule::Constant(_) | Rule::Literal(..) => {}
            Rule::Next(body) => self.complete(body),
            Rule::Release(left, right) | Rule::And(left, right) | Rule::Or(left, right) => {
                self.complete(left);
                self.complete(right);
            }
        }
        let next = self.trees.len();
        if *self.numbers.entry(rule).or_insert(next) == next {
            self.trees.push(rule);
        }
    }

    pub fn len(&self) -> usize {
        self.trees.len()
    }

    pub fn tree(&self, part: usize) -> &'r Rule {
        self.trees[part]
    }

    pub fn made(&self, part: usize) -> Made {
        let number = |side: &Rule| self.numbers[side];
        match self.trees[part] {
            Rule::Constant(_) | Rule::Literal(..) => Made::Alone,
            Rule::Next(body) => Made::Next(number(body)),
            Rule::Release(left, right) => Made::Release(number(left), number(right)),
            Rule::And(left, right) => Made::And(number(left), number(right)),
            Rule::Or(left, right) => Made::Or(number(left), number(right)),
        }
    }

    pub fn duty(&self, part: usize) -> Option<usize> {
        self.duties.iter().position(|&p| p == part)
    }

    /// The parts that are duties, in their order.
    pub fn duties(&self) -> &[usize] {
        &self.duties
    }

    /// The lines that say the signals and the parts.
    pub fn print(&self, signals: &Signals) -> String {
        let name = |bytes: &[u8]| String::from_utf8_lossy(bytes).into_owned();
        let inputs = signals.inputs.iter().enumerate().map(|(k, n)| format!("input {k}: {}\n", name(n)));
        let outputs = signals.outputs.iter().enumerate().map(|(k, n)| format!("output {k}: {}\n", name(n)));
        let parts = (0..self.len()).map(|part| self.print_part(part, signals));
        let counts = format!("parts: {}, duties: {}\n", self.len(), self.duties.len());
        inputs.chain(outputs).chain(parts).chain([counts]).collect()
    }

    fn print_part(&self, part: usize, signals: &Signals) -> String {
        let said = match (self.made(part), self.trees[part]) {
            (Made::Next(p), _) => format!("X {p}"),
            (Made::Release(p, q), _) => format!("{p} R {q}"),
            (Made::And(p, q), _) => format!("{p} & {q}"),
            (Made::Or(p, q), _) => format!("{p} | {q}"),
            (Made::Alone, Rule::Literal(signal, on)) => {
                let not = if *on { "" } else { "!" };
                format!("{not}{}", String::from_utf8_lossy(signals.name(*signal)))
            }
            (Made::Alone, rule) => format!("{}", *rule == Rule::Constant(true)),
        };
        let duty = self.duty(part).map_or(String::new(), |d| format!(", duty {d}"));
        format!("part {part}: {said}{duty}\n")
    }
}

pub fn is_too_large(rule: &Rule) -> bool {
    let parts = Parts::of(rule);
    parts.len() > MOST_PARTS || parts.duties.len() > MOST_DUTIES
}

fn is_duty(rule: &Rule) -> bool {
    matches!(rule, Rule::Literal(..) | Rule::Next(_) | Rule::Release(..))
}
