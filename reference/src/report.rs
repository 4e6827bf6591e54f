//! How many cases of each kind there were.

use std::collections::BTreeMap;

#[derive(Default)]
pub struct Report {
    kinds: BTreeMap<&'static str, u64>,
    refusals: BTreeMap<u8, u64>,
}

impl Report {
    pub fn count(&mut self, kind: &'static str) {
        self.count_many(kind, 1);
    }

    pub fn count_many(&mut self, kind: &'static str, number: u64) {
        *self.kinds.entry(kind).or_default() += number;
    }

    pub fn refused(&mut self, number: u8) {
        *self.refusals.entry(number).or_default() += 1;
    }

    pub fn add(&mut self, other: &Report) {
        other.kinds.iter().for_each(|(kind, number)| self.count_many(kind, *number));
        other.refusals.iter().for_each(|(number, times)| *self.refusals.entry(*number).or_default() += times);
    }

    pub fn print(&self) -> String {
        let kinds = self.kinds.iter().map(|(kind, number)| format!("{kind}: {number}\n"));
        let refusals = self.refusals.iter().map(|(number, times)| format!("refusal {number}: {times}\n"));
        kinds.chain(refusals).collect()
    }
}
