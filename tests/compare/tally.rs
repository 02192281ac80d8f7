//! How many calls were compared, and which answers came up how often.

use crate::call::{Answer, Call};
use std::collections::BTreeMap;
use std::fmt;

#[derive(Default)]
pub struct Tally {
    pub calls: u64,
    answers: BTreeMap<String, u64>,
}

impl Tally {
    /// By its number and its mark, an accepted read by a comment that touches, and a footing by being
    /// firm partly.
    pub fn call(&mut self, call: &Call, answer: &Answer) {
        self.calls += 1;
        self.note(&answer.number().to_string(), 1);
        if answer.number() == 0 && call.has_touching_comment() {
            self.note("touching", 1);
        }
        if call.is_firm_partly(answer) {
            self.note("partly", 1);
        }
        if let Some(mark) = answer.mark() {
            self.note(mark, 1);
        }
    }

    pub fn note(&mut self, label: &str, times: u64) {
        match self.answers.get_mut(label) {
            Some(count) => *count += times,
            None => {
                self.answers.insert(label.to_string(), times);
            }
        }
    }

    pub fn met(&self, label: &str) -> bool {
        self.answers.get(label).map_or(false, |&count| count > 0)
    }
}

impl fmt::Display for Tally {
    fn fmt(&self, f: &mut fmt::Formatter) -> fmt::Result {
        let mut by_number: Vec<_> = self.answers.iter().collect();
        by_number.sort_by_key(|(label, _)| label.parse().unwrap_or(u32::MAX));
        let told: Vec<String> =
            by_number.iter().map(|(label, count)| format!("{label} ×{count}")).collect();
        f.write_str(&told.join(", "))
    }
}
