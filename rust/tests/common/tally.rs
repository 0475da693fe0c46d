//! How often each number was answered, so that a test that never met a number does not pass.

use std::collections::BTreeMap;

#[derive(Debug, Default)]
pub struct Times(BTreeMap<u32, usize>);

impl Times {
    pub fn add(&mut self, number: u32) {
        *self.0.entry(number).or_default() += 1;
    }

    pub fn of(&self, number: u32) -> usize {
        self.0.get(&number).copied().unwrap_or(0)
    }

    /// Each of these numbers was added so often or more, and no other number at all.
    pub fn assert_each(&self, how: &str, numbers: &[u32], least: usize) {
        for &number in numbers {
            let times = self.of(number);
            assert!(
                times >= least,
                "{number} {how}: {times} times, fewer than {least}: {self:?}"
            );
        }
        for number in self.0.keys() {
            assert!(
                numbers.contains(number),
                "{number} {how}, but cannot be: {self:?}"
            );
        }
    }
}
