//! The comparisons, and which numbers they reached.
use crate::archive::{Call, CALLS};
use common::counts::Counts;

pub const GREATEST: usize = 19;

/// How often each call gave each number.
pub type Numbers = [[u64; GREATEST + 1]; CALLS.len()];

#[derive(Default)]
pub struct Tally {
    pub counts: Counts,
    pub numbers: Numbers,
}

impl Tally {
    pub fn count(&mut self, call: &Call, number: u8) {
        self.numbers[call.index()][(number as usize).min(GREATEST)] += 1;
    }

    /// Prints the numbers of the group that ends here, and gives them.
    pub fn close(&mut self, group: &str) -> Numbers {
        let failed = self.counts.close();
        for (name, numbers) in CALLS.iter().zip(self.numbers) {
            let numbers: String = numbers.iter().map(|n| format!("{n:>7}")).collect();
            println!("{:<20}{numbers}{failed:>8}", format!("{group}, {name}"));
        }
        std::mem::take(&mut self.numbers)
    }

    /// Expects that a call gave each of these numbers, and no other.
    pub fn reached(&mut self, numbers: &Numbers, call: usize, expected: &[usize]) {
        for (number, &times) in numbers[call].iter().enumerate() {
            let holds = (times > 0) == expected.contains(&number);
            self.counts.expect(holds, || format!("{} gave {number} {times} times", CALLS[call]));
        }
    }
}
