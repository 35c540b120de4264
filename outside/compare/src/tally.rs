//! Counts of a comparison: calls by their number, and differences.

use outside::refusal::ORDER;

/// The largest refusal number, those below it and 0, an accepted call. Number 10
/// is not used any more and keeps its place.
const NUMBERS: usize = 1 + largest(&ORDER) as usize;
/// Differences that are printed in full.
const SHOWN: u64 = 5;

const fn largest(numbers: &[u8]) -> u8 {
    let (mut most, mut k) = (0, 0);
    while k < numbers.len() {
        if most < numbers[k] {
            most = numbers[k];
        }
        k += 1;
    }
    most
}

/// Where a refusal number stands in the order in which they count, 18 after 7.
fn rank(number: u8) -> Option<usize> {
    ORDER.iter().position(|&other| other == number)
}

#[derive(Default)]
pub struct Tally {
    counts: [u64; NUMBERS],
    pairs: u64,
    /// Calls with one fault, by it and itself, or with two, by the lower and the
    /// higher.
    faults: [[u64; NUMBERS]; NUMBERS],
    differences: u64,
}

impl Tally {
    /// Counts a call by its number, which has to be one that is used.
    pub fn count(&mut self, number: u8) {
        let used = number == 0 || rank(number).is_some();
        self.check(used, || format!("{number} is no refusal number"));
        self.counts[usize::from(number).min(NUMBERS - 1)] += 1;
    }

    /// The lowest number of a call's faults, by the order in which they count, is
    /// the one that comes, 0 without any.
    pub fn expect_lowest(&mut self, faults: &[u8], number: u8) {
        self.pairs += u64::from(faults.len() > 1);
        let numbers = || faults.iter().copied();
        let lowest = numbers().min_by_key(|&number| rank(number)).unwrap_or(0);
        let highest = numbers().max_by_key(|&number| rank(number)).unwrap_or(0);
        if faults.len() <= 2 {
            self.faults[usize::from(lowest)][usize::from(highest)] += 1;
        }
        self.check(lowest == number, || {
            format!("{number} for the faults {faults:?}")
        });
    }

    /// Each of some numbers, the lowest first, was met alone, and every two of
    /// them beside each other.
    pub fn expect_each_two(&mut self, numbers: &[u8]) {
        for (k, &one) in numbers.iter().enumerate() {
            for &other in &numbers[k..] {
                let met = self.faults[usize::from(one)][usize::from(other)] > 0;
                self.check(met, || match one == other {
                    true => format!("{one} was not met alone"),
                    false => format!("{one} was not met beside {other}"),
                });
            }
        }
    }

    /// Counts a difference unless the two sides agree.
    pub fn check(&mut self, same: bool, what: impl FnOnce() -> String) {
        if !same {
            self.differences += 1;
            if self.differences <= SHOWN {
                println!("difference: {}", what());
            }
        }
    }

    pub fn calls(&self) -> u64 {
        self.counts.iter().sum()
    }

    /// Prints the counts; whether there were no differences and each of the
    /// given numbers was reached.
    pub fn report(&mut self, name: &str, reached: &[u8]) -> bool {
        for &number in reached {
            let met = self.counts[usize::from(number)] > 0;
            self.check(met, || format!("number {number} was not reached"));
        }
        let refused: Vec<String> = ORDER
            .iter()
            .map(|&number| (number, self.counts[usize::from(number)]))
            .filter(|&(_, count)| count > 0)
            .map(|(number, count)| format!("{number}: {count}"))
            .collect();
        println!(
            "{name}: {} calls, {} accepted, refused {{{}}}, {} with several faults, {} differences",
            self.calls(),
            self.counts[0],
            refused.join(", "),
            self.pairs,
            self.differences
        );
        self.differences == 0
    }
}
