//! How often each refusal was met.
use crate::model::plan;
use crate::model::validate;

// By number, 0 being none.
type Counts = [usize; 82];

/// All that was told, and of texts that the original was not asked about for their locks.
#[derive(Clone, Debug)]
pub struct Met {
    told: Counts,
    left_out: usize,
    // what is told of these and not without their locks
    for_locks: Counts,
}

impl Default for Met {
    fn default() -> Self {
        Met {
            told: [0; 82],
            left_out: 0,
            for_locks: [0; 82],
        }
    }
}

impl Met {
    pub fn count(&mut self, number: u32) {
        self.told[number as usize] += 1;
    }

    /// A text that the original was not asked about, and with which number it is refused for its locks alone.
    pub fn leave_out(&mut self, for_lock: Option<u32>) {
        self.left_out += 1;
        if let Some(number) = for_lock {
            self.for_locks[number as usize] += 1;
        }
    }

    pub fn add(&mut self, other: &Met) {
        let told = self.told.iter_mut().zip(other.told);
        let for_locks = self.for_locks.iter_mut().zip(other.for_locks);
        told.chain(for_locks).for_each(|(sum, n)| *sum += n);
        self.left_out += other.left_out;
    }

    pub fn of(&self, number: u32) -> usize {
        self.told[number as usize]
    }

    /// How many texts were left out.
    pub fn left_out(&self) -> usize {
        self.left_out
    }

    /// How many of these were refused with that number for their locks alone.
    pub fn for_locks(&self, number: u32) -> usize {
        self.for_locks[number as usize]
    }

    /// The first of these numbers that was met less often.
    pub fn seldom(&self, numbers: impl IntoIterator<Item = u32>, least: usize) -> Option<u32> {
        let mut numbers = numbers.into_iter();
        numbers.find(|&number| self.of(number) < least)
    }

    /// How many refusals there were.
    pub fn refused(&self) -> usize {
        self.told[1..].iter().sum()
    }

    /// With how many numbers.
    pub fn numbers(&self) -> usize {
        self.told[1..].iter().filter(|n| **n > 0).count()
    }

    /// The numbers of 01 that were never met; 17 goes by the rooms alone.
    pub fn unmet(&self) -> Vec<u32> {
        let text = (1..=16).chain(20..=25);
        let rules = validate::NUMBERS.into_iter().chain(plan::NUMBERS);
        let all = text.chain(rules);
        all.filter(|&number| self.of(number) == 0).collect()
    }

    /// Says so on standard output; `.ci/run` shows these lines.
    pub fn print(&self, what: &str) {
        println!("met, {what}: {}", self.summary());
    }

    /// In one line.
    pub fn summary(&self) -> String {
        let told = format!("{} accepted; refused {}", self.of(0), listed(&self.told));
        if self.left_out == 0 {
            return told;
        }
        let (texts, numbers) = (self.left_out, listed(&self.for_locks));
        format!("{told}; {texts} texts left out for locks, refused for these alone {numbers}")
    }
}

fn listed(counts: &Counts) -> String {
    let met = counts.iter().enumerate().skip(1).filter(|(_, n)| **n > 0);
    let refused: Vec<_> = met.map(|(number, n)| format!("{number}: {n}")).collect();
    if refused.is_empty() {
        "none".into()
    } else {
        refused.join(", ")
    }
}
