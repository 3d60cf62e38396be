//! How much was compared, and what differed.

use std::fs;

const DIFFERING_TRACE: &str = "target/tests/differing.trace";
const SHOWN: usize = 5;

/// A trace, with the names by which a person finds it again.
pub struct Case {
    family: String,
    name: String,
    pub trace: Vec<u8>,
}

impl Case {
    pub fn new(family: &str, name: String, trace: Vec<u8>) -> Case {
        Case {
            family: family.to_string(),
            name,
            trace,
        }
    }
}

#[derive(Default)]
pub struct Report {
    traces: usize,
    octets: usize,
    differences: Vec<Difference>,
}

struct Difference {
    family: String,
    text: String,
}

impl Report {
    /// Counts a case whose listing was compared, and keeps the difference if there is one. The first trace that differs
    /// is written to a file.
    pub fn add(&mut self, case: &Case, listing: &[u8], outcome: Result<(), String>) {
        self.traces += 1;
        self.octets += listing.len();
        if let Err(text) = outcome {
            if self.differences.is_empty() {
                keep_trace(&case.trace);
            }
            self.differences.push(Difference {
                family: case.family.clone(),
                text: format!("{}, {}: {text}", case.family, case.name),
            });
        }
    }

    pub fn has_differences(&self) -> bool {
        !self.differences.is_empty()
    }

    pub fn print_success(&self) {
        println!(
            "host call: {} traces, listings of {} octets compared, no difference",
            self.traces, self.octets
        );
    }

    /// Prints the first differences and how many there are, or nothing if there are none.
    pub fn print_differences(&self) {
        if self.differences.is_empty() {
            return;
        }
        for difference in self.differences.iter().take(SHOWN) {
            println!("{}\n", difference.text);
        }
        println!(
            "host call: {} of {} traces differ: {}",
            self.differences.len(),
            self.traces,
            self.counts()
        );
        println!("the first trace that differs is in {DIFFERING_TRACE}");
    }

    /// How many traces of each family differ, in the order in which the families were tried.
    fn counts(&self) -> String {
        let families = self
            .differences
            .chunk_by(|one, next| one.family == next.family)
            .map(|differences| format!("{} {}", differences[0].family, differences.len()));
        families.collect::<Vec<String>>().join(", ")
    }
}

fn keep_trace(trace: &[u8]) {
    if let Err(error) = fs::write(DIFFERING_TRACE, trace) {
        println!("{DIFFERING_TRACE} was not written: {error}");
    }
}
