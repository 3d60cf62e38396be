//! A host in Rust: lists the trace in the file that its argument names, or the one on its standard
//! input, and prints the listing. From the root of the repository:
//!
//! ```text
//! (cd crates/fairline_host && rt lib) && mkdir -p target && rustc --edition 2024 -O -L crates/fairline_host/out -l static=fairline_host examples/host.rs -o target/host_rs && target/host_rs examples/moving-day.trace
//! ```
//!
//! The status is 0 if the trace was listed, 1 if it was refused, and 2 if it could not be read or
//! the listing could not be written.

use std::fmt;
use std::fs::File;
use std::io::{self, Read, Write};
use std::process::ExitCode;

/// A trace may have this many octets.
const TRACE_MOST: usize = 65_536;

/// A line of the listing has at most this many octets.
const LINE_MOST: usize = 96;

/// At most this many sessions are open, each with a closing line.
const SESSIONS: usize = 64;

unsafe extern "C" {
    /// The rules of this call stand in `include/fairline.h`.
    fn fairline_list(trace: *const u8, trace_len: usize, out: *mut u8, out_len: usize) -> i64;
}

/// Why a trace was not listed.
#[derive(Debug)]
enum Refusal {
    ShortBuffer,
    LongTrace,
}

impl Refusal {
    fn number(&self) -> i64 {
        match self {
            Refusal::ShortBuffer => 13,
            Refusal::LongTrace => 17,
        }
    }

    fn of_answer(answer: i64) -> Option<Refusal> {
        [Refusal::ShortBuffer, Refusal::LongTrace]
            .into_iter()
            .find(|refusal| answer == -refusal.number())
    }
}

impl fmt::Display for Refusal {
    fn fmt(&self, f: &mut fmt::Formatter) -> fmt::Result {
        write!(f, "refused by {}", self.number())
    }
}

fn count_lines(trace: &[u8]) -> usize {
    trace.split_inclusive(|&octet| octet == b'\n').count()
}

/// The listing of a trace.
fn list(trace: &[u8]) -> Result<Vec<u8>, Refusal> {
    // A longer trace is refused whatever the buffer has.
    let counted = &trace[..trace.len().min(TRACE_MOST)];
    let mut out = vec![0; LINE_MOST * count_lines(counted) + LINE_MOST * SESSIONS];

    // SAFETY: the pointers of a slice and of a vector are never null, and are
    // valid for the lengths that go with them. `out` is borrowed by nobody else
    // and was allocated here, so the two do not overlap.
    let answer = unsafe { fairline_list(trace.as_ptr(), trace.len(), out.as_mut_ptr(), out.len()) };

    match Refusal::of_answer(answer) {
        Some(refusal) => Err(refusal),
        None => {
            let written = usize::try_from(answer).expect("an answer is a length or a refusal");
            out.truncate(written);
            Ok(out)
        }
    }
}

/// The trace, or so much of it that it is seen to be too long.
fn read_trace() -> io::Result<Vec<u8>> {
    let input: Box<dyn Read> = match std::env::args_os().nth(1) {
        Some(path) => Box::new(File::open(path)?),
        None => Box::new(io::stdin()),
    };
    let mut trace = Vec::new();
    input.take(TRACE_MOST as u64 + 1).read_to_end(&mut trace)?;
    Ok(trace)
}

fn print(listing: &[u8]) -> io::Result<()> {
    let mut output = io::stdout().lock();
    output.write_all(listing)?;
    output.flush()
}

fn run() -> io::Result<ExitCode> {
    match list(&read_trace()?) {
        Ok(listing) => {
            print(&listing)?;
            Ok(ExitCode::SUCCESS)
        }
        Err(refusal) => {
            eprintln!("host: {refusal}");
            Ok(ExitCode::from(1))
        }
    }
}

fn main() -> ExitCode {
    run().unwrap_or_else(|error| {
        eprintln!("host: {error}");
        ExitCode::from(2)
    })
}
