//! The program `fairline`, run on a trace.

use std::fs::{self, File};
use std::io;
use std::process::Command;

const PROGRAM: &str = "crates/fairline/out/fairline";
const INPUT: &str = "target/tests/program-input.trace";

/// What the program prints for a trace. It must end with status 0.
pub fn list(trace: &[u8]) -> io::Result<Vec<u8>> {
    fs::write(INPUT, trace)?;
    let output = Command::new(PROGRAM)
        .stdin(File::open(INPUT)?)
        .output()
        .map_err(|error| io::Error::other(format!("{PROGRAM}: {error}")))?;
    if output.status.success() {
        Ok(output.stdout)
    } else {
        let message = format!("{PROGRAM} ended with {}", output.status);
        Err(io::Error::other(message))
    }
}
