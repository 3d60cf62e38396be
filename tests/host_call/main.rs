//! Tests the library `fairline_host`: its call against listings that are made from the documents alone, and against the
//! program. It runs in the root of the repository.

mod check;
mod faulty;
mod generate;
mod host;
mod program;
mod random;
mod reference;
mod refusals;
mod report;
mod script;

use generate::{Family, LONGEST};
use report::{Case, Report};
use std::fs;
use std::io;
use std::path::{Path, PathBuf};
use std::process::ExitCode;

const SEEDS: u64 = 250;
const SEEDS_FOR_THE_PROGRAM: u64 = 4;

fn main() -> ExitCode {
    let mut report = Report::default();
    generated_traces(&mut report);
    refusals::long_traces(&mut report);
    refusals::short_buffers(&mut report);
    let outcome = stored_traces(&mut report).and_then(|()| traces_for_the_program(&mut report));
    report.print_differences();
    if let Err(error) = outcome {
        println!("host call: the test stopped early: {error}");
        return ExitCode::FAILURE;
    }
    if report.has_differences() {
        return ExitCode::FAILURE;
    }
    report.print_success();
    ExitCode::SUCCESS
}

/// Generated traces: the host call against the reference.
fn generated_traces(report: &mut Report) {
    for family in Family::ALL {
        for seed in 0..SEEDS {
            let trace = generate::trace(family, seed);
            let case = Case::new(&format!("{family:?}"), format!("seed {seed}"), trace);
            let listing = reference::listing(&case.trace);
            let outcome = check::host_lists(&case.trace, &listing);
            report.add(&case, &listing, outcome);
        }
    }
}

/// Stored traces: the program, the reference, the host call and the stored listing, if there is one, must agree.
fn stored_traces(report: &mut Report) -> io::Result<()> {
    for path in stored_paths()? {
        let case = Case::new("Stored", path.display().to_string(), fs::read(&path)?);
        let listing = program::list(&case.trace)?;
        let stored_path = path.with_extension("listing");
        let stored_listing = if stored_path.exists() {
            fs::read(&stored_path)?
        } else {
            listing.clone()
        };
        let outcome = check::program_listed(&case.trace, &listing)
            .and_then(|()| check::host_lists(&case.trace, &listing))
            .and_then(|()| check::same_listing(&case.trace, &stored_listing, &listing));
        report.add(&case, &listing, outcome);
    }
    Ok(())
}

/// The traces of the examples, of which there must be some, and the stored input of the program.
fn stored_paths() -> io::Result<Vec<PathBuf>> {
    let mut paths = Vec::new();
    for entry in fs::read_dir("examples")? {
        let path = entry?.path();
        if path.extension().is_some_and(|ending| ending == "trace") {
            paths.push(path);
        }
    }
    if paths.is_empty() {
        return Err(io::Error::other("there is no trace in examples/"));
    }
    paths.sort();
    let input = Path::new("crates/fairline/stdin");
    if input.exists() {
        paths.push(input.to_path_buf());
    }
    Ok(paths)
}

/// Generated traces through the program, which takes them at any length, against the reference.
fn traces_for_the_program(report: &mut Report) -> io::Result<()> {
    for family in Family::ALL {
        for seed in 0..SEEDS_FOR_THE_PROGRAM {
            let name = format!("{family:?} seed {seed}");
            let trace = generate::trace(family, seed);
            add_program_case(report, name, trace)?;
        }
    }
    for length in [LONGEST + 1, 70_000, 131_072, 200_001, 1_000_000] {
        let name = format!("a history of {length} octets");
        let trace = generate::trace_of_length(length);
        add_program_case(report, name, trace)?;
    }
    for before in 0..=90 {
        let name = format!("a line that begins {before} octets before the end of a chunk");
        let trace = line_across_chunks(before);
        add_program_case(report, name, trace)?;
    }
    Ok(())
}

fn add_program_case(report: &mut Report, name: String, trace: Vec<u8>) -> io::Result<()> {
    let case = Case::new("Program", name, trace);
    let listing = program::list(&case.trace)?;
    let outcome = check::program_listed(&case.trace, &listing);
    report.add(&case, &listing, outcome);
    Ok(())
}

/// A line of 81 octets, one of 80 and a call, which begin so many octets before place 65,536 of the trace, where the
/// program's first chunk ends.
fn line_across_chunks(before: usize) -> Vec<u8> {
    let mut trace = vec![b'x'; LONGEST - before - 1];
    trace.push(b'\n');
    trace.extend([b'y'; 81]);
    trace.push(b'\n');
    trace.extend([b'z'; 80]);
    trace.extend(b"\ndo=open session=5 weight=6 limit=7\n");
    trace
}
