//! Compares the host call with the same rules in plain Rust. README.md says what is measured.

mod baseline;
mod host;
mod workloads;

use std::hint::black_box;
use std::process::ExitCode;
use std::time::{Duration, Instant};

use baseline::{Refusal, TRACE_MOST, count_lines, out_for};
use workloads::{Steady, WORKLOADS, Workload};

const USAGE: &str = "usage:
  bench times                     compare the listings of all workloads, and then the times
  bench names                     print the names of the workloads
  bench count TRACE host          list a trace once by the host call, and print its number of lines
  bench count TRACE baseline      the same by the baseline
TRACE is the name of a workload, or steady:SESSIONS:WAITING or warm-up:SESSIONS:WAITING";

/// How often each implementation lists each workload.
const REPETITIONS: usize = 1000;

#[derive(Clone, Copy)]
enum Implementation {
    Host,
    Baseline,
}

impl Implementation {
    fn named(name: &str) -> Option<Implementation> {
        match name {
            "host" => Some(Implementation::Host),
            "baseline" => Some(Implementation::Baseline),
            _ => None,
        }
    }

    /// Answers the length of the listing, or the number of the refusal.
    fn list(self, trace: &[u8], out: &mut [u8]) -> Result<usize, u64> {
        match self {
            Implementation::Host => host::list(trace, out),
            Implementation::Baseline => baseline::list(trace, out).map_err(Refusal::number),
        }
    }
}

fn main() -> ExitCode {
    let words: Vec<String> = std::env::args().skip(1).collect();
    let words: Vec<&str> = words.iter().map(String::as_str).collect();
    let done = match words[..] {
        ["times"] => compare_times(),
        ["names"] => print_names(),
        ["count", trace, implementation] => list_once(trace, implementation),
        _ => Err(USAGE.to_string()),
    };
    match done {
        Ok(()) => ExitCode::SUCCESS,
        Err(message) => {
            eprintln!("{message}");
            ExitCode::FAILURE
        }
    }
}

fn print_names() -> Result<(), String> {
    for workload in &WORKLOADS {
        println!("{}", workload.name);
    }
    Ok(())
}

// Times

fn compare_times() -> Result<(), String> {
    compare_listings()?;
    println!("host / baseline, {REPETITIONS} runs of each");
    println!(
        "{:<12} {:>6} {:>6} {:>6} {:>6}",
        "workload", "octets", "lines", "best", "median"
    );
    for workload in &WORKLOADS {
        let trace = workload.trace();
        let (host, baseline) = measure(&trace);
        println!(
            "{:<12} {:>6} {:>6} {:>6.2} {:>6.2}",
            workload.name,
            trace.len(),
            count_lines(&trace),
            ratio(host.best(), baseline.best()),
            ratio(host.median(), baseline.median()),
        );
    }
    Ok(())
}

/// The times of one implementation on one workload, the shortest first.
struct Times(Vec<Duration>);

impl Times {
    fn best(&self) -> Duration {
        self.0[0]
    }

    fn median(&self) -> Duration {
        self.0[self.0.len() / 2]
    }
}

fn ratio(host: Duration, baseline: Duration) -> f64 {
    host.as_secs_f64() / baseline.as_secs_f64()
}

/// The times of both implementations, which take turns.
fn measure(trace: &[u8]) -> (Times, Times) {
    let mut out = vec![0; out_for(trace)];
    let mut host = Times(Vec::with_capacity(REPETITIONS));
    let mut baseline = Times(Vec::with_capacity(REPETITIONS));
    for _ in 0..REPETITIONS {
        host.0.push(time(Implementation::Host, trace, &mut out));
        baseline
            .0
            .push(time(Implementation::Baseline, trace, &mut out));
    }
    host.0.sort();
    baseline.0.sort();
    (host, baseline)
}

fn time(implementation: Implementation, trace: &[u8], out: &mut [u8]) -> Duration {
    out.fill(0);
    let start = Instant::now();
    let answer = implementation.list(black_box(trace), black_box(out));
    let time = start.elapsed();
    black_box(answer).ok();
    time
}

// Equal listings

fn compare_listings() -> Result<(), String> {
    for workload in &WORKLOADS {
        let trace = workload.trace();
        compare(workload.name, &trace, out_for(&trace))?;
        compare("a short buffer", &trace, out_for(&trace) - 1)?;
    }
    compare("the empty trace", b"", out_for(b""))?;
    compare("a long trace", &[b'\n'; TRACE_MOST + 1], 0)
}

/// Both implementations must give the same answer and leave the same octets in the buffer.
fn compare(name: &str, trace: &[u8], out_len: usize) -> Result<(), String> {
    let mut by_host = vec![0xAA; out_len];
    let mut by_baseline = by_host.clone();
    let host = Implementation::Host.list(trace, &mut by_host);
    let baseline = Implementation::Baseline.list(trace, &mut by_baseline);
    if host != baseline {
        return Err(format!(
            "{name}: the host answers {host:?}, the baseline {baseline:?}"
        ));
    }
    if by_host != by_baseline {
        return Err(format!("{name}: the listings differ"));
    }
    Ok(())
}

// One run, for counting

fn list_once(trace: &str, implementation: &str) -> Result<(), String> {
    let trace = trace_named(trace).ok_or(USAGE)?;
    let implementation = Implementation::named(implementation).ok_or(USAGE)?;
    let mut out = vec![0; out_for(&trace)];
    counted_run(implementation, &trace, &mut out)
        .map_err(|number| format!("refused by {number}"))?;
    println!("{}", count_lines(&trace));
    Ok(())
}

/// The only call that is counted: bench/counts knows it by this name.
#[unsafe(no_mangle)]
#[inline(never)]
fn counted_run(implementation: Implementation, trace: &[u8], out: &mut [u8]) -> Result<usize, u64> {
    implementation.list(trace, out)
}

fn trace_named(name: &str) -> Option<Vec<u8>> {
    if let Some(workload) = Workload::named(name) {
        return Some(workload.trace());
    }
    let mut words = name.split(':');
    let kind = words.next()?;
    let sessions = words.next()?.parse().ok()?;
    let waiting = words.next()?.parse().ok()?;
    let steady = Steady { sessions, waiting };
    match kind {
        "steady" => Some(steady.trace()),
        "warm-up" => Some(steady.warm_up()),
        _ => None,
    }
}
