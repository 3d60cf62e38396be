//! The traces that are measured. Each is the same in every run.

use std::fmt::Display;

use crate::baseline::{TRACE_MOST, count_lines};

const SESSIONS: u32 = 64;

/// How many packets may wait, of all sessions together.
const PLACES: u32 = 256;

const LIMIT: u32 = 65_535;

/// All tickets have four digits.
const FIRST_TICKET: u32 = 1000;

/// A trace with its name, as near to 65,536 octets as its lines let it be.
pub struct Workload {
    pub name: &'static str,
    build: fn(&mut Script),
}

pub const WORKLOADS: [Workload; 9] = [
    Workload::new("short-2", |script| short(script, 2)),
    Workload::new("short-64", |script| short(script, SESSIONS)),
    Workload::new("full-2", |script| full(script, 2)),
    Workload::new("full-64", |script| full(script, SESSIONS)),
    Workload::new("faults", faults),
    Workload::new("refusals", refusals),
    Workload::new("resets", resets),
    Workload::new("equal-marks", equal_marks),
    Workload::new("long-runs", long_runs),
];

impl Workload {
    const fn new(name: &'static str, build: fn(&mut Script)) -> Workload {
        Workload { name, build }
    }

    pub fn named(name: &str) -> Option<&'static Workload> {
        WORKLOADS.iter().find(|workload| workload.name == name)
    }

    pub fn trace(&self) -> Vec<u8> {
        let mut script = Script::new();
        (self.build)(&mut script);
        script.octets
    }
}

/// One or two packets wait all the time.
fn short(script: &mut Script, sessions: u32) {
    script.open_all(sessions);
    script.enter_any(sessions);
    script.enter_any(sessions);
    while script.has_room() {
        script.start();
        script.enter_any(sessions);
        script.finish();
    }
}

/// 255 or 256 packets wait all the time, once they have entered.
fn full(script: &mut Script, sessions: u32) {
    script.open_all(sessions);
    for _ in 0..PLACES {
        script.enter_any(sessions);
    }
    while script.has_room() {
        script.start();
        script.finish();
        script.enter_any(sessions);
    }
}

/// Every kind of fault, at every field.
fn faults(script: &mut Script) {
    let too_long = "do=start ".repeat(10);
    while script.has_room() {
        script.line("");
        script.line("hello world");
        script.line("do=fly session=1");
        script.line("do=start ");
        script.line("do=finish now");
        script.line("do=open weight=1 session=2 limit=3");
        script.line("do=open session=1 length=2 limit=3");
        script.line("do=enter session=1 length=2 limit=3");
        script.line("do=enter session=1 length=2 ticket=3 ticket=4");
        script.line("do=enter session=1 length=2");
        script.line("do=open session= weight=2 limit=3");
        script.line("do=open session=1 weight=007 limit=3");
        script.line("do=enter session=1 length=2x ticket=3");
        script.line("do=enter session=1 length=2 ticket=4294967296");
        script.line(&too_long);
    }
}

/// Every refusal that a trace of this length can have, on an empty line and on a full one.
fn refusals(script: &mut Script) {
    script.open(0, 1, 100);
    while script.octets.len() < TRACE_MOST / 2 {
        script.start();
        script.finish();
        refused_calls(script);
    }
    for _ in 0..=PLACES {
        script.enter(0, 100);
        script.start();
    }
    while script.has_room() {
        script.start();
        script.enter(0, 100);
        refused_calls(script);
    }
}

/// Calls that are refused whatever waits, if session 0 alone is open and its limit is 100.
fn refused_calls(script: &mut Script) {
    script.open(64, 1, 100);
    script.open(1, 17, 100);
    script.open(1, 1, 65_536);
    script.open(0, 1, 100);
    script.enter(4_294_967_295, 100);
    script.enter(63, 100);
    script.enter(0, 101);
}

/// The line runs empty after every packet.
fn resets(script: &mut Script) {
    script.open_all(SESSIONS);
    while script.has_room() {
        script.enter_any(SESSIONS);
        script.start();
        script.finish();
    }
}

/// Sessions of equal weight enter packets of equal length, so that up to 64 equal marks wait.
fn equal_marks(script: &mut Script) {
    for session in 0..SESSIONS {
        script.open(session, 1, LIMIT);
    }
    while script.has_room() {
        for session in 0..SESSIONS {
            script.enter(session, 1000);
        }
        for _ in 0..SESSIONS {
            script.start();
            script.finish();
        }
    }
}

/// 256 packets enter, and then all of them are served.
fn long_runs(script: &mut Script) {
    script.open_all(SESSIONS);
    while script.has_room() {
        for _ in 0..PLACES {
            script.enter_any(SESSIONS);
        }
        for _ in 0..PLACES {
            script.start();
            script.finish();
        }
    }
}

/// A line in a steady state, to see how the cost of a packet grows: so many sessions, in each of
/// which so many packets wait between two turns. In a turn one packet enters, one is started and
/// one is finished.
///
/// What counts is the difference between `trace` and `warm_up`: the last turns alone. All numbers
/// in their lines have as many digits in every steady state, but for the sessions 0 to 9 where all
/// 64 are open.
pub struct Steady {
    pub sessions: u32,
    pub waiting: u32,
}

impl Steady {
    /// The lines from here on have numbers of four digits.
    const WARM_UP_LINES: usize = 999;
    const LINES_OF_A_TURN: usize = 3;
    const LAST_TURNS: usize = 500;

    pub fn warm_up(&self) -> Vec<u8> {
        self.build(0)
    }

    pub fn trace(&self) -> Vec<u8> {
        self.build(Steady::LAST_TURNS)
    }

    fn build(&self, last_turns: usize) -> Vec<u8> {
        let sessions = SESSIONS - self.sessions..SESSIONS;
        let mut script = Script::new();
        for session in sessions.clone() {
            script.open(session, 1, LIMIT);
        }
        raise_clock(&mut script, sessions.start);
        for _ in 0..self.waiting {
            for session in sessions.clone() {
                script.enter(session, 1000);
            }
        }
        script.finish();

        let lines_left = Steady::WARM_UP_LINES - count_lines(&script.octets);
        let first_turns = lines_left.div_ceil(Steady::LINES_OF_A_TURN);
        for session in sessions.cycle().take(first_turns + last_turns) {
            script.enter(session, 1000);
            script.start();
            script.finish();
        }
        script.octets
    }
}

/// Serves long packets until the clock has 13 digits, and leaves the last of them in service.
fn raise_clock(script: &mut Script, session: u32) {
    const PACKETS: usize = 22;
    for _ in 0..PACKETS {
        script.enter(session, LIMIT);
    }
    for _ in 1..PACKETS {
        script.start();
        script.finish();
    }
    script.start();
}

/// A trace as it is written. Once a line has no room it is full, and takes no other line.
struct Script {
    octets: Vec<u8>,
    full: bool,
    ticket: u32,
    random: Random,
}

impl Script {
    fn new() -> Script {
        Script {
            octets: Vec::new(),
            full: false,
            ticket: FIRST_TICKET,
            random: Random(1),
        }
    }

    fn has_room(&self) -> bool {
        !self.full
    }

    fn line(&mut self, line: impl Display) {
        let line = format!("{line}\n");
        if self.octets.len() + line.len() > TRACE_MOST {
            self.full = true;
        }
        if !self.full {
            self.octets.extend_from_slice(line.as_bytes());
        }
    }

    fn open(&mut self, session: u32, weight: u32, limit: u32) {
        self.line(format_args!(
            "do=open session={session} weight={weight} limit={limit}"
        ));
    }

    /// Opens the first sessions, with weights from 1 to 16.
    fn open_all(&mut self, sessions: u32) {
        for session in 0..sessions {
            self.open(session, 1 + session % 16, LIMIT);
        }
    }

    fn enter(&mut self, session: u32, length: u32) {
        let ticket = self.ticket;
        self.ticket += 1;
        self.line(format_args!(
            "do=enter session={session} length={length} ticket={ticket}"
        ));
    }

    /// A packet of some length enters in one of the first sessions.
    fn enter_any(&mut self, sessions: u32) {
        let session = self.random.below(sessions);
        let length = 40 + self.random.below(1461);
        self.enter(session, length);
    }

    fn start(&mut self) {
        self.line("do=start");
    }

    fn finish(&mut self) {
        self.line("do=finish");
    }
}

/// Numbers that look random and are the same in every run.
struct Random(u64);

impl Random {
    fn below(&mut self, bound: u32) -> u32 {
        self.0 = self
            .0
            .wrapping_mul(6_364_136_223_846_793_005)
            .wrapping_add(1_442_695_040_888_963_407);
        (self.0 >> 33) as u32 % bound
    }
}
