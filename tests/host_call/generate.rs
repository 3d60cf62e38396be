//! Traces to try. Each comes from a family and a seed, and the same two give the same trace in every run.

use crate::faulty;
use crate::random::Random;
use crate::script::{PLACES, Script};

/// The longest trace that the library takes.
pub const LONGEST: usize = 65_536;

#[derive(Clone, Copy, Debug)]
pub enum Family {
    /// None to three short lines, with every kind of end.
    Short,
    /// One to three sessions, so that their queues get long.
    FewSessions,
    /// Up to all 64 sessions, with all weights.
    ManySessions,
    /// Lengths in proportion to the weights, so that many marks are equal.
    EqualMarks,
    /// Long packets at small weights on a line that is never empty, so that marks get as large as they can.
    LargeMarks,
    /// The line runs empty again and again, or nearly so.
    RunsEmpty,
    /// All 256 places are taken, and more packets come.
    FullTable,
    /// Calls with no regard to what the line is doing.
    AnyOrder,
    /// Numbers at and beyond the ends of their ranges.
    EdgeNumbers,
    /// Values that are no numbers, or only just.
    OddNumbers,
    /// Fields that are changed, moved, lost or doubled.
    OddFields,
    /// Lines around 80 octets and far above.
    LineLengths,
    /// Every octet in turn at three places of good lines.
    EveryOctet,
    /// A history with some damage to its octets and lines.
    Damaged,
    /// Octets without any form.
    Noise,
    /// Histories and faulty lines of the other families in a row, half of them as long as the library takes.
    Long,
}

impl Family {
    pub const ALL: [Family; 16] = [
        Family::Short,
        Family::FewSessions,
        Family::ManySessions,
        Family::EqualMarks,
        Family::LargeMarks,
        Family::RunsEmpty,
        Family::FullTable,
        Family::AnyOrder,
        Family::EdgeNumbers,
        Family::OddNumbers,
        Family::OddFields,
        Family::LineLengths,
        Family::EveryOctet,
        Family::Damaged,
        Family::Noise,
        Family::Long,
    ];

    fn write(self, script: &mut Script) {
        match self {
            Family::Short => short(script),
            Family::FewSessions => few_sessions(script),
            Family::ManySessions => many_sessions(script),
            Family::EqualMarks => equal_marks(script),
            Family::LargeMarks => large_marks(script),
            Family::RunsEmpty => runs_empty(script),
            Family::FullTable => full_table(script),
            Family::AnyOrder => any_order(script),
            Family::EdgeNumbers => edge_numbers(script),
            Family::OddNumbers => among_traffic(script, faulty::with_odd_numbers),
            Family::OddFields => among_traffic(script, faulty::with_odd_fields),
            Family::LineLengths => among_traffic(script, of_some_length),
            Family::EveryOctet => every_octet(script),
            Family::Damaged => damaged(script),
            Family::Noise => noise(script),
            Family::Long => {
                let shortest = script.random.pick(&[20_000, LONGEST]);
                long(script, shortest);
            }
        }
    }
}

/// The trace of a family and a seed, of at most 65,536 octets.
pub fn trace(family: Family, seed: u64) -> Vec<u8> {
    let families = Family::ALL.len() as u64;
    let mut script = Script::new(Random::new(seed * families + family as u64));
    family.write(&mut script);
    let mut trace = script.text;
    cut_end(&mut script.random, &mut trace);
    trace.truncate(LONGEST);
    trace
}

/// A trace of exactly this length, with a history that goes through all of it.
pub fn trace_of_length(length: usize) -> Vec<u8> {
    let mut script = Script::new(Random::new(length as u64));
    long(&mut script, length);
    script.text.truncate(length);
    script.text
}

/// Leaves the last line ended in half of the traces, and else takes away its octet 10 or more.
fn cut_end(random: &mut Random, trace: &mut Vec<u8>) {
    let lost = match random.below(6) {
        0 | 1 => 1,
        2 => random.below(12),
        _ => 0,
    };
    trace.truncate(trace.len().saturating_sub(lost));
}

fn short(script: &mut Script) {
    let lines: [&[u8]; 10] = [
        b"",
        b"",
        b" ",
        b"\r",
        b"\0",
        b"x",
        b"do=start",
        b"do=finish",
        b"do=open session=0 weight=1 limit=1",
        b"do=enter session=0 length=1 ticket=0",
    ];
    for _ in 0..script.random.below(4) {
        let line = script.random.pick(&lines);
        script.line(line);
    }
}

fn few_sessions(script: &mut Script) {
    let sessions = script.random.between(1, 3) as usize;
    script.open_some(sessions);
    some_traffic(script, 200);
}

fn many_sessions(script: &mut Script) {
    let sessions = script.random.between(20, 64) as usize;
    script.open_some(sessions);
    some_traffic(script, 300);
}

/// Two stretches of calls, each with its own part of packets that enter.
fn some_traffic(script: &mut Script, most_calls: u64) {
    if script.open.is_empty() {
        script.open_some(1);
    }
    for _ in 0..2 {
        let calls = script.random.between(1, most_calls);
        let enters = script.random.between(2, 9);
        script.traffic(calls, enters);
    }
}

fn equal_marks(script: &mut Script) {
    for _ in 0..script.random.between(2, 12) {
        let session = script.random.between(0, 63);
        let weight = script.random.between(1, 16);
        script.open(session, weight, 65_535);
    }
    let steps = script.random.pick(&[1, 2, 3]);
    for _ in 0..script.random.between(20, 200) {
        if script.random.once_in(2) {
            let terms = script.random.pick(&script.open);
            let length = terms.weight * script.random.between(1, steps);
            script.enter(terms.session, length);
        } else {
            script.serve();
        }
    }
}

fn large_marks(script: &mut Script) {
    for session in 0..script.random.between(2, 6) {
        let weight = script.random.between(1, 3);
        script.open(session, weight, 65_535);
    }
    for _ in 0..script.random.between(50, 400) {
        let terms = script.random.pick(&script.open);
        let length = script.random.between(60_000, 65_535).min(terms.limit);
        script.enter(terms.session, length);
        if script.waiting > 10 {
            script.serve();
            script.serve();
        }
    }
}

fn runs_empty(script: &mut Script) {
    let sessions = script.random.between(1, 6) as usize;
    script.open_some(sessions);
    for _ in 0..script.random.between(3, 15) {
        for _ in 0..script.random.between(1, 6) {
            script.enter_good();
        }
        match script.random.below(4) {
            0 => script.traffic(4, 3),
            1 => {
                // The last packet is in service when others enter.
                while script.waiting > 0 {
                    script.serve();
                }
            }
            _ => script.run_empty(),
        }
        if script.random.once_in(4) {
            script.finish();
        }
        if script.random.once_in(4) {
            script.start();
        }
    }
}

fn full_table(script: &mut Script) {
    let sessions = script.random.between(1, 8) as usize;
    script.open_some(sessions);
    if script.random.once_in(2) {
        script.enter_good();
        script.start();
    }
    while script.waiting < PLACES {
        script.enter_good();
    }
    for _ in 0..script.random.between(1, 20) {
        match script.random.below(5) {
            0 => script.enter(64, 1),
            1 => {
                let session = script.random.between(0, 63);
                script.enter(session, 0);
            }
            2 => script.serve(),
            3 => script.enter_some(),
            _ => script.enter_good(),
        }
    }
    if script.random.once_in(2) {
        script.run_empty();
        script.enter_good();
    }
}

fn any_order(script: &mut Script) {
    for _ in 0..script.random.between(5, 120) {
        let session = script.random.between(0, 4);
        match script.random.below(8) {
            0 => {
                let weight = script.random.between(1, 16);
                let limit = script.random.between(1, 40);
                script.open(session, weight, limit);
            }
            1..4 => {
                let length = script.random.between(0, 41);
                script.enter(session, length);
            }
            4 | 5 => script.start(),
            _ => script.finish(),
        }
    }
}

fn edge_numbers(script: &mut Script) {
    const LARGEST: u64 = 4_294_967_295;
    const SESSIONS: [u64; 12] = [0, 1, 31, 32, 62, 63, 64, 65, 256, 65_536, 1 << 31, LARGEST];
    const WEIGHTS: [u64; 11] = [0, 1, 2, 15, 16, 17, 32, 257, 65_537, 1 << 31, LARGEST];
    const LIMITS: [u64; 9] = [0, 1, 2, 65_534, 65_535, 65_536, 65_537, 131_072, LARGEST];
    const LENGTHS: [u64; 10] = [0, 1, 2, 3, 65_534, 65_535, 65_536, 65_537, 131_071, LARGEST];
    for _ in 0..script.random.between(10, 120) {
        let session = script.random.pick(&SESSIONS);
        match script.random.below(5) {
            0 => {
                let weight = script.random.pick(&WEIGHTS);
                let limit = script.random.pick(&LIMITS);
                script.open(session, weight, limit);
            }
            1 => {
                let weight = script.random.between(1, 16);
                let limit = script.random.between(1, 65_535);
                script.open(session, weight, limit);
            }
            2 | 3 => {
                let length = script.random.pick(&LENGTHS);
                script.enter(session, length);
            }
            _ => script.serve(),
        }
    }
}

/// Good calls with lines between them that are mostly faulty.
fn among_traffic(script: &mut Script, make_line: fn(&mut Random) -> Vec<u8>) {
    script.open(0, 3, 100);
    script.open(1, 7, 100);
    for _ in 0..script.random.between(5, 40) {
        for _ in 0..script.random.between(1, 4) {
            let line = make_line(&mut script.random);
            script.line(&line);
        }
        script.traffic(1, 6);
    }
}

fn of_some_length(random: &mut Random) -> Vec<u8> {
    const LENGTHS: [usize; 14] = [0, 1, 2, 63, 64, 78, 79, 80, 81, 82, 83, 96, 200, 1000];
    let length = random.pick(&LENGTHS);
    faulty::of_length(random, length)
}

fn every_octet(script: &mut Script) {
    let lines: [&[u8]; 4] = [
        b"do=open session=10 weight=16 limit=100",
        b"do=enter session=9 length=100 ticket=20",
        b"do=start",
        b"do=finish",
    ];
    let places: Vec<(&[u8], usize)> = lines
        .into_iter()
        .flat_map(|line| (0..line.len()).map(move |place| (line, place)))
        .collect();
    script.open(9, 2, 100);
    script.enter(9, 1);
    for _ in 0..3 {
        let (line, place) = script.random.pick(&places);
        for octet in 0..=255 {
            let mut changed = line.to_vec();
            changed[place] = octet;
            script.line(&changed);
        }
    }
}

fn damaged(script: &mut Script) {
    let histories = [
        few_sessions,
        many_sessions,
        equal_marks,
        runs_empty,
        any_order,
    ];
    script.random.pick(&histories)(script);
    for _ in 0..script.random.between(1, 30) {
        faulty::damage(&mut script.random, &mut script.text);
    }
}

fn noise(script: &mut Script) {
    let length = script.random.below(3000);
    let octets = faulty::noise(&mut script.random, length);
    script.line(&octets);
}

/// Pieces of the other families in a row, until there are so many octets.
fn long(script: &mut Script, length: usize) {
    let pieces = [
        Family::FewSessions,
        Family::ManySessions,
        Family::EqualMarks,
        Family::LargeMarks,
        Family::RunsEmpty,
        Family::FullTable,
        Family::AnyOrder,
        Family::EdgeNumbers,
        Family::OddNumbers,
        Family::OddFields,
        Family::LineLengths,
        Family::Noise,
    ];
    while script.text.len() < length {
        let piece = script.random.pick(&pieces);
        piece.write(script);
    }
}
