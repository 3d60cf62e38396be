//! From a trace to its listing, as TRACE_FORMAT, SELF_CLOCKED, REFUSALS and LISTING in `docs/` say it.
//!
//! Written to be read beside those pages: nothing here is fast.

use std::collections::BTreeMap;
use std::fmt;

const LONGEST_LINE: usize = 80;
const LAST_LINE_NUMBER: usize = 4_294_967_295;
const LARGEST_NUMBER: u64 = 4_294_967_295;
const LAST_SESSION: u64 = 63;
const PLACES: usize = 256;
const LONGEST_PACKET: u64 = 65_535;
const WEIGHT_TIMES_STRIDE: u64 = 720_720;
const CEILING: u128 = 9_223_372_036_854_775_807;
const MOST_OCTETS: u128 = 18_446_744_073_709_551_615;

/// The listing of a trace.
pub fn listing(trace: &[u8]) -> Vec<u8> {
    let mut line = Line::new();
    let mut listing = String::new();
    for (index, text) in lines(trace).into_iter().enumerate() {
        let at = (index + 1).min(LAST_LINE_NUMBER);
        let said = match read_line(text) {
            Ok(call) => match line.make(call) {
                Ok(answer) => answer.to_string(),
                Err(Refusal(number)) => format!("refused number={number}"),
            },
            Err(Fault { number, field }) => format!("fault number={number} field={field}"),
        };
        listing.push_str(&format!("at={at} said={said}\n"));
    }
    for (session, terms) in &line.open {
        listing.push_str(&format!(
            "end={session} weight={} octets={} waiting={}\n",
            terms.weight,
            terms.octets,
            terms.waiting.len()
        ));
    }
    listing.into_bytes()
}

/// The octets that a buffer for the listing of a trace must have: 96 for each line, and 96 for each of 64 sessions.
pub fn room_needed(trace: &[u8]) -> usize {
    96 * lines(trace).len() + 6144
}

/// The lines of a trace, without the octets 10 that end them. Behind the last octet 10 there is a line only if it
/// is not empty.
pub fn lines(trace: &[u8]) -> Vec<&[u8]> {
    let mut lines: Vec<&[u8]> = trace.split(|&octet| octet == b'\n').collect();
    if lines.last().is_some_and(|last| last.is_empty()) {
        lines.pop();
    }
    lines
}

// Reading a line

enum Call {
    Open {
        session: u64,
        weight: u64,
        limit: u64,
    },
    Enter {
        session: u64,
        length: u64,
        ticket: u64,
    },
    Start,
    Finish,
}

struct Fault {
    number: u32,
    field: usize,
}

fn read_line(line: &[u8]) -> Result<Call, Fault> {
    if line.len() > LONGEST_LINE {
        return Err(Fault {
            number: 16,
            field: 0,
        });
    }
    let fields: Vec<&[u8]> = line.split(|&octet| octet == b' ').collect();
    match fields[0] {
        b"do=open" => {
            let [session, weight, limit] = read_numbers(&fields, ["session", "weight", "limit"])?;
            Ok(Call::Open {
                session,
                weight,
                limit,
            })
        }
        b"do=enter" => {
            let [session, length, ticket] = read_numbers(&fields, ["session", "length", "ticket"])?;
            Ok(Call::Enter {
                session,
                length,
                ticket,
            })
        }
        b"do=start" => {
            let [] = read_numbers(&fields, [])?;
            Ok(Call::Start)
        }
        b"do=finish" => {
            let [] = read_numbers(&fields, [])?;
            Ok(Call::Finish)
        }
        _ => Err(malformed(1)),
    }
}

/// The numbers behind these keys, which must be the fields from 2 on and no others.
fn read_numbers<const COUNT: usize>(
    fields: &[&[u8]],
    keys: [&str; COUNT],
) -> Result<[u64; COUNT], Fault> {
    let mut numbers = [0; COUNT];
    for (index, key) in keys.iter().enumerate() {
        let place = index + 2;
        let field = fields.get(place - 1).ok_or(malformed(place))?;
        let value = value_of(field, key).ok_or(malformed(place))?;
        numbers[index] = read_number(value).ok_or(Fault {
            number: 15,
            field: place,
        })?;
    }
    let first_too_many = COUNT + 2;
    if fields.len() >= first_too_many {
        return Err(malformed(first_too_many));
    }
    Ok(numbers)
}

fn malformed(field: usize) -> Fault {
    Fault { number: 14, field }
}

/// What stands behind the first `=` of a field, if this key stands before it.
fn value_of<'a>(field: &'a [u8], key: &str) -> Option<&'a [u8]> {
    let cut = field.iter().position(|&octet| octet == b'=')?;
    if &field[..cut] == key.as_bytes() {
        Some(&field[cut + 1..])
    } else {
        None
    }
}

fn read_number(text: &[u8]) -> Option<u64> {
    let empty = text.is_empty();
    let stray_octet = !text.iter().all(|octet| octet.is_ascii_digit());
    let leading_zero = text.len() > 1 && text[0] == b'0';
    let too_many_digits = text.len() > 10;
    if empty || stray_octet || leading_zero || too_many_digits {
        return None;
    }
    let number = text
        .iter()
        .fold(0, |number, digit| number * 10 + u64::from(digit - b'0'));
    (number <= LARGEST_NUMBER).then_some(number)
}

// Making a call

/// What a line of packets answers to a call that it accepts.
enum Answer {
    Opened { session: u64 },
    Entered { session: u64, mark: u128 },
    Started(Packet),
    Finished(Packet),
}

impl fmt::Display for Answer {
    fn fmt(&self, out: &mut fmt::Formatter) -> fmt::Result {
        match self {
            Answer::Opened { session } => write!(out, "opened session={session}"),
            Answer::Entered { session, mark } => {
                write!(out, "entered session={session} mark={mark}")
            }
            Answer::Started(packet) => write!(
                out,
                "started session={} ticket={} mark={}",
                packet.session, packet.ticket, packet.mark
            ),
            Answer::Finished(packet) => write!(
                out,
                "finished session={} ticket={} length={}",
                packet.session, packet.ticket, packet.length
            ),
        }
    }
}

struct Refusal(u32);

fn check(holds: bool, number: u32) -> Result<(), Refusal> {
    if holds { Ok(()) } else { Err(Refusal(number)) }
}

#[derive(Clone)]
struct Packet {
    session: u64,
    length: u64,
    ticket: u64,
    mark: u128,
}

/// An open session. A closed one never had a packet, so its last mark is 0 and need not be kept.
struct Session {
    weight: u64,
    limit: u64,
    octets: u128,
    last_mark: u128,
    waiting: Vec<Packet>,
}

struct Line {
    open: BTreeMap<u64, Session>,
    in_service: Option<Packet>,
    clock: u128,
}

impl Line {
    fn new() -> Line {
        Line {
            open: BTreeMap::new(),
            in_service: None,
            clock: 0,
        }
    }

    fn make(&mut self, call: Call) -> Result<Answer, Refusal> {
        match call {
            Call::Open {
                session,
                weight,
                limit,
            } => self.open(session, weight, limit),
            Call::Enter {
                session,
                length,
                ticket,
            } => self.enter(session, length, ticket),
            Call::Start => self.start(),
            Call::Finish => self.finish(),
        }
    }

    fn open(&mut self, session: u64, weight: u64, limit: u64) -> Result<Answer, Refusal> {
        check(session <= LAST_SESSION, 1)?;
        check((1..=16).contains(&weight), 2)?;
        check((1..=LONGEST_PACKET).contains(&limit), 3)?;
        check(!self.open.contains_key(&session), 4)?;
        let new = Session {
            weight,
            limit,
            octets: 0,
            last_mark: 0,
            waiting: Vec::new(),
        };
        self.open.insert(session, new);
        Ok(Answer::Opened { session })
    }

    fn enter(&mut self, session: u64, length: u64, ticket: u64) -> Result<Answer, Refusal> {
        let room = PLACES - self.waiting();
        let clock = self.clock;
        check(session <= LAST_SESSION, 1)?;
        let terms = self.open.get_mut(&session).ok_or(Refusal(5))?;
        check((1..=terms.limit).contains(&length), 6)?;
        check(room > 0, 7)?;
        check(length <= terms.reach(clock), 8)?;
        let mark = terms.mark(length, clock);
        terms.last_mark = mark;
        terms.waiting.push(Packet {
            session,
            length,
            ticket,
            mark,
        });
        Ok(Answer::Entered { session, mark })
    }

    fn start(&mut self) -> Result<Answer, Refusal> {
        check(self.in_service.is_none(), 10)?;
        let session = self.next_session().ok_or(Refusal(9))?;
        let waiting = &mut self.open.get_mut(&session).unwrap().waiting;
        let packet = waiting.remove(0);
        self.clock = packet.mark;
        self.in_service = Some(packet.clone());
        Ok(Answer::Started(packet))
    }

    fn finish(&mut self) -> Result<Answer, Refusal> {
        let packet = self.in_service.take().ok_or(Refusal(11))?;
        let terms = self.open.get_mut(&packet.session).unwrap();
        terms.octets = (terms.octets + u128::from(packet.length)).min(MOST_OCTETS);
        if self.waiting() == 0 {
            self.clock = 0;
            for terms in self.open.values_mut() {
                terms.last_mark = 0;
            }
        }
        Ok(Answer::Finished(packet))
    }

    /// How many packets wait, of all sessions together.
    fn waiting(&self) -> usize {
        self.open.values().map(|terms| terms.waiting.len()).sum()
    }

    /// The session whose first waiting packet has the smallest mark, of equal marks the smaller session.
    fn next_session(&self) -> Option<u64> {
        let first_packets = self.open.values().filter_map(|terms| terms.waiting.first());
        first_packets
            .min_by_key(|packet| (packet.mark, packet.session))
            .map(|packet| packet.session)
    }
}

impl Session {
    fn mark(&self, length: u64, clock: u128) -> u128 {
        let stride = WEIGHT_TIMES_STRIDE / self.weight;
        self.last_mark.max(clock) + u128::from(length * stride)
    }

    /// The longest length whose mark is not above the ceiling, or 0.
    fn reach(&self, clock: u128) -> u64 {
        let longest = (1..=LONGEST_PACKET)
            .rev()
            .find(|&length| self.mark(length, clock) <= CEILING);
        longest.unwrap_or(0)
    }
}
