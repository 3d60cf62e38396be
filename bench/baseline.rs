//! The same rules in plain Rust: what the host call is compared with.
//!
//! Written from the documents of this repository alone: `docs/TRACE_FORMAT.md`, `docs/LISTING.md`,
//! `docs/REFUSALS.md` and `docs/SELF_CLOCKED.md`. It shares no code with the crates.

use std::cmp::Reverse;
use std::collections::binary_heap::PeekMut;
use std::collections::{BinaryHeap, VecDeque};

/// A trace may have this many octets.
pub const TRACE_MOST: usize = 65_536;

/// A line of a trace may have this many octets.
const LINE_MOST: usize = 80;

/// A line of the listing has at most this many octets.
const LISTED_MOST: usize = 96;

const SESSIONS: usize = 64;

/// How many packets may wait, of all sessions together.
const PLACES: usize = 256;

const WEIGHT_MOST: u32 = 16;
const LENGTH_MOST: u32 = 65_535;

/// What weight and stride of a session give together.
const SCALE: u64 = 720_720;

/// No mark is above it.
const CEILING: u64 = i64::MAX as u64;

/// Why a call is refused. Each has its number.
#[derive(Clone, Copy)]
pub enum Refusal {
    NoSuchSession = 1,
    BadWeight = 2,
    BadLimit = 3,
    AlreadyOpen = 4,
    NotOpen = 5,
    BadLength = 6,
    Full = 7,
    OutOfReach = 8,
    NothingWaiting = 9,
    ServerBusy = 10,
    NothingInService = 11,
    ShortBuffer = 13,
    LongTrace = 17,
}

impl Refusal {
    pub fn number(self) -> u64 {
        self as u64
    }
}

/// How many octets the buffer must have for the listing of a trace.
pub fn out_for(trace: &[u8]) -> usize {
    LISTED_MOST * count_lines(trace) + LISTED_MOST * SESSIONS
}

pub fn count_lines(trace: &[u8]) -> usize {
    let ended = trace.iter().filter(|&&octet| octet == b'\n').count();
    let unended = !trace.is_empty() && !trace.ends_with(b"\n");
    ended + usize::from(unended)
}

/// Writes the listing of a trace to the front of `out`, and answers its length.
pub fn list(trace: &[u8], out: &mut [u8]) -> Result<usize, Refusal> {
    if trace.len() > TRACE_MOST {
        return Err(Refusal::LongTrace);
    }
    if out.len() < out_for(trace) {
        return Err(Refusal::ShortBuffer);
    }
    let mut line = Line::new();
    let mut listing = Listing { out, len: 0 };
    let mut rest = trace;
    let mut at = 0;
    while !rest.is_empty() {
        let (text, behind) = cut(rest, b'\n');
        rest = behind.unwrap_or_default();
        at += 1;
        match read_call(text) {
            Ok(call) => match line.make(call) {
                Ok(answer) => listing.answer(at, answer),
                Err(refusal) => listing.refusal(at, refusal),
            },
            Err(fault) => listing.fault(at, fault),
        }
    }
    listing.closing(&line);
    Ok(listing.len)
}

/// What stands before the first `octet`, and what stands behind it if there is one.
fn cut(text: &[u8], octet: u8) -> (&[u8], Option<&[u8]>) {
    match text.iter().position(|&other| other == octet) {
        Some(place) => (&text[..place], Some(&text[place + 1..])),
        None => (text, None),
    }
}

// Reading

enum Call {
    Open {
        session: u32,
        weight: u32,
        limit: u32,
    },
    Enter {
        session: u32,
        length: u32,
        ticket: u32,
    },
    Start,
    Finish,
}

/// What is wrong with a line of the trace, and at which field.
#[derive(Clone, Copy)]
enum Fault {
    Malformed(u8),
    BadNumber(u8),
    TooLong,
}

fn read_call(text: &[u8]) -> Result<Call, Fault> {
    if text.len() > LINE_MOST {
        return Err(Fault::TooLong);
    }
    let (order, rest) = cut(text, b' ');
    let mut fields = Fields { rest, place: 2 };
    let call = match order {
        b"do=open" => Call::Open {
            session: fields.number(b"session=")?,
            weight: fields.number(b"weight=")?,
            limit: fields.number(b"limit=")?,
        },
        b"do=enter" => Call::Enter {
            session: fields.number(b"session=")?,
            length: fields.number(b"length=")?,
            ticket: fields.number(b"ticket=")?,
        },
        b"do=start" => Call::Start,
        b"do=finish" => Call::Finish,
        _ => return Err(Fault::Malformed(1)),
    };
    fields.end()?;
    Ok(call)
}

/// The fields that are not read yet, and the place of the first of them. `rest` is `None` where no
/// field is left; an empty rest is an empty field.
struct Fields<'a> {
    rest: Option<&'a [u8]>,
    place: u8,
}

impl Fields<'_> {
    /// Reads the next field, which must be this key with a number.
    fn number(&mut self, key: &[u8]) -> Result<u32, Fault> {
        let place = self.place;
        let rest = self.rest.ok_or(Fault::Malformed(place))?;
        let value = rest.strip_prefix(key).ok_or(Fault::Malformed(place))?;
        let (value, rest) = cut(value, b' ');
        self.rest = rest;
        self.place += 1;
        read_number(value).ok_or(Fault::BadNumber(place))
    }

    fn end(&self) -> Result<(), Fault> {
        match self.rest {
            None => Ok(()),
            Some(_) => Err(Fault::Malformed(self.place)),
        }
    }
}

fn read_number(text: &[u8]) -> Option<u32> {
    if text == b"0" {
        return Some(0);
    }
    if text.first() == Some(&b'0') || text.is_empty() {
        return None;
    }
    text.iter().try_fold(0u32, |sum, octet| {
        let digit = octet.is_ascii_digit().then(|| u32::from(octet - b'0'))?;
        sum.checked_mul(10)?.checked_add(digit)
    })
}

// The line of packets

#[derive(Clone, Copy)]
struct Packet {
    length: u32,
    ticket: u32,
    mark: u64,
}

struct Session {
    weight: u32,
    stride: u64,
    limit: u32,
    octets: u64,
    waiting: VecDeque<Packet>,
}

enum Answer {
    Opened { session: usize },
    Entered { session: usize, mark: u64 },
    Started { session: usize, packet: Packet },
    Finished { session: usize, packet: Packet },
}

struct Line {
    sessions: [Option<Session>; SESSIONS],
    last_marks: [u64; SESSIONS],
    clock: u64,
    /// The mark of the first waiting packet of each session that has one.
    ready: BinaryHeap<Reverse<(u64, usize)>>,
    waiting: usize,
    in_service: Option<(usize, Packet)>,
}

impl Line {
    fn new() -> Line {
        Line {
            sessions: [const { None }; SESSIONS],
            last_marks: [0; SESSIONS],
            clock: 0,
            ready: BinaryHeap::with_capacity(SESSIONS),
            waiting: 0,
            in_service: None,
        }
    }

    fn make(&mut self, call: Call) -> Result<Answer, Refusal> {
        match call {
            Call::Open {
                session,
                weight,
                limit,
            } => self.open(session, weight, limit),
            Call::Enter {
                session,
                length,
                ticket,
            } => self.enter(session, length, ticket),
            Call::Start => self.start(),
            Call::Finish => self.finish(),
        }
    }

    fn open(&mut self, session: u32, weight: u32, limit: u32) -> Result<Answer, Refusal> {
        let session = session as usize;
        let seat = self
            .sessions
            .get_mut(session)
            .ok_or(Refusal::NoSuchSession)?;
        if weight == 0 || weight > WEIGHT_MOST {
            return Err(Refusal::BadWeight);
        }
        if limit == 0 || limit > LENGTH_MOST {
            return Err(Refusal::BadLimit);
        }
        if seat.is_some() {
            return Err(Refusal::AlreadyOpen);
        }
        let stride = SCALE / u64::from(weight);
        *seat = Some(Session {
            weight,
            stride,
            limit,
            octets: 0,
            waiting: VecDeque::new(),
        });
        Ok(Answer::Opened { session })
    }

    fn enter(&mut self, session: u32, length: u32, ticket: u32) -> Result<Answer, Refusal> {
        let session = session as usize;
        let seat = self
            .sessions
            .get_mut(session)
            .ok_or(Refusal::NoSuchSession)?;
        let seat = seat.as_mut().ok_or(Refusal::NotOpen)?;
        if length == 0 || length > seat.limit {
            return Err(Refusal::BadLength);
        }
        if self.waiting == PLACES {
            return Err(Refusal::Full);
        }
        let begin = self.clock.max(self.last_marks[session]);
        let mark = begin + u64::from(length) * seat.stride;
        if mark > CEILING {
            return Err(Refusal::OutOfReach);
        }
        if seat.waiting.is_empty() {
            self.ready.push(Reverse((mark, session)));
        }
        seat.waiting.push_back(Packet {
            length,
            ticket,
            mark,
        });
        self.last_marks[session] = mark;
        self.waiting += 1;
        Ok(Answer::Entered { session, mark })
    }

    fn start(&mut self) -> Result<Answer, Refusal> {
        if self.in_service.is_some() {
            return Err(Refusal::ServerBusy);
        }
        let mut least = self.ready.peek_mut().ok_or(Refusal::NothingWaiting)?;
        let Reverse((_, session)) = *least;
        let seat = self.sessions[session]
            .as_mut()
            .expect("a ready session is open");
        let packet = seat
            .waiting
            .pop_front()
            .expect("a ready session has a packet");
        match seat.waiting.front() {
            Some(next) => *least = Reverse((next.mark, session)),
            None => {
                PeekMut::pop(least);
            }
        }
        self.waiting -= 1;
        self.clock = packet.mark;
        self.in_service = Some((session, packet));
        Ok(Answer::Started { session, packet })
    }

    fn finish(&mut self) -> Result<Answer, Refusal> {
        let (session, packet) = self.in_service.take().ok_or(Refusal::NothingInService)?;
        let seat = self.sessions[session]
            .as_mut()
            .expect("a served session is open");
        seat.octets = seat.octets.saturating_add(u64::from(packet.length));
        if self.waiting == 0 {
            self.clock = 0;
            self.last_marks.fill(0);
        }
        Ok(Answer::Finished { session, packet })
    }
}

// The listing

/// What is written so far stands in the first `len` octets of `out`.
struct Listing<'a> {
    out: &'a mut [u8],
    len: usize,
}

impl Listing<'_> {
    fn answer(&mut self, at: u64, answer: Answer) {
        self.field("at=", at);
        match answer {
            Answer::Opened { session } => self.field(" said=opened session=", session as u64),
            Answer::Entered { session, mark } => {
                self.field(" said=entered session=", session as u64);
                self.field(" mark=", mark);
            }
            Answer::Started { session, packet } => {
                self.field(" said=started session=", session as u64);
                self.field(" ticket=", packet.ticket.into());
                self.field(" mark=", packet.mark);
            }
            Answer::Finished { session, packet } => {
                self.field(" said=finished session=", session as u64);
                self.field(" ticket=", packet.ticket.into());
                self.field(" length=", packet.length.into());
            }
        }
        self.text("\n");
    }

    fn refusal(&mut self, at: u64, refusal: Refusal) {
        self.field("at=", at);
        self.field(" said=refused number=", refusal.number());
        self.text("\n");
    }

    fn fault(&mut self, at: u64, fault: Fault) {
        let (number, field) = match fault {
            Fault::Malformed(place) => (14, place),
            Fault::BadNumber(place) => (15, place),
            Fault::TooLong => (16, 0),
        };
        self.field("at=", at);
        self.field(" said=fault number=", number);
        self.field(" field=", field.into());
        self.text("\n");
    }

    fn closing(&mut self, line: &Line) {
        for (session, seat) in line.sessions.iter().enumerate() {
            if let Some(seat) = seat {
                self.field("end=", session as u64);
                self.field(" weight=", seat.weight.into());
                self.field(" octets=", seat.octets);
                self.field(" waiting=", seat.waiting.len() as u64);
                self.text("\n");
            }
        }
    }

    #[inline]
    fn field(&mut self, key: &str, value: u64) {
        self.text(key);
        self.number(value);
    }

    #[inline]
    fn text(&mut self, text: &str) {
        let end = self.len + text.len();
        self.out[self.len..end].copy_from_slice(text.as_bytes());
        self.len = end;
    }

    fn number(&mut self, mut number: u64) {
        let count = number.checked_ilog10().map_or(1, |log| log as usize + 1);
        let digits = &mut self.out[self.len..self.len + count];
        for digit in digits.iter_mut().rev() {
            *digit = b'0' + (number % 10) as u8;
            number /= 10;
        }
        self.len += count;
    }
}
