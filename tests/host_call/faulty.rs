//! Lines that are faulty, or nearly so, and damage to whole traces.

use crate::random::Random;

/// Texts of numbers that are none, or only just one. Those that are above 4,294,967,295 by a multiple of a power of
/// two would be small numbers again in a computation that loses its upper bits.
const ODD_NUMBERS: &[&str] = &[
    "",
    "0",
    "00",
    "000",
    "01",
    "007",
    "0000000001",
    "04294967295",
    "0a",
    "a0",
    "1a",
    "+1",
    "-1",
    "+",
    "-",
    "1.0",
    "1e3",
    "0x1",
    "1_000",
    "1,000",
    "1=2",
    "=1",
    "=",
    "1:",
    "1/",
    "/1",
    ":1",
    "1\t",
    "\t1",
    "1\r",
    "1\0",
    "\u{ff11}",
    "65536",
    "999999999",
    "1000000000",
    "4294967294",
    "4294967295",
    "4294967296",
    "4294967297",
    "4294967300",
    "5000000000",
    "8589934593",
    "9999999999",
    "10000000000",
    "42949672950",
    "99999999999",
    "99999999999x",
    "00000000000x",
    "9223372036854775808",
    "18446744073709551615",
    "18446744073709551616",
    "18446744073709551617",
    "99999999999999999999",
    "340282366920938463463374607431768211457",
];

const FIRST_FIELDS: &[&str] = &[
    "do=open",
    "do=enter",
    "do=start",
    "do=finish",
    "do=stop",
    "do=",
    "do",
    "=",
    "",
    "start",
    "=start",
    "do==start",
    "do=start=",
    "do=Start",
    "Do=start",
    "do=starts",
    "do=star",
    "do:start",
    "o=start",
    "session=1",
    "do=\0",
    "do=start\r",
];

const LATER_FIELDS: &[&str] = &[
    "session=1",
    "weight=2",
    "limit=3",
    "length=4",
    "ticket=5",
    "Session=1",
    "sessio=1",
    "sessions=1",
    "session",
    "session=",
    "session:1",
    "weight",
    "limit=",
    "length=x",
    "ticket=00",
    "=1",
    "=",
    "",
    "do=start",
    "do=open",
    "x",
    "1",
    "\t",
    "\r",
];

/// The four forms, as their fields.
fn good_fields(random: &mut Random) -> Vec<Vec<u8>> {
    let session = random.between(0, 3);
    let number = random.between(1, 16);
    let other = random.between(1, 99);
    let line = match random.below(4) {
        0 => format!("do=open session={session} weight={number} limit={other}"),
        1 => "do=start".to_string(),
        2 => "do=finish".to_string(),
        _ => format!("do=enter session={session} length={number} ticket={other}"),
    };
    line.split(' ').map(|field| field.into()).collect()
}

/// A line of good form but for one or two odd numbers.
pub fn with_odd_numbers(random: &mut Random) -> Vec<u8> {
    let mut numbers = ["1", "2", "3"];
    for _ in 0..random.between(1, 2) {
        numbers[random.below(3)] = random.pick(ODD_NUMBERS);
    }
    let [first, second, third] = numbers;
    let line = if random.once_in(2) {
        format!("do=open session={first} weight={second} limit={third}")
    } else {
        format!("do=enter session={first} length={second} ticket={third}")
    };
    line.into_bytes()
}

/// A line of good form but for one or two fields that are changed, moved, lost or doubled.
pub fn with_odd_fields(random: &mut Random) -> Vec<u8> {
    let mut fields = good_fields(random);
    for _ in 0..random.between(1, 2) {
        change_fields(random, &mut fields);
    }
    fields.join(&b' ')
}

fn change_fields(random: &mut Random, fields: &mut Vec<Vec<u8>>) {
    let place = random.below(fields.len());
    let other = random.below(fields.len());
    let later: Vec<u8> = random.pick(LATER_FIELDS).into();
    match random.below(10) {
        0 => fields[0] = random.pick(FIRST_FIELDS).into(),
        1 => fields[place] = later,
        2 => fields.insert(place, later),
        3 => fields.push(later),
        4 => fields.insert(place, Vec::new()),
        5 => fields.push(Vec::new()),
        6 => fields.swap(place, other),
        7 => fields.insert(place, fields[other].clone()),
        8 => fields[place].make_ascii_uppercase(),
        _ => {
            if fields.len() > 1 {
                fields.remove(place);
            }
        }
    }
}

/// A line of exactly this length, made longer from a call or made up of one octet.
pub fn of_length(random: &mut Random, length: usize) -> Vec<u8> {
    let call = good_fields(random).join(&b' ');
    let filler = random.pick(b" x0=9\0\r");
    match random.below(4) {
        0 => vec![filler; length],
        1 => {
            let mut line = call;
            line.resize(length, filler);
            line
        }
        2 => {
            // The end of the line would be a call if it stood alone.
            let mut line = vec![filler; length.saturating_sub(call.len())];
            line.extend_from_slice(&call[..call.len().min(length)]);
            line
        }
        _ => {
            // A number of many digits, so that a line that is not too long has fault 15.
            let mut line = b"do=enter session=".to_vec();
            line.resize(length, b'7');
            line
        }
    }
}

/// Octets without any form, drawn from all or from those of which calls are made.
pub fn noise(random: &mut Random, length: usize) -> Vec<u8> {
    let all = random.once_in(2);
    let octet = |random: &mut Random| {
        if all {
            random.octet()
        } else {
            random.pick(b"dost=enr finch 0123456789 \n")
        }
    };
    (0..length).map(|_| octet(random)).collect()
}

/// One small damage at a place of the trace.
pub fn damage(random: &mut Random, trace: &mut Vec<u8>) {
    if trace.is_empty() {
        return;
    }
    let place = random.below(trace.len());
    let special = random.pick(b" =\n\r\0\xff\t09ax");
    match random.below(9) {
        0 => trace[place] ^= 1 << random.below(8),
        1 => trace[place] = random.octet(),
        2 => trace[place] = special,
        3 => trace.insert(place, special),
        4 => _ = trace.remove(place),
        5 => replace_next(trace, place, b'\n', b""),
        6 => replace_next(trace, place, b'\n', b"\r\n"),
        7 => replace_next(trace, place, b' ', b"  "),
        _ => repeat_line(random, trace, place),
    }
}

/// Puts other octets in the place of the next one of this kind, if there is one.
fn replace_next(trace: &mut Vec<u8>, from: usize, octet: u8, by: &[u8]) {
    if let Some(distance) = trace[from..].iter().position(|&other| other == octet) {
        let place = from + distance;
        trace.splice(place..=place, by.iter().copied());
    }
}

/// Puts a part of the trace, up to the end of a line, in once more at the beginning of some line.
fn repeat_line(random: &mut Random, trace: &mut Vec<u8>, from: usize) {
    let rest = &trace[from..];
    let end = rest.iter().position(|&octet| octet == b'\n');
    let part: Vec<u8> = rest[..end.map_or(rest.len(), |end| end + 1)].into();
    let other = random.below(trace.len());
    let start_of_line = trace[..other].iter().rposition(|&octet| octet == b'\n');
    let place = start_of_line.map_or(0, |end| end + 1);
    trace.splice(place..place, part);
}
