//! Comparisons, and what is said of a difference.

use crate::host;
use crate::reference;

/// Octets on both sides of a lent buffer that no call may touch. The number is odd so that buffers begin at odd places.
const BESIDE: usize = 61;

/// What a host call must answer.
#[derive(Clone, Copy)]
pub enum Expected<'a> {
    Listing(&'a [u8]),
    Refused(i64),
}

/// What a lent buffer holds before the call. The second is the first with every bit changed, so that an octet that is
/// written where it should not be shows in one of the two at least.
#[derive(Clone, Copy)]
pub enum Fill {
    Pattern,
    Opposite,
}

impl Fill {
    fn octets(self, count: usize) -> Vec<u8> {
        let pattern = (0..count).map(|place| (place % 251) as u8);
        match self {
            Fill::Pattern => pattern.collect(),
            Fill::Opposite => pattern.map(|octet| !octet).collect(),
        }
    }
}

/// The host call must give this listing, in the shortest buffer that it accepts and in a longer one.
pub fn host_lists(trace: &[u8], listing: &[u8]) -> Result<(), String> {
    let shortest = reference::room_needed(trace);
    let longer = shortest + 1 + trace.len() % 4096;
    host_call(trace, shortest, Fill::Pattern, Expected::Listing(listing))?;
    host_call(trace, longer, Fill::Opposite, Expected::Listing(listing))
}

/// The reference must give the listing that the program printed.
pub fn program_listed(trace: &[u8], printed: &[u8]) -> Result<(), String> {
    same_listing(trace, &reference::listing(trace), printed)
        .map_err(|difference| format!("by the program, {difference}"))
}

/// Makes the host call with a buffer of `room` octets, and compares answer and buffer with what they must be.
pub fn host_call(trace: &[u8], room: usize, fill: Fill, expected: Expected) -> Result<(), String> {
    let (answer_expected, listing) = match expected {
        Expected::Listing(listing) => (listing.len() as i64, listing),
        Expected::Refused(number) => (-number, &[][..]),
    };
    let mut buffer_expected = fill.octets(BESIDE + room + BESIDE);
    let mut buffer = buffer_expected.clone();
    buffer_expected[BESIDE..BESIDE + listing.len()].copy_from_slice(listing);

    let answer = host::list(trace, &mut buffer[BESIDE..BESIDE + room]);

    let with_room = |message: String| format!("with a buffer of {room} octets, {message}");
    if answer != answer_expected {
        let mut message = format!("the answer is {answer} and should be {answer_expected}");
        if let (Expected::Listing(_), Ok(written)) = (expected, usize::try_from(answer)) {
            let found = &buffer[BESIDE..BESIDE + written.min(room)];
            message.push_str(&format!("\n{}", listing_difference(trace, listing, found)));
        }
        return Err(with_room(message));
    }
    let found = &buffer[BESIDE..BESIDE + listing.len()];
    same_listing(trace, listing, found).map_err(with_room)?;
    same_beside(&buffer_expected, &buffer, listing.len()).map_err(with_room)
}

/// The two buffers with what is beside them, which are alike in the listing, must be alike everywhere.
fn same_beside(expected: &[u8], found: &[u8], listing_len: usize) -> Result<(), String> {
    match (0..expected.len()).find(|&index| expected[index] != found[index]) {
        None => Ok(()),
        Some(index) => {
            let place = index as i64 - BESIDE as i64;
            let (before, after) = (expected[index], found[index]);
            Err(format!(
                "the octet at place {place}, outside the listing of {listing_len} octets, was {before} and now is {after}"
            ))
        }
    }
}

/// Compares a listing with what it should be.
pub fn same_listing(trace: &[u8], expected: &[u8], found: &[u8]) -> Result<(), String> {
    if expected == found {
        Ok(())
    } else {
        Err(listing_difference(trace, expected, found))
    }
}

/// The first line in which two listings differ, with the line of the trace to which it belongs.
fn listing_difference(trace: &[u8], expected: &[u8], found: &[u8]) -> String {
    let expected = expected.split_inclusive(|&octet| octet == b'\n');
    let found = found.split_inclusive(|&octet| octet == b'\n');
    let alike = expected
        .clone()
        .zip(found.clone())
        .take_while(|(expected, found)| expected == found)
        .count();
    let trace_lines = reference::lines(trace);
    format!(
        "line {} of the listing is another\n  trace:     {}\n  should be: {}\n  but is:    {}",
        alike + 1,
        shown(trace_lines.get(alike).copied(), "(behind its last line)"),
        shown(expected.clone().nth(alike), "(no line)"),
        shown(found.clone().nth(alike), "(no line)"),
    )
}

fn shown(line: Option<&[u8]>, otherwise: &str) -> String {
    match line {
        Some(octets) => format!("\"{}\"", octets.escape_ascii()),
        None => otherwise.to_string(),
    }
}
