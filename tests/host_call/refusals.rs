//! The refusals of the host call, 17 and 13, and the traces and buffers that are just not refused.

use crate::check::{self, Expected, Fill};
use crate::generate::{self, Family, LONGEST};
use crate::reference;
use crate::report::{Case, Report};

/// A trace of 65,536 octets is listed; a longer one is refused by 17, whatever the buffer.
pub fn long_traces(report: &mut Report) {
    for (name, trace) in traces_of_length(LONGEST) {
        let case = Case::new("Refusals", name, trace);
        let listing = reference::listing(&case.trace);
        let outcome = check::host_lists(&case.trace, &listing);
        report.add(&case, &listing, outcome);
    }
    for length in [LONGEST + 1, LONGEST + 80, 2 * LONGEST] {
        for (name, trace) in traces_of_length(length) {
            let case = Case::new("Refusals", name, trace);
            let enough = reference::room_needed(&case.trace);
            let outcome = refused(&case.trace, &[enough, enough - 1, 6144, 1, 0], 17);
            report.add(&case, &[], outcome);
        }
    }
}

fn traces_of_length(length: usize) -> [(String, Vec<u8>); 4] {
    let mut ended = vec![b'x'; length];
    ended[length - 1] = b'\n';
    [
        (format!("{length} octets 10"), vec![b'\n'; length]),
        (format!("one line of {length} octets"), vec![b'x'; length]),
        (format!("the same, ended by the last of {length}"), ended),
        (
            format!("a history of {length} octets"),
            generate::trace_of_length(length),
        ),
    ]
}

/// A buffer below 96 octets for each line and 6,144 more is refused by 13, and the shortest other one is not.
pub fn short_buffers(report: &mut Report) {
    // The trace, and the shortest buffer worked out by hand.
    let mut long_lines = vec![b'x'; 81];
    long_lines.extend(b"\nx\n");
    long_lines.extend([b'x'; 1000]);
    let traces: [(&str, &[u8], usize); 10] = [
        ("empty trace", b"", 6144),
        ("one empty line", b"\n", 6240),
        ("one call", b"do=start\n", 6240),
        ("one call, not ended", b"do=start", 6240),
        ("two calls, one not ended", b"do=start\ndo=finish", 6336),
        ("two calls, both ended", b"do=start\ndo=finish\n", 6336),
        ("faulty lines", b"do=stop\n\nx\n do=start\n", 6528),
        ("faulty line, not ended", b"do=start\n\nx", 6432),
        ("octets 0 and 13", b"\0\n\r\n\r", 6432),
        ("lines that are too long", &long_lines, 6432),
    ];
    for (name, trace, enough) in traces {
        let case = Case::new("Refusals", name.to_string(), trace.to_vec());
        add_short_buffers(report, &case, enough);
    }
    for family in Family::ALL {
        for seed in 0..4 {
            let name = format!("{family:?} seed {seed}");
            let case = Case::new("Refusals", name, generate::trace(family, seed));
            let enough = reference::room_needed(&case.trace);
            add_short_buffers(report, &case, enough);
        }
    }
}

fn add_short_buffers(report: &mut Report, case: &Case, enough: usize) {
    let listing = reference::listing(&case.trace);
    let rooms = [enough - 1, enough - 96, listing.len(), enough / 2, 1, 0];
    let outcome = refused(&case.trace, &rooms, 13).and_then(|()| {
        let listed = Expected::Listing(&listing);
        check::host_call(&case.trace, enough, Fill::Pattern, listed)
    });
    report.add(case, &listing, outcome);
}

/// The host call must refuse the trace by this number with each of these buffers.
fn refused(trace: &[u8], rooms: &[usize], number: i64) -> Result<(), String> {
    for &room in rooms {
        for fill in [Fill::Pattern, Fill::Opposite] {
            check::host_call(trace, room, fill, Expected::Refused(number))?;
        }
    }
    Ok(())
}
