/*
 * fairline_list lists a trace: it reads the calls of the trace in turn, makes
 * them on a new line of packets, and writes what was said to each of them.
 *
 * docs/TRACE_FORMAT.md says what a trace is, docs/LISTING.md what a listing is.
 * examples/host.c is a complete host.
 */
#ifndef FAIRLINE_H
#define FAIRLINE_H

#include <stddef.h>
#include <stdint.h>

/* A trace may have this many octets. */
#define FAIRLINE_TRACE_MOST 65536

/* A line of the listing has at most this many octets, the ending octet 10 among them. */
#define FAIRLINE_LINE_MOST 96

/* The closing lines have at most this many together: there are at most 64, one for each session. */
#define FAIRLINE_CLOSING_MOST 6144

/*
 * The octets that the out buffer must have for a trace of so many lines: 96 for
 * each line, and 6,144 for the closing lines.
 *
 * Every line counts, also a faulty one and one that is too long, and also a last
 * one that no octet 10 ends. An empty trace has 0 lines, and a final octet 10
 * adds none. So there are as many lines as octets 10, and one more if the trace
 * is not empty and its last octet is another.
 */
#define FAIRLINE_OUT_FOR(lines) ((size_t)FAIRLINE_LINE_MOST * (lines) + FAIRLINE_CLOSING_MOST)

/* The numbers that a call is refused by. The answer is the number negated. */
#define FAIRLINE_SHORT_BUFFER 13 /* out_len is below FAIRLINE_OUT_FOR(lines) */
#define FAIRLINE_LONG_TRACE 17   /* trace_len is above FAIRLINE_TRACE_MOST */

#ifdef __cplusplus
extern "C" {
#endif

/*
 * Lists the trace into the out buffer.
 *
 * The answer is
 *   -17  if the trace is above 65,536 octets; 65,536 itself is accepted;
 *   -13  if it is not, but the out buffer is too short for its lines;
 *   else the number of octets written, which is 0 or more: they stand at the
 *        front of the out buffer and are the listing.
 * The octets behind the listing are as they were. After a refused call the whole
 * buffer is as it was. The trace is only read.
 *
 * Every call is a new line of packets that begins with nothing open. The call
 * allocates nothing and keeps nothing for the next one.
 *
 * What the caller owes, and the call does not test:
 *   - neither pointer is null, also where its length is 0;
 *   - trace_len octets can be read at trace, and out_len octets can be read and
 *     written at out;
 *   - the two regions do not overlap;
 *   - nobody else writes to the trace, or reads or writes the out buffer, until
 *     the call returns;
 *   - some tens of kilobytes of the stack are free.
 */
int64_t fairline_list(const uint8_t *trace, size_t trace_len, uint8_t *out, size_t out_len);

#ifdef __cplusplus
}
#endif

#endif
