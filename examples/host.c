/*
A host in C: lists the trace in the file that its argument names, or the one on its standard input,
and prints the listing. From the root of the repository:

    (cd crates/fairline_host && rt lib) && mkdir -p target &&
    cc -std=c99 -O2 -Wall -Wextra -Iinclude examples/host.c \
        crates/fairline_host/out/libfairline_host.a -o target/host_c &&
    target/host_c examples/moving-day.trace

The status is 0 if the trace was listed, 1 if it was refused, and 2 if it could not be read or the
listing could not be written.
*/
#include <fairline.h>

#include <stdio.h>
#include <stdlib.h>

enum { LISTED = 0, REFUSED = 1, FAILED = 2 };

/* One octet more than a trace may have, so that a longer one is still refused. */
static uint8_t trace[FAIRLINE_TRACE_MOST + 1];

static size_t count_lines(const uint8_t *octets, size_t len) {
    size_t lines = 0;
    for (size_t i = 0; i < len; i++) {
        if (octets[i] == '\n') {
            lines++;
        }
    }
    if (len > 0 && octets[len - 1] != '\n') {
        lines++;
    }
    return lines;
}

static int print(const uint8_t *octets, size_t len) {
    if (fwrite(octets, 1, len, stdout) != len || fflush(stdout) != 0) {
        perror("host: standard output");
        return FAILED;
    }
    return LISTED;
}

static int list(size_t trace_len) {
    size_t out_len = FAIRLINE_OUT_FOR(count_lines(trace, trace_len));
    uint8_t *out = calloc(out_len, 1);
    if (out == NULL) {
        perror("host: buffer");
        return FAILED;
    }

    int status;
    int64_t answer = fairline_list(trace, trace_len, out, out_len);
    if (answer < 0) {
        fprintf(stderr, "host: refused by %d\n", (int)-answer);
        status = REFUSED;
    } else {
        status = print(out, (size_t)answer);
    }
    free(out);
    return status;
}

int main(int argc, char **argv) {
    const char *name = argc > 1 ? argv[1] : "standard input";
    FILE *in = argc > 1 ? fopen(name, "rb") : stdin;
    if (in == NULL) {
        perror(name);
        return FAILED;
    }
    size_t trace_len = fread(trace, 1, sizeof trace, in);
    if (ferror(in)) {
        perror(name);
        return FAILED;
    }
    return list(trace_len);
}
