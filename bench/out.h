/* The output of the C programs that print lines: one buffer, written by write(2) when it is full.
 * Where its next byte goes is passed along, so that it stays in a register. */
#ifndef OUT_H
#define OUT_H
#include <stdlib.h>
#include <string.h>
#include <unistd.h>

typedef unsigned char byte;

/* ROOM is more than a line without its text, payload and arguments. */
enum { OUT = 131072, ROOM = 256 };

static char out[OUT];

static char *flush(char *at) {
    for (const char *from = out; from < at;) {
        ssize_t wrote = write(1, from, (size_t)(at - from));
        if (wrote < 0) exit(4);
        from += wrote;
    }
    return out;
}

/* Makes room for ROOM bytes. */
static inline char *reserve(char *at) { return out + OUT - at < ROOM ? flush(at) : at; }

static char *put_text(char *at, const char *text) {
    size_t length = strlen(text);
    memcpy(at, text, length);
    return at + length;
}

/* The digits of each number below 100. */
static const char pairs[] =
    "00010203040506070809101112131415161718192021222324252627282930313233343536373839"
    "40414243444546474849505152535455565758596061626364656667686970717273747576777879"
    "8081828384858687888990919293949596979899";

static inline char *put_hex(char *at, byte b) {
    static const char digits[] = "0123456789ABCDEF";
    at[0] = digits[b >> 4];
    at[1] = digits[b & 15];
    return at + 2;
}

static char *put_quoted(char *at, const byte *t, size_t length) {
    *at++ = '"';
    for (const byte *stop = t + length; t < stop; t++) {
        at = reserve(at);
        if (*t < 0x20 || *t > 0x7e) {
            *at++ = '\\', *at++ = 'x';
            at = put_hex(at, *t);
        } else {
            if (*t == '"' || *t == '\\') *at++ = '\\';
            *at++ = (char)*t;
        }
    }
    *at++ = '"';
    return at;
}

#endif
