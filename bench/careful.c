/* The commands `events F`, `check F`, `timeline F` and `report F` in plain C, with the same text
 * and the same exit codes, as one writes it who takes no risk: each byte is read behind a
 * comparison with the end of what is held, and nothing is read or written that is not wanted. It
 * reads through one buffer by read(2) and writes through another by write(2).
 * Usage: careful events F | careful check F | careful timeline F | careful report F */
#define _POSIX_C_SOURCE 200809L
#include <fcntl.h>
#include <stdbool.h>
#include <stdint.h>
#include <stdlib.h>
#include <string.h>
#include <unistd.h>
#include "out.h"
#include "packet.h"
#include "report.h"
#include "runs.h"

/* More than the longest packet, 65554 bytes. */
enum { HELD = 131072 };

static byte held[HELD];

/* Two digits at a time, from the last to the first. */
static char *put_number(char *at, uint64_t n) {
    char digits[20], *first = digits + sizeof digits;
    for (; n >= 100; n /= 100) memcpy(first -= 2, pairs + 2 * (n % 100), 2);
    if (n >= 10) memcpy(first -= 2, pairs + 2 * n, 2);
    else *--first = (char)('0' + n);
    size_t length = (size_t)(digits + sizeof digits - first);
    memcpy(at, first, length);
    return at + length;
}

static char *put_spaced(char *at, uint32_t n) {
    *at = ' ';
    return put_number(at + 1, n);
}

/* Why a packet does not go on, and with which byte. */
static const byte *stopped;
static int reason;

static const byte *stop(const byte *at, int why) {
    stopped = at;
    reason = why;
    return NULL;
}

/* The readers read from `at` to before `end`, and give the place behind what they read, or NULL. */

static const byte *long_number(const byte *at, const byte *end, uint32_t *n) {
    uint32_t value = *at++ & 0x7f;
    for (int shift = 7;; shift += 7) {
        if (at == end) return stop(at, CUT);
        uint32_t b = *at;
        if (b == 0 || (shift == 28 && b >= 16)) return stop(at, BAD_NUMBER);
        value |= (b & 0x7f) << shift;
        at++;
        if (b < 0x80) {
            *n = value;
            return at;
        }
    }
}

static inline const byte *number(const byte *at, const byte *end, uint32_t *n) {
    if (at == end) return stop(at, CUT);
    if (*at >= 0x80) return long_number(at, end, n);
    *n = *at;
    return at + 1;
}

/* An identifier or a length, in at most two bytes. */
static const byte *two(const byte *at, const byte *end, int why, uint32_t *n) {
    if (at == end) return stop(at, CUT);
    uint32_t low = *at++;
    if (low < 0x80) {
        *n = low;
        return at;
    }
    if (at == end) return stop(at, CUT);
    uint32_t high = *at;
    if (high == 0 || high >= 0x80) return stop(at, why);
    *n = (low & 0x7f) | high << 7;
    return at + 1;
}

static const byte *text(const byte *at, const byte *end, const byte **t, size_t *length) {
    if (at == end) return stop(at, CUT);
    size_t n = *at++;
    if (n == 255) {
        if (end - at < 2) return stop(end, CUT);
        n = at[0] | (size_t)at[1] << 8;
        if (n < 255) return stop(at + 1, BAD_TEXT);
        at += 2;
    }
    if ((size_t)(end - at) < n) return stop(end, CUT);
    *t = at;
    *length = n;
    return at + n;
}

/* The numbers and the text of an identifier below INIT. */
static inline const byte *fields(const byte *at, const byte *end, struct packet *p) {
    const struct kind *kind = &kinds[p->id];
    p->count = kind->most;
    for (uint32_t i = 0; i < kind->most; i++)
        if (!(at = number(at, end, &p->numbers[i]))) return NULL;
    if (kind->text) return text(at, end, &p->text, &p->text_length);
    return at;
}

static bool print_form(const byte *at, const byte *end, struct packet *p) {
    uint32_t arg;
    if (!(at = text(at, end, &p->text, &p->text_length))) return false;
    if (!(at = number(at, end, &p->numbers[0]))) return false;
    if (!(at = number(at, end, &p->arg_count))) return false;
    p->args = at;
    for (uint32_t i = 0; i < p->arg_count; i++)
        if (!(at = number(at, end, &arg))) return false;
    return at == end;
}

/* Whether the payload is exactly a known form of its identifier. */
static bool form(const byte *at, const byte *end, struct packet *p) {
    const struct kind *kind = &kinds[p->id];
    if (p->id == PRINT_FORMATTED) return print_form(at, end, p);
    for (p->count = 0; p->count < kind->most && at < end; p->count++)
        if (!(at = number(at, end, &p->numbers[p->count]))) return false;
    if (p->count < kind->least) return false;
    if (kind->text && !(at = text(at, end, &p->text, &p->text_length))) return false;
    return at == end;
}

static inline const byte *packet(const byte *at, const byte *end, struct packet *p) {
    if (at == end) return stop(at, CUT);
    p->id = *at;
    p->opaque = false;
    if (p->id < INIT) {
        if (p->id == DATA_SAMPLE) return stop(at, BAD_IDENTIFIER);
        if (!(at = fields(at + 1, end, p))) return NULL;
    } else {
        uint32_t length;
        if (!(at = two(at, end, BAD_IDENTIFIER, &p->id))) return NULL;
        if (!(at = two(at, end, BAD_LENGTH, &length))) return NULL;
        if ((size_t)(end - at) < length) return stop(end, CUT);
        p->payload = at;
        p->payload_length = length;
        p->opaque = p->id >= KINDS || !form(at, at + length, p);
        at += length;
    }
    return number(at, end, &p->delta);
}

static char *put_opaque(char *at, const struct packet *p) {
    at = put_text(at, "OPAQUE");
    at = put_spaced(at, p->id);
    *at++ = ' ';
    for (size_t i = 0; i < p->payload_length; i++) at = put_hex(reserve(at), p->payload[i]);
    if (p->payload_length == 0) *at++ = '-';
    return at;
}

static char *put_print(char *at, const struct packet *p) {
    const byte *from = p->args, *end = p->payload + p->payload_length;
    *at++ = ' ';
    at = put_quoted(at, p->text, p->text_length);
    at = put_spaced(reserve(at), p->numbers[0]);
    at = put_spaced(at, p->arg_count);
    for (uint32_t i = 0, n = 0; i < p->arg_count; i++) {
        from = number(from, end, &n);
        at = put_spaced(reserve(at), n);
    }
    return at;
}

static char *put_known(char *at, const struct packet *p) {
    const struct kind *kind = &kinds[p->id];
    memcpy(at, kind->name, kind->length);
    at += kind->length;
    if (p->id == PRINT_FORMATTED) return put_print(at, p);
    for (uint32_t i = 0; i < p->count; i++) at = put_spaced(at, p->numbers[i]);
    if (kind->text) {
        *at++ = ' ';
        at = put_quoted(at, p->text, p->text_length);
    }
    return at;
}

static inline char *put_event(char *at, uint64_t time, const struct packet *p) {
    at = put_number(reserve(at), time);
    *at++ = ' ';
    at = p->opaque ? put_opaque(at, p) : put_known(at, p);
    *at++ = '\n';
    return at;
}

static char *put_run(char *at, uint64_t start, uint64_t end, struct context context) {
    const struct label *label = &labels[context.kind];
    at = put_number(reserve(at), start);
    *at++ = ' ';
    at = put_number(at, end);
    memcpy(at, label->text, label->length);
    at += label->length;
    if (label->numbered) at = put_spaced(at, context.number);
    *at++ = '\n';
    return at;
}

static inline char *put_ended(char *at, uint64_t time, const struct packet *p) {
    uint64_t start, end;
    struct context context;
    return go_on(time, p, &start, &end, &context) ? put_run(at, start, end, context) : at;
}

int main(int argc, char **argv) {
    if (argc != 3) return 2;
    bool events = strcmp(argv[1], "events") == 0;
    bool timeline = strcmp(argv[1], "timeline") == 0;
    bool report = strcmp(argv[1], "report") == 0;
    begin_runs();
    int file = open(argv[2], O_RDONLY);
    if (file < 0) return 3;
    uint64_t place = 0, time = 0, packets = 0;
    unsigned zeros = 0;
    bool body = false;
    int code = -1;
    char *at = out;
    const byte *from = held, *end = held;
    while (code < 0) {
        size_t kept = (size_t)(end - from);
        place += (uint64_t)(from - held);
        memmove(held, from, kept);
        ssize_t came = read(file, held + kept, HELD - kept);
        if (came < 0) {
            flush(at);
            return 3;
        }
        from = held;
        end = held + kept + came;
        for (; !body && from < end; from++) {
            body = *from != 0 && zeros == 10;
            if (body) break;
            zeros = *from != 0 ? 0 : zeros < 10 ? zeros + 1 : 10;
        }
        while (from < end) {
            struct packet p;
            const byte *next = packet(from, end, &p);
            if (!next) {
                if (reason != CUT) code = 5;
                break;
            }
            from = next;
            time += p.delta;
            packets++;
            if (events) at = put_event(at, time, &p);
            else if (timeline) at = put_ended(at, time, &p);
            else if (report) tell(time, &p);
        }
        if (code < 0 && came == 0) code = !body ? (zeros == 10 ? 0 : 7) : from == end ? 0 : 6;
    }
    at = reserve(at);
    if (timeline && runs.last > 0) at = reserve(put_run(at, runs.start, runs.last, runs.run));
    if (report) at = put_report(at);
    if (!events && !timeline && !report) {
        at = put_number(put_text(at, "packets "), packets);
        at = put_number(put_text(at, "\nticks "), time);
        *at++ = '\n';
    }
    if (code == 0) at = put_text(at, "end clean\n");
    if (code == 7) at = put_text(at, "end no-sync\n");
    if (code == 5) {
        at = put_number(put_text(at, "end damaged "), place + (uint64_t)(stopped - held));
        at = put_spaced(at, (uint32_t)reason);
        *at++ = '\n';
    }
    if (code == 6) {
        at = put_number(put_text(at, "end truncated "), (uint64_t)(end - from));
        *at++ = '\n';
    }
    flush(at);
    return code;
}
