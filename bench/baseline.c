/* The commands `events F`, `check F`, `timeline F` and `report F` in plain C, with the same text
 * and the same exit codes, as fast as it gets without threads or vector instructions. It reads
 * through one buffer by read(2), writes through another by write(2), and a packet is decoded
 * without a look at the end of what is held, behind which zeros stand, so that what reads past it
 * stops there.
 * Usage: baseline events F | baseline check F | baseline timeline F | baseline report F */
#define _POSIX_C_SOURCE 200809L
#include <fcntl.h>
#include <stdbool.h>
#include <stdint.h>
#include <stdlib.h>
#include <string.h>
#include <unistd.h>
#include "out.h"
#include "packet.h"
#include "report.h"
#include "runs.h"

/* HELD is more than the longest packet, 65554 bytes. PAST is more than a packet without its text or
 * payload. */
enum { HELD = 131072, PAST = 64 };

static byte held[HELD + PAST];
static const byte *end = held;

/* The digits are made from the last to the first; then 20 bytes go out, whatever is behind. */
static char *put_long(char *at, uint64_t n) {
    char digits[40];
    char *first = digits + 20;
    for (; n > UINT32_MAX; n /= 100) memcpy(first -= 2, pairs + 2 * (n % 100), 2);
    uint32_t rest = (uint32_t)n;
    for (; rest >= 10000; rest /= 10000) {
        uint32_t four = rest % 10000;
        memcpy(first -= 2, pairs + 2 * (four % 100), 2);
        memcpy(first -= 2, pairs + 2 * (four / 100), 2);
    }
    if (rest >= 100) {
        memcpy(first -= 2, pairs + 2 * (rest % 100), 2);
        rest /= 100;
    }
    if (rest >= 10) memcpy(first -= 2, pairs + 2 * rest, 2);
    else *--first = (char)('0' + rest);
    memcpy(at, first, 20);
    return at + (digits + 20 - first);
}

static inline char *put_number(char *at, uint32_t n) {
    if (n < 10) {
        *at = (char)('0' + n);
        return at + 1;
    }
    if (n >= 100) return put_long(at, n);
    memcpy(at, pairs + 2 * n, 2);
    return at + 2;
}

static inline char *put_spaced(char *at, uint32_t n) {
    *at = ' ';
    return put_number(at + 1, n);
}

/* Why a packet does not go on, and with which byte; where that is past the end, it is only cut. */
static const byte *stopped;
static int reason;

static const byte *stop(const byte *at, int why) {
    stopped = at;
    reason = why;
    return NULL;
}

static const byte *long_number(const byte *at, uint32_t *n) {
    uint32_t value = *at & 0x7f;
    for (int place = 1;; place++) {
        uint32_t b = at[place];
        if (b == 0 || (place == 4 && b >= 16)) return stop(at + place, BAD_NUMBER);
        value |= (b & 0x7f) << (7 * place);
        if (b < 0x80) {
            *n = value;
            return at + place + 1;
        }
    }
}

/* The readers give the place behind what they read, which may be past the end, or NULL. */

static inline const byte *number(const byte *at, uint32_t *n) {
    uint32_t low = at[0];
    if (low < 0x80) {
        *n = low;
        return at + 1;
    }
    uint32_t high = at[1];
    if (high - 1 >= 0x7f) return long_number(at, n);
    *n = (low & 0x7f) | high << 7;
    return at + 2;
}

/* An identifier or a length, in at most two bytes. */
static inline const byte *two(const byte *at, int why, uint32_t *n) {
    uint32_t low = at[0];
    if (low < 0x80) {
        *n = low;
        return at + 1;
    }
    uint32_t high = at[1];
    if (high - 1 >= 0x7f) return stop(at + 1, why);
    *n = (low & 0x7f) | high << 7;
    return at + 2;
}

static const byte *text(const byte *at, const byte *limit, const byte **t, size_t *length) {
    if (at >= limit) return stop(limit, CUT);
    size_t n = *at++;
    if (n == 255) {
        n = at[0] | (size_t)at[1] << 8;
        if (n < 255) return stop(at + 1, BAD_TEXT);
        at += 2;
    }
    if (at > limit || (size_t)(limit - at) < n) return stop(limit, CUT);
    *t = at;
    *length = n;
    return at + n;
}

/* Whether the payload is exactly a known form of its identifier. */
static bool form(struct packet *p, const byte *at, const byte *limit) {
    const struct kind *kind = &kinds[p->id];
    if (p->id == PRINT_FORMATTED) {
        uint32_t arg;
        if (!(at = text(at, limit, &p->text, &p->text_length))) return false;
        if (!(at = number(at, &p->numbers[0])) || !(at = number(at, &p->arg_count))) return false;
        p->args = at;
        for (uint32_t i = 0; i < p->arg_count; i++)
            if (at >= limit || !(at = number(at, &arg))) return false;
        return at == limit;
    }
    for (p->count = 0; p->count < kind->most && at < limit; p->count++)
        if (!(at = number(at, &p->numbers[p->count]))) return false;
    if (p->count < kind->least) return false;
    if (kind->text && !(at = text(at, limit, &p->text, &p->text_length))) return false;
    return at == limit;
}

static inline const byte *packet(const byte *at, struct packet *p) {
    p->id = *at;
    p->opaque = false;
    if (p->id < INIT) {
        if (p->id == DATA_SAMPLE) return stop(at, BAD_IDENTIFIER);
        const struct kind *kind = &kinds[p->id];
        p->count = kind->most;
        at++;
        for (uint32_t i = 0; i < kind->most; i++)
            if (!(at = number(at, &p->numbers[i]))) return NULL;
        if (kind->text && !(at = text(at, end, &p->text, &p->text_length))) return NULL;
    } else {
        uint32_t length;
        if (!(at = two(at, BAD_IDENTIFIER, &p->id))) return NULL;
        if (!(at = two(at, BAD_LENGTH, &length))) return NULL;
        if (at > end || (size_t)(end - at) < length) return stop(end, CUT);
        p->payload = at;
        p->payload_length = length;
        p->opaque = p->id >= KINDS || !form(p, at, at + length);
        at += length;
    }
    return number(at, &p->delta);
}

static char *put_opaque(char *at, const struct packet *p) {
    at = put_text(at, "OPAQUE");
    at = put_spaced(at, p->id);
    *at++ = ' ';
    for (size_t i = 0; i < p->payload_length; i++) at = put_hex(reserve(at), p->payload[i]);
    if (p->payload_length == 0) *at++ = '-';
    return at;
}

static char *put_print(char *at, const struct packet *p) {
    *at++ = ' ';
    at = put_quoted(at, p->text, p->text_length);
    at = put_spaced(reserve(at), p->numbers[0]);
    at = put_spaced(at, p->arg_count);
    const byte *from = p->args;
    for (uint32_t i = 0, n = 0; i < p->arg_count; i++) {
        from = number(from, &n);
        at = put_spaced(reserve(at), n);
    }
    return at;
}

/* Of a name 16 bytes go out, whatever its length. */
static inline char *put_event(char *at, uint64_t time, const struct packet *p) {
    at = put_long(reserve(at), time);
    *at++ = ' ';
    if (p->opaque) {
        at = put_opaque(at, p);
    } else {
        const struct kind *kind = &kinds[p->id];
        memcpy(at, kind->name, sizeof kind->name);
        at += kind->length;
        if (p->id == PRINT_FORMATTED) {
            at = put_print(at, p);
        } else {
            for (uint32_t i = 0; i < p->count; i++) at = put_spaced(at, p->numbers[i]);
            if (kind->text) {
                *at++ = ' ';
                at = put_quoted(at, p->text, p->text_length);
            }
        }
    }
    *at++ = '\n';
    return at;
}

/* Of a label 16 bytes go out, whatever its length. */
static char *put_run(char *at, uint64_t start, uint64_t end, struct context context) {
    const struct label *label = &labels[context.kind];
    at = put_long(reserve(at), start);
    *at++ = ' ';
    at = put_long(at, end);
    memcpy(at, label->text, sizeof label->text);
    at += label->length;
    if (label->numbered) at = put_spaced(at, context.number);
    *at++ = '\n';
    return at;
}

static inline char *put_ended(char *at, uint64_t time, const struct packet *p) {
    uint64_t start, last;
    struct context context;
    return go_on(time, p, &start, &last, &context) ? put_run(at, start, last, context) : at;
}

int main(int argc, char **argv) {
    if (argc != 3) return 2;
    bool events = strcmp(argv[1], "events") == 0;
    bool timeline = strcmp(argv[1], "timeline") == 0;
    bool report = strcmp(argv[1], "report") == 0;
    begin_runs();
    int file = open(argv[2], O_RDONLY);
    if (file < 0) return 3;
    uint64_t place = 0, time = 0, packets = 0;
    unsigned zeros = 0;
    bool body = false;
    int code = -1;
    char *at = out;
    const byte *from = held;
    while (code < 0) {
        size_t kept = (size_t)(end - from);
        place += (uint64_t)(from - held);
        memmove(held, from, kept);
        ssize_t came = read(file, held + kept, HELD - kept);
        if (came < 0) {
            flush(at);
            return 3;
        }
        from = held;
        end = held + kept + came;
        memset(held + kept + came, 0, PAST);
        for (; !body && from < end; from++) {
            body = *from != 0 && zeros == 10;
            if (body) break;
            zeros = *from != 0 ? 0 : zeros < 10 ? zeros + 1 : 10;
        }
        while (from < end) {
            struct packet p;
            const byte *next = packet(from, &p);
            if (!next && stopped < end) code = 5;
            if (!next || next > end) break;
            from = next;
            time += p.delta;
            packets++;
            if (events) at = put_event(at, time, &p);
            else if (timeline) at = put_ended(at, time, &p);
            else if (report) tell(time, &p);
        }
        if (code < 0 && came == 0) code = !body ? (zeros == 10 ? 0 : 7) : from == end ? 0 : 6;
    }
    at = reserve(at);
    if (timeline && runs.last > 0) at = reserve(put_run(at, runs.start, runs.last, runs.run));
    if (report) at = put_report(at);
    if (!events && !timeline && !report) {
        at = put_long(put_text(at, "packets "), packets);
        at = put_long(put_text(at, "\nticks "), time);
        *at++ = '\n';
    }
    if (code == 0) at = put_text(at, "end clean\n");
    if (code == 7) at = put_text(at, "end no-sync\n");
    if (code == 5) {
        at = put_long(put_text(at, "end damaged "), place + (uint64_t)(stopped - held));
        at = put_spaced(at, (uint32_t)reason);
        *at++ = '\n';
    }
    if (code == 6) {
        at = put_long(put_text(at, "end truncated "), (uint64_t)(end - from));
        *at++ = '\n';
    }
    flush(at);
    return code;
}
