/* The command `record W` in plain C, with the same recording, the same lines and the same exit
 * codes, as fast as it gets without threads or vector instructions. It reads the workload whole
 * and makes steps of its lines, each in one pass; then it plays them in the order of the schedule,
 * keeps a journal of that, and writes whenever a buffer is full. What the host takes from a ring is
 * what was stored, in that order, so each packet is formed where it is written from, and of the
 * ring only the room is kept.
 * Usage: recorder record W | journal W */
#define _POSIX_C_SOURCE 200809L
#include <fcntl.h>
#include <stdbool.h>
#include <stdint.h>
#include <stdio.h>
#include <stdlib.h>
#include <string.h>
#include <unistd.h>
#include "journal.h"
#include "workload.h"

/* A step takes room for the numbers that it has. */
struct step {
    uint64_t advance;
    const byte *text;
    byte keyword, count, text_length;
    uint32_t numbers[];
};

/* A line without a fault, or up to the fault. */
struct line {
    enum keyword keyword;
    const byte *text, *end;
    uint64_t advance, numbers[9];
    int count;
};

static byte *steps, *steps_end;

/* Where a writer's next step is, and where its steps end; `step` is how many it has taken. */
static struct script {
    const byte *next, *end;
    uint32_t step;
} scripts[MOST_WRITERS];

/* Passes over the word, which a space or a line feed ends. In `good` stays whether all words so far
 * are numbers. One of more than 19 digits is the largest of all, past every limit. */
static inline const byte *number(const byte *at, bool *good, uint64_t *n) {
    const byte *from = at;
    uint64_t value = 0;
    for (unsigned digit; (digit = *at - '0') <= 9; at++) value = value * 10 + digit;
    if (at == from || (*from == '0' && at > from + 1) || (*at != ' ' && *at != '\n')) *good = false;
    *n = at - from > 19 ? UINT64_MAX : value;
    while (*at != ' ' && *at != '\n') at++;
    return at;
}

/* The keywords by their first 8 bytes and their length; a place that is taken leads to the next. */
static uint64_t keys[UNKNOWN];
static byte places[128];

static uint64_t key_of(const byte *word, size_t length) {
    static const uint64_t masks[] = {
        0, 0xff, 0xffff, 0xffffff, 0xffffffff, 0xffffffffff, 0xffffffffffff, 0xffffffffffffff};
    uint64_t key = 0;
    memcpy(&key, word, sizeof key);
    return length < 8 ? key & masks[length] : key;
}

static inline size_t place_of(uint64_t key) { return key * 0x9e3779b97f4a7c15u >> 57; }

static void list_keywords(void) {
    memset(places, UNKNOWN, sizeof places);
    for (int k = 0; k < UNKNOWN; k++) {
        byte word[16] = "";
        memcpy(word, forms[k].word, forms[k].length);
        keys[k] = key_of(word, forms[k].length);
        size_t place = place_of(keys[k]);
        while (places[place] != UNKNOWN) place = (place + 1) % sizeof places;
        places[place] = (byte)k;
    }
}

static inline enum keyword keyword_of(const byte *word, size_t length) {
    uint64_t key = key_of(word, length);
    for (size_t place = place_of(key);; place = (place + 1) % sizeof places) {
        enum keyword k = places[place];
        if (k == UNKNOWN) return UNKNOWN;
        if (keys[k] == key && forms[k].length == length &&
            (length <= 8 || memcmp(forms[k].word, word, length) == 0))
            return k;
    }
}

/* Cuts the words behind the keyword, as many as its form wants. */
static inline int cut(struct line *l, const struct form *f, const byte *at, bool *good) {
    int most = f->numbers + f->more, count = 0;
    for (; *at == ' ' && !(f->text > 0 && count == most); count++) {
        at++;
        if (count == most || *at == ' ' || *at == '\n') return SHAPE;
        uint64_t n;
        at = number(at, good, &n);
        if (n < (count ? f->other_least : f->least) || n > (count ? f->other_most : f->most))
            *good = false;
        l->numbers[count] = n;
    }
    l->count = count;
    if (count < f->numbers) return SHAPE;
    if (f->text > 0 && (*at != ' ' || at[1] == '\n')) return SHAPE;
    l->text = at + 1;
    return 0;
}

/* Whether all bytes are from 20 to 7E: eight at once, where none of them then has or gets its
 * highest bit. */
static bool printable(const byte *text, size_t length) {
    const uint64_t ones = 0x0101010101010101;
    uint64_t bits = 0, eight;
    for (; length >= 8; text += 8, length -= 8) {
        memcpy(&eight, text, 8);
        bits |= eight | (eight + ones) | (eight - 0x20 * ones);
    }
    for (; length > 0; text++, length--)
        if (*text < 0x20 || *text > 0x7e) return false;
    return (bits & 0x80 * ones) == 0;
}

static bool repeated(const struct line *l) {
    if (l->keyword < TASK) return told[l->keyword];
    return l->keyword == TASK && is_task(l->numbers[0]);
}

static inline size_t step_size(const struct step *s) {
    return (sizeof *s + 4u * s->count + 7) & ~(size_t)7;
}

/* What a line without a fault adds. */
static void keep(const struct line *l, const struct form *f) {
    enum keyword k = l->keyword;
    if (k < TASK) {
        told[k] = true;
        settings[k] = (uint32_t)l->numbers[0];
    } else if (k == TASK) {
        keep_task(l->numbers, l->text, l->end);
    } else if (k == WRITER) {
        scripts[writers++] = (struct script){steps_end, steps_end, 0};
    } else if (k == SCHEDULE) {
        scheduled = true;
    } else if (k < START) {
        keep_turn(k, l->numbers, l->count);
    } else {
        struct step *s = (struct step *)steps_end;
        s->advance = l->advance;
        s->keyword = (byte)k;
        s->count = (byte)l->count;
        for (int i = 0; i < l->count; i++) s->numbers[i] = (uint32_t)l->numbers[i];
        if (f->identifier) s->numbers[0] = shrunk(l->numbers[0]);
        s->text = l->text;
        s->text_length = f->text ? (byte)(l->end - l->text) : 0;
        scripts[writers - 1].end = steps_end += step_size(s);
        step_count++;
        starts += k == START;
    }
}

/* The reason of the first check that the line fails, 0 where it fails none. A line feed ends it. */
static int take_line(const byte *at, const byte *end) {
    struct line l;
    bool good = true, is_step = (unsigned)*at - '0' <= 9;
    l.end = end;
    l.advance = 0;
    if (is_step) {
        at = number(at, &good, &l.advance);
        if (*at++ != ' ') return UNKNOWN_WORD;
    }
    const byte *word = at;
    while (*at > ' ') at++;
    l.keyword = *at == ' ' || *at == '\n' ? keyword_of(word, (size_t)(at - word)) : UNKNOWN;
    if (l.keyword == UNKNOWN || is_step != (l.keyword >= START)) return UNKNOWN_WORD;
    const struct form *f = &forms[l.keyword];
    if (!may_stand(l.keyword)) return MISPLACED;
    if (l.advance > 8589934592u) good = false;
    if (cut(&l, f, at, &good) != 0) return SHAPE;
    if (!good) return NUMBER;
    if (f->text > 0 && (end - l.text > f->text || !printable(l.text, (size_t)(end - l.text))))
        return BAD_TEXT;
    if (f->identifier && (offset(l.numbers[0]) & ((1u << settings[SHIFT]) - 1)) != 0)
        return UNALIGNED;
    if (l.keyword <= TASK && repeated(&l)) return REPEATED;
    if (too_many(l.keyword)) return TOO_MANY;
    if (l.keyword == STEP && l.numbers[0] >= writers) return NO_WRITER;
    keep(&l, f);
    return 0;
}

static int fail(int code, const char *line) {
    fputs(line, stderr);
    return code;
}

/* No packet is longer, and no ten zeros are. */
enum { MOST_PACKET = 192 };

/* What was stored and is not yet written; the room of the ring; how many bytes the host took. */
static byte sent[1 << 18];
static size_t stored, room;
static uint64_t freed;
static bool journal;

static void write_all(void) {
    for (size_t from = journal ? stored : 0; from < stored;) {
        ssize_t wrote = write(1, sent + from, stored - from);
        if (wrote < 0) exit(fail(4, "write fault\n"));
        from += (size_t)wrote;
    }
    stored = 0;
}

/* Where the next block is formed. It counts once it is stored. */
static inline byte *begin(void) {
    if (sizeof sent - stored < MOST_PACKET) write_all();
    return sent + stored;
}

static inline bool store(const byte *end) {
    size_t length = (size_t)(end - (sent + stored));
    if (length > room) return false;
    room -= length;
    stored += length;
    return true;
}

static inline void take(size_t most) {
    size_t held = settings[RING] - 1 - room, length = held < most ? held : most;
    room += length;
    freed += length;
}

static inline byte *put_number(byte *at, uint32_t n) {
    while (n >= 0x80) {
        *at++ = (byte)(n | 0x80);
        n >>= 7;
    }
    *at++ = (byte)n;
    return at;
}

static inline byte *put_numbers(byte *at, const uint32_t *numbers, int count) {
    for (int i = 0; i < count; i++) at = put_number(at, numbers[i]);
    return at;
}

static inline byte *put_text(byte *at, const byte *text, size_t length) {
    *at++ = (byte)length;
    memcpy(at, text, length);
    return at + length;
}

static bool on;
static uint64_t moment, last;
static uint32_t pending;

static inline bool store_packet(byte *end) {
    if (!store(put_number(end, (uint32_t)(moment - last)))) return false;
    last = moment;
    return true;
}

static inline void note_here(struct origin from, enum outcome outcome) {
    note(from, outcome, moment, freed);
}

static bool store_overflow(void) {
    byte *at = begin();
    *at = 1;
    bool good = store_packet(put_number(at + 1, pending));
    note_here((struct origin){pending, OVERFLOW, 0}, good ? STORED : REFUSED);
    return good;
}

/* Whether a packet is formed now; if not, that is noted. */
static inline bool ready(struct origin from) {
    if (!on) {
        note_here(from, IGNORED);
        return false;
    }
    if (pending > 0 && !store_overflow()) {
        note_here(from, REFUSED);
        pending++;
        return false;
    }
    return true;
}

static inline void finish(struct origin from, byte *end) {
    bool good = store_packet(end);
    note_here(from, good ? STORED : REFUSED);
    pending = !good;
}

static inline void record_short(struct origin from, byte id, const uint32_t *numbers, int count) {
    if (!ready(from)) return;
    byte *at = begin();
    *at = id;
    finish(from, put_numbers(at + 1, numbers, count));
}

/* With a length, of one byte: the numbers are no more than eight. */
static void record_long(struct origin from, unsigned id, const uint32_t *numbers, int count) {
    if (!ready(from)) return;
    byte *length = put_number(begin(), id), *end = put_numbers(length + 1, numbers, count);
    *length = (byte)(end - length - 1);
    finish(from, end);
}

static void record_name(struct origin from, const struct step *s) {
    if (!ready(from)) return;
    byte resource[5], *at = begin();
    size_t length = (size_t)(put_number(resource, s->numbers[0]) - resource);
    *at = 25;
    at = put_number(at + 1, (uint32_t)length + 1 + s->text_length);
    at = put_number(at, s->numbers[0]);
    finish(from, put_text(at, s->text, s->text_length));
}

/* Behind the text stand the options and the number of arguments. */
static void record_print(struct origin from, const struct step *s) {
    if (!ready(from)) return;
    byte *at = begin();
    *at = 26;
    at = put_text(put_number(at + 1, 3 + s->text_length), s->text, s->text_length);
    at[0] = at[1] = 0;
    finish(from, at + 2);
}

static void describe_task(uint32_t index) {
    const struct task *t = &tasks[index];
    struct origin info = {index, REPLY, 9}, stack = {index, REPLY, 21};
    if (ready(info)) {
        byte *at = begin();
        *at = 9;
        at = put_numbers(at + 1, t->numbers, 2);
        finish(info, put_text(at, t->name, t->name_length));
    }
    const uint32_t numbers[] = {t->numbers[0], t->numbers[2], t->numbers[3], t->numbers[4]};
    record_short(stack, 21, numbers, 4);
}

static void start(void) {
    on = true;
    bool good = store((byte *)memset(begin(), 0, 10) + 10);
    note_here((struct origin){0, SYNC, 0}, good ? STORED : REFUSED);
    record_short((struct origin){0, REPLY, 10}, 10, NULL, 0);
    record_long((struct origin){0, REPLY, 24}, 24, settings + CLOCK, 4);
    record_short((struct origin){0, REPLY, 12}, 12, (uint32_t[]){(uint32_t)moment}, 1);
    for (uint32_t i = 0; i < task_count; i++) describe_task(i);
    record_long((struct origin){0, REPLY, 27}, 27, (uint32_t[]){0}, 1);
}

static void stop(void) {
    record_short((struct origin){0, REPLY, 11}, 11, NULL, 0);
    on = false;
}

static inline void play(struct origin from, const struct step *s) {
    moment += s->advance;
    switch (s->keyword) {
    case START: note_here(from, HANDLED), start(); break;
    case STOP: note_here(from, HANDLED), stop(); break;
    case NAME: record_name(from, s); break;
    case PRINT: record_print(from, s); break;
    case CALL: record_long(from, s->numbers[0], s->numbers + 1, s->count - 1); break;
    case TERMINATE:
    case RETURN: record_long(from, plain_ids[s->keyword], s->numbers, s->count); break;
    default: record_short(from, plain_ids[s->keyword], s->numbers, s->count);
    }
}

static inline void take_step(uint32_t writer) {
    struct script *script = &scripts[writer];
    const struct step *s = (const struct step *)script->next;
    script->next += step_size(s);
    play((struct origin){script->step++, CALLED, (byte)writer}, s);
}

static inline bool is_through(uint32_t writer) {
    return scripts[writer].next == scripts[writer].end;
}

static void take_turn(const struct turn *t) {
    if (t->reads) take(t->count);
    else
        for (uint32_t i = 0; i < t->count && !is_through(t->writer); i++) take_step(t->writer);
}

/* A step of each writer that has one left, and behind each the host takes all. */
static bool take_round(void) {
    bool any = false;
    for (uint32_t writer = 0; writer < writers; writer++) {
        if (is_through(writer)) continue;
        take_step(writer);
        take(MOST_RING);
        any = true;
    }
    return any;
}

/* The bytes of the file, at most one more than a workload may have; -1 where they cannot be
 * read. */
static ssize_t read_all(const char *name, byte *text) {
    int file = open(name, O_RDONLY);
    size_t length = 0;
    ssize_t came = file < 0 ? -1 : 1;
    while (came > 0 && length <= MOST_BYTES) {
        came = read(file, text + length, MOST_BYTES + 1 - length);
        if (came > 0) length += (size_t)came;
    }
    return came < 0 ? -1 : (ssize_t)length;
}

int main(int argc, char **argv) {
    static const char header[] = "; sysview recording\n";
    journal = argc == 3 && strcmp(argv[1], "journal") == 0;
    if (argc != 3 || (!journal && strcmp(argv[1], "record") != 0)) return 2;
    /* Behind the text stand a line feed and what a keyword of 8 bytes may read past it. */
    byte *text = malloc(MOST_BYTES + 16);
    steps = steps_end = malloc(MOST_STEPS * (sizeof(struct step) + 40));
    turns = malloc(MOST_TURNS * sizeof *turns);
    if (!text || !steps || !turns) return fail(10, "no memory\n");
    ssize_t length = read_all(argv[2], text);
    if (length < 0) return fail(3, "read fault\n");
    if (length > MOST_BYTES) return fail(9, "longer than 67108864\n");
    text[length] = '\n';
    list_keywords();
    uint64_t lines = 0;
    for (const byte *at = text, *end = text + length; at < end;) {
        const byte *stop = memchr(at, '\n', (size_t)(end - at) + 1);
        lines++;
        int reason = at == stop || *at == ';' ? 0 : take_line(at, stop);
        if (reason > 0) {
            fprintf(stderr, "workload line %llu reason %d\n", (unsigned long long)lines, reason);
            return 8;
        }
        at = stop + 1;
    }
    if (!reserve_items()) return fail(10, "no memory\n");
    memcpy(sent, header, stored = sizeof header - 1);
    room = settings[RING] - 1;
    for (uint32_t i = 0; i < turn_count; i++) take_turn(&turns[i]);
    while (take_round()) continue;
    take(MOST_RING);
    if (journal) {
        print_journal();
        return 0;
    }
    write_all();
    return starts > 0 ? 0 : fail(7, "no sync\n");
}
