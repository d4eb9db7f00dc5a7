/* The command `record W` in plain C, with the same recording, the same lines and the same exit
 * codes, as one writes it first. It reads the workload whole and makes steps of its lines, of which
 * it cuts the words and then looks at each; then it plays the steps in the order of the schedule
 * over a ring, from which the host takes what the schedule says, keeps a journal of that, and
 * writes what the host took.
 * Usage: careful_recorder record W | journal W */
#include <stdbool.h>
#include <stdint.h>
#include <stdio.h>
#include <stdlib.h>
#include <string.h>
#include "journal.h"
#include "workload.h"

/* More bytes than a recording has. */
enum { MOST_SENT = 181000000 };

/* A line cut at its keyword; its text stays where the file has it. */
struct line {
    enum keyword keyword;
    const byte *at, *end, *text, *words[9];
    size_t lengths[9];
    uint64_t numbers[9];
    int count;
};

struct step {
    uint64_t advance;
    const byte *text;
    uint32_t numbers[9];
    byte keyword, count, text_length;
};

static struct step *steps;

/* Which steps are a writer's, and which of them is its next. */
static struct script {
    uint32_t first, next, end;
} scripts[MOST_WRITERS];

static bool number(const byte *word, size_t length, uint64_t *n) {
    if (length == 0 || (length > 1 && word[0] == '0')) return false;
    uint64_t value = 0;
    for (size_t i = 0; i < length; i++) {
        unsigned digit = word[i] - '0';
        if (digit > 9) return false;
        if (value < 1000000000000000000u) value = value * 10 + digit;
    }
    *n = value;
    return true;
}

/* The word at the front, and whether a space ends it. */
static bool next_word(struct line *l, const byte **word, size_t *length) {
    const byte *space = memchr(l->at, ' ', (size_t)(l->end - l->at));
    *word = l->at;
    *length = (size_t)((space ? space : l->end) - l->at);
    l->at = space ? space + 1 : l->end;
    return space != NULL;
}

static enum keyword keyword_of(const byte *word, size_t length, int from, int to) {
    for (int k = from; k < to; k++)
        if (forms[k].length == length && (byte)forms[k].word[0] == word[0] &&
            memcmp(forms[k].word, word, length) == 0)
            return (enum keyword)k;
    return UNKNOWN;
}

/* Cuts the words behind the keyword, as many as its form wants. */
static bool cut(struct line *l, const struct form *f, bool more) {
    l->count = 0;
    if (f->text > 0) {
        while (l->count < f->numbers) {
            int i = l->count++;
            if (!more) return false;
            more = next_word(l, &l->words[i], &l->lengths[i]);
            if (l->lengths[i] == 0) return false;
        }
        l->text = l->at;
        return more && l->text < l->end;
    }
    while (more) {
        if (l->count == f->numbers + f->more) return false;
        int i = l->count++;
        more = next_word(l, &l->words[i], &l->lengths[i]);
        if (l->lengths[i] == 0) return false;
    }
    return l->count >= f->numbers;
}

static bool within(struct line *l, const struct form *f) {
    for (int i = 0; i < l->count; i++) {
        uint64_t n, least = i ? f->other_least : f->least, most = i ? f->other_most : f->most;
        if (!number(l->words[i], l->lengths[i], &n) || n < least || n > most) return false;
        l->numbers[i] = n;
    }
    return true;
}

static bool printable(const struct line *l, const struct form *f) {
    if (f->text == 0) return true;
    if (l->end - l->text > f->text) return false;
    for (const byte *c = l->text; c < l->end; c++)
        if (*c < 0x20 || *c > 0x7e) return false;
    return true;
}

static bool repeated(const struct line *l) {
    if (l->keyword < TASK) return told[l->keyword];
    return l->keyword == TASK && is_task(l->numbers[0]);
}

/* What a line without a fault adds. */
static void keep(const struct line *l, const struct form *f, uint64_t advance) {
    enum keyword k = l->keyword;
    if (k < TASK) {
        told[k] = true;
        settings[k] = (uint32_t)l->numbers[0];
    } else if (k == TASK) {
        keep_task(l->numbers, l->text, l->end);
    } else if (k == WRITER) {
        scripts[writers++] = (struct script){step_count, step_count, step_count};
    } else if (k == SCHEDULE) {
        scheduled = true;
    } else if (k < START) {
        keep_turn(k, l->numbers, l->count);
    } else {
        struct step *s = &steps[step_count++];
        s->advance = advance;
        s->keyword = (byte)k;
        s->count = (byte)l->count;
        for (int i = 0; i < l->count; i++) s->numbers[i] = (uint32_t)l->numbers[i];
        if (f->identifier) s->numbers[0] = shrunk(l->numbers[0]);
        if (f->text) s->text = l->text, s->text_length = (byte)(l->end - l->text);
        scripts[writers - 1].end = step_count;
        starts += k == START;
    }
}

/* The reason of the first check that the line fails, 0 where it fails none. */
static int take_line(const byte *at, const byte *end) {
    struct line l;
    l.at = at, l.end = l.text = end;
    const byte *word, *ticks = NULL;
    size_t length, ticks_length = 0;
    uint64_t advance = 0;
    bool is_step = *at >= '0' && *at <= '9';
    bool more = next_word(&l, &word, &length);
    if (is_step) {
        if (!more) return UNKNOWN_WORD;
        ticks = word, ticks_length = length;
        more = next_word(&l, &word, &length);
    }
    l.keyword = keyword_of(word, length, is_step ? START : RING, is_step ? UNKNOWN : START);
    if (l.keyword == UNKNOWN) return UNKNOWN_WORD;
    const struct form *f = &forms[l.keyword];
    if (!may_stand(l.keyword)) return MISPLACED;
    if (!cut(&l, f, more)) return SHAPE;
    if (is_step && (!number(ticks, ticks_length, &advance) || advance > 8589934592u)) return NUMBER;
    if (!within(&l, f)) return NUMBER;
    if (!printable(&l, f)) return BAD_TEXT;
    if (f->identifier && (offset(l.numbers[0]) & ((1u << settings[SHIFT]) - 1)) != 0)
        return UNALIGNED;
    if (repeated(&l)) return REPEATED;
    if (too_many(l.keyword)) return TOO_MANY;
    if (l.keyword == STEP && l.numbers[0] >= writers) return NO_WRITER;
    keep(&l, f, advance);
    return 0;
}

/* The ring, how many bytes it holds, and what the host has taken from it. */
static byte ring[MOST_RING], *sent;
static size_t wr, rd, held, taken;

/* Where a place of the ring comes to after so many bytes. */
static size_t after(size_t place, size_t length) {
    size_t next = place + length;
    return next < settings[RING] ? next : next - settings[RING];
}

static bool store(const byte *block, size_t length) {
    size_t size = settings[RING], first = length < size - wr ? length : size - wr;
    if (length > size - 1 - held) return false;
    memcpy(ring + wr, block, first);
    if (first < length) memcpy(ring, block + first, length - first);
    wr = after(wr, length);
    held += length;
    return true;
}

/* The host takes what is stored, at most so many bytes. */
static void take(size_t most) {
    size_t size = settings[RING], length = held < most ? held : most;
    size_t first = length < size - rd ? length : size - rd;
    memcpy(sent + taken, ring + rd, first);
    if (first < length) memcpy(sent + taken + first, ring, length - first);
    rd = after(rd, length);
    held -= length;
    taken += length;
}

static byte *put_number(byte *at, uint32_t n) {
    while (n >= 0x80) {
        *at++ = (byte)(n | 0x80);
        n >>= 7;
    }
    *at++ = (byte)n;
    return at;
}

static bool on;
static uint64_t moment, last;
static uint32_t pending;

static bool store_packet(unsigned id, const byte *payload, size_t length) {
    byte block[256], *at = block;
    at = put_number(at, id);
    if (id >= 24) at = put_number(at, (uint32_t)length);
    memcpy(at, payload, length);
    at = put_number(at + length, (uint32_t)(moment - last));
    if (!store(block, (size_t)(at - block))) return false;
    last = moment;
    return true;
}

static void note_here(struct origin from, enum outcome outcome) {
    note(from, outcome, moment, taken);
}

static bool store_overflow(void) {
    byte count[5];
    bool stored = store_packet(1, count, (size_t)(put_number(count, pending) - count));
    note_here((struct origin){pending, OVERFLOW, 0}, stored ? STORED : REFUSED);
    return stored;
}

static void record(struct origin from, unsigned id, const byte *payload, size_t length) {
    if (!on) {
        note_here(from, IGNORED);
    } else if (pending > 0 && !store_overflow()) {
        note_here(from, REFUSED);
        pending++;
    } else {
        bool stored = store_packet(id, payload, length);
        note_here(from, stored ? STORED : REFUSED);
        pending = !stored;
    }
}

static byte *put_numbers(byte *at, const uint32_t *numbers, int count) {
    for (int i = 0; i < count; i++) at = put_number(at, numbers[i]);
    return at;
}

static byte *put_text(byte *at, const byte *text, size_t length) {
    *at++ = (byte)length;
    memcpy(at, text, length);
    return at + length;
}

static void record_numbers(struct origin from, unsigned id, const uint32_t *numbers, int count) {
    byte payload[64];
    record(from, id, payload, (size_t)(put_numbers(payload, numbers, count) - payload));
}

static void reply(unsigned id, const uint32_t *numbers, int count) {
    record_numbers((struct origin){0, REPLY, (byte)id}, id, numbers, count);
}

static void describe_task(uint32_t index) {
    const struct task *t = &tasks[index];
    byte payload[64], *at = put_text(put_numbers(payload, t->numbers, 2), t->name, t->name_length);
    record((struct origin){index, REPLY, 9}, 9, payload, (size_t)(at - payload));
    uint32_t stack[] = {t->numbers[0], t->numbers[2], t->numbers[3], t->numbers[4]};
    record_numbers((struct origin){index, REPLY, 21}, 21, stack, 4);
}

static void start(void) {
    static const byte zeros[10];
    on = true;
    bool stored = store(zeros, sizeof zeros);
    note_here((struct origin){0, SYNC, 0}, stored ? STORED : REFUSED);
    reply(10, NULL, 0);
    reply(24, settings + CLOCK, 4);
    reply(12, (uint32_t[]){(uint32_t)moment}, 1);
    for (uint32_t i = 0; i < task_count; i++) describe_task(i);
    reply(27, (uint32_t[]){0}, 1);
}

static void stop(void) {
    reply(11, NULL, 0);
    on = false;
}

/* A text behind the numbers of its step, and a print's options and arguments behind it. */
static void record_text(struct origin from, unsigned id, const struct step *s) {
    byte payload[160], *at = put_numbers(payload, s->numbers, s->count);
    at = put_text(at, s->text, s->text_length);
    if (id == 26) *at++ = 0, *at++ = 0;
    record(from, id, payload, (size_t)(at - payload));
}

static void play(struct origin from, const struct step *s) {
    moment += s->advance;
    switch (s->keyword) {
    case START: note_here(from, HANDLED), start(); break;
    case STOP: note_here(from, HANDLED), stop(); break;
    case NAME: record_text(from, 25, s); break;
    case PRINT: record_text(from, 26, s); break;
    case CALL: record_numbers(from, s->numbers[0], s->numbers + 1, s->count - 1); break;
    default: record_numbers(from, plain_ids[s->keyword], s->numbers, s->count);
    }
}

/* The next step of a writer; false where its script is through. */
static bool take_step(uint32_t writer) {
    struct script *script = &scripts[writer];
    if (script->next == script->end) return false;
    uint32_t step = script->next++;
    play((struct origin){step - script->first, CALLED, (byte)writer}, &steps[step]);
    return true;
}

static void take_turn(const struct turn *t) {
    if (t->reads) take(t->count);
    else
        for (uint32_t i = 0; i < t->count && take_step(t->writer); i++) continue;
}

/* A step of each writer that has one left, and behind each the host takes all. */
static bool take_round(void) {
    bool any = false;
    for (uint32_t writer = 0; writer < writers; writer++) {
        if (!take_step(writer)) continue;
        take(MOST_RING);
        any = true;
    }
    return any;
}

static int fail(int code, const char *line) {
    fputs(line, stderr);
    return code;
}

int main(int argc, char **argv) {
    bool journal = argc == 3 && strcmp(argv[1], "journal") == 0;
    if (argc != 3 || (!journal && strcmp(argv[1], "record") != 0)) return 2;
    FILE *file = fopen(argv[2], "rb");
    if (!file) return fail(3, "read fault\n");
    byte *text = malloc(MOST_BYTES + 1);
    steps = malloc(MOST_STEPS * sizeof *steps);
    turns = malloc(MOST_TURNS * sizeof *turns);
    sent = malloc(MOST_SENT);
    if (!text || !steps || !turns || !sent) return fail(10, "no memory\n");
    size_t length = fread(text, 1, MOST_BYTES + 1, file);
    if (ferror(file)) return fail(3, "read fault\n");
    if (length > MOST_BYTES) return fail(9, "longer than 67108864\n");
    uint64_t lines = 0;
    for (const byte *at = text, *end = text + length; at < end;) {
        const byte *feed = memchr(at, '\n', (size_t)(end - at)), *stop = feed ? feed : end;
        lines++;
        int reason = at == stop || *at == ';' ? 0 : take_line(at, stop);
        if (reason > 0) {
            fprintf(stderr, "workload line %llu reason %d\n", (unsigned long long)lines, reason);
            return 8;
        }
        at = stop + 1;
    }
    if (!reserve_items()) return fail(10, "no memory\n");
    for (uint32_t i = 0; i < turn_count; i++) take_turn(&turns[i]);
    while (take_round()) continue;
    take(MOST_RING);
    if (journal) {
        print_journal();
        return 0;
    }
    fputs("; sysview recording\n", stdout);
    if (fwrite(sent, 1, taken, stdout) != taken || fflush(stdout)) return fail(4, "write fault\n");
    return starts > 0 ? 0 : fail(7, "no sync\n");
}
