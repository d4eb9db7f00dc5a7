/* What the C programs keep of a recording's runs of ticks with equal contexts. */
#ifndef RUNS_H
#define RUNS_H
#include <stdbool.h>
#include <stdint.h>
#include <stdlib.h>
#include "packet.h"

enum {
    OVERFLOW = 1, ISR_ENTER, ISR_EXIT, TASK_START, TASK_STOP, TRACE_START = 10, TRACE_STOP,
    IDLE_BEGIN = 17, TO_SCHEDULER, TIMER_ENTER, TIMER_EXIT
};

/* The kinds of contexts, as the label of each stands in `labels`. */
enum { GAP, UNKNOWN, SCHEDULER, IDLE, TASK, TIMER, ISR };

static const struct label {
    char text[16];
    unsigned char length, numbered;
} labels[] = {{" gap", 4, 0}, {" unknown", 8, 0}, {" scheduler", 10, 0}, {" idle", 5, 0},
              {" task", 5, 1}, {" timer", 6, 1}, {" isr", 4, 1}};

struct context {
    uint32_t kind, number;
};

static inline bool same(struct context a, struct context b) {
    return a.kind == b.kind && a.number == b.number;
}

/* The context of the last base event, the open frames, the run that may still grow, and the context
 * of the ticks to come. */
static struct {
    struct context base, run, ahead;
    struct context *frames;
    size_t depth, room;
    uint64_t start, last;
} runs;

static void open_frame(uint32_t kind, uint32_t number) {
    if (runs.depth == runs.room) {
        runs.room = runs.room == 0 ? 16 : 2 * runs.room;
        runs.frames = realloc(runs.frames, runs.room * sizeof *runs.frames);
        if (!runs.frames) exit(10);
    }
    runs.frames[runs.depth++] = (struct context){kind, number};
}

static void set_base(uint32_t kind, uint32_t number) {
    runs.base = (struct context){kind, number};
    runs.depth = 0;
}

static inline void set_ahead(void) {
    runs.ahead = runs.depth > 0 ? runs.frames[runs.depth - 1] : runs.base;
}

/* The ticks up to this time have this context. Whether a run has ended, and which. */
static inline bool pass_ticks(uint64_t time, struct context to, uint64_t *start, uint64_t *end,
                              struct context *context) {
    bool ended = false;
    if (runs.last < time && !same(to, runs.run)) {
        ended = runs.start < runs.last;
        *start = runs.start;
        *end = runs.last;
        *context = runs.run;
        runs.start = runs.last;
        runs.run = to;
    }
    runs.last = time;
    return ended;
}

/* What the packet does to the context of the ticks after it. */
static inline void change(const struct packet *p) {
    if (p->opaque) return;
    switch (p->id) {
    case OVERFLOW: case TRACE_START: set_base(UNKNOWN, 0); break;
    case TRACE_STOP:
        set_base(UNKNOWN, 0);
        runs.ahead = (struct context){GAP, 0};
        return;
    case ISR_ENTER: open_frame(ISR, p->numbers[0]); break;
    case TIMER_ENTER: open_frame(TIMER, p->numbers[0]); break;
    case ISR_EXIT: case TIMER_EXIT: if (runs.depth > 0) runs.depth--; break;
    case TASK_START: set_base(TASK, p->numbers[0]); break;
    case TASK_STOP: case TO_SCHEDULER: set_base(SCHEDULER, 0); break;
    case IDLE_BEGIN: set_base(IDLE, 0); break;
    default: break;
    }
    set_ahead();
}

/* Whether nothing is known of the ticks up to the packet. */
static inline bool ends_gap(const struct packet *p) {
    return !p->opaque && (p->id == OVERFLOW || p->id == TRACE_START);
}

/* Goes on with one packet at its time. Whether a run has ended, and which. */
static inline bool go_on(uint64_t time, const struct packet *p, uint64_t *start, uint64_t *end,
                         struct context *context) {
    struct context to = ends_gap(p) ? (struct context){GAP, 0} : runs.ahead;
    bool ended = pass_ticks(time, to, start, end, context);
    change(p);
    return ended;
}

static inline void begin_runs(void) {
    runs.base = (struct context){UNKNOWN, 0};
    runs.run = runs.ahead = (struct context){GAP, 0};
}

#endif
