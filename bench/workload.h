/* The language of workloads, and what its lines so far have said, for the C programs that play
 * them. */
#ifndef WORKLOAD_H
#define WORKLOAD_H
#include <stdbool.h>
#include <stddef.h>
#include <stdint.h>

typedef unsigned char byte;

enum { MOST_BYTES = 1 << 26, MOST_STEPS = 1 << 20, MOST_TURNS = 1 << 20, MOST_RING = 65536 };
enum { MOST_WRITERS = 16 };
enum {
    UNKNOWN_WORD = 1, SHAPE, NUMBER, REPEATED, TOO_MANY, UNALIGNED, MISPLACED, BAD_TEXT, NO_WRITER
};
#define MOST_32 4294967295u

enum keyword {
    RING, CLOCK, CPU, BASE, SHIFT, TASK, WRITER, SCHEDULE, STEP, READ,
    START, STOP, NOP, ISR, ISR_EXIT, RUN, HALT, READY, UNREADY, CREATE, TERMINATE,
    MARK, MARK_END, IDLE, SCHED, TIMER, TIMER_EXIT, NAME, PRINT, CALL, RETURN, UNKNOWN
};

/* What stands behind a keyword: the range of the first number and that of the others. */
static const struct form {
    const char *word;
    size_t length;
    int numbers, more, text;
    bool identifier;
    uint64_t least, most, other_least, other_most;
} forms[] = {
#define FORM(word, ...) {word, sizeof word - 1, __VA_ARGS__}
#define PLAIN 0, MOST_32, 0, MOST_32
    [RING] = FORM("ring", 1, 0, 0, false, 64, 65536, 0, 0),
    [CLOCK] = FORM("clock", 1, 0, 0, false, 1, MOST_32, 0, 0),
    [CPU] = FORM("cpu", 1, 0, 0, false, 1, MOST_32, 0, 0),
    [BASE] = FORM("base", 1, 0, 0, false, PLAIN),
    [SHIFT] = FORM("shift", 1, 0, 0, false, 0, 31, 0, 0),
    [TASK] = FORM("task", 5, 0, 32, true, PLAIN),
    [WRITER] = FORM("writer", 0, 0, 0, false, PLAIN),
    [SCHEDULE] = FORM("schedule", 0, 0, 0, false, PLAIN),
    [STEP] = FORM("step", 1, 1, 0, false, 0, UINT64_MAX, 1, MOST_TURNS),
    [READ] = FORM("read", 1, 0, 0, false, 1, 65536, 0, 0),
    [START] = FORM("start", 0, 0, 0, false, PLAIN),
    [STOP] = FORM("stop", 0, 0, 0, false, PLAIN),
    [NOP] = FORM("nop", 0, 0, 0, false, PLAIN),
    [ISR] = FORM("isr", 1, 0, 0, false, PLAIN),
    [ISR_EXIT] = FORM("isr-exit", 0, 0, 0, false, PLAIN),
    [RUN] = FORM("run", 1, 0, 0, true, PLAIN),
    [HALT] = FORM("halt", 0, 0, 0, false, PLAIN),
    [READY] = FORM("ready", 1, 0, 0, true, PLAIN),
    [UNREADY] = FORM("unready", 2, 0, 0, true, PLAIN),
    [CREATE] = FORM("create", 1, 0, 0, true, PLAIN),
    [TERMINATE] = FORM("terminate", 1, 0, 0, true, PLAIN),
    [MARK] = FORM("mark", 1, 0, 0, false, PLAIN),
    [MARK_END] = FORM("mark-end", 1, 0, 0, false, PLAIN),
    [IDLE] = FORM("idle", 0, 0, 0, false, PLAIN),
    [SCHED] = FORM("sched", 0, 0, 0, false, PLAIN),
    [TIMER] = FORM("timer", 1, 0, 0, true, PLAIN),
    [TIMER_EXIT] = FORM("timer-exit", 0, 0, 0, false, PLAIN),
    [NAME] = FORM("name", 1, 0, 128, true, PLAIN),
    [PRINT] = FORM("print", 0, 0, 128, false, PLAIN),
    [CALL] = FORM("call", 1, 8, 0, false, 32, 16383, 0, MOST_32),
    [RETURN] = FORM("return", 1, 1, 0, false, PLAIN),
};

/* The identifiers of packets whose payload is the numbers of their step. */
static const byte plain_ids[] = {
    [NOP] = 0, [ISR] = 2, [ISR_EXIT] = 3, [RUN] = 4, [HALT] = 5, [READY] = 6, [UNREADY] = 7,
    [CREATE] = 8, [TERMINATE] = 29, [MARK] = 15, [MARK_END] = 16, [IDLE] = 17, [SCHED] = 18,
    [TIMER] = 19, [TIMER_EXIT] = 20, [RETURN] = 28};

/* A task, whose identifier is the first of its numbers, as it is sent. */
struct task {
    uint32_t numbers[5];
    const byte *name;
    byte name_length;
};

/* A line of the schedule: `count` steps of a writer, or a read of at most `count` bytes. */
struct turn {
    uint32_t count;
    byte writer;
    bool reads;
};

/* What the lines so far have said. */
static uint32_t settings[5] = {1024, 1000000, 1000000, 536870912, 2};
static bool told[5], scheduled;
static struct task tasks[32];
static struct turn *turns;
static uint32_t task_count, writers, step_count, starts, turn_count;

static bool may_stand(enum keyword k) {
    if (k < TASK) return writers == 0 && !((k == BASE || k == SHIFT) && task_count > 0);
    if (k == TASK) return writers == 0;
    if (k == WRITER) return !scheduled;
    if (k == STEP || k == READ) return scheduled;
    return writers > 0 && !scheduled;
}

static bool too_many(enum keyword k) {
    if (k == TASK) return task_count == 32;
    if (k == WRITER) return writers == MOST_WRITERS;
    if (k == STEP || k == READ) return turn_count == MOST_TURNS;
    return k >= START && (step_count == MOST_STEPS || (k == START && starts == 256));
}

static uint32_t offset(uint64_t id) { return (uint32_t)id - settings[BASE]; }

static uint32_t shrunk(uint64_t id) { return offset(id) >> settings[SHIFT]; }

static bool is_task(uint64_t id) {
    for (uint32_t i = 0; i < task_count; i++)
        if (tasks[i].numbers[0] == shrunk(id)) return true;
    return false;
}

static void keep_task(const uint64_t *numbers, const byte *name, const byte *end) {
    struct task *t = &tasks[task_count++];
    t->numbers[0] = shrunk(numbers[0]);
    for (int i = 1; i < 5; i++) t->numbers[i] = (uint32_t)numbers[i];
    t->name = name;
    t->name_length = (byte)(end - name);
}

/* COUNT of `step` is 1 where it is left out. */
static void keep_turn(enum keyword k, const uint64_t *numbers, int count) {
    struct turn *t = &turns[turn_count++];
    t->reads = k == READ;
    t->writer = t->reads ? 0 : (byte)numbers[0];
    t->count = t->reads ? (uint32_t)numbers[0] : count > 1 ? (uint32_t)numbers[1] : 1;
}

#endif
