/* What the C programs keep of a recording for its report, and how they print it: the load of each
 * context, the latencies of each task, and the names. Rows are found by a search that begins with
 * the one that was found last. */
#ifndef REPORT_H
#define REPORT_H
#include <stdbool.h>
#include <stdint.h>
#include <stdlib.h>
#include <string.h>
#include "out.h"
#include "packet.h"
#include "runs.h"

enum { READY = 6, UNREADY = 7, TASK_INFO = 9, SYSDESC = 14, MODULEDESC = 22 };

struct name {
    byte *text;
    size_t length;
};

struct load {
    struct context context;
    uint64_t ticks;
};

/* A task: its starts, and the last packet about it, at a time and in a segment. */
struct task {
    uint32_t task;
    bool ready;
    uint64_t starts, measured, least, most, sum, resumed, unknown, segment, time;
};

struct named {
    uint32_t number, offset;
    struct name name;
};

static struct {
    uint64_t packets, lost, overflows, anomalies, segment;
    bool has_system;
    uint32_t system[4];
    struct load *loads;
    struct task *tasks;
    struct named *names, *modules;
    struct name *descs;
    size_t load_count, load, task_count, task, name_count, module_count, desc_count;
} told;

/* Room for one more in a list of so many, which doubles where it is full. */
static void *room_for(void *list, size_t count, size_t size) {
    if (count != 0 && (count < 16 || (count & (count - 1)) != 0)) return list;
    list = realloc(list, (count < 16 ? 16 : 2 * count) * size);
    if (!list) exit(10);
    return list;
}

static struct name copy(const byte *text, size_t length) {
    byte *kept = malloc(length + 1);
    if (!kept) exit(10);
    memcpy(kept, text, length);
    return (struct name){kept, length};
}

static bool same_name(struct name a, const byte *text, size_t length) {
    return a.length == length && memcmp(a.text, text, length) == 0;
}

static inline void add_ticks(struct context context, uint64_t ticks) {
    size_t at = told.load;
    if (at >= told.load_count || !same(told.loads[at].context, context)) {
        for (at = 0; at < told.load_count && !same(told.loads[at].context, context); at++) {}
        if (at == told.load_count) {
            told.loads = room_for(told.loads, at, sizeof *told.loads);
            told.loads[told.load_count++] = (struct load){context, 0};
        }
        told.load = at;
    }
    told.loads[at].ticks += ticks;
}

static inline struct task *task_row(uint32_t number) {
    size_t at = told.task;
    if (at >= told.task_count || told.tasks[at].task != number) {
        for (at = 0; at < told.task_count && told.tasks[at].task != number; at++) {}
        if (at == told.task_count) {
            told.tasks = room_for(told.tasks, at, sizeof *told.tasks);
            told.tasks[told.task_count++] = (struct task){.task = number, .segment = UINT64_MAX};
        }
        told.task = at;
    }
    return &told.tasks[at];
}

static void start(struct task *task, uint64_t time) {
    task->starts++;
    if (task->segment != told.segment) {
        task->unknown++;
    } else if (!task->ready) {
        task->resumed++;
    } else {
        uint64_t wait = time - task->time;
        if (task->measured == 0 || wait < task->least) task->least = wait;
        if (wait > task->most) task->most = wait;
        task->measured++;
        task->sum += wait;
    }
}

static inline void see(uint32_t number, uint64_t time, bool ready, bool starts) {
    struct task *task = task_row(number);
    if (starts) start(task, time);
    task->segment = told.segment;
    task->ready = ready;
    task->time = time;
}

static void describe(const struct packet *p) {
    for (size_t i = 0; i < told.desc_count; i++)
        if (same_name(told.descs[i], p->text, p->text_length)) return;
    told.descs = room_for(told.descs, told.desc_count, sizeof *told.descs);
    told.descs[told.desc_count++] = copy(p->text, p->text_length);
}

static void put_name(struct named **list, size_t *count, uint32_t offset, const struct packet *p) {
    size_t at = 0;
    for (; at < *count && (*list)[at].number != p->numbers[0]; at++) {}
    if (at == *count) {
        *list = room_for(*list, at, sizeof **list);
        ++*count;
    } else {
        free((*list)[at].name.text);
    }
    (*list)[at] = (struct named){p->numbers[0], offset, copy(p->text, p->text_length)};
}

/* Goes on with one packet at its time. */
static inline void tell(uint64_t time, const struct packet *p) {
    uint64_t from, to;
    struct context context;
    if (!p->opaque && (p->id == ISR_EXIT || p->id == TIMER_EXIT)) told.anomalies += runs.depth == 0;
    if (go_on(time, p, &from, &to, &context)) add_ticks(context, to - from);
    told.packets++;
    if (p->opaque) return;
    switch (p->id) {
    case OVERFLOW:
        told.lost += p->numbers[0];
        told.overflows++;
        told.segment++;
        break;
    case TRACE_START: case TRACE_STOP: told.segment++; break;
    case TASK_START: see(p->numbers[0], time, false, true); break;
    case READY: see(p->numbers[0], time, true, false); break;
    case UNREADY: see(p->numbers[0], time, false, false); break;
    case TASK_INFO: put_name(&told.names, &told.name_count, 0, p); break;
    case SYSDESC: describe(p); break;
    case MODULEDESC: put_name(&told.modules, &told.module_count, p->numbers[1], p); break;
    case INIT:
        told.has_system = true;
        memcpy(told.system, p->numbers, sizeof told.system);
        break;
    default: break;
    }
}

static int by_context(const void *a, const void *b) {
    const struct context *x = &((const struct load *)a)->context;
    const struct context *y = &((const struct load *)b)->context;
    if (x->kind != y->kind) return x->kind < y->kind ? -1 : 1;
    return x->number < y->number ? -1 : x->number > y->number;
}

static int by_task(const void *a, const void *b) {
    uint32_t x = ((const struct task *)a)->task, y = ((const struct task *)b)->task;
    return x < y ? -1 : x > y;
}

static char *put_counted(char *at, const char *words, uint64_t number) {
    char digits[20], *first = digits + sizeof digits;
    at = put_text(reserve(at), words);
    do *--first = (char)('0' + number % 10);
    while (number /= 10);
    size_t length = (size_t)(digits + sizeof digits - first);
    memcpy(at, first, length);
    return at + length;
}

static char *put_load(char *at, const struct load *load) {
    const struct label *label = &labels[load->context.kind];
    at = put_text(reserve(at), "load");
    memcpy(at, label->text, label->length);
    at += label->length;
    if (label->numbered) at = put_counted(at, " ", load->context.number);
    at = put_counted(at, " ", load->ticks);
    at = put_counted(at, " ", 1000 * load->ticks / runs.last);
    *at++ = '\n';
    return at;
}

static char *put_task(char *at, const struct task *task) {
    at = put_counted(at, "task ", task->task);
    if (told.has_system && told.system[3] <= 31) {
        uint32_t id = told.system[2] + (task->task << told.system[3]);
        at = put_text(at, " 0x");
        for (int shift = 24; shift >= 0; shift -= 8) at = put_hex(at, (byte)(id >> shift));
    } else {
        at = put_text(at, " -");
    }
    *at++ = ' ';
    size_t name = 0;
    for (; name < told.name_count && told.names[name].number != task->task; name++) {}
    if (name == told.name_count) *at++ = '-';
    else at = put_quoted(at, told.names[name].name.text, told.names[name].name.length);
    at = put_counted(at, " starts ", task->starts);
    at = put_counted(at, " measured ", task->measured);
    at = task->measured ? put_counted(at, " min ", task->least) : put_text(at, " min -");
    at = task->measured ? put_counted(at, " max ", task->most) : put_text(at, " max -");
    at = put_counted(at, " sum ", task->sum);
    at = put_counted(at, " resumed ", task->resumed);
    at = put_counted(at, " unknown ", task->unknown);
    *at++ = '\n';
    return at;
}

/* All lines but the end line. */
static char *put_report(char *at) {
    if (runs.last > 0) add_ticks(runs.run, runs.last - runs.start);
    at = put_counted(at, "packets ", told.packets);
    at = put_counted(at, "\nticks ", runs.last);
    at = put_counted(at, "\nlost ", told.lost);
    at = put_counted(at, " in ", told.overflows);
    at = put_counted(at, "\nanomalies ", told.anomalies);
    if (told.has_system) {
        at = put_counted(at, "\nsystem ", told.system[0]);
        at = put_counted(at, " ", told.system[1]);
    } else {
        at = put_text(at, "\nsystem - -");
    }
    *at++ = '\n';
    for (size_t i = 0; i < told.desc_count; i++) {
        at = put_text(reserve(at), "desc ");
        at = put_quoted(at, told.descs[i].text, told.descs[i].length);
        *at++ = '\n';
    }
    for (size_t i = 0; i < told.module_count; i++) {
        at = put_counted(at, "module ", told.modules[i].number);
        at = put_counted(at, " ", told.modules[i].offset);
        *at++ = ' ';
        at = put_quoted(at, told.modules[i].name.text, told.modules[i].name.length);
        *at++ = '\n';
    }
    if (told.load_count) qsort(told.loads, told.load_count, sizeof *told.loads, by_context);
    for (size_t i = 0; i < told.load_count; i++)
        if (told.loads[i].ticks > 0) at = put_load(at, &told.loads[i]);
    if (told.task_count) qsort(told.tasks, told.task_count, sizeof *told.tasks, by_task);
    for (size_t i = 0; i < told.task_count; i++)
        if (told.tasks[i].starts > 0) at = put_task(at, &told.tasks[i]);
    return at;
}

#endif
