/* The journal that the C programs keep while they play a workload: what they did, one thing after
 * the other. */
#ifndef JOURNAL_H
#define JOURNAL_H
#include <stdio.h>
#include <stdlib.h>
#include "workload.h"

enum kind { CALLED, SYNC, REPLY, OVERFLOW };
enum outcome { STORED, REFUSED, IGNORED, HANDLED };

/* A call's writer and step, a reply's identifier and index, or an overflow's count. */
struct origin {
    uint32_t number;
    byte kind, of;
};

struct item {
    uint64_t moment, freed;
    uint32_t number;
    byte kind, of, outcome;
};

static struct item *items, *items_end;

/* Room for as many items as the workload can need: a packet may have an overflow before it, and a
 * start or a stop has an item of its own. */
static bool reserve_items(void) {
    size_t packets = 4 + 2 * task_count;
    items = items_end = malloc((3 * step_count + starts * (2 + 2 * packets)) * sizeof *items);
    return items != NULL;
}

static inline void note(struct origin from, enum outcome outcome, uint64_t moment, uint64_t freed) {
    *items_end++ = (struct item){moment, freed, from.number, from.kind, from.of, (byte)outcome};
}

/* A line for each item: where it comes from, its moment, the bytes freed, and the outcome. */
static void print_journal(void) {
    static const char *const kinds[] = {"call", "sync", "reply", "overflow"};
    static const char *const outcomes[] = {"stored", "refused", "ignored", "handled"};
    for (const struct item *i = items; i < items_end; i++)
        printf("%s %d %u at %llu freed %llu %s\n", kinds[i->kind], i->of, i->number,
               (unsigned long long)i->moment, (unsigned long long)i->freed, outcomes[i->outcome]);
}

#endif
