/* What the C programs that read packets know of them. */
#ifndef PACKET_H
#define PACKET_H
#include <stdbool.h>
#include <stddef.h>
#include <stdint.h>

enum { DATA_SAMPLE = 23, INIT, NAME_RESOURCE, PRINT_FORMATTED, KINDS = 30 };

/* Why a packet does not go on with a byte. */
enum { CUT, BAD_NUMBER, BAD_IDENTIFIER, BAD_LENGTH, BAD_TEXT };

/* By identifier: the name, how many numbers are wanted at least and at most, and whether a text. */
static const struct kind {
    char name[16];
    unsigned char length, least, most, text;
} kinds[KINDS] = {
#define KIND(name, ...) {name, sizeof name - 1, __VA_ARGS__}
    KIND("NOP", 0, 0, 0), KIND("OVERFLOW", 1, 1, 0), KIND("ISR_ENTER", 1, 1, 0),
    KIND("ISR_EXIT", 0, 0, 0), KIND("TASK_START_EXEC", 1, 1, 0), KIND("TASK_STOP_EXEC", 0, 0, 0),
    KIND("TASK_START_READY", 1, 1, 0), KIND("TASK_STOP_READY", 2, 2, 0),
    KIND("TASK_CREATE", 1, 1, 0), KIND("TASK_INFO", 2, 2, 1), KIND("TRACE_START", 0, 0, 0),
    KIND("TRACE_STOP", 0, 0, 0), KIND("SYSTIME_CYCLES", 1, 1, 0), KIND("SYSTIME_US", 2, 2, 0),
    KIND("SYSDESC", 0, 0, 1), KIND("MARK_START", 1, 1, 0), KIND("MARK_STOP", 1, 1, 0),
    KIND("IDLE", 0, 0, 0), KIND("ISR_TO_SCHEDULER", 0, 0, 0), KIND("TIMER_ENTER", 1, 1, 0),
    KIND("TIMER_EXIT", 0, 0, 0), KIND("STACK_INFO", 4, 4, 0), KIND("MODULEDESC", 2, 2, 1),
    KIND("", 0, 0, 0), KIND("INIT", 4, 4, 0), KIND("NAME_RESOURCE", 1, 1, 1),
    KIND("PRINT_FORMATTED", 0, 0, 0), KIND("NUMMODULES", 1, 1, 0), KIND("END_CALL", 1, 2, 0),
    KIND("TASK_TERMINATE", 1, 1, 0)};

/* One packet; its text, payload and arguments stay where they were read. */
struct packet {
    uint32_t id, count, numbers[4], delta, arg_count;
    bool opaque;
    const unsigned char *text, *payload, *args;
    size_t text_length, payload_length;
};

#endif
