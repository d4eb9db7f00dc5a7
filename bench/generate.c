/* Writes a recording of about the given number of bytes to standard output: what a small system
 * sends that is started once and then runs. Of 100 packets some 30 are task switches, 24
 * interrupts, 16 ready, 12 markers, 12 calls and their ends, 4 idle, and 2 carry a text.
 * Usage: generate BYTES */
#include <stdint.h>
#include <stdio.h>
#include <stdlib.h>
#include <string.h>

static uint64_t written;
static uint32_t state = 1;

static uint32_t draw(uint32_t below) {
    state = state * 1664525u + 1013904223u;
    return (uint32_t)(((uint64_t)(state >> 8) * below) >> 24);
}

static void byte(unsigned b) {
    putchar((int)b);
    written++;
}

static void number(uint32_t n) {
    while (n >= 0x80) {
        byte((n & 0x7f) | 0x80);
        n >>= 7;
    }
    byte(n);
}

static void text(const char *t) {
    byte((unsigned)strlen(t));
    while (*t) byte((unsigned char)*t++);
}

static unsigned number_length(uint32_t n) {
    unsigned length = 1;
    while (n >= 0x80) {
        n >>= 7;
        length++;
    }
    return length;
}

static void start(void) {
    static const char *names[] = {"Idle",    "Main",   "Sensor",  "Control",
                                  "Network", "Logger", "Display", "Watchdog"};
    fputs("; recorded by generate\n", stdout);
    written += 23;
    for (int i = 0; i < 10; i++) byte(0);
    byte(10), number(0);
    byte(24), byte(3 + 3 + 5 + 1), number(1000000), number(1000000), number(536870912), number(2);
    number(0);
    byte(14), text("N=Generated,D=Small system"), number(3);
    byte(12), number(40), number(1);
    for (uint32_t task = 1; task <= 8; task++) {
        byte(9), number(task), number(task), text(names[task - 1]), number(2);
        byte(21), number(task), number(536870912 + 1024 * task), number(1024), number(0), number(1);
    }
    byte(27), byte(1), number(2), number(0);
    byte(22), number(0), number(512), text("M=Net,0 Send,1 Receive"), number(1);
    byte(22), number(1), number(544), text("M=File,0 Open,1 Write"), number(1);
}

int main(int argc, char **argv) {
    uint64_t bytes = argc > 1 ? strtoull(argv[1], NULL, 10) : 1 << 20;
    start();
    while (written < bytes) {
        uint32_t kind = draw(100), delta = 1 + draw(draw(8) ? 120 : 3000);
        if (kind < 20) {
            byte(4), number(1 + draw(8));
        } else if (kind < 30) {
            byte(5);
        } else if (kind < 42) {
            byte(2), number(15 + draw(32));
        } else if (kind < 51) {
            byte(3);
        } else if (kind < 54) {
            byte(18);
        } else if (kind < 66) {
            byte(6), number(1 + draw(8));
        } else if (kind < 70) {
            byte(7), number(1 + draw(8)), number(draw(4));
        } else if (kind < 76) {
            byte(15), number(draw(200));
        } else if (kind < 82) {
            byte(16), number(draw(200));
        } else if (kind < 88) {
            uint32_t a = draw(1 << 20), b = draw(64);
            unsigned id = 512 + draw(64);
            byte((id & 0x7f) | 0x80), byte(id >> 7), byte(number_length(a) + number_length(b));
            number(a), number(b);
        } else if (kind < 94) {
            uint32_t event = 512 + draw(64), value = draw(300);
            byte(28), byte(number_length(event) + number_length(value));
            number(event), number(value);
        } else if (kind < 98) {
            byte(17);
        } else {
            static const char *says[] = {"queue is full", "sample taken", "link up", "retry"};
            const char *t = says[draw(4)];
            uint32_t arg = draw(100000);
            byte(26), byte((unsigned)strlen(t) + 1 + 1 + 1 + number_length(arg));
            text(t), number(0), number(1), number(arg);
        }
        number(delta);
    }
    return ferror(stdout) || fflush(stdout);
}
