"""Writes a workload of exactly so many bytes and steps to standard output: a small system that is
started once and then runs. Of 100 steps some 26 are task switches by identifiers, 22 interrupts and
their ends, 14 tasks that get ready or wait, 14 marks, 10 calls and their returns, 2 timers, and 12
carry a text. Remarks fill what is left. With `overflow` it is instead a system of four writers and
two tasks with a ring of 256 bytes, from which the host reads too little at times, so that of 15
packets one or so is lost; it has no remarks. They draw from a fixed seed, so that the same
words give the same bytes everywhere.
Usage: workload.py BYTES STEPS    at least 64 bytes for each step
       workload.py overflow STEPS"""
import sys

PROSE = (
    "the queue to the radio is full and the sample that waits behind it is dropped, "
    "so the next one goes first; "
)
TASKS = [536870912 + 1024 * k for k in range(1, 9)]


class Draw:
    def __init__(self):
        self.state = 1

    def below(self, n):
        self.state = (self.state * 1664525 + 1013904223) % 2**32
        return (self.state >> 8) * n >> 24


def prose(draw, length):
    """So many bytes of text that begin anywhere in it."""
    at = draw.below(len(PROSE) - 1)
    return (PROSE * (2 + length // len(PROSE)))[at : at + length]


def act(draw):
    kind = draw.below(100)
    task = TASKS[draw.below(8)]
    if kind < 18:
        return f"run {task}"
    if kind < 24:
        return "halt"
    if kind < 26:
        return "idle"
    if kind < 37:
        return f"isr {15 + draw.below(32)}"
    if kind < 45:
        return "isr-exit"
    if kind < 48:
        return "sched"
    if kind < 58:
        return f"ready {task}"
    if kind < 62:
        return f"unready {task} {draw.below(4)}"
    if kind < 69:
        return f"mark {draw.below(200)}"
    if kind < 76:
        return f"mark-end {draw.below(200)}"
    if kind < 81:
        return f"call {512 + draw.below(64)} {draw.below(2**20)} {draw.below(64)}"
    if kind < 86:
        return f"return {512 + draw.below(64)} {draw.below(300)}"
    if kind < 87:
        return f"timer {task}"
    if kind < 88:
        return "timer-exit"
    if kind < 90:
        return f"name {task} {prose(draw, 8 + draw.below(24))}"
    return f"print {prose(draw, 16 + draw.below(113))}"


def ticks(draw):
    return 1 + draw.below(120 if draw.below(8) else 3000)


def overflowing(steps):
    """The schedule takes some seven of eight steps, and leaves the others for the rounds."""
    draw = Draw()
    print("; written by workload.py\nring 256")
    for task, name in zip(TASKS, ("Radio", "Sensor")):
        print(f"task {task} 5 {task + 65536} 1024 0 {name}")
    for writer in range(4):
        print("writer" if writer else "writer\n0 start")
        for _ in range(0 if writer else 1, (steps + 3 - writer) // 4):
            print(f"{ticks(draw)} {act(draw)}")
    print("schedule")
    taken = 0
    while taken < steps * 7 // 8:
        count = 1 + draw.below(15)
        taken += count
        print(f"step {draw.below(4)} {count}\nread {32 + draw.below(80)}")


def filled(size, steps):
    draw = Draw()
    out = ["; written by workload.py\nring 4096\nwriter\n0 start\n"]
    written = len(out[0])
    for k in range(2, steps + 1):
        line = f"{ticks(draw)} {act(draw)}\n"
        out.append(line)
        written += len(line)
        # A line of a remark has two bytes at least, and is kept to a width.
        least = 2 if k == steps else 64
        while size * k // steps - written >= least:
            length = min(100, size * k // steps - written)
            if size - written - length == 1:
                length -= 1
            out.append(";" + prose(draw, length - 2) + "\n")
            written += length
    text = "".join(out)
    if len(text) != size:
        sys.exit(f"workload.py: {steps} steps do not fit into {size} bytes")
    sys.stdout.write(text)


if sys.argv[1] == "overflow":
    overflowing(int(sys.argv[2]))
else:
    filled(int(sys.argv[1]), int(sys.argv[2]))
