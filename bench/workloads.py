"""Workloads and recordings by seed, some valid and some not, for bench/compare and bench/against:
every keyword, up to 16 writers, tasks, small rings and schedules that let them overflow, numbers at
their limits and past them, words that miss or are too many, texts too long or with bytes that no
text has, lines at wrong places, settings and tasks told twice, remarks, empty lines and line ends
of two bytes.
Usage: workloads.py SEED > W"""
import random
import sys

MOST = 2**32 - 1
SETTINGS = {
    "ring": (64, 65536), "clock": (1, MOST), "cpu": (1, MOST), "base": (0, MOST), "shift": (0, 31)}
# What stands behind a step's keyword: i an identifier, n a number, e an event, ? one number or
# none, * up to 8 numbers, t a text.
STEPS = {
    "start": "", "stop": "", "nop": "", "isr": "n", "isr-exit": "", "sched": "", "run": "i",
    "halt": "", "ready": "i", "unready": "in", "create": "i", "terminate": "i", "idle": "",
    "mark": "n", "mark-end": "n", "timer": "i", "timer-exit": "", "name": "it", "print": "t",
    "call": "e*", "return": "n?",
}
STRANGE = [
    "blink", "time", "desc", "module", "command", "send", "Ring", "NOP", "mark_end", "isr-exi",
    "timer-exits", "terminat", "", "5", "st\u00e9p", "nop\t", "writers", "schedul"]
BAD_NUMBERS = [
    "", "0", "00", "07", "-1", "+1", "0x10", "1.0", "1e3", "x", "31", "32", "63", "256", "16383",
    "16384", "65537", "1048576", "1048577", "4294967295", "4294967296", "8589934592", "8589934593",
    "18446744073709551615", "18446744073709551616", "99999999999999999999999", "5 ", " 5", "5\t",
    "\u0665", "5;"]
BAD_BYTES = [0, 9, 13, 31, 127, 128, 255]
BAD_TURNS = [
    "step 1", "step 16", "step 0 0", "read 0", "read 65537", "step 4294967296", "schedule"]


class Maker:
    def __init__(self, seed):
        self.r = random.Random(seed)
        self.base, self.shift = 536870912, 2

    def number(self, least=0, most=MOST):
        r = self.r
        near = [least, least + 1, most - 1, most, 127, 128, 16383, 16384, 2**21, 2**28]
        n = r.choice(near + [r.randrange(300)]) if r.random() < 0.7 else r.randint(least, most)
        return min(max(n, least), most)

    def ticks(self):
        return self.r.choice([0, 1, 5, 100, 127, 128, 3000, self.number(), 8589934592])

    def identifier(self):
        k = self.r.choice([0, 1, 257, self.r.getrandbits(32 - self.shift)])
        return (self.base + (k << self.shift)) % 2**32

    def text(self, most):
        r = self.r
        length = r.choice([1, 2, 8, 20, most - 1, most, r.randint(1, most)])
        return "".join(chr(r.randint(0x20, 0x7E)) for _ in range(length))

    def act(self, keyword):
        out = [keyword]
        for part in STEPS[keyword]:
            if part == "i":
                out.append(self.identifier())
            elif part == "n":
                out.append(self.number())
            elif part == "e":
                out.append(self.number(32, 16383))
            elif part == "t":
                out.append(self.text(128))
            else:
                count = self.r.randint(0, 8 if part == "*" else 1)
                out.extend(self.number() for _ in range(count))
        return " ".join(map(str, out))

    def step(self, keyword=None):
        return f"{self.ticks()} {self.act(keyword or self.r.choice(list(STEPS)))}"

    def task(self):
        id = self.identifier()
        numbers = " ".join(str(self.number()) for _ in range(4))
        return id, f"task {id} {numbers} {self.text(32)}"

    def settings(self):
        r, out = self.r, []
        if r.random() < 0.6:
            out.append(f"ring {r.choice([64, 65, 100, 128, 256, 300, 1000])}")
        for name in r.sample(list(SETTINGS), r.choice([0, 0, 1, 2, 5])):
            if name == "ring" and out:
                continue
            least, most = SETTINGS[name]
            n = self.number(least, most)
            if name == "base":
                self.base = n
            if name == "shift":
                self.shift = n
            out.append(f"{name} {n}")
        r.shuffle(out)
        return out

    def turn(self, writers):
        r = self.r
        if r.random() < 0.4:
            most = r.choice([1, 40, 300, 65536])
            return f"read {r.choice([r.randint(1, most), self.number(1, most)])}"
        step = f"step {r.randrange(writers)}"
        count = r.choice([0, r.randint(1, 5), r.randint(1, 40), self.number(1, 1048576)])
        return f"{step} {count}" if count else step

    def valid(self):
        """Lines without a fault."""
        r = self.r
        out = self.settings()
        if r.random() < 0.4:
            told = set()
            for _ in range(r.choice([1, 1, 2, 5, 32])):
                id, line = self.task()
                if id not in told:
                    out.append(line)
                told.add(id)
        writers = r.choice([1, 1, 1, 2, 3, 4, 16])
        starts = 0
        for _ in range(writers):
            out.append("writer")
            if r.random() < 0.7:
                # else most scripts would record nothing
                out.append(self.step("start"))
                starts += 1
            for _ in range(r.choice([0, 1, 3, 10, 30, 60])):
                line = self.step("start" if r.random() < 0.1 else None)
                starts += " start" in line
                if starts <= 256:
                    out.append(line)
        if r.random() < 0.03:
            out.extend(["0 start"] * max(256 - starts, 0))
        if r.random() < 0.7:
            out.append("schedule")
            out.extend(self.turn(writers) for _ in range(r.choice([0, 1, 5, 20, 60])))
        return out

    def change(self, lines):
        """One change, after which the lines have a fault in most cases."""
        r = self.r
        at = r.randrange(len(lines)) if lines else 0
        line = lines[at] if lines else ""
        words = line.split(" ")
        word = r.randrange(len(words))
        kind = r.randrange(13)
        if kind == 0:
            words[r.choice([0, min(1, len(words) - 1)])] = r.choice(STRANGE)
        elif kind == 1:
            words[word] = r.choice(BAD_NUMBERS)
        elif kind == 2:
            words.insert(word, r.choice(["", "7", "x", "nop"]))
        elif kind == 3:
            del words[word]
        elif kind == 4:
            words.append(r.choice(["", "1", "text"]))
        elif kind == 5:
            text = bytearray(" ".join(words).encode("latin-1", "replace"))
            byte = r.choice(BAD_BYTES + [10, 32, r.randrange(256)])
            text.insert(r.randint(0, len(text)), byte)
            words = text.decode("latin-1").split(" ")
        elif kind == 6:
            bad = chr(r.choice(BAD_BYTES))
            if r.random() < 0.2:
                front, most, at = f"task {self.identifier()} 1 2 3 4 ", 32, 0
            else:
                front, most = self.ticks(), 128
                front = f"{front} " + r.choice(["print ", f"name {self.identifier()} "])
            long = (self.text(most) * most)[: most + 1]
            lines.insert(at, front + r.choice([long, self.text(most - 1) + bad, bad]))
            return lines
        elif kind == 7 and lines:
            lines.insert(r.randint(0, len(lines)), lines.pop(at))
            return lines
        elif kind == 8 and lines:
            lines.insert(r.randint(at, len(lines)), line)
            return lines
        elif kind == 9:
            return lines + (["schedule"] if r.random() < 0.8 else []) + [r.choice(BAD_TURNS)]
        elif kind == 10:
            # an identifier that loses bits, where it has any to lose
            lines.insert(at + 1, f"{self.ticks()} run {(self.identifier() + 1) % 2**32}")
            return lines
        elif kind == 11:
            first, apart = self.base % 2**self.shift, 2**self.shift
            tasks = [f"task {(first + k * apart) % 2**32} 1 2 3 4 t" for k in range(33)]
            return r.choice([lines + ["0 start"] * 257, lines + ["writer"] * 17, tasks + lines])
        elif kind == 12:
            name = r.choice(list(SETTINGS))
            least, most = SETTINGS[name]
            value = r.choice([least - 1, least, most, most + 1])
            lines.insert(r.choice([0, 0, at]), f"{name} {value}")
            return lines
        if lines:
            lines[at] = " ".join(words)
        else:
            lines = [" ".join(words)]
        return lines

    def workload(self):
        r = self.r
        lines = self.valid()
        if r.random() < 0.58:
            for _ in range(r.choice([1, 1, 1, 2])):
                lines = self.change(lines)
        for _ in range(r.choice([0, 0, 1, 3])):
            remark = ";" + "".join(chr(r.choice(BAD_BYTES)) for _ in range(r.randrange(30)))
            line = r.choice(["", remark, "; " + self.text(100)])
            lines.insert(r.randint(0, len(lines)), line)
        end = "\r\n" if r.random() < 0.02 else "\n"
        text = end.join(lines) + r.choice([end, end, end, ""])
        code = "latin-1" if r.random() < 0.9 else "utf-8"
        out = bytearray(text.encode(code, "replace"))
        if r.random() < 0.02 and out:
            del out[r.randrange(len(out)):]
        return bytes(out)

    def spelled(self, n):
        out = bytearray()
        while n >= 128:
            out.append(n & 127 | 128)
            n >>= 7
        out.append(n)
        if self.r.random() < 0.005:
            out[-1] |= 128
            out.append(0)
        return bytes(out)

    def numbers(self, count):
        return b"".join(self.spelled(self.number()) for _ in range(count))

    def text_bytes(self, lengths):
        r = self.r
        length = r.choice(lengths)
        part = bytes(r.choice(b'abc"\\\x00\xff~ \x7f\x1f') for _ in range(min(length, 300)))
        text = (part * (length // max(1, len(part)) + 1))[:length]
        head = bytes([length]) if length < 255 else bytes([255, length & 255, length >> 8])
        return head + text

    def packet(self):
        r = self.r
        counts = [0, 1, 1, 0, 1, 0, 1, 2, 1, 2, 0, 0, 1, 2, 0, 1, 1, 0, 0, 1, 0, 4, 2]
        id = r.randrange(33) if r.random() < 0.999 else 23
        id = 9 if id == 23 and r.random() < 0.98 else id
        if id < 24:
            out = bytes([id]) + self.numbers((counts + [0])[id])
            if id in (9, 14, 22):
                out += self.text_bytes([0, 1, 3, 20, 127, 254, 255, 256, 300, 5000, 65535])
            return out + self.spelled(self.number())
        if id == 26:
            count = r.choice([0, 1, 3, 200])
            body = self.text_bytes([0, 3, 50, 255, 600]) + self.numbers(1)
            body += self.spelled(count) + self.numbers(count)
        elif id >= 30:
            id = r.choice([30, 100, 127, 128, 512, 16383])
            body = r.randbytes(r.choice([0, 1, 5, 300]))
        else:
            count = {24: 4, 25: 1, 27: 1, 28: r.choice([0, 1, 2, 2, 3]), 29: 1}[id]
            body = self.numbers(count)
            body += self.text_bytes([0, 3, 50, 255, 600]) if id == 25 else b""
        if r.random() < 0.06:
            body = r.choice([body[:-1], body + b"\x01"])
        return self.spelled(id) + self.spelled(len(body)) + body + self.spelled(self.number())

    def recording(self):
        r = self.r
        front = r.choice([b"", b"; recorded\n", b"; x\n\0\0y"])
        front += bytes(r.choice([10, 10, 10, 10, 11, 9, 30]))
        return front + b"".join(self.packet() for _ in range(r.choice([1, 5, 30, 300])))

    def damaged(self, recording):
        """The recording with some bytes changed, left out or added, or cut."""
        r = self.r
        out = bytearray(recording)
        for _ in range(r.choice([0, 0, 1, 1, 3])):
            at = r.randrange(len(out) + 1)
            kind = r.randrange(3)
            if kind == 0 and at < len(out):
                out[at] = r.choice([0, 23, 128, 255, r.randrange(256)])
            elif kind == 1:
                del out[at:at + 1]
            else:
                out.insert(at, r.randrange(256))
        if r.random() < 0.4:
            del out[r.randrange(len(out) + 1):]
        return bytes(out)


def limits():
    """Workloads as long as one may be, and one more, by their names."""
    step, turn = b"0 nop\n" * 2**20, b"read 1\n" * 2**20
    yield "most steps", b"writer\n" + step
    yield "a step more", b"writer\n" + step + b"0 nop\n"
    yield "most turns", b"writer\nschedule\n" + turn
    yield "a turn more", b"writer\nschedule\n" + turn + b"read 1\n"
    yield "most steps a turn", b"writer\nschedule\n" + b"step 0 1048576\n" * 2**20
    yield "most bytes", b"writer\n0 start\n" + b";" * (2**26 - 15)
    yield "a byte more", b"writer\n0 start\n" + b";" * (2**26 - 14)


def workload(seed):
    return Maker(seed).workload()


def recording(seed, small):
    """One of the small recordings or one of its own, damaged or not."""
    maker = Maker(seed)
    return maker.damaged(maker.r.choice(small) if maker.r.random() < 0.4 else maker.recording())


if __name__ == "__main__":
    sys.stdout.buffer.write(workload(int(sys.argv[1])))
