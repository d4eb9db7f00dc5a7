"""Two programs on the same files, and where their answers differ, for bench/compare and
bench/against."""
import collections
import itertools
import os
import shutil
import subprocess

TOP = os.path.dirname(os.path.dirname(os.path.abspath(__file__)))
REASONS = [
    "", "UnknownWord", "Shape", "Number", "Repeated", "TooMany", "Unaligned", "Misplaced",
    "BadText", "NoSuchWriter", "ModuleFull"]


def answer(program, *words):
    run = subprocess.run([program, *words], stdin=subprocess.DEVNULL, capture_output=True)
    return run.returncode, run.stdout, run.stderr


def pieces(program, *words):
    """The output in pieces of a MiB, then the exit code and the errors, as where() wants them."""
    with subprocess.Popen([program, *words], stdout=subprocess.PIPE, stderr=subprocess.PIPE) as run:
        while piece := run.stdout.read(2**20):
            yield 0, piece, b""
        yield run.wait(), b"", run.stderr.read()


def where(old, new):
    """In which of the three two answers differ, and at which byte."""
    for name, a, b in zip(("exit code", "output", "errors"), old, new):
        if a != b:
            if name == "exit code":
                return f"{name} {a}, then {b}"
            at = next((k for k, (x, y) in enumerate(zip(a, b)) if x != y), min(len(a), len(b)))
            return f"{name} at byte {at}: {a[at:at + 40]!r}, then {b[at:at + 40]!r}"
    return None


class Tally:
    """How many runs were alike, which were not, and what the first program answered. Files on which
    they differ are kept in a folder."""

    def __init__(self, kept):
        self.kept = kept
        self.alike = 0
        self.differ = []
        self.codes = collections.Counter()
        self.reasons = collections.Counter()

    def add(self, other):
        self.alike += other.alike
        self.differ += other.differ
        self.codes += other.codes
        self.reasons += other.reasons

    def both(self, programs, name, *words):
        """Runs the programs, each of which must answer as the first one. Gives its answer."""
        old, *others = (answer(program, *words) for program in programs)
        differs = next(filter(None, (where(old, new) for new in others)), None)
        if differs:
            self.differ.append(f"{words[0] if words else 'no words'}, {name}: {differs}")
            if words and os.path.isfile(words[-1]) and len(os.listdir(self.kept)) < 20:
                to = name.replace(" ", "-").replace("/", "-")
                shutil.copy(words[-1], os.path.join(self.kept, to))
        else:
            self.alike += 1
        self.codes[words[0] if words else "", old[0]] += 1
        return old

    def large(self, programs, name, *words):
        """The same where the output is too long to be held."""
        command = words[0]
        both = [pieces(program, *words) for program in programs]
        for at, (old, new) in enumerate(itertools.zip_longest(*both, fillvalue=(None, b"", b""))):
            differs = where(old, new)
            if differs:
                self.differ.append(f"{command}, {name}, past {at} MiB: {differs}")
                break
        else:
            self.alike += 1
        for run in both:
            run.close()
        self.codes[command, old[0]] += 1

    def report(self, name):
        """Prints what was run, and gives the exit code."""
        for command in sorted({command for command, _ in self.codes} - {""}):
            codes = sorted((code, n) for (of, code), n in self.codes.items() if of == command)
            print(f"{command}: " + ", ".join(f"exit code {code} {n} times" for code, n in codes))
        total = sum(n for (of, _), n in self.codes.items() if of == "record")
        share = 100 * (total - sum(self.reasons.values())) // max(total, 1)
        named = ", ".join(f"{REASONS[reason]} {n}" for reason, n in sorted(self.reasons.items()))
        print(f"record: {share} of 100 workloads have no fault; of the others {named}")
        for line in self.differ[:20]:
            print("differs: " + line)
        if self.differ:
            print(f"files with which they differ: {self.kept}")
        print(f"{name}: {self.alike} runs alike, {len(self.differ)} differ")
        return 1 if self.differ else 0


def put(path, content):
    with open(path, "wb") as out:
        out.write(content)
