"""What the scripts of this folder share: runs of the built program, and the count of checks.

Each script takes the program as its argument; without one it is crates/bitstool/out/bitstool. Python is started with -B, so
that nothing is left beside the scripts.
"""
import os
import re
import subprocess
import sys
import threading
from typing import NamedTuple

TOP = os.path.dirname(os.path.dirname(os.path.abspath(__file__)))
PROGRAM = os.path.abspath(sys.argv[1] if len(sys.argv) > 1 else f"{TOP}/crates/bitstool/out/bitstool")
# A run that takes this many seconds hangs.
LONGEST = 60

REASONS = """Truncated ValueTooWide TopLevel TooDeep BlockId AbbrevWidth DirtyPadding BlockLength UndefinedAbbrev AbbrevEmpty
AbbrevEncoding FieldWidth AbbrevShape NoBlockSet BadSetBid NestedInBlockInfo TooManyValues TooLong WrapperVersion WrapperOffset
WrapperSize WrapperNested""".split()
TEXT_REASONS = "NoMagic WrapperMagic BadLine NumberTooLarge BadIndentation TooDeep TooManyValues Misplaced".split()

NO_MEMORY = "fault: no memory\n"
READ_FAILED = "fault: read failed\n"
WRITE_FAILED = "fault: write failed\n"


# The second line after a refusal or a fault, which tests/words_and_devices judges; the other scripts judge the first.
SECOND_LINE = re.compile(r"\A((?:refused|fault): .*\n)  (?:tip|system): .*\n\Z")


class Answer(NamedTuple):
    """How a run ended: its status (minus a signal's number if one ended it), its output, its errors."""

    status: object
    output: bytes
    errors: str

    def __str__(self):
        output = self.output if len(self.output) <= 80 else self.output[:80] + b".."
        return f"status {self.status}, output {output!r}, errors {self.errors!r}"


def done(output):
    return Answer(0, output, "")


def refused(reason, bit, which=""):
    return Answer(1, b"", f"refused: {which}{reason} at bit {bit}\n")


ACCEPTED = done(b"accepted\n")
SAME = done(b"same\n")
DIFFERENT = Answer(1, b"different\n", "")


def run_whole(words, given=b"", program=PROGRAM, **how):
    """Runs the program with these words and this input; `how` goes to the process in place of pipes."""
    if "stdin" not in how:
        how["input"] = given
    how.setdefault("stdout", subprocess.PIPE)
    how.setdefault("stderr", subprocess.PIPE)
    try:
        ran = subprocess.run([program, *words], timeout=LONGEST, **how)
    except subprocess.TimeoutExpired:
        return Answer("none, for it hangs", b"", "")
    return Answer(ran.returncode, ran.stdout or b"", (ran.stderr or b"").decode(errors="replace"))


def run(words, given=b"", program=PROGRAM, **how):
    """The same, without the second line after a refusal or a fault."""
    found = run_whole(words, given, program, **how)
    return found._replace(errors=SECOND_LINE.sub(r"\1", found.errors))


def same(first, second, *words):
    """Runs the program on two inputs to compare them."""
    return run(["same", "--first", str(len(first)), *words], first + second)


def run_in_pieces(words, given, size):
    """Runs the program on an input from a pipe, `size` bytes at a time: the pipe keeps separate writes separate."""
    reading, writing = os.pipe2(os.O_DIRECT | os.O_CLOEXEC)

    def write():
        with open(writing, "wb", buffering=0) as pipe:
            try:
                for at in range(0, len(given), size):
                    pipe.write(given[at : at + size])
            except BrokenPipeError:
                pass

    writer = threading.Thread(target=write)
    writer.start()
    try:
        return run(words, stdin=reading)
    finally:
        os.close(reading)
        writer.join()


def refusal_in(answer, bits):
    """Whether a run ended with a refusal: a reason of the list, at a bit of an input of this many bits, and no output."""
    line = re.fullmatch(r"refused: (\w+) at bit (\d+)\n", answer.errors)
    return bool(line) and answer.status == 1 and answer.output == b"" and line[1] in REASONS and int(line[2]) <= bits


class Checks:
    """Counts checks, and reports those that fail."""

    def __init__(self):
        self.passed = 0
        self.failed = 0

    def holds(self, name, is_well, found=""):
        """One check: whether something holds."""
        if is_well:
            self.passed += 1
        else:
            self.failed += 1
            print(f"failed: {name}{': ' if str(found) else ''}{found}", flush=True)
        return is_well

    def equal(self, name, found, wanted):
        """One check: whether the result is the wanted one."""
        return self.holds(name, found == wanted, f"found {found}; wanted {wanted}")

    def close(self):
        """The closing line, and the end of the script."""
        print(f"{self.passed} passed, {self.failed} failed", flush=True)
        sys.exit(1 if self.failed else 0)


def skip(why):
    print(f"skipped: {why}", flush=True)


def need_program():
    """Ends the script if there is no program."""
    if not os.access(PROGRAM, os.X_OK):
        print(f"failed: there is no program {PROGRAM}: make builds it\n0 passed, 1 failed", flush=True)
        sys.exit(1)
