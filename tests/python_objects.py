"""Tests of the objects of the Python module: copies and pickles, processes, threads, texts of errors, and annotations."""
import copy
import importlib
import os
import pickle
import re
import shutil
import subprocess
import sys
import tempfile
import threading

from program import TOP, skip
from python_arguments import raised
from worked_inputs import Bits, octets

# Calls that take this many seconds hang.
LONGEST = 60
THREADS = 8
HANGS = "none, for it hangs"
CLOSED = "the handle is closed"

# Programs that run in a process of their own, since on an error they hang.
POOL = """
import concurrent.futures, multiprocessing, sys
import bitstream

GOOD, BAD = bytes.fromhex("4243c0de"), b"BC"

def main():
    with multiprocessing.get_context(sys.argv[1]).Pool(2) as pool:
        print(pool.map(bitstream.check, [GOOD] * 4))
        try:
            pool.map(bitstream.check, [GOOD, BAD, GOOD])
        except bitstream.Refused as error:
            print(error, error.reason, error.bit, error.input)
        print(pool.apply(bitstream.first_difference, (GOOD, b"DIAG", bitstream.LeftOut(blocks=[8]), bitstream.Limits(depth=3))))
    with concurrent.futures.ProcessPoolExecutor(2, multiprocessing.get_context(sys.argv[1])) as pool:
        for call, given in ((bitstream.check, BAD), (bitstream.assemble, "magic"), (bitstream.check, GOOD)):
            try:
                print(pool.submit(call, given).result())
            except bitstream.Error as error:
                print(repr(error))

if __name__ == "__main__":
    main()
"""
POOLED = """[True, True, True, True]
Truncated at bit 0 Truncated 0 0
Difference(blocks=[], items=0, first=Standing(kind='magic', bit=0, magic=b'BC\\xc0\\xde', id=0, code=0, count=0), \
second=Standing(kind='magic', bit=0, magic=b'DIAG', id=0, code=0, count=0), values=None)
Refused('Truncated at bit 0')
RefusedLine('NoMagic at line 1')
True
"""
# A signal's handler that calls the object whose call it interrupts.
INSIDE = """
import signal
import bitstream

source, found = bitstream.Input(), set()
source.feed(bytes.fromhex("4243c0de") + bytes.fromhex("210800000100000000000000") * 500000)

def call(*_):
    try:
        found.add(source.check())
    except bitstream.Error as error:
        found.add(str(error))

signal.signal(signal.SIGALRM, call)
for _ in range(20):
    signal.setitimer(signal.ITIMER_REAL, 0.001)
    assert source.check()
print(*found - {True})
"""
# Processes that are forked while a thread is in calls on an object: what each gets.
FORK = """
import os, signal, threading, warnings
import bitstream

warnings.simplefilter("ignore")
busy, idle, over = bitstream.Input(), bitstream.Input(), threading.Event()
for source in (busy, idle):
    source.feed(bytes.fromhex("4243c0de") + bytes.fromhex("210800000100000000000000") * 500000)

def calls():
    while not over.is_set():
        busy.check()

def forked():
    process = os.fork()
    if process:
        return os.waitstatus_to_exitcode(os.waitpid(process, 0)[1]) if hasattr(os, "waitstatus_to_exitcode") else os.waitpid(process, 0)[1] >> 8
    signal.alarm(20)
    try:
        os._exit(1 if idle.check() and busy.check() else 2)
    except bitstream.Error as error:
        os._exit(3 if str(error) == "the handle is closed" else 4)

thread = threading.Thread(target=calls)
thread.start()
found = {forked() for _ in range(20)}
over.set()
thread.join()
print(found <= {1, 3}, 3 in found, busy.check())
"""
# The memory for the values of an event, in bytes a value; and what happens without it.
MEMORY = """
import resource, sys
import bitstream

most = lambda: resource.getrusage(resource.RUSAGE_SELF).ru_maxrss * 1024
begun, count = most(), 1 << 22
values = [it.values for it in bitstream.events(bytes.fromhex(sys.argv[1]), bitstream.Limits(values=count))][2]
print(values == (0,) * count, (most() - begun) // count <= 16)
resource.setrlimit(resource.RLIMIT_AS, (1 << 29, 1 << 29))
for limits in (bitstream.Limits(), bitstream.Limits(values=1000000)):
    events = bitstream.events(bytes.fromhex(sys.argv[2]), limits)
    try:
        print(*[it.kind for it in events])
    except (MemoryError, bitstream.Refused) as error:
        print(repr(error), *events)
"""
TYPED = """from typing import Iterator, List, Optional, Tuple
import mmap
import bitstream

def values(data: bytes) -> Iterator[Tuple[int, ...]]:
    for event in bitstream.events(data, bitstream.Limits(values=8, shapes_at_use=True)):
        yield event.values

def pieces_of(given: mmap.mmap, names: bitstream.LeftOut) -> List[bytes]:
    with bitstream.pieces("normal", given, 4096, names) as found:
        return list(found)

def fed(pieces: List[bytearray]) -> Tuple[bool, Optional[bitstream.Difference], str]:
    with bitstream.Input() as source, bitstream.Input() as other:
        for piece in pieces:
            source.feed(piece)
        return source.check(), source.first_difference(other), source.show()

def written() -> bytes:
    with bitstream.Writer(b"DIAG") as writer:
        writer.enter(8)
        writer.record(1, range(3))
        writer.leave()
        return writer.finish()

def told(error: bitstream.Refused, line: bitstream.RefusedLine) -> Tuple[str, int, int, int]:
    return error.reason, error.bit, line.line, bitstream.FORM_VERSION + bitstream.VERSION

bitstream.check("text")  # wrong
bitstream.check(b"", limits=8)  # wrong
bitstream.Limits(value=8)  # wrong
bitstream.LeftOut(blocks=["8"])  # wrong
bitstream.Writer().record("1")  # wrong
bitstream.Input().same(b"")  # wrong
size: str = bitstream.normal(b"")  # wrong
next(bitstream.events(b"")).value  # wrong
"""


def together(*calls):
    """The results of calls that begin at once, each in a thread of its own; of an exception its type and text."""
    barrier, found = threading.Barrier(len(calls)), [HANGS] * len(calls)

    def run_one(number):
        barrier.wait()
        try:
            found[number] = calls[number]()
        except Exception as error:
            found[number] = (type(error), str(error))

    threads = [threading.Thread(target=run_one, args=(number,), daemon=True) for number in range(len(calls))]
    for it in threads:
        it.start()
    for it in threads:
        it.join(LONGEST)
    return found


def program(text, *words):
    """Runs a Python program with the module: its output and errors."""
    with tempfile.TemporaryDirectory(prefix="bitstream-") as folder:
        with open(f"{folder}/program.py", "w") as file:
            file.write(text)
        how = {**os.environ, "PYTHONPATH": f"{TOP}/capi/python"}
        process = subprocess.Popen([sys.executable, "-B", f"{folder}/program.py", *words], env=how, stdout=subprocess.PIPE,
                                   stderr=subprocess.PIPE, text=True, start_new_session=True)
        try:
            return process.communicate(timeout=LONGEST)
        except subprocess.TimeoutExpired:
            os.killpg(process.pid, 9)
            return HANGS, process.communicate()[1]


class Objects:
    """Checks of one module."""

    def __init__(self, checks, module):
        self.checks, self.module = checks, module
        self.large = octets("magic") + octets("empty") * 50000
        self.rich = module.assemble("magic 4243c0de\n" + "".join(f"block {it}\n  record 1 {it} 300\n" for it in range(8, 40)))
        self.other = module.assemble("magic 4243c0de\nblock 8\n  record 1 7 300\n")

    def equal(self, name, found, wanted):
        self.checks.equal(f"objects: {name}", found, wanted)

    def fed(self, data):
        source = self.module.Input()
        source.feed(data)
        return source

    # ---- copies

    def copies(self, it):
        """The copies of an object, by each way."""
        yield copy.copy(it)
        yield copy.deepcopy(it)
        for protocol in range(pickle.HIGHEST_PROTOCOL + 1):
            yield pickle.loads(pickle.dumps(it, protocol))

    def check_values(self):
        """A plain value is equal to its copies."""
        module = self.module
        values = [module.Limits(), module.Limits(depth=3, shapes_at_use=True), module.LeftOut(True, [8], [(8, 1)]),
                  *module.events(octets("magic info use")), module.first_difference(self.rich, self.other),
                  module.first_difference(self.rich, octets("magic")), module.report(self.rich)]
        for it in values:
            for number, found in enumerate(self.copies(it)):
                self.equal(f"copy {number} of {it!r}", (type(found), found), (type(it), it))
        self.equal("the values of a difference", module.first_difference(self.rich, self.other).values, (0, 8, 7))
        limits = module.Limits(depth=3)
        found = copy.copy(limits)
        found.depth = 4
        self.equal("limits after a change of their copy", limits.depth, 3)

    def check_errors(self):
        """An exception has the type, the text and the attributes of its copies."""
        module, closed = self.module, self.fed(self.rich)
        closed.close()
        raising = [lambda: module.check(b""), lambda: module.same(self.rich, b"BC"), lambda: module.assemble("magic"),
                   lambda: module.check(b"", module.Limits(depth=256)), lambda: module.assemble("magic 4243c0de", module.Limits(bytes=1)),
                   lambda: module.Writer().leave(), closed.check]
        errors = [*map(raised, raising), module.Refused("x", 1, 0), module.Refused("x", 1, 1, True), module.RefusedLine("y", 2)]
        self.equal("kinds of errors", {type(it).__name__ for it in errors}, {"Refused", "RefusedLine", "BadValue", "Error", "Unfit"})
        for it in errors:
            it.file = "given.bc"
            for number, found in enumerate(self.copies(it)):
                self.equal(f"copy {number} of {it!r}", (type(found), str(found), found.args, vars(found)), (type(it), str(it), it.args, vars(it)))

    def owners(self):
        """An object of each kind that owns a handle, and a call on it with its result."""
        module = self.module
        source = self.fed(self.rich)
        begun = module.events(self.rich)
        next(begun)
        return [("Input", self.fed(self.rich), lambda it: it.check(), True),
                ("Writer", module.Writer(), lambda it: it.finish(), b"BC\xc0\xde"),
                ("events", module.events(self.rich), lambda it: next(it).id, 8), ("events that are begun", begun, lambda it: next(it).id, 3),
                ("events of pieces", source.events(), lambda it: next(it).id, 8),
                ("pieces", module.pieces("normal", self.rich, 4), lambda it: next(it), b"BC\xc0\xde")]

    def check_owners(self):
        """What owns a handle refuses to be copied, and goes on."""
        for name, owner, call, wanted in self.owners():
            for how in (copy.copy, copy.deepcopy, *(lambda it, protocol=protocol: pickle.dumps(it, protocol) for protocol in range(5))):
                error = raised(lambda: how(owner))
                self.checks.holds(f"objects: {name}, copied", type(error) is TypeError and "pickle" in str(error), repr(error))
            self.equal(f"{name} after copies", call(owner), wanted)

    # ---- processes

    def check_processes(self):
        for method in ("fork", "spawn"):
            self.equal(f"processes by {method}", program(POOL, method), (POOLED, ""))
        found, errors = program(FORK)
        self.equal("processes that are forked during a call", (found, errors), ("True True True\n", ""))

    # ---- threads

    def check_inputs(self):
        """Calls of threads on inputs give what they give alone."""
        one, two = self.fed(self.large), self.fed(self.large + octets("thirty"))
        self.equal("check in threads", together(*[lambda: [one.check() for _ in range(10)]] * THREADS), [[True] * 10] * THREADS)
        wanted = one.first_difference(two)
        there = lambda: [(one.same(two), one.first_difference(two)) for _ in range(2)]
        back = lambda: [(two.same(one), two.first_difference(one)._replace(first=wanted.first, second=wanted.second)) for _ in range(2)]
        self.equal("comparison in threads", together(*[there, back] * (THREADS // 2)), [[(False, wanted)] * 2] * THREADS)
        for name in ("normal", "show", "report"):
            source, whole = self.fed(self.large), getattr(self.module, name)(self.large)
            found = together(*[getattr(source, name)] * THREADS)
            self.checks.holds(f"objects: {name} in threads", found.count(whole) == 1 and found.count((self.module.Error, CLOSED)) == THREADS - 1,
                              [type(it) for it in found])

    def check_feeding(self):
        """No piece that threads feed is lost, while others judge what is there."""
        source = self.fed(octets("magic"))
        pieces = [self.module.assemble(f"magic 4243c0de\nblock {8 + it}\n")[4:] * 10000 for it in range(THREADS)]
        feed = lambda piece: lambda: [source.feed(piece) for _ in range(10)] and source.check()
        self.equal("feed in threads", together(*map(feed, pieces)), [True] * THREADS)
        counts = dict(re.findall(r"^block (\d+) count (\d+) ", source.report(), re.M))
        self.equal("what threads fed", counts, {str(8 + it): "100000" for it in range(THREADS)})

    def check_iterators(self):
        """Each event, and each piece, goes to one thread."""
        module = self.module
        source = self.fed(self.rich)
        text = module.normal(self.large)
        for name, one, alone in (("events", module.events(self.rich), module.events(self.rich)),
                                 ("events of pieces", source.events(), module.events(self.rich)),
                                 ("pieces", module.pieces("normal", self.large, 999), [text[at : at + 999] for at in range(0, len(text), 999)])):
            found = together(*[lambda: list(one)] * THREADS)
            lists = [it for it in found if isinstance(it, list)]
            self.equal(f"{name} in threads", (len(lists), sorted(sum(lists, []))), (THREADS, sorted(alone)))

    def check_magic(self):
        """The magic of an input while threads read its events and close it."""
        for _ in range(20):
            source = self.fed(self.rich)
            events = source.events()
            found = together(*[lambda: len(list(events))] * 2, *[source.magic] * 4, events.close, source.close)
            ends = [it if isinstance(it, tuple) else type(it) for it in found]
            self.checks.holds("objects: closed in threads", set(ends) <= {int, bytes, type(None), (self.module.Error, CLOSED)}, ends)

    def check_writing(self):
        """No item that threads write is lost, and no wrong one is taken."""
        writer = self.module.Writer(b"DIAG")
        writer.enter(8)
        many = [7] * 5000
        write = lambda code: lambda: [writer.record(code, many) for it in range(20)] and code
        self.equal("records in threads", together(*map(write, range(THREADS))), list(range(THREADS)))
        nested = lambda: [writer.enter(8) or writer.leave() for _ in range(20)] and raised(lambda: writer.enter(2**32)) is not None
        self.equal("blocks in threads", together(*[nested] * THREADS), [True] * THREADS)
        found = together(*[lambda: writer.leave() or writer.finish()] * THREADS)
        forms = [it for it in found if isinstance(it, bytes)]
        self.equal("finish in threads", len(forms), 1)
        lines = self.module.show(forms[0]).splitlines() if forms else []
        found = sorted(it for it in lines if "record" in it)
        self.checks.holds("objects: records of threads", found == [f"  record {code}" + " 7" * 5000 for code in range(THREADS) for _ in range(20)])

    def check_inside(self):
        """A call inside another one on the same object does not hang."""
        inside = "the object is in another call of this thread\n"
        self.equal("calls of a signal's handler", program(INSIDE), (inside, ""))
        writer = self.module.Writer(b"DIAG")
        writer.enter(8)
        writer.record(1, (writer.record(2, [it]) or it for it in range(2)))
        writer.leave()
        self.equal("values that write", self.module.show(writer.finish()), "magic 44494147\nblock 8\n  record 2 0\n  record 2 1\n  record 1 0 1\n")

    # ---- memory

    def check_memory(self):
        """The memory that the module's text names, for arrays of values that take no bits, of 2^22 and of 2^27."""
        start = "magic 21 0C 00 00 03 00 00 00 1A 03 4C 00"
        few, many = (Bits(start).fixed(1, 1).vbr(6, 1 << width).fixed(3, 0).pad().text() for width in (22, 27))
        self.equal("an array of values", many, Bits(start + " 41 10 04 41 02 00 00 00").text())
        wanted = "True True\nMemoryError()\nRefused('TooManyValues at bit 129')\n"
        self.equal("memory for values", program(MEMORY, few, many), (wanted, ""))
        self.equal("the memory in the module's text", re.findall(r"\d+ bytes for each value|\d+ GiB|Limits\(values=\d+\)", self.module.__doc__),
                   ["16 bytes for each value", "2 GiB", "Limits(values=1000000)"])

    # ---- texts and results

    def told(self, name, wanted, call, kind=None):
        """One check: the text of an exception, and its type."""
        error = raised(call)
        self.equal(name, (type(error), str(error)), (kind or self.module.Unfit, wanted))

    def check_limits(self):
        module = self.module
        self.equal("the text of limits", repr(module.Limits(depth=3)), "Limits(bytes=1073741824, depth=3, values=134217728, shapes_at_use=False)")
        self.equal("limits from their text", eval(repr(module.Limits(bytes=9)), vars(module)), module.Limits(bytes=9))
        for name, value in (("bytes", 3), ("depth", 3), ("values", 3), ("shapes_at_use", True)):
            self.equal(f"limits with other {name}", module.Limits() == module.Limits(**{name: value}), False)
        self.equal("equal limits", (module.Limits() == module.Limits(), module.Limits() != module.Limits(), module.Limits() == 3), (True, False, False))
        self.told("limits as a key", "unhashable type: 'Limits'", lambda: {module.Limits(): 1}, TypeError)
        past = "limits: a limit is past its cap: "
        for given, wanted in (({"depth": 256}, "depth is 256, and at most 255"), ({"values": 2**32}, "values is 4294967296, and at most 4294967295"),
                              ({"bytes": 17179869181, "depth": 300}, "bytes is 17179869181, and at most 17179869180, depth is 300, and at most 255")):
            for call in (lambda it: module.check(b"", it), lambda it: self.fed(b"").check(it), lambda it: module.Writer(limits=it)):
                self.told(f"a limit past its cap: {given}", past + wanted, lambda: call(module.Limits(**given)), module.BadValue)

    def check_unfit(self):
        """Each rule that a call of a writer breaks."""
        module, text = self.module, "this item does not fit here: "
        self.told("unfit: a wrapper", text + "DE C0 17 0B is the magic of a wrapper", lambda: module.Writer(b"\xde\xc0\x17\x0b"))
        writer = module.Writer(b"DIAG", module.Limits(depth=2, values=3))
        for name, call in (("record", lambda: writer.record(1)), ("leave", writer.leave)):
            self.told(f"unfit: {name} at the top", text + "no block is open", call)
        writer.enter(0)
        self.told("unfit: a block in BLOCKINFO", text + "a BLOCKINFO block has no blocks", lambda: writer.enter(8))
        self.told("unfit: the first record of BLOCKINFO", text + "the first record of a BLOCKINFO block has code 1", lambda: writer.record(2))
        for values in ((), (2**32,)):
            wanted = text + "a record with code 1 in a BLOCKINFO block begins with the id of a block"
            self.told(f"unfit: record 1 of BLOCKINFO with {values}", wanted, lambda: writer.record(1, values))
        writer.record(1, [8])
        writer.record(2)
        self.told("unfit: values of BLOCKINFO", text + "the limit on values is 3", lambda: writer.record(2, [1, 2, 3]))
        self.told("unfit: a block is open", text + "a block is open", writer.finish)
        writer.leave()
        for _ in range(2):
            writer.enter(8)
        self.told("unfit: depth", text + "the limit on depth is 2", lambda: writer.enter(8))
        self.told("unfit: values", text + "the limit on values is 3", lambda: writer.record(2, [1, 2, 3]))
        self.told("unfit: an id", "id must be from 0 to 4294967295", lambda: writer.enter(2**32))
        writer.record(2, [1, 2])
        for _ in range(2):
            writer.leave()
        wanted = "magic 44494147\nblock 0\n  record 1 8\n  record 2\nblock 8\n  block 8\n    record 2 1 2\n"
        self.equal("a writer after unfit calls", module.show(writer.finish()), wanted)

    def check_views(self):
        """The argument is named whose buffer is not contiguous, or is none any more."""
        module, released = self.module, memoryview(self.rich)
        released.release()
        wanted = "operation forbidden on released memoryview object"
        self.told("a released view", f"data: {wanted}", lambda: module.check(released), ValueError)
        self.told("a released view as second", f"second: {wanted}", lambda: module.same(b"", released), ValueError)
        try:
            numpy = importlib.import_module("numpy")
        except ImportError:
            return skip("no numpy")
        strided = numpy.zeros(8, numpy.uint8)[::2]
        self.told("a strided array", "data: ndarray is not C-contiguous", lambda: module.check(strided), ValueError)

    def check_results(self):
        module, good = self.module, self.fed(self.rich)
        self.equal("check", (module.check(self.rich), good.check()), (True, True))
        self.told("check, refused", "Truncated at bit 0", lambda: module.check(b""), module.Refused)
        self.told("check of pieces, refused", "Truncated at bit 0", module.Input().check, module.Refused)

    def check_with(self):
        """What owns a handle is closed at the end of its block, also by an exception."""
        module = self.module
        with module.Input() as source, module.Writer() as writer, module.events(self.rich) as events, module.pieces("show", self.rich) as pieces:
            source.feed(self.rich)
            self.equal("with", (source.check(), next(events).id, next(pieces)[:5]), (True, 8, b"magic"))
        for name, call in (("Input", source.check), ("Writer", lambda: writer.enter(8))):
            self.told(f"{name} after its block", CLOSED, call, module.Error)
        self.equal("iterators after their block", (list(events), list(pieces)), ([], []))
        with self.fed(self.rich) as source:
            source.normal()

        def fail():
            with module.Writer() as it:
                writers.append(it)
                raise KeyError("one")

        writers = []
        self.told("an exception in a block", "'one'", fail, KeyError)
        self.told("a writer after it", CLOSED, writers[0].leave, module.Error)

    def check_names(self):
        """The names, and the versions, which are those of the header."""
        module = self.module
        public = {name for name in vars(module) if not name.startswith("_") and getattr(vars(module)[name], "__module__", "bitstream") == "bitstream"}
        modules = {"copyreg", "ctypes", "operator", "os", "threading", "weakref", "annotations", "calls", "TYPE_CHECKING"}
        self.equal("__all__", sorted(module.__all__), sorted(public - modules))
        with open(f"{TOP}/capi/bitstream.h") as file:
            version, form = re.findall(r"^#define BS_(?:FORM_)?VERSION (\d+)$", file.read(), re.M)
        self.equal("versions", (module.__version__, module.VERSION, module.FORM_VERSION), (version, int(version), int(form)))

    def check_types(self):
        """mypy takes the module, and a program that uses it; it finds each wrong line of that program."""
        if not shutil.which("mypy"):
            return skip("no mypy")
        with tempfile.TemporaryDirectory(prefix="bitstream-") as folder:
            with open(f"{folder}/user.py", "w") as file:
                file.write(TYPED)
            words = ["mypy", "--strict", "--cache-dir", f"{folder}/cache"]
            how = {"capture_output": True, "text": True, "env": {**os.environ, "MYPYPATH": f"{TOP}/capi/python"}}
            for name in (f"{TOP}/capi/python/bitstream", f"{TOP}/capi/examples/report.py"):
                found = subprocess.run([*words, name], **how)
                self.checks.holds(f"objects: mypy --strict {name}", found.returncode == 0, found.stdout)
            found = subprocess.run([*words, f"{folder}/user.py"], **how).stdout
            lines = sorted({int(it) for it in re.findall(r"^\S*user\.py:(\d+): error", found, re.M)})
            self.equal("mypy's errors", lines, [number for number, line in enumerate(TYPED.splitlines(), 1) if line.endswith("# wrong")])


def check_objects(checks, module):
    it = Objects(checks, module)
    for check in (it.check_values, it.check_errors, it.check_owners, it.check_processes, it.check_inputs, it.check_feeding, it.check_iterators,
                  it.check_magic, it.check_writing, it.check_inside, it.check_memory, it.check_limits, it.check_unfit, it.check_views, it.check_results,
                  it.check_with, it.check_names, it.check_types):
        check()
