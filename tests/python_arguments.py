"""Tests of the arguments of the Python module's calls: each number at its least and its greatest, one past each, each argument of a
wrong type, and inputs of every kind, which are not copied. Expected texts come from the program."""
import array
import ctypes
import mmap
import tempfile
import tracemalloc

from program import run
from worked_inputs import octets

WRONG_NUMBERS = (True, 1.0, "1", b"1", None, [1], 1j)
WRONG_INPUTS = ("BC", 8, 0, True, None, 1.5, [66, 67], {}, object())
WRONG_OTHERS = (0, False, True, "", {}, [], (), object())


class Index:
    """No int, but an integer for Python."""

    def __init__(self, number):
        self.number = number

    def __index__(self):
        return self.number


def raised(call):
    """The exception of a call, or None."""
    try:
        call()
    except Exception as error:
        return error
    return None


class Arguments:
    """Checks of one module."""

    def __init__(self, checks, module):
        self.checks, self.module = checks, module
        self.empty, self.thirty = octets("magic empty"), octets("magic thirty")
        self.edges = self.made_edges()

    def refuses(self, name, kind, argument, call):
        """One check: whether a call raises this exception, which names the argument."""
        error = raised(call)
        self.checks.holds(f"arguments: {name}", isinstance(error, kind) and argument in str(error), repr(error))

    def equal(self, name, found, wanted):
        self.checks.equal(f"arguments: {name}", found, wanted)

    def made_edges(self):
        """A stream with the least and the greatest ids, codes and values."""
        writer = self.module.Writer(b"EDGE")
        for number in (Index(0), 1, 2**32 - 1):
            writer.enter(number)
            if not isinstance(number, Index):
                writer.record(0, [0, Index(2**64 - 1)])
                writer.record(Index(2**64 - 1), iter([2**64 - 1]))
            writer.leave()
        return writer.finish()

    def check_edges(self):
        records = "  record 0 0 18446744073709551615\n  record 18446744073709551615 18446744073709551615\n"
        listing = f"magic 45444745\nblock 0\nblock 1\n{records}block 4294967295\n{records}"
        self.equal("the edges", run(["show"], self.edges).output.decode(), listing)

    def dropped(self, *words):
        return run(["normal", *words], self.edges).output

    def check_left_out(self):
        module, edges = self.module, self.edges
        for number in (0, 1, 2**32 - 1):
            found = module.normal(edges, module.LeftOut(blocks=[number]))
            self.equal(f"blocks {number}", found, self.dropped(*(["--drop-block", str(number)] if number else ["--drop-info"])))
        for block in (1, 2**32 - 1):
            for code in (0, 2**64 - 1):
                found = module.normal(edges, module.LeftOut(records=[(block, code)]))
                self.equal(f"records {block} {code}", found, self.dropped("--drop-record", f"{block}:{code}"))
        for number in (-1, 2**32, 2**32 + 8, -4294967288, 2**64, -(2**64), 10**5000):
            self.refuses("blocks past its range", ValueError, "blocks", lambda: module.LeftOut(blocks=[8, number]))
            self.refuses("records past its range", ValueError, "records", lambda: module.LeftOut(records=[(number, 1)]))
        for number in (-1, 2**64, 2**64 + 1):
            self.refuses("a code past its range", ValueError, "records", lambda: module.LeftOut(records=[(8, number)]))
        for wrong in WRONG_NUMBERS:
            self.refuses(f"blocks {wrong!r}", TypeError, "blocks", lambda: module.LeftOut(blocks=[wrong]))
            self.refuses(f"records {wrong!r}, 1", TypeError, "records", lambda: module.LeftOut(records=[(wrong, 1)]))
            self.refuses(f"records 8, {wrong!r}", TypeError, "records", lambda: module.LeftOut(records=[(8, wrong)]))
        for wrong in (8, None, 1.5, object()):
            self.refuses(f"blocks = {wrong!r}", TypeError, "blocks", lambda: module.LeftOut(blocks=wrong))
            self.refuses(f"records = {wrong!r}", TypeError, "records", lambda: module.LeftOut(records=wrong))
        for wrong in (8, (), (8,), (8, 1, 2), "81", None):
            self.refuses(f"records [{wrong!r}]", TypeError, "records", lambda: module.LeftOut(records=[wrong]))
        for wrong in (0, 1, None, "", [], 0.0):
            self.refuses(f"info {wrong!r}", TypeError, "info", lambda: module.LeftOut(info=wrong))
        self.refuses("a name that LeftOut has not", TypeError, "block", lambda: module.LeftOut(block=[8]))
        self.refuses("blocks replaced", ValueError, "blocks", lambda: module.LeftOut()._replace(blocks=[2**32]))
        self.refuses("records of block 0", ValueError, "left_out", lambda: module.normal(edges, module.LeftOut(records=[(0, 1)])))

    def check_read_once(self):
        """Generators are read once, and what they gave is left out of each input."""
        module = self.module
        names = module.LeftOut(True, (it for it in (8, Index(1))), ((2**32 - 1, code) for code in (0, 2**64 - 1)))
        words = ["--drop-info", "--drop-block", "8", "--drop-block", "1", *("--drop-record", "4294967295:0"),
                 *("--drop-record", "4294967295:18446744073709551615")]
        for _ in range(2):
            self.equal("names read once", module.normal(self.edges, names), self.dropped(*words))
        self.equal("names read once, copied", module.LeftOut(*names)._replace(info=True), names)

    def check_cut_names(self):
        """Ids that are those of the inputs' blocks if they are cut to 32 bits: no call takes them."""
        module, one, two = self.module, self.empty, self.thirty
        self.equal("different", module.same(one, two), False)
        self.equal("same without block 8", module.same(one, two, module.LeftOut(blocks=[8])), True)
        for cut in (2**32 + 8, -4294967288):
            for name, call in self.left_out_calls():
                self.refuses(f"{name} with {cut}", ValueError, "blocks", lambda: call(module.LeftOut(blocks=[cut, 2**32 + 13])))

    def left_out_calls(self):
        """Each call that takes what is left out."""
        module, one, two = self.module, self.empty, self.thirty
        return [("normal", lambda it: module.normal(one, it)), ("show", lambda it: module.show(one, it)),
                ("same", lambda it: module.same(one, two, it)), ("first_difference", lambda it: module.first_difference(one, two, it)),
                ("pieces", lambda it: list(module.pieces("normal", one, 8, it))), ("Input.normal", lambda it: self.fed(one).normal(it)),
                ("Input.show", lambda it: self.fed(one).show(it)), ("Input.same", lambda it: self.fed(one).same(self.fed(two), it)),
                ("Input.first_difference", lambda it: self.fed(one).first_difference(self.fed(two), it))]

    def limits_calls(self):
        """Each call that takes limits."""
        module, one, two = self.module, self.empty, self.thirty
        return [("check", lambda it: module.check(one, it)), ("normal", lambda it: module.normal(one, limits=it)),
                ("show", lambda it: module.show(one, limits=it)), ("report", lambda it: module.report(one, it)),
                ("pieces", lambda it: list(module.pieces("show", one, limits=it))),
                ("same", lambda it: module.same(one, two, limits=it)), ("magic", lambda it: module.magic(one, it)),
                ("first_difference", lambda it: module.first_difference(one, two, limits=it)),
                ("events", lambda it: list(module.events(one, it))), ("assemble", lambda it: module.assemble("magic 44494147\n", it)),
                ("Writer", lambda it: module.Writer(limits=it)), ("Input.check", lambda it: self.fed(one).check(it)),
                ("Input.report", lambda it: self.fed(one).report(it)), ("Input.same", lambda it: self.fed(one).same(self.fed(two), limits=it)),
                ("Input.first_difference", lambda it: self.fed(one).first_difference(self.fed(two), limits=it)),
                ("Input.normal", lambda it: self.fed(one).normal(limits=it)), ("Input.show", lambda it: self.fed(one).show(limits=it)),
                ("Input.events", lambda it: list(self.fed(one).events(it)))]

    def fed(self, data):
        source = self.module.Input()
        source.feed(data)
        return source

    def check_limits(self):
        module = self.module
        usual = module.Limits()
        self.equal("the usual limits", (usual.bytes, usual.depth, usual.values, usual.shapes_at_use), (2**30, 64, 2**27, False))
        for name, cap, end in (("bytes", 17179869180, 2**64), ("depth", 255, 2**32), ("values", 2**32 - 1, 2**64)):
            for number in (0, cap, end - 1, Index(8)):
                limits = module.Limits(**{name: number})
                set_later = module.Limits()
                setattr(set_later, name, number)
                wanted = number.__index__()
                self.equal(f"{name} {wanted}", (getattr(limits, name), getattr(set_later, name)), (wanted, wanted))
            for number in (-1, end, end + 64, 10**5000):
                self.refuses(f"{name} past its range", ValueError, name, lambda: module.Limits(**{name: number}))
                self.refuses(f"{name} past its range later", ValueError, name, lambda: setattr(usual, name, number))
            for wrong in WRONG_NUMBERS:
                self.refuses(f"{name} {wrong!r}", TypeError, name, lambda: module.Limits(**{name: wrong}))
                self.refuses(f"{name} {wrong!r} later", TypeError, name, lambda: setattr(usual, name, wrong))
            for call_name, call in self.limits_calls():
                self.equal(f"{call_name}: {name} at its cap", raised(lambda: call(module.Limits(**{name: cap}))), None)
                past = module.Limits(**{name: cap + 1})
                self.refuses(f"{call_name}: {name} past its cap", ValueError, "limits", lambda: call(past))
                self.refuses(f"{call_name}: {name} past its cap", module.Error, "limits", lambda: call(past))
        self.equal("the limits after refused numbers", bytes(usual)[:8], bytes(module.Limits())[:8])
        self.equal("depth after refused numbers", (usual.depth, usual.values), (64, 2**27))
        for wrong in (0, 1, None, "no", 0.0):
            self.refuses(f"shapes_at_use {wrong!r}", TypeError, "shapes_at_use", lambda: module.Limits(shapes_at_use=wrong))
            self.refuses(f"shapes_at_use {wrong!r} later", TypeError, "shapes_at_use", lambda: setattr(usual, "shapes_at_use", wrong))
        self.refuses("a limit that there is not", TypeError, "value", lambda: module.Limits(value=3))
        self.refuses("a limit that there is not, later", AttributeError, "value", lambda: setattr(usual, "value", 3))
        self.refuses("limits by place", TypeError, "", lambda: module.Limits(3))

    def check_others(self):
        """Wrong types of limits and of what is left out, in each call; and the other arguments of `pieces` and `assemble`."""
        module, one = self.module, self.thirty
        for wrong in WRONG_OTHERS:
            for name, call in self.limits_calls():
                self.refuses(f"{name}: limits {wrong!r}", TypeError, "limits", lambda: call(wrong))
            for name, call in self.left_out_calls() + [("report", lambda it: module.pieces("report", one, 8, it))]:
                self.refuses(f"{name}: left_out {wrong!r}", TypeError, "left_out", lambda: call(wrong))
        self.refuses("a report with names", ValueError, "left_out", lambda: module.pieces("report", one, 8, module.LeftOut(blocks=[8])))
        for size in (1, 2**63 - 1, 2**63, 2**64 - 1, Index(2)):
            self.equal(f"size {size}", b"".join(module.pieces("show", one, size)), run(["show"], one).output)
        for size in (0, -1, 2**64, -(2**64) + 1):
            self.refuses(f"size {size}", ValueError, "size", lambda: module.pieces("show", one, size))
        for wrong in WRONG_NUMBERS:
            self.refuses(f"size {wrong!r}", TypeError, "size", lambda: module.pieces("show", one, wrong))
        for wrong in ("", "Normal", "analyse", "text"):
            self.refuses(f"text {wrong!r}", ValueError, "text", lambda: module.pieces(wrong, one))
        for wrong in (b"show", 8, None, ["show"]):
            self.refuses(f"text {wrong!r}", TypeError, "text", lambda: module.pieces(wrong, one))
        for wrong in (b"magic 44494147\n", 8, None, [], bytearray(4)):
            self.refuses(f"assemble {wrong!r}", TypeError, "text", lambda: module.assemble(wrong))
        source = self.fed(one)
        for call in (source.same, source.first_difference):
            for wrong in (one, None, module.Writer(), module.Input):
                self.refuses(f"an input in pieces and {wrong!r}", TypeError, "other", lambda: call(wrong))
            self.refuses("an input in pieces and itself", ValueError, "other", lambda: call(source))
        self.refuses("a listing with half a character", module.RefusedLine, "BadLine at line 2", lambda: module.assemble("magic 44494147\n\ud800"))

    def check_writer(self):
        module = self.module
        writer = module.Writer(bytearray(b"DIAG"))
        for wrong in (-1, 2**32, 2**32 + 8):
            for kind in (ValueError, module.Unfit):
                self.refuses(f"enter {wrong}", kind, "id", lambda: writer.enter(wrong))
        writer.enter(8)
        for wrong in (-1, 2**64, 2**64 + 1):
            for kind in (ValueError, module.Unfit):
                self.refuses(f"record {wrong}", kind, "code", lambda: writer.record(wrong))
                self.refuses(f"record 1 [{wrong}]", kind, "values", lambda: writer.record(1, [0, wrong]))
        for wrong in WRONG_NUMBERS:
            self.refuses(f"enter {wrong!r}", TypeError, "id", lambda: writer.enter(wrong))
            self.refuses(f"record {wrong!r}", TypeError, "code", lambda: writer.record(wrong))
            self.refuses(f"record 1 [{wrong!r}]", TypeError, "values", lambda: writer.record(1, (it for it in [wrong])))
        for wrong in (8, None, 1.5):
            self.refuses(f"record 1 {wrong!r}", TypeError, "values", lambda: writer.record(1, wrong))
        writer.record(1, (it for it in (2, 3)))
        writer.leave()
        self.equal("a writer after refused numbers", run(["show"], writer.finish()).output, b"magic 44494147\nblock 8\n  record 1 2 3\n")
        for wrong in (b"", b"DIA", b"DIAGS"):
            self.refuses(f"magic {wrong!r}", ValueError, "magic", lambda: module.Writer(wrong))
        for wrong in ("DIAG", 4, None, [68, 73, 65, 71 + 256]):
            self.refuses(f"magic {wrong!r}", TypeError, "magic", lambda: module.Writer(wrong))

    def input_calls(self):
        """Each call that takes an input, and the name of that argument. What they return is small for any number of blocks 8."""
        module, names = self.module, self.module.LeftOut(blocks=[8])
        return [("check", "data", module.check), ("normal", "data", lambda it: module.normal(it, names)),
                ("show", "data", lambda it: module.show(it, names)), ("report", "data", module.report),
                ("pieces", "data", lambda it: list(module.pieces("normal", it, 2, names))), ("magic", "data", module.magic),
                ("pieces of a report", "data", lambda it: list(module.pieces("report", it, 2))),
                ("events", "data", lambda it: next(module.events(it))), ("same", "first", lambda it: module.same(it, self.empty)),
                ("same", "second", lambda it: module.same(self.empty, it)), ("same of itself", "first", lambda it: module.same(it, it)),
                ("first_difference", "first", lambda it: module.first_difference(it, self.empty)),
                ("first_difference", "second", lambda it: module.first_difference(self.empty, it)),
                ("feed", "piece", lambda it: self.fed(it).show(names))]

    def check_inputs(self):
        """An input of any kind gives the result of its bytes."""
        for name, argument, call in self.input_calls():
            wanted = call(self.edges)
            for kind, given in self.kinds(self.edges):
                self.equal(f"{name} of {argument}: {kind}", call(given), wanted)
            for wrong in WRONG_INPUTS:
                self.refuses(f"{name} of {wrong!r}", TypeError, argument, lambda: call(wrong))
            self.refuses(f"{name} of every second byte", BufferError, argument, lambda: call(memoryview(self.edges)[::2]))
            self.refuses(f"{name} backwards", BufferError, argument, lambda: call(memoryview(bytearray(self.edges))[::-1]))
            released = memoryview(self.edges)
            released.release()
            self.refuses(f"{name} of a released view", ValueError, "", lambda: call(released))
        for call in (self.module.events, lambda it: self.module.pieces("show", it)):
            self.refuses("a generator's input", TypeError, "data", lambda: call("BC"))
            self.refuses("a generator's limits", TypeError, "limits", lambda: call(self.edges, limits=1))

    def kinds(self, data):
        """The bytes in objects of each kind that has a buffer."""
        with tempfile.TemporaryFile() as file:
            file.write(data)
            file.flush()
            yield "a read-only mmap", mmap.mmap(file.fileno(), 0, access=mmap.ACCESS_READ)
            yield "an mmap", mmap.mmap(file.fileno(), 0)
        yield "bytearray", bytearray(data)
        yield "memoryview", memoryview(data)
        yield "a part of a view", memoryview(bytearray(b"--" + data + b"--"))[2:-2]
        yield "a view of words", memoryview(data).cast("I")
        yield "a view in two dimensions", memoryview(data).cast("B", [len(data) // 4, 4])
        yield "an array of bytes", array.array("B", data)
        yield "an array of words", array.array("I", data)
        yield "an array of ctypes", (ctypes.c_uint8 * len(data)).from_buffer_copy(data)

    def check_exports(self):
        """An input can't be resized while the library may read it, and can be as soon as it does not."""
        module = self.module
        for given in (bytearray(self.thirty), bytearray(self.thirty[:-4]), bytearray()):
            for name, _, call in self.input_calls():
                raised(lambda: call(given))
                self.equal(f"resized after {name}", raised(lambda: given.extend(b"--") or given.__delitem__(slice(-2, None))), None)
        for name, begun in (("events", module.events), ("pieces", lambda it: module.pieces("show", it))):
            for how, end in (("exhausted", list), ("closed", lambda it: it.close()), ("deleted", lambda it: None)):
                for steps in (0, 1):
                    given = bytearray(self.thirty)
                    running = begun(given)
                    for _ in range(steps):
                        next(running)
                    if (name, steps) != ("pieces", 1):
                        self.refuses(f"{name}, resized after {steps}", BufferError, "", lambda: given.append(0))
                    end(running)
                    del running
                    self.equal(f"{name} {how} after {steps}, resized", raised(lambda: given.append(0)), None)
        for _, given in self.kinds(self.edges):
            if isinstance(given, mmap.mmap):
                running = module.events(given)
                next(running)
                self.refuses("events, an mmap closed", BufferError, "", given.close)
                self.equal("events of an mmap", len(list(running)), 9)
                given.close()
                self.refuses("a closed mmap", ValueError, "closed", lambda: module.check(given))

    def check_closed(self):
        """A closed input in pieces is not an empty one: each call on it raises an error that is no refusal."""
        module, one = self.module, self.thirty
        ends = [lambda it: it.close(), lambda it: it.normal(), lambda it: it.show(), lambda it: it.report(), lambda it: list(it.events()),
                lambda it: it.events(), lambda it: it.events().close()]
        calls = [lambda it: it.feed(one), lambda it: it.check(), lambda it: it.normal(), lambda it: it.show(), lambda it: it.report(),
                 lambda it: it.events(), lambda it: it.same(self.fed(one)), lambda it: self.fed(one).same(it),
                 lambda it: it.first_difference(self.fed(one)), lambda it: self.fed(one).first_difference(it)]
        for number, end in enumerate(ends):
            for which, call in enumerate(calls):
                source = self.fed(one)
                kept = end(source)
                error = raised(lambda: call(source))
                self.equal(f"closed by {number}, then {which}", (type(error), str(error)), (module.Error, "the handle is closed"))
        for size in range(5):
            error = raised(self.fed(b"BC\xc0\xde"[:size]).check)
            wanted = None if size == 4 else "Truncated at bit 0"
            self.equal(f"an input of {size} bytes", error and str(error), wanted)

    def check_memory(self):
        """No call copies its input: it allocates less than a tenth of it."""
        data = octets("magic") + octets("empty") * (1 << 19)
        for kind, given in self.kinds(data):
            for name, argument, call in self.input_calls():
                tracemalloc.start()
                call(given)
                peak = tracemalloc.get_traced_memory()[1]
                tracemalloc.stop()
                self.checks.holds(f"arguments: {name} copies no {kind}", peak < len(data) // 10, peak)


def check_arguments(checks, module):
    it = Arguments(checks, module)
    for check in (it.check_edges, it.check_left_out, it.check_read_once, it.check_cut_names, it.check_limits, it.check_others,
                  it.check_writer, it.check_inputs, it.check_exports, it.check_closed, it.check_memory):
        check()
