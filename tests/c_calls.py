"""The C library by Python's ctypes: each call returns what a run of the program would, so that the two can be compared."""
import ctypes
import os
from ctypes import POINTER, Structure, byref, c_bool, c_size_t, c_uint8, c_uint32, c_uint64, c_void_p
from typing import NamedTuple

from program import DIFFERENT, REASONS, SAME, TEXT_REASONS, TOP, Answer, done

LIBRARY = f"{TOP}/capi/out/libbitstream.so"
DONE, DIFFERS, REFUSED, MEMORY, TOO_LONG, LIMITS, ROOM, CLOSED, NAMES, UNFIT = range(10)
OVER, ENTER, DEFINE, RECORD, LEAVE = range(5)
NOWHERE, AT_MAGIC, AT_ITEM = range(3)
NOTHING, STANDS_MAGIC, STANDS_BLOCK, STANDS_RECORD, STANDS_END = range(5)


class Limits(Structure):
    _fields_ = [("bytes", c_uint64), ("depth", c_uint32), ("values", c_uint64), ("shapes_at_use", c_bool)]


class RecordName(Structure):
    _fields_ = [("block", c_uint32), ("code", c_uint64)]


class LeftOut(Structure):
    _fields_ = [("info", c_bool), ("blocks", POINTER(c_uint32)), ("blocks_len", c_size_t), ("records", POINTER(RecordName)), ("records_len", c_size_t)]


class Fault(Structure):
    _fields_ = [("reason", c_uint32), ("input", c_uint32), ("bit", c_uint64)]


class Bytes(Structure):
    _fields_ = [("at", POINTER(c_uint8)), ("len", c_size_t)]


class Tally(Structure):
    _fields_ = [("magic", c_uint8 * 4), ("bits", c_uint64), ("blocks", c_size_t), ("codes", c_size_t)]


class BlockRow(Structure):
    _fields_ = [("id", c_uint32), *[(name, c_uint64) for name in "blocks bits definitions records abbreviated values".split()], ("codes", c_size_t)]


class CodeRow(Structure):
    _fields_ = [("code", c_uint64), ("count", c_uint64), ("bits", c_uint64)]


class Handle(Structure):
    _fields_ = [("live", c_bool), ("inner", c_void_p)]


class Event(Structure):
    _fields_ = [("kind", c_uint32), ("id", c_uint32), ("width", c_uint32), ("code", c_uint64), ("count", c_size_t), ("first", c_uint64), ("after", c_uint64)]


class Operand(Structure):
    _fields_ = [("kind", c_uint32), ("value", c_uint64)]


class Magic(Structure):
    _fields_ = [("bytes", c_uint8 * 4)]


class OpenBlock(Structure):
    _fields_ = [("id", c_uint32), ("items", c_uint64)]


class Standing(Structure):
    _fields_ = [("bit", c_uint64), ("kind", c_uint32), ("magic", c_uint8 * 4), ("id", c_uint32), ("code", c_uint64), ("count", c_uint64)]


class Values(Structure):
    _fields_ = [("differ", c_bool), ("index", c_uint64), ("first", c_uint64), ("second", c_uint64)]


class Difference(Structure):
    _fields_ = [("place", c_uint32), ("depth", c_size_t), ("items", c_uint64), ("first", Standing), ("second", Standing), ("values", Values)]


class Setting(NamedTuple):
    """What is left out: the BLOCKINFO blocks, blocks by their ids, and records by the id of their block and their code."""

    info: bool = False
    blocks: tuple = ()
    records: tuple = ()

    def words(self, command):
        """The options of a command for it; `show` gets `--drop-block 0`, which means the same as `--drop-info`."""
        words = (["--drop-block", "0"] if command == "show" else ["--drop-info"]) if self.info else []
        for block in self.blocks:
            words += ["--drop-block", str(block)]
        for block, code in self.records:
            words += ["--drop-record", f"{block}:{code}"]
        return words

    def passed(self):
        """The argument of a call for it."""
        blocks, records = room_of(c_uint32, len(self.blocks)), room_of(RecordName, len(self.records))
        for place, block in enumerate(self.blocks):
            blocks[place] = block
        for place, name in enumerate(self.records):
            records[place] = RecordName(*name)
        return LeftOut(self.info, blocks, len(self.blocks), records, len(self.records))


WHOLE = Setting()


class Told(NamedTuple):
    """The result of a call: its status, and of a refusal the reason, the input and the bit."""

    status: int
    reason: int
    input: int
    bit: int


def room_of(kind, count):
    """Room for `count` items, and the arguments of a call for it: a length of 0 has a pointer that is not null too."""
    return (kind * max(count, 1))()


def bytes_of(given):
    return ctypes.string_at(ctypes.addressof(given), ctypes.sizeof(given))


def standing_of(standing):
    """The item at a place, as the program prints it."""
    if standing.kind == STANDS_MAGIC:
        return f"magic {bytes(standing.magic).hex()}"
    if standing.kind == STANDS_BLOCK:
        return f"block {standing.id}"
    if standing.kind == STANDS_RECORD:
        return f"record {standing.code} count {standing.count}"
    return "end" if standing.kind == STANDS_END else f"kind {standing.kind}"


def lines_of(difference, blocks):
    """The lines of a difference, as the program prints them."""
    place = ["magic"] if difference.place == AT_MAGIC else [*[f"block {block.id} item {block.items}" for block in blocks], f"item {difference.items}"]
    lines, values = [f"at {', '.join(place)}"], difference.values
    for which, standing, value in (("first", difference.first, values.first), ("second", difference.second, values.second)):
        behind = f", value {values.index} is {value}" if values.differ else ""
        lines.append(f"{which} bit {standing.bit}: {standing_of(standing)}{behind}")
    return "".join(line + "\n" for line in lines)


class Library:
    """The calls."""

    def __init__(self, path=LIBRARY):
        self.calls = ctypes.CDLL(os.path.abspath(path))

    def ask(self, name, *arguments):
        """A call whose last argument is the fault."""
        fault = Fault(99, 99, 99)
        status = getattr(self.calls, name)(*arguments, byref(fault))
        return Told(status, fault.reason, fault.input, fault.bit)

    def version(self):
        return self.calls.bs_version()

    def form_version(self):
        return self.calls.bs_form_version()

    def limits(self, options=()):
        """The usual limits, with those that the program's options set."""
        limits = Limits()
        self.calls.bs_usual_limits(byref(limits))
        words = iter(options)
        for option in words:
            if option == "--shapes-at-use":
                limits.shapes_at_use = True
            else:
                setattr(limits, option[2:], int(next(words)))
        return limits

    def reason_name(self, number):
        name = Bytes((c_uint8 * 1)(), 0)
        self.calls.bs_reason_name(c_uint32(number), byref(name))
        return ctypes.string_at(name.at, name.len).decode()

    def as_run(self, told, limits, output=b"", which=""):
        """The run of the program with the same result."""
        if told.status == DONE:
            return done(output)
        if told.status == REFUSED and told.reason > 100:
            return Answer(1, b"", f"refused: {TEXT_REASONS[told.reason - 101]} at line {told.bit}\n")
        if told.status == REFUSED:
            return Answer(1, b"", f"refused: {which}{REASONS[told.reason - 1]} at bit {told.bit}\n")
        if told.status == TOO_LONG:
            return Answer(1, b"", f"refused: normal form longer than {limits.bytes} bytes\n")
        return Answer(f"the library's status {told.status}", b"", "")

    def check(self, given, options=()):
        limits = self.limits(options)
        return self.as_run(self.ask("bs_check", given, c_size_t(len(given)), byref(limits)), limits, b"accepted\n")

    def told_text(self, call, given, limits, room, left_out):
        """A call for a text with this much room: its result, how much is needed, and the contents of the room."""
        held, needed = room_of(c_uint8, room), c_size_t(77)
        ctypes.memset(held, 0xA5, max(room, 1))
        told = self.ask(call, given, c_size_t(len(given)), byref(limits), *left_out, held, c_size_t(room), byref(needed))
        return told, needed.value, bytes(held)

    def text(self, call, given, options=(), setting=None):
        """A text, with no room and then with room for it; with one byte too few, nothing may be written there."""
        limits, left_out = self.limits(options), self.left_out(setting)
        told, needed, _ = self.told_text(call, given, limits, 0, left_out)
        if told.status != ROOM:
            return self.as_run(told, limits) if needed == 0 else Answer(f"{needed} bytes needed of none", b"", "")
        few, again, held = self.told_text(call, given, limits, needed - 1, left_out)
        if few != told or again != needed or held != b"\xa5" * max(needed - 1, 1):
            return Answer("a room that is too small was written to", held, "")
        told, again, held = self.told_text(call, given, limits, needed + 3, left_out)
        if again != needed or held[needed:] != b"\xa5" * 3:
            return Answer("bytes after the text were written", held, "")
        return self.as_run(told, limits, held[:needed])

    def left_out(self, setting):
        """The argument of a call for a setting; nothing if it has none."""
        return [] if setting is None else [byref(setting.passed())]

    def held(self, call, given, options=(), setting=None):
        """A text that is held by a handle, with room for a byte too few and then with room for it; and closed."""
        limits, handle, needed = self.limits(options), Handle(), c_size_t(77)
        made = self.ask(call, given, c_size_t(len(given)), byref(limits), *self.left_out(setting), byref(handle))
        none = self.ask("bs_text", byref(handle), room_of(c_uint8, 0), c_size_t(0), byref(needed))
        held = room_of(c_uint8, needed.value)
        told = self.ask("bs_text", byref(handle), held, c_size_t(needed.value), byref(needed))
        event = self.ask("bs_next", byref(handle), byref(Event()))
        self.calls.bs_close(byref(handle))
        closed = self.ask("bs_text", byref(handle), held, c_size_t(needed.value), byref(needed))
        wanted = [CLOSED, CLOSED, CLOSED, CLOSED] if made.status != DONE else [ROOM, DONE, CLOSED, CLOSED]
        found = [none.status, told.status, event.status, closed.status]
        if found != wanted:
            return Answer(f"the library's statuses {found}", b"", "")
        return self.as_run(made, limits, bytes(held))

    def pieces(self, call, given, size, options=(), setting=None):
        """A held text, taken in pieces of one size, and past its end; then whole again; and of a closed handle."""
        limits, handle, taken, room = self.limits(options), Handle(), c_size_t(77), room_of(c_uint8, size)
        made = self.ask(call, given, c_size_t(len(given)), byref(limits), *self.left_out(setting), byref(handle))
        text, statuses = b"", set()
        while made.status == DONE:
            ctypes.memset(room, 0xA5, size)
            statuses.add(self.ask("bs_take", byref(handle), room, c_size_t(size), byref(taken)).status)
            if bytes(room[taken.value :]) != b"\xa5" * (size - taken.value):
                return Answer("bytes after the piece were written to", bytes(room), "")
            text += bytes(room[: taken.value])
            if taken.value < size:
                break
        for _ in range(2):
            statuses.add(self.ask("bs_take", byref(handle), room, c_size_t(size * (made.status == DONE)), byref(taken)).status)
            if taken.value:
                return Answer(f"{taken.value} bytes past the end", b"", "")
        held = room_of(c_uint8, len(text))
        statuses.add(self.ask("bs_text", byref(handle), held, c_size_t(len(text)), byref(taken)).status)
        self.calls.bs_close(byref(handle))
        closed = self.ask("bs_take", byref(handle), room, c_size_t(size), byref(taken)).status
        if statuses != {made.status if made.status == DONE else CLOSED} or closed != CLOSED or taken.value or bytes(held)[: len(text)] != text:
            return Answer(f"the library's statuses {statuses}, {closed}", b"", "")
        return self.as_run(made, limits, text)

    def fed(self, given, size):
        """A handle that was fed an input in pieces of one size."""
        handle = Handle()
        for at in range(0, max(len(given), 1), size):
            piece = given[at : at + size]
            if self.ask("bs_feed", byref(handle), piece, c_size_t(len(piece))).status != DONE:
                self.calls.bs_close(byref(handle))
        return handle

    def fed_check(self, given, size, options=()):
        """The answer to an input in pieces, asked twice, and its rows between."""
        limits, handle = self.limits(options), self.fed(given, size)
        told = self.ask("bs_fed_check", byref(handle), byref(limits))
        rows = self.rows_of("bs_fed_analyse", (byref(handle),), options)
        again = self.ask("bs_fed_check", byref(handle), byref(limits))
        self.calls.bs_close(byref(handle))
        return self.as_run(told, limits, b"accepted\n") if again == told else Answer("another answer", b"", ""), rows

    def fed_text(self, call, given, size, options=(), setting=None):
        """A text of an input in pieces; after another answer the input is asked again, and nothing more is fed to a text."""
        limits, handle = self.limits(options), self.fed(given, size)
        checked = self.ask("bs_fed_check", byref(handle), byref(limits))
        told = self.ask(call, byref(handle), byref(limits), *self.left_out(setting))
        text = self.text_of(handle)
        again = self.ask("bs_fed_check", byref(handle), byref(limits))
        more = self.ask("bs_feed", byref(handle), b"", c_size_t(0)).status
        self.calls.bs_close(byref(handle))
        made = told.status == DONE
        if (again, more) != ((Told(CLOSED, 0, 0, 0), CLOSED) if made else (checked, DONE)) or (text and not made):
            return Answer(f"the library's statuses {again.status}, {more}", text, "")
        return self.as_run(told, limits, text)

    def begin(self, magic, limits):
        """A writer's handle, and the status of the call that began it."""
        handle = Handle()
        return handle, self.ask("bs_write_open", byref(Magic((c_uint8 * 4)(*magic))), byref(limits), byref(handle)).status

    def tell(self, handle, call):
        """The status of a call of a writer: ("enter", id), ("record", code, values), ("leave",) or ("finish",)."""
        name, *given = call
        if name == "enter":
            given = [c_uint32(*given)]
        if name == "record":
            code, values = given
            given = [c_uint64(code), (c_uint64 * max(len(values), 1))(*values), c_size_t(len(values))]
        return self.ask(f"bs_write_{name}", byref(handle), *given).status

    def text_of(self, handle):
        """The text that a handle holds."""
        needed = c_size_t()
        self.ask("bs_text", byref(handle), room_of(c_uint8, 0), c_size_t(0), byref(needed))
        held = room_of(c_uint8, needed.value)
        self.ask("bs_text", byref(handle), held, c_size_t(needed.value), byref(needed))
        return bytes(held)[: needed.value]

    def written(self, magic, calls, options=()):
        """The form of a tree that fits, written call by call."""
        limits = self.limits(options)
        handle, status = self.begin(magic, limits)
        statuses = {status, *[self.tell(handle, call) for call in calls]}
        status = self.tell(handle, ("finish",))
        form = self.text_of(handle) if status == DONE else b""
        self.calls.bs_close(byref(handle))
        if statuses != {DONE}:
            return Answer(f"the library's statuses {statuses}", b"", "")
        return self.as_run(Told(status, 0, 0, 0), limits, form)

    def same(self, first, second, options=(), setting=WHOLE):
        return self.same_of("bs_same", (first, c_size_t(len(first)), second, c_size_t(len(second))), options, setting)

    def same_of(self, call, inputs, options, setting):
        limits = self.limits(options)
        return self.as_comparison(self.ask(call, *inputs, byref(limits), *self.left_out(setting)), limits)

    def as_comparison(self, told, limits, lines=b""):
        """The run of `same` with the same result, with these lines after `different`."""
        if told.status == DIFFERS:
            return DIFFERENT._replace(output=DIFFERENT.output + lines)
        return SAME if told.status == DONE else self.as_run(told, limits, b"", ("first: ", "second: ")[told.input])

    def told_difference(self, call, inputs, limits, setting, room):
        """A call for a difference with this much room: its result, the difference, and the contents of the room."""
        difference, held = Difference(), room_of(OpenBlock, room)
        for place in (difference, held):
            ctypes.memset(byref(place), 0xA5, ctypes.sizeof(place))
        told = self.ask(call, *inputs, byref(limits), *self.left_out(setting), byref(difference), held, c_size_t(room))
        return told, difference, held

    def where(self, first, second, options=(), setting=WHOLE):
        return self.where_of("bs_first_difference", (first, c_size_t(len(first)), second, c_size_t(len(second))), options, setting)

    def where_of(self, call, inputs, options, setting):
        """Where two inputs first differ, with no room for the open blocks, with one place too few, and with one more."""
        limits = self.limits(options)
        told, difference, _ = self.told_difference(call, inputs, limits, setting, 0)
        if told.status not in (DIFFERS, ROOM):
            return self.as_comparison(told, limits) if not any(bytes_of(difference)) else Answer("a difference of none", b"", "")
        depth = difference.depth
        if depth > limits.depth or (told.status == ROOM) != (depth > 0):
            return Answer(f"status {told.status} at depth {depth}", b"", "")
        if depth:
            few, again, held = self.told_difference(call, inputs, limits, setting, depth - 1)
            if few != told or bytes_of(again) != bytes_of(difference) or set(bytes_of(held)) != {0xA5}:
                return Answer("a room that is too small was written to", b"", "")
        told, again, held = self.told_difference(call, inputs, limits, setting, depth + 1)
        if bytes_of(again) != bytes_of(difference) or set(bytes_of(held[depth])) != {0xA5}:
            return Answer("places after the blocks were written", b"", "")
        return self.as_comparison(told, limits, lines_of(difference, held[:depth]).encode())

    def fed_pair(self, first, second, size, options=(), setting=WHOLE):
        """Whether two inputs in pieces are the same, and where they first differ; and whether both inputs stay."""
        handles, limits = [self.fed(first, size), self.fed(second, size + 1)], byref(self.limits(options))
        inputs = [byref(it) for it in handles]
        found = [self.same_of("bs_fed_same", inputs, options, setting), self.where_of("bs_fed_first_difference", inputs, options, setting)]
        stays = [self.ask("bs_fed_check", it, limits) == self.ask("bs_check", given, c_size_t(len(given)), limits)
                 for it, given in zip(inputs, (first, second))]
        for handle in inputs:
            self.calls.bs_close(handle)
        return found, stays

    def rows(self, given, options=()):
        """The report of the rows of an analysis."""
        return self.rows_of("bs_analyse", (given, c_size_t(len(given))), options)

    def rows_of(self, call, input_of, options):
        limits, tally = self.limits(options), Tally()
        input_of = (*input_of, byref(limits), byref(tally))
        told = self.ask(call, *input_of, room_of(BlockRow, 0), c_size_t(0), room_of(CodeRow, 0), c_size_t(0))
        if told.status not in (ROOM, DONE):
            return self.as_run(told, limits)
        blocks, codes = room_of(BlockRow, tally.blocks), room_of(CodeRow, tally.codes)
        if tally.codes:
            told = self.ask(call, *input_of, blocks, c_size_t(tally.blocks), codes, c_size_t(tally.codes - 1))
            if told.status != ROOM or blocks[0].bits:
                return Answer("room for too few codes", b"", "")
        told = self.ask(call, *input_of, blocks, c_size_t(tally.blocks), codes, c_size_t(tally.codes))
        lines, at = [f"magic {bytes(tally.magic).hex()} bits {tally.bits}"], 0
        for row in blocks[: tally.blocks]:
            lines.append(f"block {row.id} count {row.blocks} bits {row.bits} definitions {row.definitions} records {row.records}"
                         f" abbreviated {row.abbreviated} values {row.values}")
            lines += [f"  record {code.code} count {code.count} bits {code.bits}" for code in codes[at : at + row.codes]]
            at += row.codes
        return self.as_run(told, limits, "".join(line + "\n" for line in lines).encode())

    def values(self, reader):
        """The values of the last record."""
        needed = c_size_t(0)
        told = self.ask("bs_values", byref(reader), room_of(c_uint64, 0), c_size_t(0), byref(needed))
        if told.status == ROOM:
            held = room_of(c_uint64, needed.value)
            told = self.ask("bs_values", byref(reader), held, c_size_t(needed.value), byref(needed))
            return told, list(held)
        return told, []

    def operands(self, reader):
        """The operands of the last event, as the program prints them: with no room, one place too few, and room for all."""
        needed = c_size_t(77)
        told, room = self.ask("bs_operands", byref(reader), room_of(Operand, 0), c_size_t(0), byref(needed)), needed.value
        if told.status not in (DONE, ROOM) or (told.status == ROOM) != (room > 0):
            return f"status {told.status}, {room} operands"
        held = room_of(Operand, room)
        ctypes.memset(held, 0xA5, ctypes.sizeof(held))
        if room:
            few = self.ask("bs_operands", byref(reader), held, c_size_t(room - 1), byref(needed))
            if (few, needed.value, set(bytes_of(held))) != (told, room, {0xA5}):
                return "a room that is too small was written to"
            self.ask("bs_operands", byref(reader), held, c_size_t(room), byref(needed))
        names = ("literal", "fixed", "vbr", "array", "char6", "blob")
        shown = [f"{names[it.kind]} {it.value}" if it.kind < 3 else names[it.kind] * (it.value == 0) for it in held[:room]]
        return " ".join(["", ", ".join(shown)]) if room else ""

    def magic(self, reader):
        """The magic of the stream that a reader reads."""
        magic = Magic()
        told = self.ask("bs_magic", byref(reader), byref(magic))
        return bytes(magic.bytes).hex() if told == Told(DONE, 0, 0, 0) else told

    def events(self, given, options=()):
        """The lines of the events, without the bit of the first, and how they ended."""
        limits, reader = self.limits(options), Handle()
        told = self.ask("bs_open", given, c_size_t(len(given)), byref(limits), byref(reader))
        lines, told = self.lines(reader, told)
        return lines, told, self.ending(reader, told)

    def fed_events(self, given, size, options=()):
        """The same for an input in pieces. If its events are not begun, the input stays."""
        limits, reader = self.limits(options), self.fed(given, size)
        told = self.ask("bs_fed_events", byref(reader), byref(limits))
        if told.status == DONE:
            lines, told = self.lines(reader, told)
            return lines, told, self.ending(reader, told)
        again = [self.ask(call, byref(reader), byref(limits)) for call in ("bs_fed_events", "bs_fed_check")]
        event = self.ask("bs_next", byref(reader), byref(Event()))
        self.calls.bs_close(byref(reader))
        return [], told, again == [told] * 2 and event.status == CLOSED

    def lines(self, reader, told):
        """The lines of the events of a reader, if it was opened, and how they ended."""
        event, lines, depth = Event(), [f"magic {self.magic(reader)}"] if told.status == DONE else [], 0
        while told.status == DONE:
            told = self.ask("bs_next", byref(reader), byref(event))
            if told.status != DONE or event.kind == OVER:
                break
            depth -= event.kind == LEAVE
            bit = event.after if event.kind == LEAVE else event.first
            lines.append(f"{bit} {'  ' * depth}{self.event(reader, event)}")
            depth += event.kind == ENTER
        return lines, told

    def event(self, reader, event):
        """The contents of the line of an event."""
        if event.kind == ENTER:
            return f"block {event.id} width {event.width} body {event.after}"
        if event.kind == RECORD:
            said, values = self.values(reader)
            return " ".join(map(str, ["record", event.code, "by", event.id, "count", event.count, *values])) if said.status == DONE else str(said)
        return {DEFINE: "define", LEAVE: "end"}.get(event.kind, f"kind {event.kind}") + self.operands(reader)

    def ending(self, reader, told):
        """The results of a reader at its end: twice the same again, then after it is closed, and closed again."""
        event = Event()
        said = [self.ask("bs_next", byref(reader), byref(event)) for _ in range(2)]
        if told.status not in (DONE,):
            said.append(self.values(reader)[0])
            said.append(self.ask("bs_operands", byref(reader), room_of(Operand, 0), c_size_t(0), byref(c_size_t())))
        still = reader.live and isinstance(self.magic(reader), Told)
        wanted = [told if reader.live else Told(CLOSED, 0, 0, 0)] * len(said)
        closed = []
        for _ in range(2):
            self.calls.bs_close(byref(reader))
            closed += [self.ask("bs_next", byref(reader), byref(event)).status, self.values(reader)[0].status,
                       self.ask("bs_operands", byref(reader), room_of(Operand, 0), c_size_t(0), byref(c_size_t())).status,
                       self.ask("bs_magic", byref(reader), byref(Magic())).status]
        return said == wanted and not still and closed == [CLOSED] * 8 and not reader.live
