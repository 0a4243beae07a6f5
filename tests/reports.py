"""Reports, listings and events, as the program's `analyse`, `show` and `events` write them, and how they agree."""
import json
import re
from dataclasses import dataclass, field


@dataclass
class Row:
    """The row of a block id in a report, and those of its records: how many of each code, with how many bits."""

    blocks: int = 0
    bits: int = 0
    definitions: int = 0
    records: int = 0
    abbreviated: int = 0
    values: int = 0
    codes: dict = field(default_factory=dict)

    def counts(self):
        """How many records of each code, codes in order of first use."""
        return {code: count for code, (count, _) in self.codes.items()}

    def listed(self):
        """The numbers that a listing has too."""
        return self.blocks, self.records, self.values, list(self.counts().items())

    def adds_up(self):
        """Whether its records, and their bits, are within the whole."""
        bits = sum(taken for _, taken in self.codes.values())
        return self.records == sum(self.counts().values()) and self.abbreviated <= self.records and bits <= self.bits


BLOCK = re.compile(r"block (\d+) count (\d+) bits (\d+) definitions (\d+) records (\d+) abbreviated (\d+) values (\d+)")


def parse(report):
    """The magic, the bits and the rows of a report, by block id; None if a line is not one of a report."""
    first, *lines = report.split("\n")
    head = re.fullmatch(r"magic ([0-9a-f]{8}) bits (\d+)", first)
    rows, row = {}, None
    if not head or lines[-1:] != [""]:
        return None
    for line in lines[:-1]:
        block, record = BLOCK.fullmatch(line), re.fullmatch(r"  record (\d+) count (\d+) bits (\d+)", line)
        if block:
            row = rows[int(block[1])] = Row(*map(int, block.groups()[1:]))
        elif record and row:
            row.codes[int(record[1])] = (int(record[2]), int(record[3]))
        else:
            return None
    return head[1], int(head[2]), rows


def tally(listing):
    """The rows of a listing for each block id, in order of first entry; they have no bits and no definitions."""
    rows, open_blocks = {}, []
    for line in listing.split("\n")[1:-1]:
        word, number, *values = line.split()
        depth = (len(line) - len(line.lstrip(" "))) // 2
        del open_blocks[depth:]
        if word == "block":
            open_blocks.append(rows.setdefault(int(number), Row()))
            open_blocks[-1].blocks += 1
        else:
            row = open_blocks[-1]
            row.records += 1
            row.values += len(values)
            row.codes[int(number)] = (row.codes.get(int(number), (0, 0))[0] + 1, 0)
    return rows


def stream_of(given):
    """The bytes of an accepted input between wrapper and tail."""
    if given[:4] != bytes.fromhex("DEC0170B"):
        return given
    offset, size = (int.from_bytes(given[at : at + 4], "little") for at in (8, 12))
    return given[offset : offset + size]


def agrees(report, listing, given):
    """Whether the report on an input is one, adds up, and agrees with the listing about blocks and records."""
    told = parse(report)
    if not told or not listing.startswith(f"magic {told[0]}\n"):
        return False
    _, bits, rows = told
    listed = tally(listing)
    return (
        bits == 8 * len(stream_of(given)) == 32 + sum(row.bits for row in rows.values())
        and list(rows) == list(listed)
        and all(row.listed() == listed[number].listed() and row.adds_up() for number, row in rows.items())
    )


EVENT = re.compile(r"(\d+) ((?:  )*)(magic [0-9a-f]{8}|block \d+|record \d+|define|end)(.*)")
RECORD = re.compile(r" by \d+ count (\d+)((?: \d+)*)")


def listing_of(events):
    """The listing of the tree of some events, up to where they end; None if a line is not one of an event."""
    lines = events.split("\n")
    listing = ""
    for line in lines[:-1]:
        event = EVENT.fullmatch(line)
        if not event:
            return None
        _, indent, what, rest = event.groups()
        record = RECORD.fullmatch(rest) if what.startswith("record") else None
        if record:
            values = record[2].split()
            if len(values) != int(record[1]):
                return None
            what += record[2]
        if what not in ("define", "end"):
            listing += f"{indent}{what}\n"
    return listing if lines[-1] == "" else None


def without_values(events):
    """The same events without the values of records."""
    return re.sub(r"(record \d+ by \d+ count \d+)[ \d]*", r"\1", events)


def bits_of(events):
    """The bits of events, in order."""
    return [int(line.split()[0]) for line in events.splitlines()]


# The keys of each kind of JSON line, in their order, and the line of text that says the same.
EVENT_LINES = {
    "magic": ("bit magic", "{bit} magic {magic}"),
    "block": ("bit depth id width body", "{bit} {indent}block {id} width {width} body {body}"),
    "define": ("bit depth operands", "{bit} {indent}define {operands}"),
    "record": ("bit depth code abbreviation count values", "{bit} {indent}record {code} by {abbreviation} count {count}{values}"),
    "end": ("bit depth", "{bit} {indent}end"),
    "refused": ("bit reason", "refused: {reason} at bit {bit}"),
}
REPORT_LINES = {
    "stream": ("bits magic", "magic {magic} bits {bits}"),
    "block": (
        "id count bits definitions records abbreviated values",
        "block {id} count {count} bits {bits} definitions {definitions} records {records} abbreviated {abbreviated} values {values}",
    ),
    "record": ("block code count bits", "  record {code} count {count} bits {bits}"),
}
OPERANDS = {"literal": "value", "fixed": "width", "vbr": "width", "array": "", "char6": "", "blob": ""}


def number_in(value):
    """A number of a JSON line, in digits; None if it is malformed: a string of digits exactly from 2^53 on."""
    is_string = isinstance(value, str)
    digits = value if is_string else str(value)
    is_number = type(value) in (int, str) and re.fullmatch(r"0|[1-9][0-9]*", digits)
    return digits if is_number and is_string == (int(digits) >= 1 << 53) else None


def operand_in(operand):
    """An operand of a JSON line, as text; None if it is not one."""
    kind, *others = operand
    wanted = OPERANDS.get(operand[kind], None) if kind == "kind" else None
    if wanted is None or others != wanted.split():
        return None
    numbers = [number_in(operand[key]) for key in others]
    return None if None in numbers else " ".join([operand["kind"], *numbers])


def part_in(key, value):
    """The value of a key of a JSON line, as text; None if it is not one."""
    if key in ("magic", "reason"):
        return value if isinstance(value, str) and re.fullmatch(r"[0-9A-Za-z]+", value) else None
    if key == "operands":
        parts = [operand_in(it) for it in value]
        return None if None in parts else ", ".join(parts)
    if key == "values" and isinstance(value, list):
        parts = [number_in(it) for it in value]
        return None if None in parts else "".join(f" {it}" for it in parts)
    return number_in(value)


def text_of_line(line, lines):
    """The line of text that says what a JSON line says; None if that is not one of these lines, with its keys in their order and
    nothing between them."""
    told = json.loads(line)
    kind = told.get("kind")
    keys, text = lines.get(kind, ("", ""))
    wanted = ["kind", *keys.split()]
    is_plain = json.dumps(told, separators=(",", ":")) == line
    if kind not in lines or not is_plain or list(told) not in (wanted, [it for it in wanted if it != "values" or lines is REPORT_LINES]):
        return None
    parts = {key: part_in(key, value) for key, value in told.items() if key != "kind"}
    if None in parts.values():
        return None
    return text.format_map({"values": "", "indent": "  " * int(parts.get("depth", 0)), **parts})


def text_of_json(output, lines):
    """The text that says what JSON lines say, and those of it that no line of text on the output says: a refusal."""
    told = [text_of_line(line, lines) for line in output.splitlines()]
    if None in told or not (output == "" or output.endswith("\n")):
        return None
    is_refused = bool(told) and told[-1].startswith("refused: ")
    return "".join(f"{it}\n" for it in (told[:-1] if is_refused else told)), f"{told[-1]}\n" if is_refused else ""


# The entries of two inputs that differ, as a JSON line has them, and the text that says the same.
ENTRIES = {
    "magic": ("bit magic", "magic {magic}"),
    "block": ("bit id", "block {id}"),
    "record": ("bit code count", "record {code} count {count}"),
    "end": ("bit", "end"),
}
STEPS = {"magic": ("", "magic"), "block": ("id item", "block {id} item {item}"), "item": ("item", "item {item}")}


def object_text(told, kinds, more=()):
    """The text of an object of one of some kinds, with its keys in their order and perhaps some more; None if it is not one."""
    keys, text = kinds.get(told.get("kind"), (None, ""))
    if keys is None or list(told) not in (["kind", *keys.split()], ["kind", *keys.split(), *more]):
        return None
    parts = {key: part_in(key, value) for key, value in told.items() if key != "kind"}
    return None if None in parts.values() else text.format_map(parts)


def text_of_difference(output):
    """The lines of text that say what a JSON line says of two inputs; None if it is not such a line."""
    told = json.loads(output)
    if json.dumps(told, separators=(",", ":")) + "\n" != output:
        return None
    if told == {"kind": "same"}:
        return "same\n"
    if list(told) != ["kind", "at", "first", "second"] or told["kind"] != "different":
        return None
    lines = ["different", "at " + ", ".join(object_text(step, STEPS) for step in told["at"])]
    for which in ("first", "second"):
        entry = told[which]
        value = ", value {index} is {value}".format_map(entry) if "index" in entry else ""
        lines.append(f"{which} bit {entry['bit']}: {object_text(entry, ENTRIES, ('index', 'value'))}{value}")
    return "".join(f"{line}\n" for line in lines)
