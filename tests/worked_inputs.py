"""Worked inputs and their results, written by hand from the rules of the format.

Bytes are in hexadecimal; a word in lower case stands for the bytes that `WORDS` gives, and `00*12` for twelve bytes.
"""
from dataclasses import dataclass

WORDS = {
    # The magic of LLVM's bitcode.
    "magic": "42 43 C0 DE",
    # An empty block 8.
    "empty": "21 08 00 00 01 00 00 00 00 00 00 00",
    # Block 8 with a record of code 1 and the value 30, in the normal form and with wider ids and more chunks.
    "thirty": "21 08 00 00 01 00 00 00 07 81 07 00",
    "thirty_wide": "21 0C 00 00 01 00 00 00 0B 02 1F 00",
    # A BLOCKINFO block that defines [Literal 1, Fixed 7] for block 8, and the same block in the normal form.
    "info": "01 08 00 00 02 00 00 00 07 01 A2 18 20 07 00 00",
    "info_normal": "01 08 00 00 01 00 00 00 07 01 02 00",
    # Block 8 with a record by the first definition in force and the value 100, and the same block in the normal form.
    "use": "21 0C 00 00 01 00 00 00 24 03 00 00",
    "use_normal": "21 08 00 00 01 00 00 00 07 01 39 00",
    # The header of a wrapper around 16 bytes.
    "wrapper": "DE C0 17 0B 00 00 00 00 14 00 00 00 10 00 00 00 07 00 00 01",
    # Block 8 with a definition of eight literals, 1 to 7 after the code 1, that two records use.
    "literals": "21 0C 00 00 03 00 00 00 42 03 06 14 38 90 60 41 83 07 24 00",
}


def octets(text):
    """The bytes of a text."""
    made = b""
    for piece in text.split():
        part, _, times = piece.partition("*")
        made += (octets(WORDS[part]) if part in WORDS else bytes.fromhex(part)) * int(times or 1)
    return made


def record(code, *values):
    """The lines of a record in a listing."""
    return [" ".join(["record", *map(str, [code, *values])])]


def block(number, *items):
    """The lines of a block in a listing."""
    return [f"block {number}", *["  " + line for item in items for line in item]]


@dataclass
class Accepted:
    """An input that spells a tree: its normal form, whole and without BLOCKINFO blocks, its listing, and perhaps its report."""

    name: str
    given: bytes
    normal: bytes
    dropped: bytes
    listing: str
    report: str
    options: list


@dataclass
class Refused:
    """An input that breaks a rule at a bit."""

    name: str
    given: bytes
    reason: str
    bit: int
    options: list


@dataclass
class TooLong:
    """An input that is accepted, and whose normal form has more bytes than the limit."""

    name: str
    given: bytes
    limit: int
    options: list


def accepts(name, given, tree, normal=None, dropped=None, options="", report=None):
    """A row of an accepted input; without a normal form it is its own, and without a dropped one that is the normal form."""
    given = octets(given)
    normal = given if normal is None else octets(normal)
    dropped = normal if dropped is None else octets(dropped)
    lines = [f"magic {normal[:4].hex()}", *[line for item in tree for line in item]]
    return Accepted(name, given, normal, dropped, "".join(line + "\n" for line in lines), report, options.split())


def refuses(name, given, reason, bit, options=""):
    return Refused(name, octets(given), reason, bit, options.split())


def outgrows(name, given, limit):
    return TooLong(name, octets(given), limit, ["--bytes", str(limit)])


class Bits:
    """A stream of bits that is being written."""

    def __init__(self, text=""):
        self.bits = "".join(f"{byte:08b}"[::-1] for byte in octets(text))

    def fixed(self, width, *numbers):
        self.bits += "".join(f"{number:0{width}b}"[::-1] for number in numbers)
        return self

    def vbr(self, width, number):
        payload = 1 << (width - 1)
        while number >= payload:
            self.fixed(width, number % payload + payload)
            number //= payload
        return self.fixed(width, number)

    def pad(self):
        return self.fixed(1, *[0] * (-len(self.bits) % 32))

    def begin_length(self):
        """Leaves room for a block's length, and returns where its body begins."""
        return len(self.fixed(32, 0).bits)

    def end_length(self, body):
        """Fills in the length of the body that began there."""
        length = Bits().fixed(32, (len(self.bits) - body) // 32).bits
        self.bits = self.bits[: body - 32] + length + self.bits[body:]
        return self

    def octets(self):
        return bytes(int(self.bits[at : at + 8][::-1], 2) for at in range(0, len(self.bits), 8))

    def text(self):
        return self.octets().hex(" ")


def word(number):
    """A number of 32 bits as text."""
    return number.to_bytes(4, "little").hex(" ").upper()


TREE_30 = [block(8, record(1, 30))]
TREE_100 = [block(0, record(1, 8)), block(8, record(1, 100))]


def plain_blocks():
    """Blocks and records without definitions."""
    wide_numbers = "21 08 00 00 04 00 00 00 07 C3 07 06 FF FF FF FF FF FF FF FF FF"
    largest = block(8, record(1, 31, 32, 18446744073709551615))
    return [
        refuses("an empty input", "", "Truncated", 0),
        refuses("three bytes of a magic", "42 43 C0", "Truncated", 0),
        accepts("a magic alone", "magic", [], report="magic 4243c0de bits 32\n"),
        accepts("an empty block", "magic empty", [block(8)]),
        accepts("one record in the normal form", "magic thirty", TREE_30),
        accepts("one record with wide ids and two chunks", "magic thirty_wide", TREE_30, "magic thirty"),
        accepts("values of one, two and thirteen chunks", f"magic {wide_numbers} 0F 00 00", [largest]),
        refuses("a value with a bit past 64", f"magic {wide_numbers} 1F 00 00", "ValueTooWide", 128),
        refuses("a value with a fourteenth chunk", f"magic {wide_numbers} 2F 00 00", "ValueTooWide", 128),
        refuses("a one in the last bit of padding", "magic 21 08 00 00 01 00 00 00 00 00 00 80", "DirtyPadding", 127),
        refuses("a length that is one too many", "magic 21 08 00 00 02 00 00 00 00 00 00 00", "BlockLength", 64),
        refuses("a length that is one too few", "magic 21 08 00 00 00 00 00 00 00 00 00 00", "BlockLength", 64),
        refuses("a record by a definition that is nowhere", "magic 21 0C 00 00 01 00 00 00 04 00 00 00", "UndefinedAbbrev", 96),
        refuses("line feeds after the last block", "magic empty 0A 0A 0A 0A", "TopLevel", 128),
        accepts("another magic", "44 49 41 47 21 0C 00 00 01 00 00 00 0B 02 1E 00", [block(8, record(1, 28))],
                "44 49 41 47 21 08 00 00 01 00 00 00 07 01 07 00"),
        accepts("the greatest block id", "magic FD FF FF FF 3F 08 00 00 01 00 00 00 00 00 00 00", [block(4294967295)]),
        refuses("a block id of 33 bits", "magic 01 02 02 02 42 08 00 00", "BlockId", 34),
        refuses("zeros alone", "00*2000", "TopLevel", 32, "--bytes 1000"),
    ]


def cuts_of_one_record():
    """The block with one record, cut after each byte."""
    bits = [0, 0, 0, 0, None, 34, 46, 46, 64, 64, 64, 64, 96, 104, 110, 118]
    bytes_in_hex = octets("magic thirty").hex(" ").split()
    return [refuses(f"one record cut after {n} bytes", " ".join(bytes_in_hex[:n]), "Truncated", bit)
            for n, bit in enumerate(bits) if bit is not None]


def widths_and_nesting():
    """Widths of abbreviation ids, and nested blocks."""
    nested = "magic 21 04 00 00 04 00 00 00 13 04 00 00 01 00 00 00 00 00 00 00 00 00 00 00"
    deep = "magic " + " ".join(f"21 08 00 00 {word(1 + 3 * (255 - k))}" for k in range(1, 256)) + " 00*1020"
    lines = []
    for _ in range(255):
        lines = block(8, lines)
    return [
        accepts("a block of width 1 around another", nested, [block(8, block(9))],
                "magic 21 08 00 00 04 00 00 00 25 08 00 00 01 00 00 00 00 00 00 00 00 00 00 00",
                report="magic 4243c0de bits 224\n"
                "block 8 count 1 bits 96 definitions 0 records 0 abbreviated 0 values 0\n"
                "block 9 count 1 bits 96 definitions 0 records 0 abbreviated 0 values 0\n"),
        refuses("a block in a block with depth 1", nested, "TooDeep", 96, "--depth 1"),
        accepts("a block of width 32", "magic 21 20 01 00 01 00 00 00 00 00 00 00", [block(8)], "magic empty"),
        refuses("a block of width 0", "magic 21 00 00 00", "AbbrevWidth", 42),
        refuses("a block of width 33", "magic 21 24 01 00", "AbbrevWidth", 42),
        refuses("a 65th block in blocks", "magic " + "21 08 00 00 05 00 00 00 " * 65, "TooDeep", 4128),
        refuses("a 256th block in blocks", "magic " + "21 08 00 00 05 00 00 00 " * 256, "TooDeep", 16352, "--depth 255"),
        accepts("255 blocks one in another", deep, [lines], options="--depth 255"),
        refuses("255 blocks one in another, by the usual depth", deep, "TooDeep", 4128),
    ]


def limits():
    """Limits on depth, values and bytes, judged where they are reached."""
    eight = record(1, *range(1, 8))
    twice = "magic 21 08 00 00 04 00 00 00 07 47 20 0C 44 61 1C 07 47 20 0C 44 61 1C 00 00"
    return [
        refuses("one record with depth 0", "magic thirty", "TooDeep", 32, "--depth 0"),
        refuses("one record with values 0", "magic thirty", "TooManyValues", 104, "--values 0"),
        accepts("an empty block with values 0", "magic empty", [block(8)], options="--values 0"),
        accepts("a magic with depth 0", "magic", [], options="--depth 0 --values 0 --bytes 4"),
        accepts("a definition of literals used twice", "magic literals", [block(8, eight, eight)], twice),
        accepts("as many values as the limit", "magic literals", [block(8, eight, eight)], twice, options="--values 14"),
        refuses("one value more than the limit", "magic literals", "TooManyValues", 179, "--values 13"),
        outgrows("a normal form of 28 bytes with bytes 24", "magic literals", 24),
        outgrows("a normal form of 28 bytes with bytes 27", "magic literals", 27),
        accepts("a normal form of 28 bytes with bytes 28", "magic literals", [block(8, eight, eight)], twice,
                options="--bytes 28"),
        accepts("as many bytes as the limit", "magic empty", [block(8)], options="--bytes 16"),
        refuses("one byte more than the limit", "magic empty", "TooLong", 120, "--bytes 15"),
        refuses("no byte allowed", "magic empty", "TooLong", 0, "--bytes 0"),
        refuses("line feeds after the limit", "magic empty 0A 0A 0A 0A", "TooLong", 128, "--bytes 16"),
        refuses("line feeds, one before the limit", "magic empty 0A 0A 0A 0A", "TopLevel", 128, "--bytes 17"),
    ]


def definitions():
    """Definitions in a block, and records by them."""
    letters = "magic 21 0C 00 00 02 00 00 00 1A 03 0C 39 00 FF 0C 00"
    within = "magic 21 0C 00 00 01 00 00 00"
    return [
        accepts("an array of characters", letters, [block(8, record(1, 97, 95, 90))],
                "magic 21 08 00 00 02 00 00 00 07 43 38 FC 82 2E 00 00"),
        refuses("an array of three characters with values 2", letters, "TooManyValues", 124, "--values 2"),
        accepts("an array of no characters", "magic 21 0C 00 00 02 00 00 00 1A 03 0C 09 00 00 00 00", [block(8, record(1))],
                "magic 21 08 00 00 01 00 00 00 07 00 00 00"),
        refuses("a definition does not reach a block inside", "magic 21 0C 00 00 05 00 00 00 12 03 E4 24 61 00 00 00 "
                "01 00 00 00 24 03 00 00 00 00 00 00", "UndefinedAbbrev", 192),
        refuses("a definition of nothing", f"{within} 02 00 00 00", "AbbrevEmpty", 99),
        refuses("an encoding that is not known", f"{within} 0A 00 00 00", "AbbrevEncoding", 105),
        refuses("Fixed of width 33", f"{within} 0A 12 05 00", "FieldWidth", 108),
        refuses("VBR of width 1", f"{within} 0A 14 00 00", "FieldWidth", 108),
        refuses("an array as the first operand", f"{within} 12 06 00 00", "AbbrevShape", 104),
        refuses("an array as the second of four operands", f"{within} 22 03 0C 00", "AbbrevShape", 113),
    ]


def shapes():
    """Definitions with operands in no lawful order, judged at a record that uses them."""
    at_use, one = "--shapes-at-use", "magic 21 08 00 00 01 00 00 00 07 01 39 00"
    array, element, blob = "22 03 4C 8E 1C", "1A 03 AC 00", "1A 03 54 0E"
    empty, short = "magic 21 0C 00 00 02 00 00 00", "magic 21 0C 00 00 03 00 00 00"
    info = "magic 01 08 00 00 02 00 00 00 07 01 22 19 60 72 E4 00"
    return [
        accepts("an array before the end, not used", f"{empty} {array} 00 00 00", [block(8)], "magic empty", options=at_use),
        refuses("an array before the end, not used, judged", f"{empty} {array} 00 00 00", "AbbrevShape", 113),
        refuses("an array before the end, used", f"{short} {array} 02 00 00 00*4", "AbbrevShape", 135, at_use),
        accepts("an array before the end, and another definition that is used", f"{short} 22 03 4C 8E 1C 89 01 72 4A 06 00 00",
                [block(8, record(1, 100))], one, options=at_use,
                report="magic 4243c0de bits 192\n"
                "block 8 count 1 bits 160 definitions 2 records 1 abbreviated 1 values 1\n"
                "  record 1 count 1 bits 10\n"),
        accepts("a literal as an element, not used", f"{empty} {element} 00*4", [block(8)], "magic empty", options=at_use),
        refuses("a literal as an element, used", f"{short} {element} 01 00*7", "AbbrevShape", 126, at_use),
        accepts("a blob before the end, not used", f"{empty} {blob} 00*4", [block(8)], "magic empty", options=at_use),
        refuses("a blob before the end, used", f"{short} {blob} 01 00*7", "AbbrevShape", 126, at_use),
        refuses("an array before the end, used in another block", f"{info} 21 0C 00 00 02 00 00 00 04 00*7", "AbbrevShape", 224,
                at_use),
        accepts("an array before the end, for another block", f"{info} 21 0C 00 00 01 00 00 00 00*4",
                [block(0, record(1, 8)), block(8)], "magic info_normal empty", "magic empty", options=at_use),
        refuses("a width that is judged all the same", "magic 21 0C 00 00 01 00 00 00 12 26 51 00", "FieldWidth", 112, at_use),
        refuses("an array before the end, used without room", f"{short} 2A 03 E4 98 1C 39 04 00*5", "AbbrevShape", 144,
                f"{at_use} --values 0"),
        accepts("a definition whose shape is lawful", "magic info use", TREE_100, "magic info_normal use_normal",
                "magic use_normal", options=at_use),
    ]


def zero_widths():
    """Operands of width 0."""
    within = "magic 21 0C 00 00"
    zeros = f"{within} 02 00 00 00 1A 03 4C 00 07 00 00 00"
    return [
        accepts("a definition with Fixed of width 0", f"{within} 01 00 00 00 0A 02 00 00", [block(8)], "magic empty"),
        accepts("a definition with VBR of width 0", f"{within} 01 00 00 00 0A 04 00 00", [block(8)], "magic empty"),
        accepts("a code of width 0", f"{within} 01 00 00 00 0A 02 08 00", [block(8, record(0))],
                "magic 21 08 00 00 01 00 00 00 03 00 00 00"),
        accepts("a value of width 0", f"{within} 02 00 00 00 1A 03 08 08 61 02 00 00", [block(8, record(1, 0, 9))],
                "magic 21 08 00 00 01 00 00 00 07 02 90 00"),
        accepts("an array of elements of width 0", zeros, [block(8, record(1, 0, 0, 0))],
                "magic 21 08 00 00 02 00 00 00 07 03 00 00 00 00 00 00",
                report="magic 4243c0de bits 160\n"
                "block 8 count 1 bits 128 definitions 1 records 1 abbreviated 1 values 3\n"
                "  record 1 count 1 bits 9\n"),
        refuses("three elements of width 0 with values 2", zeros, "TooManyValues", 129, "--values 2"),
    ]


def definitions_for_other_blocks():
    """BLOCKINFO blocks, what they define, and for which blocks."""
    after = "01 08 00 00 01 00 00 00"
    one_more = "21 0C 00 00 02 00 00 00 12 05 84 90 DC 04 00 00"
    one_more_normal = "21 08 00 00 02 00 00 00 07 01 39 2C 04 09 00 00"
    return [
        accepts("a definition for another block", "magic info use", TREE_100, "magic info_normal use_normal", "magic use_normal",
                report="magic 4243c0de bits 256\n"
                "block 0 count 1 bits 128 definitions 1 records 1 abbreviated 0 values 1\n"
                "  record 1 count 1 bits 20\n"
                "block 8 count 1 bits 96 definitions 0 records 1 abbreviated 1 values 1\n"
                "  record 1 count 1 bits 10\n"),
        accepts("a definition for another block, and one of its own", f"magic info {one_more}",
                [block(0, record(1, 8)), block(8, record(1, 100), record(2, 9))],
                f"magic info_normal {one_more_normal}", f"magic {one_more_normal}"),
        accepts("a BLOCKINFO block alone", "magic info", [block(0, record(1, 8))], "magic info_normal", "magic"),
        accepts("a block that is described twice", "magic 01 08 00 00 03 00 00 00 07 01 A2 18 20 E7 20 40 14 05 84 00 "
                "21 0C 00 00 01 00 00 00 4D 00 00 00", [block(0, record(1, 8), record(1, 8)), block(8, record(2, 9))],
                "magic 01 08 00 00 02 00 00 00 07 01 72 10 20 00 00 00 21 08 00 00 01 00 00 00 0B 41 02 00",
                "magic 21 08 00 00 01 00 00 00 0B 41 02 00"),
        accepts("a BLOCKINFO block in a block reaches the blocks after it", "magic 21 0C 00 00 08 00 00 00 "
                "01 10 00 00 02 00 00 00 07 01 A2 18 20 07 00 00 41 18 00 00 01 00 00 00 24 03 00 00 00 00 00 00",
                [block(8, *TREE_100)],
                "magic 21 08 00 00 07 00 00 00 info_normal use_normal 00 00 00 00",
                "magic 21 08 00 00 04 00 00 00 use_normal 00 00 00 00"),
        refuses("a BLOCKINFO block does not reach the block that is open", "magic 21 0C 00 00 05 00 00 00 "
                "01 10 00 00 02 00 00 00 07 01 A2 18 20 07 00 00 24 03 00 00", "UndefinedAbbrev", 224),
        refuses("a second BLOCKINFO block replaces the first", "magic info use 01 08 00 00 01 00 00 00 00 00 00 00 use",
                "UndefinedAbbrev", 416),
        refuses("a record before a block is described", f"magic {after} 0B 00 00 00", "NoBlockSet", 96),
        refuses("a definition before a block is described", f"magic {after} 02 00 00 00", "NoBlockSet", 96),
        refuses("a block is described by no value", f"magic {after} 07 00 00 00", "BadSetBid", 96),
        refuses("a block in a BLOCKINFO block", f"magic {after} 01 00 00 00", "NestedInBlockInfo", 96),
    ]


def blobs():
    """Blobs, and the same bytes as an array."""
    five = "magic 21 0C 00 00 04 00 00 00 12 03 94 05 61 62 63 64 65"
    letters = [block(8, record(1, 97, 98, 99, 100, 101))]
    normal = "magic 21 08 00 00 03 00 00 00 07 45 38 88 C3 38 90 43 39 00 00 00"
    return [
        accepts("an empty blob", "magic 21 0C 00 00 02 00 00 00 12 03 94 00 00 00 00 00", [block(8, record(1))],
                "magic 21 08 00 00 01 00 00 00 07 00 00 00"),
        accepts("a blob of four bytes", "magic 21 0C 00 00 03 00 00 00 12 03 94 04 01 02 03 04 00 00 00 00",
                [block(8, record(1, 1, 2, 3, 4))], "magic 21 08 00 00 02 00 00 00 07 44 20 0C 04 00 00 00"),
        accepts("a blob of five bytes", f"{five} 00 00 00 00 00 00 00", letters, normal),
        refuses("a one in the padding of a blob", f"{five} 00 02 00 00 00 00 00", "DirtyPadding", 177),
        accepts("an array of the same five bytes", "magic 21 0C 00 00 03 00 00 00 1A 03 4C 10 8B 30 B1 31 B2 32 00 00",
                letters, normal),
    ]


def wrapper(version=0, offset=20, size=16):
    """The header of a wrapper."""
    return f"DE C0 17 0B {word(version)} {word(offset)} {word(size)} 07 00 00 01"


def wrappers():
    """Wrappers, whole and broken, and how a limit on bytes cuts them."""
    far = f"{wrapper(offset=24)} FF FF FF FF magic empty"
    return [
        accepts("a wrapper, padded as Darwin's tools pad it", "wrapper magic empty 00*12", [block(8)], "magic empty"),
        accepts("a wrapper without a tail", "wrapper magic empty", [block(8)], "magic empty"),
        accepts("a wrapper with a gap", far, [block(8)], "magic empty"),
        refuses("a wrapper cut in its gap", f"{wrapper(offset=24)} FF FF", "Truncated", 160),
        refuses("a wrapper cut before its size", "DE C0 17 0B 00 00 00 00 18 00 00 00", "Truncated", 96),
        refuses("a wrapper of more bytes than there are", f"{wrapper(size=20)} magic empty", "WrapperSize", 96),
        refuses("a wrapper whose size takes in padding", f"{wrapper(size=20)} magic empty 00*12", "TopLevel", 288),
        refuses("a wrapper in a wrapper", "wrapper DE C0 17 0B", "WrapperNested", 160),
        refuses("a wrapper of version 1", f"{wrapper(version=1)} magic empty", "WrapperVersion", 32),
        refuses("an offset inside the header", f"{wrapper(offset=16)} magic empty", "WrapperOffset", 64),
        refuses("an offset that is no multiple of 4", f"{wrapper(offset=22)} magic empty", "WrapperOffset", 64),
        refuses("a size that cuts a field", f"{wrapper(size=6)} magic empty 00*12", "Truncated", 206),
        refuses("a size that cuts a field, by a limit reached after it", f"{wrapper(size=6)} magic empty 00*12", "Truncated",
                206, "--bytes 47"),
        refuses("a size that the limit cuts", f"{wrapper(size=6)} magic empty 00*12", "TooLong", 200, "--bytes 25"),
        refuses("the greatest size", f"{wrapper(size=0xFFFFFFFF)} magic empty", "WrapperSize", 96),
        refuses("the greatest size, with padding", f"{wrapper(size=0xFFFFFFFF)} magic empty 00*12", "TopLevel", 288),
        refuses("the greatest offset", f"{wrapper(offset=0xFFFFFFFC)} magic empty", "Truncated", 160),
        refuses("a wrapper with a tail past the limit", "wrapper magic empty 00*1964", "TooLong", 8000, "--bytes 1000"),
        refuses("a wrapper of 2000 bytes past the limit", f"{wrapper(size=2000)} magic empty 00*1964", "TopLevel", 288,
                "--bytes 1000"),
        refuses("a gap past the limit", f"{wrapper(offset=0xFFFFFFFC)} magic empty 00*1964", "TooLong", 8000, "--bytes 1000"),
        refuses("a wrapper that the limit cuts in its header", "DE C0 17 0B 00*1996", "TooLong", 80, "--bytes 10"),
    ]


def many_literals(uses, last):
    """A definition of a code and a thousand values, all literals of value 0, that `uses` records use."""
    made = Bits(f"magic 21 0C 00 00 {word(292)}").fixed(3, 2).vbr(5, 1001)
    for _ in range(1001):
        made.fixed(1, 1).vbr(8, 0)
    return made.fixed(3, *[4] * uses, *last).pad().text()


def many_zeros(uses):
    """The normal form of such records."""
    body = Bits()
    for _ in range(uses):
        body.fixed(2, 3).vbr(6, 0).vbr(6, 1000).fixed(6, *[0] * 1000)
    body.fixed(2, 0).pad()
    return f"magic 21 08 00 00 {word(len(body.bits) // 32)} {body.text()}"


def counts_that_lie():
    """Numbers of values that the input claims and does not have, and few bits with many values."""
    used = many_literals(100, [0])
    zeros = [block(8, *[record(0, *[0] * 1000)] * 100)]
    return [
        refuses("a record of 2^64 - 1 values", f"magic 21 08 00 00 03 00 00 00 07 {'FF ' * 9} 0F 00", "TooManyValues", 104),
        refuses("a number of operands of 17 chunks", f"magic 21 0C 00 00 03 00 00 00 FA {'FF ' * 12}", "ValueTooWide", 99),
        refuses("a definition of 2^64 - 1 operands", f"magic 21 0C 00 00 03 00 00 00 FA {'FF ' * 9} 03 00", "AbbrevEncoding",
                180),
        accepts("100 records of a thousand literals", used, zeros, many_zeros(100), options="--values 100000"),
        outgrows("a normal form of 75264 bytes with bytes 75263", used, 75263),
        refuses("one record more than the limit on values", many_literals(101, []), "TooManyValues", 9423, "--values 100000"),
    ]


def all_rows():
    return [*plain_blocks(), *cuts_of_one_record(), *widths_and_nesting(), *limits(), *definitions(), *shapes(),
            *zero_widths(), *definitions_for_other_blocks(), *blobs(), *wrappers(), *counts_that_lie()]

# ---- listings

BEGUN = "magic 4243c0de\n"
INFO = BEGUN + "block 0\n  record 1 8\n"
# Listings that are refused: options, the text, and why.
REFUSED_LISTINGS = [
    ("", "", "NoMagic at line 1"),
    ("", "# one\n\n# three", "NoMagic at line 3"),
    ("", "block 8\n", "NoMagic at line 1"),
    ("", " " + BEGUN, "NoMagic at line 1"),
    ("", "magic 4243C0DE\n", "NoMagic at line 1"),
    ("", "magic 4243c0d\n", "NoMagic at line 1"),
    ("", "magic dec0170b\n", "WrapperMagic at line 1"),
    ("", BEGUN + BEGUN, "BadLine at line 2"),
    ("", BEGUN + "blocks 8\n", "BadLine at line 2"),
    ("", BEGUN + "block\n", "BadLine at line 2"),
    ("", BEGUN + "block 8 9\n", "BadLine at line 2"),
    ("", BEGUN + "block 8 \n", "BadLine at line 2"),
    ("", BEGUN + "block 8\r\n", "BadLine at line 2"),
    ("", BEGUN + "block 8\n  record 1  2\n", "BadLine at line 3"),
    ("", BEGUN + "block 8\n  record 1 +2\n", "BadLine at line 3"),
    ("", BEGUN + "block 0x\n", "BadLine at line 2"),
    ("", BEGUN + "block 8\n\trecord 1\n", "BadLine at line 3"),
    ("", BEGUN + "block 4294967296\n", "NumberTooLarge at line 2"),
    ("", BEGUN + "block 8\n\n  record 1 18446744073709551616\n", "NumberTooLarge at line 4"),
    ("", BEGUN + "block 8\n record 1\n", "BadIndentation at line 3"),
    ("", BEGUN + "block 8\n    record 1\n", "BadIndentation at line 3"),
    ("", BEGUN + "record 1 2\n", "Misplaced at line 2"),
    ("", BEGUN + "block 0\n  record 2 8\n", "Misplaced at line 3"),
    ("", BEGUN + "block 0\n  record 1\n", "Misplaced at line 3"),
    ("", f"{INFO}  record 1 4294967296\n", "Misplaced at line 4"),
    ("", f"{INFO}  block 9\n", "Misplaced at line 4"),
    ("--depth 1", BEGUN + "block 8\n  block 9\n", "TooDeep at line 3"),
    ("--depth 0", BEGUN + "block 8\n", "TooDeep at line 2"),
    ("--values 2", BEGUN + "block 8\n  record 1 2\n  record 1 2 3\n", "TooManyValues at line 4"),
    ("--bytes 15", BEGUN + "block 8\n  record 1 30\n", "normal form longer than 15 bytes"),
]
