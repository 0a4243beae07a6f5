"""What llvm-bcanalyzer prints of a stream: the tree, and the counts and bits of each block id."""
import re
import subprocess
from dataclasses import dataclass

import reports
from clang_files import find_all, find_tool
from program import skip
from worked_inputs import TREE_100, octets

# A block or a record whose name the tool does not know has its number in the name's place.
BLOCK = re.compile(r"( *)<(?:UnknownBlock|[^<>]+ BlockID=)(\d+) NumWords=\d+ BlockCodeSize=(\d+)")
RECORD = re.compile(r"( *)<(?:UnknownCode|[^<>]+ codeid=)(\d+)( abbrevid=\d+)?((?: op\d+=-?\d+)*)(.*)")


@dataclass
class Told:
    """The bits of the stream, a row for each block id, and the lines of a listing without the values of blobs."""

    bits: int
    rows: dict
    lines: list
    has_blob: list


def find():
    """The tool; None, and a line with the reason, if it is missing or its output is not known here."""
    tool = find_tool("llvm-bcanalyzer")
    if tool is None:
        skip("no llvm-bcanalyzer")
    return known(tool)


def find_of(version):
    """The same for the tool of a version of LLVM."""
    tool = find_all("llvm-bcanalyzer").get(version)
    if tool is None:
        skip(f"no llvm-bcanalyzer of version {version}")
    return known(tool)


def known(tool):
    """The tool, if there is one and its output is known here."""
    if tool is None:
        return None
    try:
        told, _ = read(dump_of(tool, octets("magic info use")))
        is_known = told.bits == 256 and told.lines == [line for item in TREE_100 for line in item]
    except (AttributeError, IndexError, KeyError, TypeError):
        is_known = False
    if not is_known:
        skip("llvm-bcanalyzer, whose text is not the one known here")
    return tool if is_known else None


def dump_of(tool, stream):
    """The text that the tool prints of a stream; None if it fails."""
    ran = subprocess.run([tool, "--dump", "--dump-blockinfo", "--non-symbolic"], input=stream, capture_output=True)
    return ran.stdout.decode(errors="replace") if ran.returncode == 0 else None


def length_of_chunks(number):
    """How many bits a VBR of width 8 takes."""
    return 8 * max(1, -(-number.bit_length() // 7))


def read_tree(dump, told):
    """Adds each block and record of the dump. The tool counts the id of a block, and its kind, to the block around it."""
    around = [(2, None)]
    for line in dump.split("\nSummary of")[0].split("\n"):
        block, record = BLOCK.match(line), RECORD.match(line)
        if block:
            depth, number, width = len(block[1]) // 2, int(block[2]), int(block[3])
            del around[depth + 1 :]
            row, (outer_width, outer) = told.rows.setdefault(number, reports.Row()), around[-1]
            taken = outer_width + length_of_chunks(number)
            row.blocks += 1
            row.bits += taken
            if outer is not None:
                outer.bits -= taken
            around.append((width, row))
            told.lines.append(f"{block[1]}block {number}")
            told.has_blob.append(False)
        elif record:
            row = around[len(record[1]) // 2][1]
            operands = [str(int(it) % 2**64) for it in re.findall(r"=(-?\d+)", record[4])]
            row.records += 1
            row.abbreviated += record[3] is not None
            told.lines.append(" ".join([f"{record[1]}record {record[2]}", *operands]))
            told.has_blob.append("blob data" in record[5] or "num-strings" in record[5])
            count, _ = row.codes.get(int(record[2]), (0, 0))
            row.codes[int(record[2])] = (count + 1, 0)


def read_summary(dump, told):
    """Adds the bits and definitions of each block id. Returns the counts and bits of the records of each id, of all codes."""
    summary = dump.split("\nSummary of")[1]
    head, *parts = re.split(r"\n  Block ID #", summary)
    told.bits = int(re.search(r"Total size: (\d+)b", head)[1])
    histogram = {}
    for part in parts:
        number = int(re.match(r"\d+", part)[0])
        told.rows[number].bits += int(re.search(r"Total Size: (\d+)b", part)[1])
        told.rows[number].definitions = int(re.search(r"(?:Num|Tot/Avg) Abbrevs: (\d+)", part)[1])
        histogram[number] = sorted((int(count), int(bits)) for count, bits in re.findall(r"^\t\t +(\d+) +(\d+) ", part, re.M))
    return histogram


def read(dump):
    """All of it, and the sorted counts and bits of records by block id."""
    told = Told(0, {}, [], [])
    read_tree(dump, told)
    return told, read_summary(dump, told)


def is_tree_of(told, listing):
    """Whether the lines are those of a listing, except for the values of blobs, which only the listing has."""
    lines = listing.split("\n")[1:-1]
    if len(lines) != len(told.lines):
        return False
    return all(
        ours == theirs or has_blob and ours.startswith(theirs)
        for ours, theirs, has_blob in zip(lines, told.lines, told.has_blob)
    )


def compare(checks, tool, name, given, report, listing):
    """Checks the report and the listing of an input against the output of the tool."""
    dump = dump_of(tool, given)
    if not checks.holds(f"{name}: llvm-bcanalyzer reads it", dump is not None):
        return
    told, histogram = read(dump)
    _, bits, rows = reports.parse(report)
    checks.equal(f"{name}: bits", bits, told.bits)
    checks.equal(f"{name}: block ids", list(rows), list(told.rows))
    for number, row in rows.items():
        wanted = told.rows.get(number, reports.Row())
        for fact in ("blocks", "bits", "definitions", "records", "abbreviated"):
            checks.equal(f"{name}: block {number}: {fact}", getattr(row, fact), getattr(wanted, fact))
        checks.equal(f"{name}: block {number}: records by code", row.counts(), wanted.counts())
        checks.equal(f"{name}: block {number}: bits of records", sorted(row.codes.values()), histogram.get(number, []))
    checks.holds(f"{name}: the tree", is_tree_of(told, listing))


def compare_normal(checks, tool, name, normal, listing):
    """Checks that the tool finds in a normal form the tree that is listed, and no blob."""
    dump = dump_of(tool, normal)
    if checks.holds(f"{name}: llvm-bcanalyzer reads the normal form", dump is not None):
        told, _ = read(dump)
        checks.holds(f"{name}: the tree of the normal form", not any(told.has_blob) and is_tree_of(told, listing))
