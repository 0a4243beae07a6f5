#!/usr/bin/env python3
"""Writes C for the calls of bitstream.h that take pointers with lengths: each replaces a null pointer of length 0 by one to an
aligned word, and calls the proved call, which takes no null pointer. One with a length is passed on, so that reading it ends the
program; a word in its place would be read as an input. And for those that analyse: the proved call takes keys for its hashes too,
which are drawn for each call.
Usage: null.py HEADER NAMES > SOURCE, where NAMES is a file to write: each call, and the name that its proved one is given."""
import re
import sys

START = """#include "bitstream.h"
#include <sys/random.h>
/* Aligned for every element; never read or written. */
static uint64_t nothing;
#define SOME(at, len) ((at) || (len) ? (at) : (void *)&nothing)
"""
KEYS = """/* Keys for the hashes of an analysis, the last argument of a proved call that analyses. */
struct bs_keys { uint64_t first; uint64_t second; };

/* Draws them. If the system gives no random bytes they are zeros: no result depends on them, but an input can be slow. */
static struct bs_keys draw(void) {
    struct bs_keys keys;
    return getrandom(&keys, sizeof keys, 0) == sizeof keys ? keys : (struct bs_keys){0, 0};
}
"""
KEYED = ["bs_analyse", "bs_fed_analyse", "bs_fed_report", "bs_hold_report", "bs_report"]
LEFT_OUT = """    struct bs_left_out named = *left_out;
    named.blocks = SOME(named.blocks, named.blocks_len);
    named.records = SOME(named.records, named.records_len);
"""
BYTES = "    *name = (struct bs_bytes){(const uint8_t *)&nothing, 0};\n"


def calls(header):
    """Each call of the header: its result, its name and its parameters."""
    text = re.sub(r"/\*.*?\*/", "", header, flags=re.S)
    for it in re.finditer(r"^(uint32_t|void) (bs_\w+)\(([^)]*)\);", text, re.M):
        yield it[1], it[2], " ".join(it[3].split())


def passed(parameter, all_of_them):
    """What is passed on for a parameter."""
    name = re.search(r"\w+$", parameter)[0]
    if name == "left_out":
        return "&named"
    return f"SOME({name}, {name}_len)" if f"size_t {name}_len" in all_of_them else name


def proved(result, name, told):
    """The declaration of a proved call."""
    return f"{result} proved_{name}({told}{', const struct bs_keys *keys' if name in KEYED else ''})"


def main():
    print(START)
    print(KEYS)
    with open(sys.argv[1]) as header, open(sys.argv[2], "w") as names:
        for result, name, told in calls(header.read()):
            parameters = told.split(", ")
            given = [passed(it, parameters) for it in parameters]
            before = LEFT_OUT if "&named" in given else BYTES if "struct bs_bytes *name" in parameters else ""
            if name in KEYED:
                before += "    const struct bs_keys keys = draw();\n"
                given.append("&keys")
            if before or any(it.startswith("SOME") for it in given):
                names.write(f"{name} proved_{name}\n")
                print(f"extern {proved(result, name, told)};\n{result} {name}({told}) {{\n{before}"
                      f"    {'' if result == 'void' else 'return '}proved_{name}({', '.join(given)});\n}}\n")


if __name__ == "__main__":
    main()
