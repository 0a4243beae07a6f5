#!/usr/bin/env python3
"""Prints the report of a file: report.py FILE. The module bitstream has to be on Python's path."""
import sys

import bitstream


def main() -> None:
    with open(sys.argv[1], "rb") as file:
        given = file.read()
    try:
        print(bitstream.report(given), end="")
    except bitstream.Refused as refused:
        sys.exit("%s: %s at bit %d" % (sys.argv[1], refused.reason, refused.bit))


if __name__ == "__main__":
    main()
