#!/usr/bin/env python3
"""Lines that try how the program `calls` reads: `lines.py requests` prints requests, `lines.py results` what the protocol says to them."""
import sys

BUFFER = 450000  # bytes that `calls` has room for, its line feed not counted
NOT_THERE = "start - length 0 / -\n"
LOOKUP = "lookup {} / -"


def padded(length):
    """A request of so many bytes: a number may begin with zeros."""
    return LOOKUP.format("0" * (length - len(LOOKUP.format(""))))


LINES = [  # a line and its result
    ("", ""),
    ("# a remark", ""),
    (LOOKUP.format(7), NOT_THERE),
    (" ", "error\n"),
    (padded(1000), NOT_THERE),
    (padded(BUFFER - 1), NOT_THERE),
    # too long to be read, though its front would be a request
    (padded(BUFFER) + " 1", "error\n"),
    (padded(BUFFER) + "\n", "error\n"),
    ("#" * (BUFFER + 100), ""),
    (LOOKUP.format(1), NOT_THERE),
    ("lookup 4294967296 / -", "error\n"),
    # the last line lacks its line feed
    (LOOKUP.format(2), NOT_THERE),
]
if __name__ == "__main__" and sys.argv[1:] == ["requests"]:
    sys.stdout.write("\n".join(line for line, _ in LINES))
elif __name__ == "__main__" and sys.argv[1:] == ["results"]:
    sys.stdout.write("".join(result for _, result in LINES))
