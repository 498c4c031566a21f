#!/usr/bin/env python3
"""Canonical texts of `sp` with a dict and sorted(), from standard input to standard output. It checks only node numbers
and the number of arcs."""

import sys


def main() -> None:
    least: dict[tuple[int, int], int] = {}
    nodes = arcs = -1
    seen = 0
    for line in sys.stdin.buffer:
        words = line.split()
        if not words or words[0].startswith(b"c"):
            continue
        if words[0] == b"a":
            pair = (int(words[1]), int(words[2]))
            length = int(words[3])
            if not (1 <= pair[0] <= nodes and 1 <= pair[1] <= nodes):
                sys.exit("node out of range")
            seen += 1
            if pair not in least or length < least[pair]:
                least[pair] = length
        elif words[0] == b"p" and words[1] == b"sp" and nodes < 0:
            nodes, arcs = int(words[2]), int(words[3])
        else:
            sys.exit("bad line")
    if seen != arcs:
        sys.exit("wrong number of arcs")
    out = sys.stdout
    out.write("p sp %d %d\n" % (nodes, len(least)))
    out.writelines("a %d %d %d\n" % (pair[0], pair[1], least[pair]) for pair in sorted(least))


if __name__ == "__main__":
    main()
