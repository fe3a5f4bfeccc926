#!/usr/bin/env python3
"""Writes what crates/keler_main must show: the independent program's 55 lines in 82 marked bytes, then lines that are
refused."""
from output import plain

lines = open("vectors/keler-1.lines").read().split()


def written(line, space=82):
    return f"{len(line)} {line.ljust(space, '#')}\n"


def refused(number, space=82):
    return f"{number} {'#' * space}\n"


shown = [written(line) for line in lines]
# number 0, number 56, csd 9, 29 February 2017: 5; the first day is the day: 6; both: 5; 79 bytes: 5; line 55 as csd 8
# into 80 bytes
shown += [refused(5)] * 4 + [refused(6), refused(5), refused(5, 79), written(lines[54].replace("M,1", "M,8"), 80)]
plain("crates/keler_main/stdout", "".join(shown))
