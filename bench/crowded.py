#!/usr/bin/env python3
"""crowded.py: the lines of a sound book made to be slow for soundness, on standard output.

Each depository's 128 rows share a bucket and differ in their last values only, its 128 periods are of one number and
attribute and share no day, and as many rules as can share one bucket do; the rows are of the rule that is found last.
With PENDING=1 in the environment (request d) each depository keeps 32 instructions.
crowded.py measure PROGRAM: microseconds that PROGRAM takes for a line over it, beside the book of bench/book.py.
"""
import os
import random
import subprocess
import sys

import book
from pending import PENDING

DAY, FIRST, LAST = 20260101, 20270101, 20271231
CSDS, TYPES, RULES, ROWS, PERIODS, KEPT = range(1, 9), 16, 64, 128, 128, 32 if PENDING else 0
CRITERIA = 2 ** 7 + 2 ** 8 + 2 ** 9


def key_bucket(key):
    return key * 2654435761 // 2097152 % 2048


def rule_key(csd, number, of, sequence):
    return csd + 256 * number + 65536 * of + 16777216 * sequence


def row_bucket(key, v7, v8, v9):
    total = v7 + 65536 * v8 + 4294967296 * v9
    return key_bucket((total % 4294967296 + total // 4294967296 + key) % 4294967296) // 8


def shared_rules():
    """The rules of the bucket that most rules share, within each depository's quotas."""
    buckets = {}
    for csd in CSDS:
        for number in range(1, 100):
            for of in (1, 2):
                for sequence in range(1, 100):
                    key = rule_key(csd, number, of, sequence)
                    buckets.setdefault(key_bucket(key), []).append((csd, number, of, sequence))

    def within_quotas(keys):
        kept, types, count = [], {}, {}
        for csd, number, of, sequence in keys:
            held = types.setdefault(csd, set())
            if count.get(csd, 0) < RULES and ((number, of) in held or len(held) < TYPES):
                held.add((number, of))
                count[csd] = count.get(csd, 0) + 1
                kept.append((csd, number, of, sequence))
        return kept
    return max((within_quotas(keys) for keys in buckets.values()), key=len)


def letters(n):
    return "".join(chr(65 + n // 26 ** i % 26) for i in (2, 1, 0))


def word(text):
    return sum(ord(c) * 256 ** i for i, c in enumerate(reversed(text)))


def days():
    for month in range(1, 13):
        for day in range(1, 29):
            yield 2027 * 10000 + month * 100 + day


def rows_of(csd, number, of, sequence):
    """Rows of one bucket; the bucket is that of the first."""
    chance, found, seen = random.Random(csd), None, set()
    while len(seen) < ROWS:
        v7, v8 = (chance.randrange(1, 100) * 100 + chance.randrange(1, 100) for _ in range(2))
        v9 = letters(chance.randrange(26 ** 3))
        bucket = row_bucket(rule_key(csd, number, of, sequence), v7, v8, word(v9))
        found = bucket if found is None else found
        if bucket == found and (v7, v8, v9) not in seen:
            seen.add((v7, v8, v9))
            yield f"M,{csd},{DAY},{number},{of},{sequence},,,,,,,,{v7},{v8},{v9}"


def book_lines():
    rules = shared_rules()
    types, lines, held = {}, [], {}
    for csd, number, of, _ in rules:
        types.setdefault(csd, []).append((number, of))
    for csd in CSDS:
        mine = list(dict.fromkeys(types.get(csd, []) + [(99, 1)]))[:TYPES]
        lines += [f"T,{csd},{DAY},{number},{of},1,{FIRST},{LAST}" for number, of in mine]
    # The record entered first has the last place, and is found first. A depository's rows are of its last rule.
    for csd, number, of, sequence in rules:
        held.setdefault(csd, []).append((number, of, sequence))
        lines.append(f"R,{csd},{DAY},{number},{of},{sequence},P,{CRITERIA},{FIRST},{LAST}")
    for csd in CSDS:
        if csd in held:
            lines += rows_of(csd, *held[csd][-1])
        lines += [f"A,{csd},{DAY},P,1,101,{day},{day}" for day, _ in zip(days(), range(PERIODS))]
        lines += [f"S,{csd},{FIRST},{n},1,2,DELI,FREE,,EUR,1,1,1" for n in range(1, KEPT + 1)]
    return lines, len(rules)


def seconds(program, lines):
    before = os.times()
    result = subprocess.run([program], input="".join(line + "\n" for line in lines).encode(), stdout=subprocess.PIPE, check=True)
    after = os.times()
    return after.children_user - before.children_user, result.stdout.split(b"\n")[:-1]


def measure(program):
    crowded, shared = book_lines()
    print(f"{shared} rules share a bucket")
    for name, base in (("full", book.book_lines("full")), ("crowded", crowded)):
        # A line that no table has is refused once soundness is found.
        noise, best = 4000, None
        for _ in range(5):
            alone, answers = seconds(program, base)
            more, _ = seconds(program, base + ["X"] * noise)
            if any(answer.startswith(b"F") for answer in answers):
                sys.exit(f"{name}: a line is not taken")
            cost = (more - alone) / noise * 1e6
            best = cost if best is None else min(best, cost)
        print(f"{name}: {len(base)} records, {best:.1f} us a line", flush=True)


if __name__ == "__main__":
    if sys.argv[1:2] == ["measure"]:
        measure(sys.argv[2])
    else:
        print("\n".join(book_lines()[0]))
