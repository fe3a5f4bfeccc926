#!/usr/bin/env python3
"""The examples of a page: rows of its tables whose first two columns are a line and its answer, each in back quotes.

  tools/examples.py           write the desk's answers into docs/LINES.md (first: tools/build desk)
  tools/examples.py --check   write nothing; name the examples that the desk answers otherwise, and fail

All examples of a page are one text, answered over one emptied book. {1..16} in a line stands for sixteen lines, which
must be answered alike. tools/desk_vectors.py gives the same text to the gate's run of the desk.

A row that begins with a number is a line of the page's batch of depository 2, sent to an emptied book;
tools/calls_vectors.py gives that batch to the gate's run of `calls`.
"""
import os
import re
import subprocess
import sys

ROW = re.compile(r"^\| `([^`]*)` \| `([^`]*)` \|", re.M)
BATCH_ROW = re.compile(r"^\| (\d+) \| `([^`]*)` \| `([^`]*)` \|", re.M)
BATCH_CSD = 2
RANGE = re.compile(r"\{(\d+)\.\.(\d+)\}")


def expanded(line):
    """the lines that an example's line stands for"""
    found = RANGE.search(line)
    if not found:
        return [line]
    first, last = map(int, found.groups())
    return [line[:found.start()] + str(n) + line[found.end():] for n in range(first, last + 1)]


def examples(path):
    """(lines, answer) of each row"""
    with open(path) as f:
        return [(expanded(line), answer) for line, answer in ROW.findall(f.read())]


def pairs(path):
    """each line of the page with its answer"""
    return [(line, answer) for lines, answer in examples(path) for line in lines]


def batch(path):
    """each line of the page's batch with its answer"""
    with open(path) as f:
        rows = BATCH_ROW.findall(f.read())
    assert [int(number) for number, _, _ in rows] == list(range(len(rows))), f"{path}: the batch's lines are numbered from 0"
    return [(line, answer) for _, line, answer in rows]


def desk(words, text):
    """the desk's answers to a text"""
    run = subprocess.run(["target/bin/desk"] + words, input=text, capture_output=True, text=True)
    return run.stdout.split("\n")


def main(words):
    if words not in ([], ["--check"]):
        sys.exit(__doc__)
    os.chdir(os.path.dirname(os.path.dirname(os.path.realpath(__file__))))
    path = "docs/LINES.md"
    text = "".join(f"{line}\n" for line, _ in pairs(path))
    given = iter(desk([], text))
    right = []
    for lines, answer in examples(path):
        answers = {next(given) for _ in lines}
        if len(answers) != 1:
            sys.exit(f"tools/examples.py: {lines[0]} and the lines with it are answered differently: {sorted(answers)}")
        right += answers
        if words and answer not in answers:
            print(f"{path}: {lines[0]} is answered {right[-1]}, not {answer}")
    page = open(path).read()
    rest = iter(right)
    new = ROW.sub(lambda m: f"| `{m.group(1)}` | `{next(rest)}` |", page)
    together = iter(desk(["batch", str(BATCH_CSD), "-"], "".join(f"{line}\n" for line, _ in batch(path))))
    new = BATCH_ROW.sub(lambda m: f"| {m.group(1)} | `{m.group(2)}` | `{next(together)}` |", new)
    if words:
        sys.exit("the examples are not as the desk answers them" if new != page else 0)
    with open(path, "w") as f:
        f.write(new)


if __name__ == "__main__":
    main(sys.argv[1:])
