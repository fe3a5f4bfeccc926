#!/usr/bin/env python3
"""Writes what the gate runs crates/calls on: args, data/ and stdout. Each file of vectors/requests/LANDED is answered
over a book of its own, and so is the batch of docs/LINES.md (examples.in). LANDED is the last request that has landed:
its folder has the answers of all requests up to it."""
import os
from examples import BATCH_CSD, batch
from output import plain

CALLS = "crates/calls"
LANDED = "c"
FOLDER = f"vectors/requests/{LANDED}"
WIDTH = 32


def vector(name, kind):
    with open(f"{FOLDER}/{name}.{kind}", "rb") as f:
        return f.read()


lines = batch("docs/LINES.md")
call = f"b {BATCH_CSD} {WIDTH * len(lines)} " + "%0A".join(line for line, _ in lines)
answer = f"{len(lines)} " + "".join(answer.ljust(WIDTH, ".") for _, answer in lines)
names = sorted(name[:-len(".in")] for name in os.listdir(FOLDER) if name.endswith(".in"))
for name in names:
    plain(f"{CALLS}/data/{name}.in", vector(name, "in"))
plain(f"{CALLS}/data/examples.in", f"e\n{call}\n")
plain(f"{CALLS}/args", "examples.in\n" + "".join(f"{name}.in\n" for name in names))
plain(f"{CALLS}/stdout", f"K\n{answer}\n".encode() + b"".join(vector(name, "out") for name in names))
