#!/usr/bin/env python3
"""Writes what the gate runs the desk on: crates/desk/stdin, args, data/ and stdout. Standard input is the paper's
example; each file of data/ is answered over a book emptied for it. The answers of vectors/ are an independent
program's; those of edges.in are worked out from documents 01 and 02, line by line below; lesson.in is docs/LESSON.md's
and examples.in is docs/LINES.md's."""
from examples import pairs
from output import plain

DESK = "crates/desk"
NAMES = ["marked", "mixed-1", "full-quotas", "full-rules"]


def vector(name, kind):
    return open(f"vectors/{name}.{kind}", "rb").read()


def edges():
    """Lines and their answers."""
    yield b"", "F,2"  # 0 bytes
    yield b"A" * 80, "F,3"  # 80 bytes are read: the first field isn't a letter of the table
    yield b"A" * 81, "F,2"  # over 80
    yield b"Q" * 200000, "F,2"  # longer than the desk's buffer
    yield b"T,1,20160228,1,1,1,20160229,20991231", "K"  # 29 February 2016 is a day
    yield b"T,1,20170228,2,1,1,20170229,20991231", "F,5"  # 29 February 2017 is none
    yield b"T,1,20170228,2,1,1,20170301,20991231\r", "F,2"  # byte 13 is not allowed
    yield b"\x00\xff,\x80;t,1", "F,2"  # noise
    yield b"T", "F,4"
    yield b"T,3,20170206,9,1,1,20170207,20991231", "K"
    for sequence in range(1, 65):  # 64 rules of a depository
        yield b"R,3,20170206,9,1,%d,P,4,20170207,20991231" % sequence, "K"
    yield b"R,3,20170206,9,1,65,P,4,20170207,20991231", "F,10"
    yield b"R,3,20170206,9,1,64,P,4,20170207,20991231", "F,8"  # a key that is held comes before the quota
    yield b"T,4,20170206,9,1,1,20170207,20991231", "K"
    yield b"R,4,20170206,9,1,65,P,4,20170207,20991231", "K"  # another depository's quota
    # document 02, request c: type 8 from March to December 2017
    yield b"T,3,20170206,8,1,1,20170301,20171231", "K"
    yield b"R,3,20170206,9,1,64,P,4,20170206,20991231", "F,6"  # not after the line's day, before 8 and 13
    yield b"R,3,20170206,8,2,1,P,4,20170301,20180101", "F,7"  # no such type
    yield b"R,3,20170206,8,1,1,P,4,20170301,20180101", "F,13"  # a day after its type, and 13 before 10
    yield b"R,3,20170206,8,1,1,P,4,20170228,20171231", "F,13"  # a day before it
    yield b"R,3,20170206,8,1,1,P,4,20170301,20171231", "F,10"  # within it: the quota is full
    yield b"T,4,20170206,8,1,1,20170301,20171231", "K"
    yield b"R,4,20170206,8,1,1,P,4,20170301,20171231", "K"  # exactly its type's period
    yield b"R,4,20170206,8,1,1,P,4,20170301,20180101", "F,8"  # the key is held, before 13
    yield b"E,4,20170206,8,1,20170630", "K"  # under a rule that outlives it
    yield b"R,4,20170206,8,1,2,P,4,20170301,20171231", "F,13"  # the type's present period
    yield b"R,4,20170206,8,1,2,P,4,20170630,20170630", "K"  # its last day
    yield b"M,4,20170206,8,1,1,,,FREE,,,,,,,", "K"  # M looks at no period
    yield b"O,4,20170206,8,1,1,3", "K"  # nor does O
    yield b"Q,4,20170630,1,2,DELI,FREE,,EUR,11,20,30", "V,R,8,3,0,0,0,0"  # both periods hold the day
    yield b"Q,4,20170701,1,2,DELI,FREE,,EUR,11,20,30", "V,A,0,0,0,0,0,0"  # the rule's alone
    yield b"", "F,2"
    yield b"", "F,2"
    yield b"Q,3,20170207,1,2,DELI,FREE,,EUR,11,20,30", "V,A,0,0,0,0,0,0"  # rules without rows; the last line has no byte 10


def write(name, text):
    plain(f"{DESK}/{name}", text)


def lesson(kind):
    with open(f"docs/lesson.{kind}") as f:
        return f.read().split("\n")[:-1]


examples = pairs("docs/LINES.md")
taught = pairs("docs/LESSON.md")
assert taught == list(zip(lesson("lines"), lesson("answers"))), "docs/LESSON.md has other lines than docs/lesson.*"
lines = list(edges())
write("data/edges.in", b"\n".join(line for line, _ in lines))
write("data/none.in", b"")
for name in NAMES:
    write(f"data/{name}.in", vector(name, "in"))
for name, text in (("lesson", taught), ("examples", examples)):
    write(f"data/{name}.in", "".join(f"{line}\n" for line, _ in text).encode())
write("stdin", vector("paper-example", "in"))
args = ["-", "edges.in", "none.in", "lesson.in", "examples.in"] + [f"{n}.in" for n in NAMES]
write("args", "".join(f"{a}\n" for a in args).encode())
answers = "".join(f"{a}\n" for text in (lines, taught, examples) for _, a in text).encode()
write("stdout", vector("paper-example", "out") + answers + b"".join(vector(n, "out") for n in NAMES))
