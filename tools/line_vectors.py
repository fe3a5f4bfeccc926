#!/usr/bin/env python3
"""Writes what the program line_main reads and must write: crates/line_main/stdin and stdout.

A line of vectors/NAME.in has the refusal of NAME.out if that is F,2 to F,5; any other answer means that it is read, 0.
Of each first byte and each refusal the first EACH lines are taken, then the lines below.
The program writes a refused line's refusal, and the letter of a line that is read. read_line does not give refusal 5
where each field is of its form and only the fields together are wrong: such a line is read.
"""
import datetime
from output import plain

EACH = 8
LETTERS = b"TERODMNAZQ"


# ---- the forms of a field (document 01, and of the wishes document 02, request b)

def up_to(most):
    return lambda f: f.isdigit() and f[:1] != b"0" and int(f) <= most


def code(f):
    return up_to(9999)(f) and int(f) // 100 > 0 and int(f) % 100 > 0


def day(f):
    if not (len(f) == 8 and f.isdigit() and b"2000" <= f[:4] <= b"2099"):
        return False
    try:
        datetime.date(int(f[:4]), int(f[4:6]), int(f[6:]))
        return True
    except ValueError:
        return False


def letters(n):
    return lambda f: len(f) == n and f.isalpha() and f.isupper()


def one_of(words):
    return lambda f: f in words.split()


def optional(form):
    return lambda f: f == b"" or form(f)


MOVEMENT, PAYMENT = one_of(b"DELI RECE"), one_of(b"APMT FREE")
KEY = [up_to(8), day, up_to(99), up_to(2)]
TEN = [up_to(3), MOVEMENT, PAYMENT, letters(4), up_to(999999), up_to(999999), code, code, code, letters(3)]
PERIOD = [up_to(8), day, one_of(b"P A S"), up_to(999999), code, day, day]
FORMS = {
    b"T": KEY + [up_to(3), day, day],
    b"E": KEY + [day],
    b"R": KEY + [up_to(99), one_of(b"P N"), up_to(1023), day, day],
    b"O": KEY + [up_to(99), up_to(99)],
    b"D": KEY + [up_to(99)],
    b"M": KEY + [up_to(99)] + [optional(f) for f in TEN],
    b"N": KEY + [up_to(99)] + [optional(f) for f in TEN],
    b"A": PERIOD,
    b"Z": PERIOD,
    b"Q": [up_to(8), day, up_to(2), up_to(3)]
    + [optional(f) for f in (MOVEMENT, PAYMENT, letters(4), letters(3))]
    + [up_to(999999)] * 3,
}
WISH = one_of(b"Y N")
# Q with hold indicator and account default
LONGER = FORMS[b"Q"] + [optional(WISH), WISH]


def shown(line, refusal):
    """What the program writes of a line that the vectors refuse so, 0 for none."""
    head, *fields = line.split(b",")
    if refusal in (2, 3, 4):
        return b"%d" % refusal
    forms = LONGER if head == b"Q" and len(fields) == len(LONGER) else FORMS[head]
    assert len(forms) == len(fields)
    of_form = all(form(f) for form, f in zip(forms, fields))
    assert of_form or refusal == 5
    return head if of_form else b"5"


# ---- the lines

def lines(name):
    text = open(f"vectors/{name}.in", "rb").read().split(b"\n")
    answers = open(f"vectors/{name}.out", "rb").read().split(b"\n")
    assert len(text) == len(answers)
    for line, answer in zip(text[:-1], answers[:-1]):
        yield line, int(answer[2:]) if answer in (b"F,2", b"F,3", b"F,4", b"F,5") else 0


# document 01: the desk example is read; 80 and 81 bytes; leap years; no leading zeros; a code's value; the last field;
# document 02, request b: the indicator may be empty, the default may not
BY_HAND = [
    (b"", 2),
    (b"A" * 80, 3),
    (b"A" * 81, 2),
    (b"T", 4),
    (b",T", 3),
    (b"TT,2", 3),
    (b"T,2,20160229,9,1,3,20170207,20991231", 0),
    (b"T,2,20170229,9,1,3,20170207,20991231", 5),
    (b"T,2,20000229,9,1,3,20170207,20991231", 0),
    (b"T,2,21000101,9,1,3,20170207,20991231", 5),
    (b"T,2,20170206,9,1,3,20170207,20991231,", 4),
    (b"T,2,20170206,9,2,3,20170207,20991231", 5),
    (b"T,2,20170206,9,1,3,20170207,20170206", 5),
    (b"T,2,20170206,09,1,3,20170207,20991231", 5),
    (b"T,2,20170206,4294967305,1,3,20170207,20991231", 5),
    (b"T,9,20170206,9,1,3,20170207,20991231", 5),
    (b"A,1,20170205,P,10,100,20170301,20170331", 5),
    (b"A,1,20170205,P,10,9999,20170301,20170331", 0),
    (b"Z,1,20170205,P,10,101,20170301,20170228", 0),
    (b"Q,2,20170207,1,2,DELI,FREE,,EUR,11,20,30", 0),
    (b"Q,2,20170207,1,2,,FREE,,EUR,11,20,30", 5),
    (b"Q,2,20170207,2,2,DELI,FREE,,EUR,11,20,30", 5),
    (b"Q,2,20170207,2,2,,,,EUR,11,20,30", 0),
    (b"Q,2,20170207,1,2,DELL,FREE,,EUR,11,20,30", 5),
    (b"Q,2,20170207,1,2,DELI,FREE,,EUR,11,20,0", 5),
    (b"Q,2,20170207,1,2,DELI,FREE,,EUR,11,20,1000000", 5),
    (b"Q,2,20170207,1,2,DELI,FREE,,EUR,11,20,30,Y,N", 0),
    (b"Q,2,20170207,2,2,,,,EUR,11,20,30,,Y", 0),
    (b"Q,2,20170207,1,2,DELI,FREE,,EUR,11,20,30,Y", 4),
    (b"Q,2,20170207,1,2,DELI,FREE,,EUR,11,20,30,Y,", 5),
    (b"Q,2,20170207,1,2,DELI,FREE,,EUR,11,20,30,YN,Y", 5),
    (b"Q,2,20170207,1,2,,FREE,,EUR,11,20,30,Y,N", 5),
]
# the desk example's answers that the program prints, one with numbers of every width, one with each status, and the
# longest one
PRINTED = [b"K", b"F,8", b"F,10", b"V,A,0,0,0,0,9,5", b"V,A,0,0,0,0,0,0", b"V,R,255,99,100,10,9,1",
           b"V,A,0,0,0,0,0,0,N", b"V,R,255,199,200,210,220,230,Y"]

taken, seen = [], {}
for name in ("mixed-1", "mixed-2"):
    for line, refusal in lines(name):
        first = line[:1] if line[:1] in [LETTERS[i:i + 1] for i in range(10)] else b"other"
        if seen.get((first, refusal), 0) < EACH:
            seen[first, refusal] = seen.get((first, refusal), 0) + 1
            taken.append((line, refusal))
taken += list(lines("paper-example")) + BY_HAND
for refusal in (0, 2, 3, 4, 5):
    assert any(r == refusal for _, r in taken)
# a final byte 10 is followed by no line, so the last line goes without
plain("crates/line_main/stdin", b"\n".join(l for l, _ in taken))
out = [shown(l, r) for l, r in taken] + PRINTED
plain("crates/line_main/stdout", b"\n".join(out) + b"\n")
