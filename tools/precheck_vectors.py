#!/usr/bin/env python3
"""Writes stdin and stdout of crates/precheck_main: the paper's example (csd 2), the marked questions (csd 1), and the
exercise of docs/PROOF.md by both desks (csd 3 and 4)."""
from output import plain

lines, answers = [], []
for name in ("paper-example", "marked"):
    lines += open(f"vectors/{name}.in").read().split("\n")[:-1]
    answers += open(f"vectors/{name}.out").read().split("\n")[:-1]

# A party hold, type 9: rule 5 holds FREE, the broader rule 7 holds DELI. docs/LESSON.md says why each answer is as it
# is.
DAYS = "20170207,20991231"
RULE5 = ["R,{c},20170206,9,1,5,P,4," + DAYS, "M,{c},20170206,9,1,5,,,FREE,,,,,,,"]
RULE9 = [l.replace("9,1,5,", "9,1,9,") for l in RULE5]
OUT = ["N,{c},20170206,9,1,5,,,FREE,,,,,,,", "D,{c},20170206,9,1,5"]
BOTH = "Q,{c},20170207,1,2,DELI,FREE,,EUR,11,20,30"
FREE = "Q,{c},20170207,1,2,RECE,FREE,,EUR,11,20,30"
START = ["T,{c},20170206,9,1,3," + DAYS] + RULE5 + ["R,{c},20170206,9,1,7,P,2," + DAYS, "M,{c},20170206,9,1,7,,DELI,,,,,,,,"]


def held(sequence):
    return "V,A,0,0,0,0,0,0" if sequence == 0 else f"V,A,0,0,0,0,9,{sequence}"


def say(csd, asked):
    for line, answer in asked:
        lines.append(line.format(c=csd))
        answers.append(answer)


def taken(ls):
    return [(l, "K") for l in ls]


for csd, again in ((3, RULE5), (4, RULE9)):
    last = 5 if again is RULE5 else 9
    say(csd, taken(START) + [(BOTH, held(5)), (FREE, held(5)), ("D,{c},20170206,9,1,5", "F,9")])
    say(csd, taken(OUT) + [(BOTH, held(7)), (FREE, held(0)), (OUT[0], "F,7"), (OUT[1], "F,7")])
    say(csd, taken(again) + [(BOTH, held(min(7, last))), (FREE, held(last))])
# the same by reordering: the rule and its row
say(3, [("O,{c},20170206,9,1,5,9", "K"), (BOTH, held(7)), (FREE, held(9)), ("O,{c},20170206,9,1,9,7", "F,8"), ("O,{c},20170206,9,1,9,9", "F,8")])
plain("crates/precheck_main/stdin", "\n".join(lines) + "\n")
plain("crates/precheck_main/stdout", "\n".join(answers) + "\n")
