#!/usr/bin/env python3
"""Lines for the measurements.

  book.py empty                          the lines of an almost empty book: twelve records of depository 1
  book.py full                           the lines of a full book: every depository at every quota
  book.py questions COUNT [BOOK]         COUNT questions for that book (default: full)
  book.py edits COUNT [BOOK]             COUNT edits for that book, which keep it as full as it is
With PENDING=1 in the environment (request d) the full book keeps instructions, and there are:
  book.py unkept                         the full book without kept instructions
  book.py starts COUNT [BOOK]            COUNT starts of day (W) for that book, which cancel no kept instruction

Every line is accepted: each S of a book is kept, each other line of a book, each edit and each W gets K, each question
gets a verdict. The edits go round in eights: N and M of one row, O forth and back, D and R of a rule without rows, E
and Z with the last day the record already has. T and A cannot be among them, since no line takes a type or a period out
again. Every W is of the day on which all rules are new; half of the attribute periods hold that day.
The lines are always the same: nothing is drawn from outside.
"""
import random
import sys

from pending import PENDING

DAY = "20170205"                      # the day of every edit
FIRST, LAST = "20170206", "20991231"  # the days of every type and rule
PERIODS = [("20170206" if PENDING else "20170301", "20170331"), ("20170501", "20170531")]
TRANSACTIONS = ["TRAD", "CORP", "REPO", "COLL"]
CURRENCIES = ["EUR", "HUF", "USD"]
# The criteria of the four rules of a type; the fourth is negative.
CRITERIA = [(64, 130, 16, 72), (128, 256, 36, 136), (6, 192, 512, 264), (32, 65, 258, 12)]
PARTIES, ACCOUNTS, SECURITIES = range(10, 32), range(40, 62), range(70, 90)
KEPT = 32 if PENDING else 0


class Depository:
    """The records of one depository, as fields of their lines."""

    def __init__(self, csd, full, kept):
        self.csd, self.full = csd, full
        self.types, self.rules, self.rows, self.periods, self.kept = [], [], [], [], []
        draw = random.Random(csd)
        kinds = [(n, 1) for n in range(1, 11)] + [(n, 2) for n in range(1, 7)]
        for i, (number, kind) in enumerate(kinds if full else kinds[:2]):
            # One rejecting type for each object, number 1, so that holds are seen too.
            processing = 1 if number == 1 else 3 if kind == 1 and number % 2 else 2
            self.types.append((number, kind, processing))
            for j in range(4 if full else 2 - i):
                sign = "N" if j == 3 else "P"
                self.rules.append((number, kind, 1 + 5 * j, sign, CRITERIA[i % 4][j]))
        # Every eighth rule stays without rows, so that it can be deleted; the others have two or three.
        bare = 7 if full else 1
        with_rows = [r for i, r in enumerate(self.rules) if i % 8 != bare]
        self.bare = [r for i, r in enumerate(self.rules) if i % 8 == bare]
        wanted, seen = (128 if full else 4), set()
        while len(self.rows) < wanted:
            rule = with_rows[len(self.rows) % len(with_rows)]
            row = rule[:3] + (self.values(draw, rule[4]),)
            if row not in seen:
                seen.add(row)
                self.rows.append(row)
        numbers = [("P", n) for n in PARTIES] + [("A", n) for n in ACCOUNTS] + [("S", n) for n in SECURITIES]
        if not full:
            numbers = [("P", 10), ("A", 40), ("S", 70)]
        for first, last in PERIODS:
            for kind, number in numbers:
                if len(self.periods) < (128 if full else 3):
                    self.periods.append((kind, number, self.code(draw, kind), first, last))
        while len(self.kept) < kept:
            day, asked = self.asked(draw)
            if self.stays(day, asked):
                self.kept.append((day, 1 + 300 * len(self.kept), *asked))

    def code(self, draw, kind):
        return {"P": 100, "A": 200, "S": 300}[kind] + draw.randint(1, 4 if self.full else 2)

    def values(self, draw, criteria):
        every = [
            str(draw.randint(1, 3)), draw.choice(["DELI", "RECE"]), draw.choice(["APMT", "FREE"]),
            draw.choice(TRANSACTIONS), str(draw.choice(SECURITIES)), str(draw.choice(ACCOUNTS)),
            str(self.code(draw, "P")), str(self.code(draw, "A")), str(self.code(draw, "S")), draw.choice(CURRENCIES),
        ]
        return ",".join(v if criteria >> i & 1 else "" for i, v in enumerate(every))

    def line(self, letter, *fields):
        return ",".join([letter, str(self.csd), DAY] + [str(f) for f in fields])

    def rule_line(self, rule):
        return self.line("R", *rule, FIRST, LAST)

    def lines(self):
        for t in self.types:
            yield self.line("T", *t, FIRST, LAST)
        for r in self.rules:
            yield self.rule_line(r)
        for r in self.rows:
            yield self.line("M", *r)
        for p in self.periods:
            yield self.line("A", *p)
        for day, *fields in self.kept:
            yield ",".join(["S", str(self.csd), day] + [str(f) for f in fields])

    def signs(self, day, asked):
        """The signs of the rejecting type's rules that match the instruction on that day."""
        held = {str(code) for kind, number, code, first, last in self.periods
                if str(number) == asked[6 + "PAS".index(kind)] and first <= day <= last}
        values = [*asked[1:5], asked[8], asked[7], None, None, None, asked[5]]
        matching = {row[2] for row in self.rows if row[0] == 1 and str(row[1]) == asked[0] and all(
            not v or (v in held if 6 <= i <= 8 else v == values[i]) for i, v in enumerate(row[3].split(",")))}
        return {rule[3] for rule in self.rules if rule[0] == 1 and str(rule[1]) == asked[0] and rule[2] in matching}

    def stays(self, day, asked):
        """Whether the instruction is accepted on that day, and a W of the rules' first day does not cancel it."""
        signs = self.signs(day, asked)
        return "N" in signs or not signs and self.signs(FIRST, asked) != {"P"}

    def asked(self, draw):
        """A day, and the nine fields from object to security."""
        kind = draw.choice([1, 1, 2])
        movement, payment = (draw.choice(["DELI", "RECE"]), draw.choice(["APMT", "FREE"])) if kind == 1 else ("", "")
        day = draw.choice(["201703", "201704", "201705"]) + f"{draw.randint(1, 30):02}"
        fields = [str(kind), str(draw.randint(1, 3)), movement, payment, draw.choice(TRANSACTIONS + [""]),
                  draw.choice(CURRENCIES + [""])]
        for numbers in (PARTIES, ACCOUNTS, SECURITIES):
            fields.append(str(draw.choice(numbers if self.full else numbers[:2])))
        return day, fields

    def question(self, draw):
        day, asked = self.asked(draw)
        return ",".join(["Q", str(self.csd), day, *asked])

    def start(self):
        return f"W,{self.csd},{FIRST}"

    def edits(self, draw):
        row = draw.choice(self.rows)
        yield self.line("N", *row)
        yield self.line("M", *row)
        number, kind, sequence = draw.choice(self.rules)[:3]
        yield self.line("O", number, kind, sequence, sequence + 50)
        yield self.line("O", number, kind, sequence + 50, sequence)
        rule = draw.choice(self.bare)
        yield self.line("D", *rule[:3])
        yield self.rule_line(rule)
        yield self.line("E", *draw.choice(self.types)[:2], LAST)
        yield self.line("Z", *draw.choice(self.periods))


def book(name):
    full = name != "empty"
    return [Depository(csd, full, KEPT if name == "full" else 0) for csd in (range(1, 9) if full else [1])]


def book_lines(name):
    """The depositories' records lie mixed, as lines of several depositories would leave them."""
    each = [list(d.lines()) for d in book(name)]
    return [line for together in zip(*each) for line in together]


def questions(name, count):
    depositories, draw = book(name), random.Random(1)
    return [draw.choice(depositories).question(draw) for _ in range(count)]


def edits(name, count):
    depositories, draw, lines = book(name), random.Random(2), []
    while len(lines) < count:
        lines.extend(draw.choice(depositories).edits(draw))
    return lines[:count]


def starts(name, count):
    depositories, draw = book(name), random.Random(3)
    return [draw.choice(depositories).start() for _ in range(count)]


def main(words):
    books, kinds = ["empty", "full"], {"questions": questions, "edits": edits}
    if PENDING:
        books.append("unkept")
        kinds["starts"] = starts
    if len(words) == 1 and words[0] in books:
        lines = book_lines(words[0])
    elif len(words) in (2, 3) and words[0] in kinds and all(word in books for word in words[2:]):
        lines = kinds[words[0]](words[2] if len(words) == 3 else "full", int(words[1]))
    else:
        sys.exit(__doc__)
    sys.stdout.write("".join(line + "\n" for line in lines))


if __name__ == "__main__":
    main(sys.argv[1:])
