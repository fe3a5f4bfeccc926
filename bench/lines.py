#!/usr/bin/env python3
"""lines.py SEED COUNT: COUNT lines drawn from SEED, to compare two pre-checks.

Kinds of lines and their share:
    82 %  a well-formed line (letters: see PROFILES). Keys, days and codes come from short lists, so that records
          meet, refusals 6 to 9 and 13 occur and questions match.
     6 %  a well-formed line with one field changed to a wrong or unexpected one, emptied or filled (mostly refusal 5)
     2 %  a well-formed line with a depository of 0, 9, 01, 10 or none (refusal 5)
     2 %  a well-formed line with a field more or less (refusal 4)
     1 %  a first field that is no letter of the table (refusal 3)
     3 %  noise: one to three bytes of a well-formed line replaced, put in or taken out, any byte but 10
     1 %  noise: 1 to 100 bytes of any value but 10
     2 %  allowed bytes only, stretched to 79, 80, 81 or 82 bytes, or now and then to as many as 5,000
     1 %  an empty line
One file in three lacks the final byte 10. Each stretch of 400 lines has a profile. Half of the stretches are mixed: two
of the eight depositories get three quarters of the lines, all eight share the rest. The other half fill one of the four
quotas of a single depository, which gets 95 % of the lines, so that refusal 10 occurs.

With PENDING=1 in the environment (request d) S, W and L are drawn too, and refusals 14 and 15 occur. W's days are
mostly days on which rules are new, so that holds are put on, types remembered and instructions cancelled; L mostly
names a kept instruction. Of twelve stretches five are then mixed and five fill one of the five quotas. In two, the
rules of a single depository have one criterion each and become new on many days, and half of the lines are S, W and L.
"""
import random
import sys

from pending import PENDING

# Share of each letter, in hundredths. A filling profile draws its keys from all numbers.
PROFILES = {
    "mixed":   {"T": 7, "E": 2, "R": 10, "O": 5, "D": 3, "M": 17, "N": 4, "A": 10, "Z": 4, "Q": 38},
    "types":   {"T": 50, "E": 7, "R": 8, "O": 2, "D": 2, "M": 8, "N": 1, "A": 6, "Z": 1, "Q": 15},
    "rules":   {"T": 3, "E": 1, "R": 66, "O": 3, "D": 3, "M": 6, "N": 1, "A": 4, "Z": 1, "Q": 12},
    "rows":    {"T": 2, "E": 1, "R": 4, "O": 2, "D": 1, "M": 75, "N": 2, "A": 4, "Z": 1, "Q": 8},
    "periods": {"T": 2, "E": 1, "R": 3, "O": 1, "D": 1, "M": 6, "N": 1, "A": 74, "Z": 3, "Q": 8},
}
STRETCHES = ["mixed"] * 4 + ["types", "rules", "rows", "periods"]  # the profiles, as often as they are drawn
UNKNOWN = ["", "B", "X", "K", "F", "V", "TT", "QT", "T1", "1", "0", "P", "S"]  # no letters of lines
if PENDING:
    PROFILES = {
        "mixed":   dict(T=7, E=2, R=10, O=3, D=2, M=16, N=3, A=9, Z=3, Q=21, S=13, W=5, L=6),
        "types":   dict(T=50, E=7, R=8, O=2, D=2, M=8, N=1, A=5, Z=1, Q=9, S=4, W=2, L=1),
        "rules":   dict(T=3, E=1, R=65, O=3, D=3, M=6, N=1, A=3, Z=1, Q=7, S=4, W=2, L=1),
        "rows":    dict(T=2, E=1, R=4, O=2, D=1, M=74, N=2, A=3, Z=1, Q=4, S=3, W=2, L=1),
        "periods": dict(T=2, E=1, R=3, O=1, D=1, M=6, N=1, A=73, Z=3, Q=4, S=3, W=1, L=1),
        "days":    dict(T=4, E=1, R=13, O=1, D=1, M=15, N=2, A=5, Z=1, Q=4, S=16, W=12, L=25),
        "kept":    dict(T=5, E=1, R=9, O=1, D=1, M=13, N=1, A=6, Z=1, Q=3, S=42, W=7, L=10),
    }
    STRETCHES = ["mixed"] * 5 + ["days"] * 2 + ["types", "rules", "rows", "periods", "kept"]
    UNKNOWN = ["", "B", "X", "K", "F", "V", "TT", "QT", "SW", "T1", "1", "0", "P"]
STRETCH = 400

EARLY = ["20200101", "20200226", "20200227", "20200228"]
FIRSTS = ["20200228", "20200229", "20200229", "20200229", "20200301", "20200301", "20200302", "20200315", "20210228"]
LASTS = ["20200229", "20200301", "20200315", "20200331", "20210228", "20210301", "20240229", "20991231", "20991231", "20991231"]
ASKED = ["20200228", "20200229", "20200301", "20200302", "20200315", "20200315", "20200316", "20200331", "20200401", "20210228", "20210301"]
ENTERED = ["20200227", "20200228", "20200229", "20200301", "20200302", "20200315", "20200315", "20200316"]
ODD_DAYS = ["20000101", "20000229", "20960229", "20991230", "20991231", "20161231", "20201231", "20210101"]
BAD_DAYS = ["20170229", "20210229", "20200230", "20200431", "20201301", "20200001", "20200100", "19991231", "21000101",
            "2020031", "202003011", "2020030A", "00000000", "20200332", "99999999", "21000229"]

MOVEMENTS, PAYMENTS = ["DELI", "RECE"], ["APMT", "FREE"]
TRANSACTIONS, CURRENCIES = ["CORP", "TRAD"], ["EUR", "HUF"]
PARTIES, ACCOUNTS, SECURITIES = [10, 11, 999999], [20, 21, 1], [30, 31, 7]
NUMBERS = {"P": PARTIES, "A": ACCOUNTS, "S": SECURITIES}
CODES = {"P": [101, 102, 111], "A": [201, 202, 9999], "S": [301, 302, 310]}
ONE_CRITERION = [1, 2, 4, 8, 16, 32, 512, 1, 2, 4, 8, 64, 128, 256]
CRITERIA = [64, 64, 128, 128, 256, 1, 2, 4, 6, 8, 8, 16, 32, 512, 3, 5, 40, 72, 130, 136, 448, 1023]
WRONG = ["", "0", "1", "2", "3", "4", "8", "9", "00", "01", "05", "99", "100", "101", "199", "200", "300", "1000", "1023", "1024", "9900",
         "9999", "10000", "10001", "999999", "1000000", "0999999", "18446744073709551617", "4294967297", "P", "N", "A", "S", "X", "Y", "YN", "PP",
         "DELI", "RECE", "APMT", "FREE", "CORP", "CORPS", "COR", "COR1", "EUR", "EU", "EURO", "E1R", "20200301"]


class Lines:
    def __init__(self, seed):
        self.r = random.Random(seed)
        # What the generator believes the book holds; it is only a guide, and need not be right.
        self.types, self.rules, self.rows, self.periods, self.kept = {}, {}, {}, {}, {}
        self.released = [0, 0]  # reference and hold of the last L
        self.turn()

    def turn(self):
        """A new stretch."""
        r = self.r
        self.profile = r.choice(STRETCHES)
        self.wide = self.profile != "mixed"
        self.main = [r.randint(1, 8)] if self.wide else r.sample(range(1, 9), 2)
        shares = PROFILES[self.profile]
        self.letters, self.shares = list(shares), list(shares.values())

    def chance(self, percent):
        return self.r.random() * 100 < percent

    def day(self, usual):
        return self.r.choice(ODD_DAYS) if self.chance(3) else self.r.choice(usual)

    def span(self, long=0):
        if self.chance(long):
            return "20200229", "20991231"
        first, last = self.day(FIRSTS), self.day(LASTS)
        return (last, first) if first > last and self.chance(90) else (first, last)

    def within(self, span):
        """A period that does not leave that one."""
        first = self.r.choice([d for d in FIRSTS if span[0] <= d <= span[1]] + [span[0]])
        return first, self.r.choice([d for d in LASTS if first <= d <= span[1]] + [span[1]])

    def number(self, usual, wide):
        return self.r.randint(1, 99) if self.wide and wide else self.r.choice(usual)

    def known(self, held):
        """Mostly a key the book may hold, else None."""
        return self.r.choice(list(held)) if held and self.chance(88) else None

    def type_key(self, wide=False):
        return self.number([1, 2, 3, 99], wide), 1 if self.chance(70) else 2

    def rule_key(self, types):
        kind = self.known(types) or self.type_key()
        usual = range(1, 10) if self.profile == "days" else [1, 2, 3, 99]
        return kind + (self.number(usual, self.profile == "rules"),)

    def row_values(self, criteria):
        r, far = self.r, self.profile == "rows"
        every = [
            r.randint(1, 3), r.choice(MOVEMENTS), r.choice(PAYMENTS), r.choice(TRANSACTIONS),
            r.randint(1, 999999) if far else r.choice(SECURITIES), r.randint(1, 999999) if far else r.choice(ACCOUNTS),
            *(100 * r.randint(1, 99) + r.randint(1, 99) if far else r.choice(CODES[k]) for k in "PAS"), r.choice(CURRENCIES),
        ]
        if far:
            every[3] = "".join(r.choices("ABCDEFGHIJKLMNOPQRSTUVWXYZ", k=4))
        return tuple(str(v) if criteria >> i & 1 else "" for i, v in enumerate(every))

    def fields(self):
        """The fields of a well-formed line, and what to note once the line is sent as it is."""
        r = self.r
        letter = r.choices(self.letters, self.shares)[0]
        csd = r.choice(self.main) if self.chance(95 if self.wide else 75) else r.randint(1, 8)
        # Q and S mostly name a depository that may have rows, W one that keeps instructions, L one with a hold on.
        wanted = {"Q": self.rows, "S": self.rows, "W": self.kept}.get(letter)
        if letter == "L":
            wanted = {c: [n for n in kept if kept[n][2]] for c, kept in self.kept.items()}
        if wanted is not None and not wanted.get(csd) and self.chance(80):
            others = [c for c in wanted if wanted[c]]
            if letter in "WL" and not others:
                letter = "S"
            csd = r.choice(others or [csd])
        types, rules = self.types.setdefault(csd, {}), self.rules.setdefault(csd, {})
        rows, periods = self.rows.setdefault(csd, {}), self.periods.setdefault(csd, {})
        kept = self.kept.setdefault(csd, {})
        # A row needs a rule and a rule a type: mostly make what is missing first.
        if letter in "MNOD" and not rules and self.chance(80):
            letter = "R"
        if letter in "RE" and not types and self.chance(80):
            letter = "T"
        day = self.day(EARLY)
        note = lambda: None
        if letter == "T":
            key = self.type_key(self.profile == "types")
            span = self.span(70)
            processing = r.choice([1, 2, 3]) if key[1] == 1 or self.chance(2) else r.choice([1, 2])
            rest = [*key, processing, *span]
            if day < span[0] <= span[1]:
                note = lambda: types.setdefault(key, (*span, processing))
        elif letter == "E":
            day = self.day(FIRSTS)
            key, last = self.known(types) or self.type_key(), self.day(LASTS)
            rest = [*key, last]

            def note():
                if key in types and day <= last and types[key][0] <= last <= types[key][1]:
                    types[key] = (types[key][0], last, types[key][2])
        elif letter == "R":
            key = self.rule_key(types)
            # Mostly within the type's period, as far as it is known.
            span = self.within(types[key[:2]]) if key[:2] in types and self.chance(75) else self.span(60)
            criteria = r.choice(CRITERIA) if self.chance(85) else r.randint(1, 1023)
            if self.profile == "rows":
                criteria |= 8
            elif self.profile == "days" and self.chance(90):
                criteria = r.choice(ONE_CRITERION)
            sign = "N" if self.chance(25) else "P"
            rest = [*key, sign, criteria, *span]
            held = types.get(key[:2], ("", ""))
            if day < span[0] <= span[1] and held[0] <= span[0] and span[1] <= held[1]:
                note = lambda: rules.setdefault(key, (criteria, sign, *span))
        elif letter == "O":
            key = self.known(rules) or self.rule_key(types)
            new = key[:2] + (self.number([1, 2, 3, 4, 99], self.profile == "rules"),)
            rest = [*key, new[2]]

            def note():
                if key in rules and new not in rules:
                    rules[new] = rules.pop(key)
                    for row in [row for row in rows if row[0] == key]:
                        rows[new, row[1]] = rows.pop(row)
        elif letter == "D":
            key = self.known(rules) or self.rule_key(types)
            rest = [*key]
            if all(row[0] != key for row in rows):
                note = lambda: rules.pop(key, None)
        elif letter in "MN":
            row = self.known(rows) if letter == "N" or self.chance(6) else None
            if row is None:
                key = self.known(rules) or self.rule_key(types)
                criteria = rules[key][0] if key in rules else r.choice(CRITERIA)
                if self.chance(5):
                    criteria = r.choice([0, criteria ^ 1 << r.randint(0, 9), r.randint(0, 1023)])
                row = (key, self.row_values(criteria))
                if letter == "M" and key in rules and criteria == rules[key][0]:
                    note = lambda: rows.setdefault(row, True)
            elif letter == "N":
                note = lambda: rows.pop(row, None)
            rest = [*row[0], *row[1]]
        elif letter == "A":
            period = self.known(periods) if self.chance(5) else None
            if period is None:
                kind = r.choice("PAS")
                number = r.randint(1, 999999) if self.profile == "periods" else r.choice(NUMBERS[kind])
                period = (kind, number, r.choice(CODES[kind]), *self.span(20))
                if day < period[3] <= period[4]:
                    note = lambda: periods.setdefault(period, True)
            rest = [*period]
        elif letter == "Z":
            period = self.known(periods)
            if period is None:
                kind = r.choice("PAS")
                period = (kind, r.choice(NUMBERS[kind]), r.choice(CODES[kind]), *self.span())
            day = self.day(FIRSTS)
            rest = [*period[:4], period[4] if self.chance(25) else self.day(LASTS)]
        elif letter == "S":
            day = self.day(ENTERED)
            last = 9999 if self.profile == "kept" else 60
            free = [n for n in range(1, last + 1) if n not in kept]
            number = r.choice(free) if free and self.chance(85) else self.known(kept) or r.choice([1, 2, 9999])
            asked, rule = self.instruction(rows, periods)
            rest = [number, *asked]
            # What the rule of the row asked after does: its type's processing, its first day, whether it is in force.
            does = [0, "", False]
            if rule in rules and rule[:2] in types and rules[rule][1] == "P":
                does = [types[rule[:2]][2], rules[rule][2], rules[rule][2] <= day <= rules[rule][3]]
            if does[::2] != [1, True]:
                note = lambda: kept.setdefault(number, does)
        elif letter == "W":
            firsts = [held[2] for held in rules.values()]
            day = r.choice(firsts) if firsts and self.chance(80) else self.day(ASKED)
            rest = []

            def note():
                for number, does in list(kept.items()):
                    if does[:2] == [1, day]:
                        del kept[number]
                    elif does[1] == day:
                        does[2] = True
        elif letter == "L":
            day = self.day(ASKED)
            sure = 30 if self.profile == "days" else 80
            number = self.known([n for n in kept if kept[n][2]] if self.chance(sure) else kept) or r.randint(1, 60)
            hold = kept[number][0] if kept.get(number, [0])[0] > 1 and self.chance(sure) else r.randint(2, 3)
            if self.chance(30) and self.released[0] in kept:  # the other hold of the last one
                number, hold = self.released[0], 5 - self.released[1]
            does = kept.get(number, [0, "", False])
            self.released = rest = [number, hold]

            def note():
                if does[0] == rest[1]:
                    does[2] = False
        else:
            day = self.day(ASKED) if PENDING else None
            rest, _ = self.instruction(rows, periods)
            if self.chance(30):  # the two wishes
                rest += [r.choice(["Y", "N", ""]), r.choice(["Y", "N"])]
            day = day or self.day(ASKED)  # drawn last without PENDING
        return [letter, str(csd), day] + [str(f) for f in rest], note

    def instruction(self, rows, periods):
        """The nine fields from object to security, and the rule of the row asked after, None where it meets no row."""
        r, rule = self.r, None
        kind = 1 if self.chance(70) else 2
        asked = [str(r.randint(1, 3)), r.choice(MOVEMENTS), r.choice(PAYMENTS), r.choice(TRANSACTIONS + [""]),
                 r.choice(SECURITIES), r.choice(ACCOUNTS), r.choice(PARTIES), None, None, r.choice(CURRENCIES + [""])]
        if rows and self.chance(75):  # ask after a row that may be held
            rule, values = self.known(rows) or r.choice(list(rows))
            kind = rule[1]
            for i in (0, 1, 2, 3, 4, 5, 9):
                asked[i] = values[i] or asked[i]
            for i, letter, place in ((6, "P", 6), (7, "A", 5), (8, "S", 4)):
                with_code = [p[1] for p in periods if p[0] == letter and str(p[2]) == values[i]]
                if with_code:
                    asked[place] = r.choice(with_code)
                elif values[i]:
                    rule = None
        if kind == 2:
            asked[1] = asked[2] = ""
        return [kind, *asked[:4], asked[9], asked[6], asked[5], asked[4]], rule

    def byte(self):
        """Any byte but 10; often one that is allowed or nearly so."""
        if self.chance(50):
            return self.r.choice(b"09AZ,/:@[ az-\r\0\x7f\xff")
        b = self.r.randint(0, 255)
        return 0 if b == 10 else b

    def line(self):
        r, kind = self.r, self.r.random() * 100
        fields, note = self.fields()
        text = ",".join(fields).encode()
        if kind < 82:
            note()
            return text
        if kind < 88:
            i = r.randint(1, len(fields) - 1)
            usual_day = len(fields[i]) == 8 and self.chance(80)
            fields[i] = r.choice(BAD_DAYS) if usual_day or self.chance(5) else r.choice(WRONG)
            return ",".join(fields).encode()
        if kind < 90:
            fields[1] = r.choice(["0", "9", "01", "10", "", "A"])
            return ",".join(fields).encode()
        if kind < 92:
            i = r.randint(1, len(fields) - 1)
            if self.chance(50):
                del fields[i:i + r.randint(1, 3)]
            else:
                fields[i:i] = [r.choice(["", "1", fields[i]])] * r.randint(1, 3)
            return ",".join(fields).encode()
        if kind < 93:
            fields[0] = r.choice(UNKNOWN)
            return ",".join(fields).encode()
        if kind < 96:
            noisy = bytearray(text)
            for _ in range(r.randint(1, 3)):
                i, how = r.randrange(len(noisy)), r.randint(0, 2)
                noisy[i:i + (how != 1)] = bytes([self.byte()] if how != 2 else [])
                if not noisy:
                    break
            return bytes(noisy)
        if kind < 97:
            return bytes(self.byte() for _ in range(r.randint(1, 100)))
        if kind < 99:
            length = r.choice([79, 80, 81, 82]) if self.chance(85) else r.choice([83, 100, 127, 128, 255, 256, 300, 5000])
            if self.chance(50):  # longer fields, the same number of them
                i = r.randrange(len(fields))
                fields[i] += r.choice("019AZ") * max(0, length - len(text))
                return ",".join(fields).encode()
            return text + bytes(r.choices(b"01289AFQTZ,,", k=max(0, length - len(text))))
        return b""


def main(words):
    if len(words) != 2:
        sys.exit(__doc__)
    seed, count = int(words[0]), int(words[1])
    made = Lines(seed)
    out = []
    for i in range(count):
        if i and i % STRETCH == 0:
            made.turn()
        out.append(made.line())
    text = b"\n".join(out)
    # An empty last line without its byte 10 would be no line, so it always gets one.
    if out and (seed % 3 or not out[-1]):
        text += b"\n"
    sys.stdout.buffer.write(text)


if __name__ == "__main__":
    main(sys.argv[1:])
