"""Wraps comments and the signatures of laws at 120 characters; the formatter leaves both as they are."""
import re

WIDTH = 120
COMMENT = re.compile(r"(\s*(?:--|//)) (?!----)(.*)$")
SIGNATURE = re.compile(r"(\s*)(?:(?:abbrev|unfoldable|pub) )*[^\s(){};]+ : ")


def fill(lead, words):
    """the words in lines that start with lead"""
    out, line = [], lead
    for w in words:
        if len(line) + 1 + len(w) > WIDTH and line != lead:
            out.append(line)
            line = lead
        line += " " + w
    return out + [line]


def parts(line, *signs):
    """the line's parts, each from one of the signs on that stands in no bracket"""
    depth, out, start = 0, [], 0
    for k, c in enumerate(line):
        depth += (c in "({") - (c in ")}")
        if depth == 0 and k > 0 and any(line.startswith(f" {s} ", k) for s in signs):
            out.append(line[start:k])
            start = k + 1
    return out + [line[start:]]


def broken(line, lead):
    """a signature in lines: at its arrows, and at an equation's sign where a part is longer still"""
    out, first = [], ""
    for p in parts(line, "→"):
        if first and len(first) + 1 + len(p) > WIDTH:
            out.append(first)
            first = f"{lead} {p}"
        else:
            first = f"{first} {p}" if first else p
    for l in out + [first]:
        if len(l) > WIDTH and len(parts(l, "≡")[0]) > WIDTH // 3:
            first, *rest = parts(l, "≡")
            yield first
            yield from (f"{lead}     {p}" for p in rest)
        else:
            yield l


def wrap(text):
    lines, out, k = text.split("\n"), [], 0
    while k < len(lines):
        line = lines[k]
        k += 1
        comment, signature = COMMENT.match(line), SIGNATURE.match(line)
        if len(line) <= WIDTH or line.startswith(("use ", "ghost use ")):
            out.append(line)
        elif comment:
            lead, words = comment.group(1), comment.group(2).split()
            while k < len(lines) and (more := COMMENT.match(lines[k])) and more.group(1) == lead:
                words += more.group(2).split()
                k += 1
            out += fill(lead, words)
        elif signature and len(parts(line, "=")) == 1:
            out += broken(line, signature.group(1) + "   ")
        else:
            out.append(line)
    return "\n".join(out)
