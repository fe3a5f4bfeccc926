#!/usr/bin/env python3
"""Spells this repository's own definitions, laws, fields and variables of specs/ and proofs/ as today's Rattle spells
names: snake case for all but types and modules, where they were written in camel case or with dashes. A law that would
have its definition's name gets _lem.

usage: tools/port_names.py [--list]      at the top of the repository, once, after /opt/rattle/port/port.py

- A name that a file imports from a library keeps its spelling there. So does, in a Proof.antt, a name with a dash
  behind a dot: it is Rattle's name of a step.
- In src/ the clauses and comments change: names in camel case, since Rust's names have none.
- Comments, pages (README.md, docs/, vectors/README.md), edits (must-fail/) and tools/ get the new names too: in camel
  case anywhere, with a dash in edits, between backquotes and behind a module.
- A line 'meets:' lists a name that would be spelled like another in the same file; then nothing is written.
"""

import collections
import glob
import os
import re
import sys

WORD = r'[^\s(){}.;,@"«»\[\]◌`]+'
MARKS = r"(?:(?:pub|abbrev|unfoldable|pattern|irreducible|private) )*"
CAMEL = re.compile(r"[a-z][\w']*[A-Z][\w']*(?:-[\w']+)*|(?:[a-z][\w']*-)+[a-z][\w']*[A-Z][\w']*")
DASHED = re.compile(r"[A-Za-z][\w']*(?:-[\w']+)+")
# Names that only a rule of their own keeps apart from others.
RESPELLED = {}


def antt():
    found = glob.glob("crates/*/specs/**/*.antt", recursive=True) + glob.glob("crates/*/proofs/**/*.antt", recursive=True)
    return sorted(f for f in found if "/out/" not in f)


def code_of(text):
    return re.sub(r"--.*", "", text)


def snake(name):
    if name in RESPELLED:
        return RESPELLED[name]
    # a letter, or letters in a row, at the end of a name are a word
    name = re.sub(r"(?<=-)[A-Z]+(?=-|$)", lambda m: m[0].lower(), name)
    words = re.sub(r"(?<=[^_-])([A-Z])", lambda m: "_" + m[1].lower(), name)
    return words.replace("-", "_")


def imported(code):
    """The names that a file has from the libraries."""
    names = set()
    for path, items in re.findall(r"\buse ([^\s{;]+?)\.?(?:\{([^}]*)\})", code):
        if not path.startswith("Rattle.") or path.startswith("Rattle.std"):
            for item in items.split(","):
                names.update(item.split())
    return names


def is_camel(word):
    return bool(CAMEL.fullmatch(word))


def turns(word):
    return is_camel(word) or bool(DASHED.fullmatch(word))


def free(code, f):
    """The words that stand behind no dot."""
    return {m[0] for m in re.finditer(WORD, code) if code[m.start() - 1 : m.start()] != "." or m.start() == 0}


class Names:
    def __init__(self):
        self.texts = {f: open(f).read() for f in antt()}
        self.libs = {f: imported(code_of(t)) for f, t in self.texts.items()}
        self.declared, self.words = set(), collections.defaultdict(set)
        for f, t in self.texts.items():
            code = code_of(t)
            self.declared.update(re.findall(rf"(?m)^ *{MARKS}({WORD})(?: {WORD})*? :(?: |$)", code))
            for m in re.finditer(WORD, code):
                if turns(m[0]) and self.is_own(f, m[0], code[: m.start()][-1:] == "."):
                    self.words[m[0]].add(f)
        self.new = {w: snake(w) for w in self.words}
        self.keep_apart()

    def is_own(self, f, word, behind):
        if "::" in word or word in self.libs[f]:
            return False
        return not (f.endswith("Proof.antt") and behind and not is_camel(word))

    def keep_apart(self):
        """A law that would have its definition's name gets _lem."""
        definitions = {self.new[w] for w in self.words if is_camel(w) and "-" not in w}
        specs = set()
        for f, t in self.texts.items():
            if "/specs/" in f:
                specs.update(re.findall(rf"(?m)^ *{MARKS}({WORD})(?: {WORD})*? :(?: |$)", code_of(t)))
        for w in list(self.new):
            if "-" in w and (self.new[w] in definitions or self.new[w] in specs):
                self.new[w] += "_lem"
        # a law that was spelled with _ already
        for w in sorted(self.declared):
            if w in definitions and not turns(w):
                self.new[w] = w + "_lem"
                self.words[w] = {f for f, t in self.texts.items() if w in free(code_of(t), f) and w not in self.libs[f]}

    def meets(self):
        bad = []
        back = collections.defaultdict(set)
        for w, n in self.new.items():
            back[n].add(w)
        for n, ws in sorted(back.items()):
            for f in sorted(set().union(*(self.words[w] for w in ws))):
                here = [w for w in ws if f in self.words[w]]
                if len(here) > 1:
                    bad.append(f"meets: {f}: {here} -> {n}")
        for f, t in self.texts.items():
            present = free(code_of(t), f)
            for w in sorted(self.words):
                if f in self.words[w] and self.new[w] in present and self.new[w] not in self.new:
                    bad.append(f"meets: {f}: {w} -> {self.new[w]} stands there")
        return bad

    def turn_antt(self, f, text):
        def line(l):
            at = l.find("--")
            code, note = (l, "") if at < 0 else (l[:at], l[at:])

            def word(m):
                w = m[0]
                behind = code[m.start() - 1 : m.start()] == "." and m.start() > 0
                if w not in self.new or not self.is_own(f, w, behind) or (behind and not turns(w)):
                    return w
                return self.new[w]

            return re.sub(WORD, word, code) + self.turn_note(note)

        return "\n".join(line(l) for l in text.split("\n"))

    def turn_note(self, text, dashes=False):
        """Of a comment or a page: camel case anywhere, the rest between backquotes."""

        def camel(m):
            return self.new[m[0]] if m[0] in self.new and is_camel(m[0]) else m[0]

        def quoted(m):
            return re.sub(WORD, lambda w: self.new.get(w[0], w[0]) if turns(w[0]) else w[0], m[0])

        text = re.sub(r"`[^`\n]*`", quoted, text)
        return re.sub(WORD, camel, text)


def main():
    names = Names()
    bad = names.meets()
    if "--list" in sys.argv or bad:
        for w, n in sorted(names.new.items()):
            if "--list" in sys.argv:
                print(w, n, len(names.words[w]))
        print("\n".join(bad))
        print(f"{len(names.new)} names, {len(bad)} meet")
        return 1 if bad else 0
    for f, t in names.texts.items():
        write(f, t, names.turn_antt(f, t))
    for f in glob.glob("crates/*/src/**/*.rt", recursive=True):
        t = open(f).read()
        write(f, t, names.turn_note(t))
    for f in glob.glob("crates/*/must-fail/*.edit"):
        t = open(f).read()
        write(f, t, edit(names, f, t))
    for f in ["README.md", "vectors/README.md", *glob.glob("docs/*.md"), *glob.glob("tools/*")]:
        if f != "tools/port_names.py" and os.path.isfile(f):
            t = open(f).read()
            write(f, t, names.turn_note(t))
    return 0


def edit(names, f, text):
    """An edit of src/ as src/ is turned, one of specs/ or proofs/ as that file is."""
    crate, target, out = os.path.dirname(os.path.dirname(f)), None, []
    for l in text.split("\n"):
        if l.startswith("file:"):
            target = os.path.join(crate, l[5:].strip())
        elif l.startswith(("old:", "new:")) and target and target.endswith(".antt") and target in names.texts:
            l = names.turn_antt(target, l)
        else:
            l = names.turn_note(l)
        out.append(l)
    return "\n".join(out)


def write(f, before, after):
    if before != after:
        open(f, "w").write(after)


sys.exit(main())
