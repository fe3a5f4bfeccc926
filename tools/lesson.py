#!/usr/bin/env python3
"""Writes crates/meaning/proofs/Lesson.antt: the lines of docs/lesson.lines and the answers of docs/lesson.answers as
one statement of the meaning. docs/LESSON.md shows exactly these."""
import re
from output import noted

HEAD = """-- The lesson (docs/LESSON.md), by computation: its lines as they are typed, and what each depository's lone book answers.
-- Assumes nothing.
use Prim.Native.Nat.{ℕ}
use mathlib.Core.Path.{◌≡◌, refl}
use mathlib.Core.List.{List, [], ◌∷◌, map}
use Rattle.meaning.specs.Text.{bytes}
use Rattle.meaning.specs.Lone.{lone_answers}
use Rattle.meaning.specs.Printing.{printed}
"""


def listed(items):
    return "\n    ∷ ".join(items + ["[]"])


def texts(items):
    return listed([f'bytes "{item}"' for item in items])


def definition(name, comment, items):
    return f"\n-- {comment}\nunfoldable pub {name} : List (List ℕ)\n{name} =\n    {texts(items)}\n"


lines = open("docs/lesson.lines").read().split("\n")[:-1]
answers = open("docs/lesson.answers").read().split("\n")[:-1]
shown = re.findall(r"^\| `([^`]*)` \| `([^`]*)` \|", open("docs/LESSON.md").read(), re.M)
assert shown == list(zip(lines, answers)), "docs/LESSON.md does not show the lines of docs/lesson.lines with their answers"

to = {}
for line, answer in shown:
    to.setdefault(line.split(",")[1], []).append(answer)
names = {csd: f"answers_to{csd}" for csd in to}
text = HEAD + definition("lesson_lines", "the lines", lines)
for csd in to:
    text += definition(names[csd], f"the answers to depository {csd}", to[csd])
text += f"""
pub lesson_answered : map (λ csd. map printed (lone_answers csd lesson_lines)) ({" ∷ ".join(to)} ∷ [])
    ≡ {" ∷ ".join(names.values())} ∷ []
unfolding lesson_lines {" ".join(names.values())} lone_answers printed
lesson_answered = refl
"""
noted("lesson", "crates/meaning/proofs/Lesson.antt", text)
