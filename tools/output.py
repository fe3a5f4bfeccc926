"""Writing of generated files. The tools run in the repository's root (tools/generate runs them in a copy of it) and
print each file that they write."""
import os
from wrap import wrap

SIGN = {".rt": "//", ".antt": "--"}


def plain(path, text):
    """writes a file whose format has no comments; tools/generate names the tool"""
    os.makedirs(os.path.dirname(path), exist_ok=True)
    with open(path, "wb") as f:
        f.write(text if isinstance(text, bytes) else text.encode())
    print(path)


def noted(tool, path, text):
    """writes a file of Rattle, wrapped, with a note below its first comment that says which tool wrote it"""
    sign = SIGN[os.path.splitext(path)[1]]
    lines, k = wrap(text).split("\n"), 0
    while lines[k].startswith(sign):
        k += 1
    lines.insert(k, f"{sign} Written by tools/{tool}.py: change that, then run tools/generate.")
    plain(path, "\n".join(lines))


def noted_part(tool, path, text):
    """writes the part of a file of Rattle that stands behind a line that says which tool writes it; the part before
    is written by hand"""
    mark = f"// ---- From here on written by tools/{tool}.py: change that, then run tools/generate.\n"
    with open(path) as f:
        by_hand, found, _ = f.read().partition(mark)
    assert found, f"{path} has no line: {mark}"
    plain(path, wrap(by_hand + mark + text))
