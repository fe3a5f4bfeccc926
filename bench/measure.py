#!/usr/bin/env python3
"""measure.py times|batches|instructions WORK: what bench/run prints. WORK is a folder for temporary files.

The cost of a line is the cost of a book and N lines, less the cost of the book alone, divided by N. W is measured with
PENDING=1 in the environment only.
"""
import os
import re
import subprocess
import sys

import book
from pending import PENDING

RUNS = 5            # runs of each kind; the quickest counts
SUBMIT_ROOM = 600000  # precheck_main reads no more
BLOCK = 20000       # lines made; more are had by repeating them
STARTS = 400        # W lines made
BATCH_LINES = 64
ANSWER_BYTES = 32   # of a line's answer in a batch's answer space
SUBMIT, STEP, FLAT, MAPS, BATCH = "submit", "step", "flat", "maps", "batch"
COUNTED = {SUBMIT: 200, STEP: 3200}  # lines whose instructions are counted, but at most STARTS of W
PROGRAMS = {
    SUBMIT: ["target/bin/precheck_main"],
    STEP: ["target/bin/desk"],
    FLAT: ["target/bench/conventional", "flat"],
    MAPS: ["target/bench/conventional", "maps"],
}
COMMANDS = {**PROGRAMS, BATCH: ["target/bin/calls"]}
NAMES = {
    SUBMIT: "ours, submit (precheck_main)",
    STEP: "ours, many lines (desk)",
    FLAT: "conventional, flat",
    MAPS: "conventional, maps",
    BATCH: "ours, batches of 64 (calls)",
}
# Valgrind counts a repeated string instruction once for each byte. So the C library is told not to use any.
PLAIN_COPIES = {"GLIBC_TUNABLES": "glibc.cpu.x86_rep_movsb_threshold=1000000000:glibc.cpu.x86_rep_stosb_threshold=1000000000"}
BOOKS = {"empty": "almost empty", "full": "full"}
KINDS = {"questions": book.questions, "edits": book.edits, "starts": book.starts}


def text_of(lines):
    return "".join(line + "\n" for line in lines).encode()


def block_of(which, kind):
    return KINDS[kind](which, STARTS if kind == "starts" else BLOCK)


def kinds_of(which):
    """The kinds of lines measured over that book: W only where instructions are kept."""
    return [kind for kind in KINDS if kind != "starts" or PENDING and which == "full"]


def first_lines(block, count):
    """COUNT lines of the block, from its start again where it ends."""
    whole, rest = divmod(count, len(block))
    return block * whole + block[:rest]


def run(program, text, work, keep=False):
    """Processor time of one run in seconds, and its answers if they are to be kept."""
    source, answers = os.path.join(work, "text"), os.path.join(work, "answers")
    with open(source, "wb") as file:
        file.write(text)
    with open(source, "rb") as stdin, open(answers if keep else os.devnull, "wb") as stdout:
        child = subprocess.Popen(COMMANDS[program], stdin=stdin, stdout=stdout)
        _, status, usage = os.wait4(child.pid, 0)
    child.returncode = os.waitstatus_to_exitcode(status)
    if child.returncode:
        sys.exit(f"{' '.join(COMMANDS[program])} failed with status {child.returncode}")
    seen = None
    if keep:
        with open(answers, "rb") as file:
            seen = file.read().split(b"\n")[:-1]
    return usage.ru_utime + usage.ru_stime, seen


def check(which, kind, text, work):
    """All programs answer alike, no line is refused and every S is kept. Submit is checked while it is measured."""
    wanted, sent = None, text.split(b"\n")
    for program in (STEP, FLAT, MAPS):
        _, seen = run(program, text, work, keep=True)
        if any(answer.startswith(b"F") for answer in seen):
            sys.exit(f"{which} {kind}: {program} refuses a line")
        if any(line.startswith(b"S") and not answer.startswith(b"V,A") for line, answer in zip(sent, seen)):
            sys.exit(f"{which} {kind}: {program} rejects an instruction")
        if wanted is not None and seen != wanted:
            sys.exit(f"{which} {kind}: {program} answers otherwise")
        wanted = seen
    return wanted


def check_kept(which, text, work):
    """After these lines all instructions of the book are kept: their references are in use."""
    again = [line for line in book.book_lines(which) if line.startswith("S")]
    for program in (STEP, FLAT, MAPS):
        _, seen = run(program, text + text_of(again), work, keep=True)
        if seen[-len(again):] != [b"F,14"] * len(again):
            sys.exit(f"{which}: {program} cancels an instruction")


def same(seen, wanted, count):
    """One answer for each line, none a refusal, and the wanted ones as far as they are known."""
    both = min(len(seen), len(wanted))
    return len(seen) == count and seen[:both] == wanted[:both] and not any(a.startswith(b"F") for a in seen)


def measured_lines(program, base, alone, block, budget, work):
    """How many lines to measure: as many as the budget allows, in eights."""
    most = 200000
    size = len(text_of(block)) / len(block)
    if program == SUBMIT:
        most = int((SUBMIT_ROOM - len(base)) / size * 0.98)
    if alone > 1:
        # A slow book: guess from its own lines, which cost about a third as much while it fills.
        rate = 3 * alone / base.count(b"\n")
    else:
        count, rate = 64, 0
        while True:
            cost = run(program, base + text_of(first_lines(block, count)), work)[0] - alone
            rate = cost / count
            if cost > budget / 4 or count * 4 > most:
                break
            count *= 4
    count = most if rate <= 0 else max(64, min(most, int(budget / rate)))
    return int(count) // 8 * 8


def times(work):
    # Most of the budget is left to what the slowest book takes by itself.
    budget = float(os.environ.get("BUDGET", "120")) / 6 / (RUNS * (20 if PENDING else 16))
    last = f" {'W / question':>13}" if PENDING else ""
    print(f"{'book':<13}{'lines':<11}{'program':<30}{'N':>7} {'us a line':>10} {'lines a second':>15}"
          f" {'ours / flat':>12}{last}", flush=True)
    result, counts = {}, {}
    for which in BOOKS:
        base = text_of(book.book_lines(which))
        blocks = {kind: block_of(which, kind) for kind in kinds_of(which)}
        wanted = {kind: check(which, kind, base + text_of(block), work) for kind, block in blocks.items()}
        if "starts" in blocks:
            check_kept(which, base + text_of(blocks["starts"]), work)
        for program in PROGRAMS:
            alone = [run(program, base, work)[0]]
            share = budget if alone[0] < 1 else max(budget, alone[0] / 2)
            texts, best = {}, {}
            for kind, block in blocks.items():
                count = counts[which, kind, program] = measured_lines(program, base, alone[0], block, share, work)
                texts[kind], best[kind] = base + text_of(first_lines(block, count)), []
            for turn in range(RUNS):
                if turn:
                    alone.append(run(program, base, work)[0])
                for kind in blocks:
                    took, seen = run(program, texts[kind], work, keep=turn == 0)
                    best[kind].append(took)
                    if turn == 0 and not same(seen, wanted[kind], texts[kind].count(b"\n")):
                        sys.exit(f"{which} {kind}: {program} answers otherwise")
            for kind in blocks:
                result[which, kind, program] = (min(best[kind]) - min(alone)) / counts[which, kind, program]
        for kind in blocks:
            for program in PROGRAMS:
                cost = result[which, kind, program]
                ratio = f"{cost / result[which, kind, FLAT]:.2f}" if program in (SUBMIT, STEP) else ""
                beside = f"{cost / result[which, 'questions', program]:>14.1f}" if kind == "starts" else ""
                row = (f"{BOOKS[which]:<13}{kind:<11}{NAMES[program]:<30}{counts[which, kind, program]:>7} {cost * 1e6:>10.2f}"
                       f" {1 / cost if cost > 0 else 0:>15,.0f} {ratio:>12}{beside}")
                print(row.rstrip() if PENDING else row, flush=True)


def in_batches(lines):
    """The lines in lists of 64 that name one depository."""
    each = {}
    for line in lines:
        each.setdefault(line.split(",")[1], []).append(line)
    return [(csd, own[k:k + BATCH_LINES]) for csd, own in each.items() for k in range(0, len(own) - BATCH_LINES + 1, BATCH_LINES)]


def calls_of(singly, batches):
    """Lines sent singly and then batches, as calls (vectors/CALLS.md)."""
    sent = [f"b {csd} {BATCH_LINES * ANSWER_BYTES} " + "%0A".join(lines) for csd, lines in batches]
    return text_of(["e"] + [f"l {line}" for line in singly] + sent)


def batches(work):
    """A batch of 64 questions on the full book beside the same lines through the step over many lines."""
    base, sent = book.book_lines("full"), in_batches(book.questions("full", BLOCK))
    lines = [line for _, own in sent for line in own]
    texts = {STEP: (text_of(base), text_of(base + lines)), BATCH: (calls_of(base, []), calls_of(base, sent))}
    best, answers = {}, {}
    for turn in range(RUNS):
        for program, (alone, whole) in texts.items():
            took = []
            for text in (alone, whole):
                seconds, answers[program] = run(program, text, work, keep=True)
                took.append(seconds)
            best[program] = [min(pair) for pair in zip(took, best.get(program, took))]
    spaces = [answer.partition(b" ")[2] for answer in answers[BATCH][-len(sent):]]
    shown = [space[k:k + ANSWER_BYTES].rstrip(b".") for space in spaces for k in range(0, len(space), ANSWER_BYTES)]
    if shown != answers[STEP][-len(lines):]:
        sys.exit("the batches are answered otherwise")
    cost = {program: (whole - alone) / len(lines) for program, (alone, whole) in best.items()}
    print(f"{'book':<13}{'lines':<11}{'program':<30}{'N':>7} {'us a line':>10} {'batches / many lines':>21}", flush=True)
    for program in (STEP, BATCH):
        ratio = f"{cost[BATCH] / cost[STEP]:.2f}" if program == BATCH else ""
        print(f"{BOOKS['full']:<13}{'questions':<11}{NAMES[program]:<30}{len(lines):>7} {cost[program] * 1e6:>10.2f} {ratio:>21}", flush=True)


def instructions_of(command, text, work):
    """Instructions of one run."""
    out = os.path.join(work, "callgrind.out")
    valgrind = ["valgrind", "--tool=callgrind", f"--callgrind-out-file={out}", "--log-file=" + os.path.join(work, "valgrind.log")]
    env = {**os.environ, **PLAIN_COPIES}
    with open(os.path.join(work, "text"), "wb") as file:
        file.write(text)
    with open(os.path.join(work, "text"), "rb") as stdin:
        child = subprocess.Popen(valgrind + command, stdin=stdin, stdout=subprocess.DEVNULL, env=env)
    if child.wait():
        sys.exit(f"valgrind {' '.join(command)} failed")
    with open(out) as file:
        total = re.search(r"^(?:totals|summary): (\d+)", file.read(), re.M)
    os.remove(out)
    return int(total.group(1))


def instructions(work):
    print(f"{'book':<13}{'lines':<11}{'program':<30}{'N':>7} {'instructions a line':>20}", flush=True)

    for which in BOOKS:
        base = text_of(book.book_lines(which))
        blocks = {kind: block_of(which, kind) for kind in kinds_of(which)}
        for program, most in COUNTED.items():
            alone = instructions_of(PROGRAMS[program], base, work)
            for kind, block in blocks.items():
                count = min(most, len(block))
                cost = instructions_of(PROGRAMS[program], base + text_of(block[:count]), work) - alone
                print(f"{BOOKS[which]:<13}{kind:<11}{NAMES[program]:<30}{count:>7} {cost / count:>20,.0f}", flush=True)


if __name__ == "__main__":
    tables = {"times": times, "batches": batches, "instructions": instructions}
    if len(sys.argv) != 3 or sys.argv[1] not in tables:
        sys.exit(__doc__)
    tables[sys.argv[1]](sys.argv[2])
