#!/usr/bin/env python3
"""pieces.py SIZE FILE PROGRAM [WORD..]: run PROGRAM with FILE as its standard input, in pieces.

SIZE is a number of bytes from 1 to 4096, or 'line': then one line is sent and its answer awaited before the next.
A packet pipe (O_DIRECT) is used, so that each read of the program gets one piece and no more. The program must ask for
at least 4096 bytes at a time.
"""
import os
import select
import subprocess
import sys

PATIENCE = 30  # seconds for one answer


def in_pieces(size, data, command):
    source, sink = os.pipe2(os.O_DIRECT | os.O_CLOEXEC)
    child = subprocess.Popen(command, stdin=source)
    os.close(source)
    for i in range(0, len(data), size):
        os.write(sink, data[i:i + size])
    os.close(sink)
    return child.wait()


def line_by_line(data, command):
    child = subprocess.Popen(command, stdin=subprocess.PIPE, stdout=subprocess.PIPE, bufsize=0)
    lines = data.split(b"\n")
    unended = lines.pop()  # empty after a final byte 10
    for line in lines:
        child.stdin.write(line + b"\n")
        answer = b""
        while not answer.endswith(b"\n"):
            if not select.select([child.stdout], [], [], PATIENCE)[0]:
                child.kill()
                sys.exit("pieces.py: no answer while the program waits for more input")
            more = child.stdout.read(4096)
            if not more:
                sys.exit("pieces.py: the program ended early")
            answer += more
        sys.stdout.buffer.write(answer)
    child.stdin.write(unended)
    child.stdin.close()
    sys.stdout.buffer.write(child.stdout.read())
    return child.wait()


def main(words):
    if len(words) < 3:
        sys.exit(__doc__)
    with open(words[1], "rb") as file:
        data = file.read()
    if words[0] == "line":
        return line_by_line(data, words[2:])
    return in_pieces(int(words[0]), data, words[2:])


if __name__ == "__main__":
    sys.exit(main(sys.argv[1:]))
