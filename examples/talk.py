"""Talks with a running program: a line goes in, and its reply comes out before the next line is written.

python3 examples/talk.py PROGRAM"""
import subprocess
import sys

LINES = ["point A 0 0", "piont B 40 0", "point B 40 0", "distance A B 40", "check", "set 1 50", "solve"]
END_OF_REPLY = "refused E2 word\n"  # the answer to the line ., which is never valid; it follows every reply

with subprocess.Popen([sys.argv[1], "live"], stdin=-1, stdout=-1, text=True, bufsize=1) as solver:
    for line in LINES:
        print(">", line)
        solver.stdin.write(line + "\n.\n")
        print(solver.stdout.readline(), end="")  # the first line belongs to the reply, even if it reads like the marker
        for row in iter(solver.stdout.readline, END_OF_REPLY):
            print(row, end="")
