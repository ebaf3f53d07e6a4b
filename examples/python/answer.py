"""Answers the lines of standard input, each under the first profile, and with the word `explain` says why:

    pip install packages/riichi_desk-*_x86_64.whl
    python3 examples/python/answer.py < FILE
    python3 examples/python/answer.py explain < FILE
"""

import sys

import riichi_desk

for line in sys.stdin.buffer:
    told = riichi_desk.text(line)
    if told is not None:
        print(told)
    if sys.argv[1:] == ["explain"]:
        print("".join(f"{why}\n" for why in riichi_desk.explain(line)), end="")
