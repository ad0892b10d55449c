#!/usr/bin/env python3
"""Says a line of 70,000 bytes where its second setup or turn is due."""
from engine import best, run, say

turns = 0


def lengthy(game):
    global turns
    turns += 1
    say("info " + "x" * 70_000) if turns == 2 else best(game)


run(lengthy)
