#!/usr/bin/env python3
"""Says 10,000 lines and no setup or turn."""
from engine import run, say


def chat(game):
    for number in range(10_000):
        say("info " + str(number))


run(chat)
