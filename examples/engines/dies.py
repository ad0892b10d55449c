#!/usr/bin/env python3
"""Ends without a word where its fourth setup or turn is due."""
import sys

from engine import best, run

left = 3


def dying(game):
    global left
    if left == 0:
        sys.exit(3)
    left -= 1
    best(game)


run(dying)
