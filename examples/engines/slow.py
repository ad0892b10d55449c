#!/usr/bin/env python3
"""Plays the first lawful single step after two seconds."""
import time

from engine import best, run


def slowly(game):
    time.sleep(2)
    best(game)


run(slowly)
