#!/usr/bin/env python3
"""Plays the first lawful single step at once."""
from engine import best, run

run(best)
