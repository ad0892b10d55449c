#!/usr/bin/env python3
"""Speaks another version of the interface."""
from engine import best, run

run(best, version="2")
