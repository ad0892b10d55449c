#!/usr/bin/env python3
"""Judges records that were changed, cut, doubled and mixed, by lines and by bytes, and asks about their last positions.

Each record goes through `judge` and `prove gold 1`. Every call has to end with a status that the program names, and
not by a signal. Prints how often each status came, and the slowest call.

usage: tests/mutated.py [RECORDS] [SEED]      (100,000 records and seed 1 unless said otherwise)
"""
import collections
import concurrent.futures
import os
import pathlib
import random
import subprocess
import sys
import time

TOP = pathlib.Path(__file__).resolve().parent.parent
PROGRAM = TOP / "crates/arimaa/out/arimaa"
COMMANDS = (("judge",), ("prove", "gold", "1"))
STATUSES = {"judge": {0, 1}, "prove": {0, 1, 6, 7}}


def seeds() -> list[bytes]:
    """The records that everything is made from."""
    files = sorted(TOP.glob("examples/*.txt")) + sorted(TOP.glob("examples/rules/*.txt"))
    return [file.read_bytes() for file in files if file.name != "questions.txt"]


def mutated(chance: random.Random, records: list[bytes]) -> bytes:
    """A record with one to four changes."""
    record = chance.choice(records)
    for _ in range(chance.randint(1, 4)):
        lines = record.split(b"\n")
        place = chance.randrange(len(lines))
        kind = chance.randrange(9)
        if kind == 0:
            del lines[place]
        elif kind == 1:
            lines.insert(place, lines[place])
        elif kind == 2:
            lines.insert(place, chance.choice(chance.choice(records).split(b"\n")))
        elif kind == 3:
            other = chance.randrange(len(lines))
            lines[place], lines[other] = lines[other], lines[place]
        record = b"\n".join(lines)
        if not record:
            continue
        at = chance.randrange(len(record))
        if kind == 4:
            record = record[:at]
        elif kind == 5:
            record = record[:at] + bytes([chance.randrange(256)]) + record[at + 1 :]
        elif kind == 6:
            record = record[:at] + bytes([chance.choice(b" \t\r\n#0123456789gswbRCDHMErcdhmeabfnx")]) + record[at:]
        elif kind == 7:
            record = record[:at] + record[at + 1 :]
        elif kind == 8:
            to = min(len(record), at + chance.randrange(1, 40))
            record = record[:to] + record[at:to] + record[to:]
    return record


def tried(job: tuple[int, int, int]) -> tuple[collections.Counter, float, list[str]]:
    """Statuses, the slowest call in seconds, and the calls that ended as none may."""
    first, count, seed = job
    chance = random.Random(seed * 1_000_003 + first)
    records = seeds()
    statuses: collections.Counter = collections.Counter()
    slowest, bad = 0.0, []
    for _ in range(count):
        record = mutated(chance, records)
        for words in COMMANDS:
            begun = time.perf_counter()
            call = subprocess.run([PROGRAM, *words], input=record, stdout=subprocess.PIPE, stderr=subprocess.DEVNULL)
            slowest = max(slowest, time.perf_counter() - begun)
            statuses[words[0], call.returncode] += 1
            if call.returncode not in STATUSES[words[0]] or not call.stdout:
                bad.append(f"{' '.join(words)} ended with {call.returncode} on {record!r}")
    return statuses, slowest, bad


def main() -> int:
    count = int(sys.argv[1]) if len(sys.argv) > 1 else 100_000
    seed = int(sys.argv[2]) if len(sys.argv) > 2 else 1
    part = 500
    jobs = [(first, min(part, count - first), seed) for first in range(0, count, part)]
    statuses: collections.Counter = collections.Counter()
    slowest, bad = 0.0, []
    with concurrent.futures.ProcessPoolExecutor(os.cpu_count()) as pool:
        for some, longest, ended in pool.map(tried, jobs):
            statuses += some
            slowest = max(slowest, longest)
            bad += ended
    for (command, status), times in sorted(statuses.items()):
        print(f"{command}: status {status}, {times} times")
    print(f"the slowest call took {slowest:.3f} seconds")
    for line in bad[:20]:
        print(line)
    print(f"{count} records, {len(bad)} calls ended as none may")
    return 1 if bad else 0


if __name__ == "__main__":
    sys.exit(main())
