#!/usr/bin/env python3
"""Plays the bot on start positions that it wins by force, and has the records judged.

    examples/engines/wins.py [PROGRAM]

PROGRAM is `./arimaa` where none is given. On each position two bots play against each other: the one that is to win
looks as many turns ahead as its win takes, the other one turn. A line for each position says who was to win, within how
many turns, and what `judge` answers about the record. The status is 1 where a record isn't lawful, the wrong side has
won, or the game took more turns.
"""

import subprocess
import sys

# who is to move, the board, who is to win, and within how many turns
POSITIONS = [
    ("g", "[        R      r                   E                            ]", "gold", 1),
    ("g", "[              R                                  r              ]", "gold", 1),
    ("s", "[         R                                            r         ]", "silver", 1),
    ("s", "[        rR                                                      ]", "gold", 2),
    ("g", "[                                                Rr              ]", "silver", 2),
    ("g", "[         r      MR                                              ]", "gold", 1),
    ("s", "[                                        mr       R              ]", "silver", 1),
    ("s", "[                r        r               R                      ]", "silver", 2),
    ("g", "[                 r               R      R                       ]", "gold", 2),
    ("s", "[                        rR       H                              ]", "gold", 2),
    ("g", "[                 r               R                              ]", "gold", 3),
    ("s", "[                         r               R                      ]", "silver", 3),
]
WORDS = {"gold": "g", "silver": "s"}


class Bot:
    """A bot that runs, and its lines."""

    def __init__(self, program, depth):
        command = [program, "bot", "--depth", str(depth)]
        self.child = subprocess.Popen(command, stdin=subprocess.PIPE, stdout=subprocess.PIPE, text=True)

    def tell(self, line):
        self.child.stdin.write(line + "\n")
        self.child.stdin.flush()

    def choice(self):
        self.tell("go")
        word, _, text = self.child.stdout.readline().strip().partition(" ")
        if word != "bestmove":
            raise ValueError(f"{word} {text} is no answer to go")
        return text

    def quit(self):
        self.tell("quit")
        return self.child.wait()


def play(program, side, board, winner, depth):
    """The record of a game between two bots, and how many turns it has."""
    bots = {letter: Bot(program, depth if letter == WORDS[winner] else 1) for letter in "gs"}
    number, turns = 2, 0
    record = [f"start {number}{side} {board}"]
    for bot in bots.values():
        bot.tell(f"setposition {side} {board}")
    while (turn := bots[side].choice()) != "resign":
        record.append(f"{number}{side} {turn}")
        turns += 1
        for bot in bots.values():
            bot.tell("makemove " + turn)
        number, side = (number, "s") if side == "g" else (number + 1, "g")
    for bot in bots.values():
        if bot.quit() != 0:
            raise ValueError("a bot did not end by quit")
    return "\n".join(record) + "\n", turns


def main():
    program = sys.argv[1] if len(sys.argv) > 1 else "./arimaa"
    failed = False
    for side, board, winner, depth in POSITIONS:
        record, turns = play(program, side, board, winner, depth)
        judged = subprocess.run([program, "judge"], input=record, capture_output=True, text=True).stdout.split("\n")
        fine = judged[0] == f"lawful {turns}" and judged[1].startswith(f"winner {winner} ") and turns <= depth
        failed = failed or not fine
        print(f"{winner} within {depth}: {', '.join(judged[:2])}{'' if fine else ' DIFFERS'}")
    sys.exit(failed)


main()
