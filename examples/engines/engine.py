"""A small engine that speaks the engine interface and plays the first lawful single step that it finds.

It follows the game by the `makemove` lines, knows freezing, traps and repetition, and neither pushes nor pulls.
The programs beside it are this engine with another habit.
"""

import os
import sys

STRENGTH = "rcdhme"
TRAPS = {"c3", "f3", "c6", "f6"}
STEPS = {"n": (0, 1), "e": (1, 0), "s": (0, -1), "w": (-1, 0)}
SETUPS = {
    "g": "Ra1 Rb1 Rc1 Dd1 De1 Rf1 Rg1 Rh1 Ra2 Hb2 Cc2 Md2 Ee2 Cf2 Hg2 Rh2",
    "s": "ra7 hb7 cc7 ed7 me7 cf7 hg7 rh7 ra8 rb8 rc8 dd8 de8 rf8 rg8 rh8",
}


def neighbours(square):
    column, row = ord(square[0]), int(square[1])
    for letter, (east, north) in STEPS.items():
        if ord("a") <= column + east <= ord("h") and 1 <= row + north <= 8:
            yield letter, chr(column + east) + str(row + north)


def side_of(piece):
    return "g" if piece.isupper() else "s"


class Game:
    """The board, the side that is due, and the positions so far."""

    def __init__(self):
        self.board, self.due, self.setups, self.seen = {}, "g", 0, []

    def settle(self, board):
        for trap in TRAPS:
            piece = board.get(trap)
            if piece and not any(side_of(board.get(s, ".")) == side_of(piece) for _, s in neighbours(trap) if s in board):
                del board[trap]
        return board

    def make(self, items):
        if self.setups < 2:
            self.board.update({item[1:3]: item[0] for item in items})
            self.setups += 1
        else:
            for piece, column, row, to in items:
                if to == "x":
                    continue
                square = column + row
                self.board[dict(neighbours(square))[to]] = self.board.pop(square)
                self.settle(self.board)
        self.due = "s" if self.due == "g" else "g"
        if self.setups == 2:
            self.seen.append((self.due, frozenset(self.board.items())))

    def is_frozen(self, square):
        piece, around = self.board[square], [self.board[s] for _, s in neighbours(square) if s in self.board]
        strength = lambda it: STRENGTH.index(it.lower())
        return not any(side_of(it) == side_of(piece) for it in around) and any(strength(it) > strength(piece) for it in around)

    def first_step(self):
        order = sorted(self.board, key=lambda s: (s[1], s[0]))
        for square in order:
            piece = self.board[square]
            if side_of(piece) != self.due or self.is_frozen(square):
                continue
            for letter, to in neighbours(square):
                if to in self.board or (piece == "R" and letter == "s") or (piece == "r" and letter == "n"):
                    continue
                after = dict(self.board)
                after[to] = after.pop(square)
                other = "s" if self.due == "g" else "g"
                if self.seen.count((other, frozenset(self.settle(after).items()))) < 2:
                    return piece + square + letter
        return "resign"

    def answer(self):
        return SETUPS[self.due] if self.setups < 2 else self.first_step()


def say(line):
    """Says a line; where nobody listens any more, the engine ends."""
    try:
        print(line, flush=True)
    except BrokenPipeError:
        os._exit(1)


def run(answer, version="1"):
    """Speaks the interface until the input ends or `quit`; `answer` says what follows on `go`."""
    game = Game()
    for line in sys.stdin:
        items = line.split()
        if not items:
            continue
        if items[0] == "aei":
            say("protocol-version " + version)
            say("id name example")
            say("aeiok")
        elif items[0] == "isready":
            say("readyok")
        elif items[0] == "newgame":
            game = Game()
        elif items[0] == "makemove":
            game.make(items[1:])
        elif items[0] == "go":
            answer(game)
        elif items[0] == "quit":
            return


def best(game):
    say("bestmove " + game.answer())
