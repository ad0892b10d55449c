#!/usr/bin/env python3
"""Compares, at positions of random play, the list of results by layers with that of the walk, place by place.

Each game begins with the pieces of random setups, and goes on by random single steps of both sides, up to 150 of them;
a position in which no rabbit has reached its last row is asked with either side to move. Prints how many positions were
asked, how many results they have in all, and each position at which the lists differ; ends with 1 if there is one. It
needs `rt` on the path and builds `arimaa_results_bench` first.

usage: bench/lists_agree.py [POSITIONS] [SEED]      (1,000 positions and seed 1 unless said otherwise)
"""
import pathlib
import random
import subprocess
import sys

TOP = pathlib.Path(__file__).resolve().parent.parent
sys.path.insert(0, str(TOP / "examples/engines"))
from engine import Game, neighbours, side_of  # noqa: E402

CRATE = TOP / "crates/arimaa_results_bench"
PIECES = "rrrrrrrrccddhhme"


def setup(chance: random.Random) -> Game:
    """A game after random setups."""
    game = Game()
    for side, rows in (("g", "12"), ("s", "78")):
        pieces = list(PIECES.upper() if side == "g" else PIECES)
        chance.shuffle(pieces)
        game.board.update(zip((column + row for row in rows for column in "abcdefgh"), pieces))
    return game


def step(chance: random.Random, game: Game) -> None:
    """A random single step of a random piece that may make one; none where the piece has none."""
    square = chance.choice(sorted(game.board))
    piece = game.board[square]
    back = {"R": "s", "r": "n"}.get(piece)
    free = [to for way, to in neighbours(square) if to not in game.board and way != back]
    if free and not game.is_frozen(square):
        game.board[chance.choice(free)] = game.board.pop(square)
        game.settle(game.board)


def text(game: Game) -> str:
    """The board text."""
    rows = ([game.board.get(column + str(row), " ") for column in "abcdefgh"] for row in range(8, 0, -1))
    return "[" + "".join("".join(row) for row in rows) + "]"


def is_over(game: Game) -> bool:
    """Whether a rabbit has reached its last row, or a side has none."""
    rabbits = [(piece, square[1]) for square, piece in game.board.items() if piece in "Rr"]
    return any(it in (("R", "8"), ("r", "1")) for it in rabbits) or len({side_of(piece) for piece, _ in rabbits}) < 2


def main() -> int:
    wanted = int(sys.argv[1]) if len(sys.argv) > 1 else 1_000
    chance = random.Random(int(sys.argv[2]) if len(sys.argv) > 2 else 1)
    subprocess.run(["rt", "run"], cwd=CRATE, stdin=subprocess.DEVNULL, stdout=subprocess.DEVNULL, check=True)
    asked = results = differing = 0
    while asked < wanted:
        game = setup(chance)
        for _ in range(10):
            for _ in range(chance.randrange(5, 30)):
                step(chance, game)
            if is_over(game) or asked == wanted:
                break
            side = chance.choice(("gold", "silver"))
            call = [CRATE / "out/arimaa_results_bench", "agree", side, text(game)]
            words = subprocess.run(call, capture_output=True, text=True, check=True).stdout.split()
            asked += 1
            results += int(words[3])
            if words[1] != "true":
                differing += 1
                print("differ", side, text(game))
    print(f"positions {asked} results {results} differing {differing}")
    return 1 if differing else 0


if __name__ == "__main__":
    sys.exit(main())
