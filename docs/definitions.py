#!/usr/bin/env python3
"""Writes DEFINITIONS.md from the sources: every commented definition under crates/*/specs, crate by crate.

    docs/definitions.py            writes docs/DEFINITIONS.md anew
    docs/definitions.py --check    ends with status 1 where docs/DEFINITIONS.md is out of date

The sentence of a definition is the comment directly above it, the sentence of a module the comment at its
head, and the sentence of a crate the comment at the head of its root file. Crates come in the order of
crates.txt, modules in the order of specs/Lib.antt, definitions in the order of their file.
"""

import re
import sys
from pathlib import Path

TOP = Path(__file__).resolve().parent.parent
PAGE = TOP / "docs" / "DEFINITIONS.md"

HEAD = """\
# Definitions

Every plain name that a contract cites, crate by crate, with its sentence and the module that it stands in. A module `Frozen` of `arimaa_model` is the file `crates/arimaa_model/specs/Frozen.antt`. `RULES.md` has the rules of the game in whole sentences. This page is written by `docs/definitions.py` from the comments of the sources; change them, and run it again.

How to read it. A board is the list of its 64 squares; a square is its number; a position, a step, a piece are plain records. A name in small letters is a value or a test that computes. A name that begins with a capital is a fact. `P`, `Q` stand for positions, `b` for a board, `s` and `t` for squares or steps, `a` for the attacker, `h` for a history. "The steps, the last one first" is a list that is read backward. A sentence continues the name: "`beats`: whether p is an enemy of q and stronger".

The reader who wants the least to believe reads `Relations`, `Turns`, `Results`, `DecidedPositions`, `Game`, `Winning`, `Ranks` and `Strategies` of `arimaa_model`, `Lines` and `Grammar` of `arimaa_record`, the definitions of `arimaa_judge`, for `prove` and `check` `Play` of `arimaa_forced`, for `refute` and `verify` `Escapes` of `arimaa_refute`, and `Calls`, `Commands` and the command's own module of `arimaa_cli`. The tests of the other modules decide these facts: `tests_are_the_rules` of `arimaa_model` has a clause for each.
"""

ITEM = re.compile(r"(?:(?:abbrev|unfoldable)\s+)?pub\s+(?:(?:record|data)\s+)?([^\s:(]+)")


def comment_at(lines, end):
    """The comment that ends directly above the line of this number, as one sentence."""
    first = end
    while first > 0 and lines[first - 1].startswith("-- "):
        first -= 1
    return " ".join(line[3:].strip() for line in lines[first:end])


def head_of(lines):
    """The comment at the head of a file of definitions."""
    count = 0
    while count < len(lines) and lines[count].startswith("-- "):
        count += 1
    return " ".join(line[3:].strip() for line in lines[:count])


def definitions(lines):
    """The public names of a file with their sentences, in order."""
    head = head_of(lines)
    for number, line in enumerate(lines):
        item = ITEM.match(line)
        if not item or line.startswith("pub mod"):
            continue
        sentence = comment_at(lines, number)
        if sentence and sentence != head:
            yield item.group(1), sentence


def modules(specs):
    """The modules of a folder of definitions, in the order in which they are declared."""
    for line in (specs / "Lib.antt").read_text().splitlines():
        declared = re.match(r"pub mod (\S+)", line)
        if declared:
            yield from files_of(specs, declared.group(1), declared.group(1))


def files_of(folder, name, title):
    """A module's own file, and those of the modules below it."""
    file = folder / f"{name}.antt"
    if file.exists():
        yield title, file
        text = file.read_text()
        for below in re.findall(r"^pub mod (\S+)", text, re.M):
            yield from files_of(folder / name, below, f"{title}.{below}")


def crate_sentence(crate):
    """The comment at the head of a crate's root file, up to its first blank line."""
    lines = []
    for line in (crate / "src" / "lib.rt").read_text().splitlines():
        if not line.startswith("//!") or line.strip() == "//!":
            break
        lines.append(line[3:].strip())
    return " ".join(lines)


def escaped(text):
    return text.replace("|", "\\|")


def page():
    out = [HEAD]
    for line in (TOP / "crates.txt").read_text().splitlines():
        name = line.split("#")[0].split(":")[0].strip()
        crate = TOP / "crates" / name
        if not name or not (crate / "specs" / "Lib.antt").exists() or not (crate / "src" / "lib.rt").exists():
            continue
        sections = []
        for title, file in modules(crate / "specs"):
            lines = file.read_text().splitlines()
            rows = list(definitions(lines))
            if rows:
                sections.append(f"### `{title}`\n\n{head_of(lines)}\n\n| Name | What it says |\n|---|---|")
                sections[-1] += "".join(f"\n| `{item}` | {escaped(sentence)} |" for item, sentence in rows) + "\n"
        if sections:
            out.append(f"## `{name}`\n\n{crate_sentence(crate)}\n")
            out.extend(sections)
    return "\n".join(out)


def main():
    text = page()
    if "--check" in sys.argv[1:]:
        if not PAGE.exists() or PAGE.read_text() != text:
            print("docs/DEFINITIONS.md is out of date: run docs/definitions.py", file=sys.stderr)
            return 1
        return 0
    PAGE.write_text(text)
    return 0


if __name__ == "__main__":
    sys.exit(main())
