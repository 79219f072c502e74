#!/usr/bin/env python3
"""What the program ix_words_cases must print, from the rules on the words of a command line.

    tools/words_cases.py        write crates/ix_words_cases/stdout
    tools/words_cases.py check  compare crates/ix_words_cases/stdout with the answers

The rules, which the program's library proves of another definition:

- An option with a value is written `--name VALUE`, as two words, or `--name=VALUE`, as one; a flag
  is written `--name` alone. Each option stands at most once, anywhere after the command.
- A word `--` ends the options: all words after it are operands.
- Before it a word that begins with `-` and isn't `-` alone is an option of the command.
- A VALUE in a word of its own doesn't begin with `-`, unless it is `-` alone.
- Every other word is an operand, `-` and the empty word too.
- The number of operands is exactly the command's.
- A number is 1 to 20 decimal digits and nothing else, in its range.
- The two names that `demo` is given differ.
"""
import re
import sys
from pathlib import Path

CASES = Path(__file__).resolve().parent.parent / "crates" / "ix_words_cases"

RANGES = {"seed": (0, 2**64 - 1), "moves": (0, 10000), "rounds": (1, 1000), "trials": (1, 16)}
# operands, options with a value, flags
COMMANDS = {
    "pack": (3, [], []),
    "place": (4, ["seed", "moves"], []),
    "route": (4, ["rounds"], []),
    "check": (3, [], ["placed"]),
    "flow": (3, ["seed", "moves", "rounds", "trials"], []),
    "demo": (3, [], []),
}


class Refused(Exception):
    """The words break a rule."""


def demand(holds):
    if not holds:
        raise Refused


def number(text, low, high):
    demand(re.fullmatch("[0-9]{1,20}", text))
    demand(low <= int(text) <= high)
    return int(text)


def looks_like_option(word):
    return word.startswith("-") and word != "-"


def split(words, valued, flags):
    """The operands, and a list of the options with their values, of the words after a command."""
    ends = words.index("--") if "--" in words else len(words)
    front, operands = words[:ends], words[ends + 1 :]
    # A `--` can't be the value of the option before it, so the first one ends the options.
    before, options = [], []
    while front:
        word = front.pop(0)
        if not looks_like_option(word):
            before.append(word)
        elif word[2:] in flags and word.startswith("--"):
            options.append((word[2:], ""))
        elif match := re.fullmatch("--([a-z]+)=(.*)", word, re.DOTALL):
            demand(match[1] in valued)
            options.append((match[1], match[2]))
        else:
            demand(word.startswith("--") and word[2:] in valued)
            demand(front and not looks_like_option(front[0]))
            options.append((word[2:], front.pop(0)))
    return before + operands, options


def quoted(texts):
    return "".join(f' "{text}"' for text in texts)


def answer(words):
    demand(words and words[0] in COMMANDS)
    command = words[0]
    count, valued, flags = COMMANDS[command]
    operands, options = split(words[1:], valued, flags)
    names = [name for name, _ in options]
    demand(len(names) == len(set(names)))
    demand(len(operands) == count)
    given = {name: number(text, *RANGES[name]) for name, text in options if name in valued}
    if command == "demo":
        size = number(operands[0], 1, 16)
        demand(operands[1] != operands[2])
        return f"demo {size}{quoted(operands[1:])}"
    line = command + quoted(operands)
    if command == "check":
        line += ", placed" if "placed" in names else ", routed"
    return line + "".join(f", {name} {given.get(name, 'none')}" for name in valued)


def answers():
    for line in (CASES / "data" / "cases").read_text().splitlines():
        if line and not line.startswith("#"):
            shows, *words = [field.strip() for field in line.split("|")]
            try:
                yield f"{shows}: {answer(words)}\n"
            except Refused:
                yield f"{shows}: refused\n"


def main():
    text = "".join(answers())
    stored = CASES / "stdout"
    if sys.argv[1:] == ["check"]:
        if not stored.exists() or stored.read_text() != text:
            sys.exit(f"{stored} isn't what the rules answer")
    else:
        stored.write_text(text)


if __name__ == "__main__":
    main()
