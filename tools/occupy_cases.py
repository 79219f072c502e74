#!/usr/bin/env python3
"""What the program ix_occupy_cases must print, by the definition and not by counting.

    tools/occupy_cases.py                 write crates/ix_occupy_cases/stdout
    tools/occupy_cases.py check           compare crates/ix_occupy_cases/stdout with the answers
    tools/occupy_cases.py random SEED     print a line of steps for crates/ix_occupy_cases/data/steps

A list of steps is lawful where each claim is of a node that its net doesn't hold and each release
of one that it does. The holders of a node are the nets with a claim and no later release, looked
up anew at each question. The history is the number of ends at which there were two or more,
65,535 at most.
"""
import random
import sys
from pathlib import Path

CASES = Path(__file__).resolve().parent.parent / "crates" / "ix_occupy_cases"
MOST_HIST = 65535


def steps_of(words):
    """The steps as (kind, net, node), ends as ("end", how many, None)."""
    steps = []
    for word in words.split():
        if word.startswith("end"):
            steps.append(("end", int(word[4:]) if "*" in word else 1, None))
        else:
            net, node = word[1:].split(":")
            steps.append((word[0], int(net), int(node)))
    return steps


def holders(steps, node):
    """The nets with a claim of the node and no later release."""
    return {
        net
        for i, (kind, net, place) in enumerate(steps)
        if kind == "+" and place == node and ("-", net, node) not in steps[i + 1 :]
    }


def is_lawful(steps):
    """A claim is of a node that its net doesn't hold, a release of one that it holds."""
    return all(
        (net in holders(steps[:i], node)) == (kind == "-")
        for i, (kind, net, node) in enumerate(steps)
        if kind != "end"
    )


def hist(steps, node):
    """At how many ends two or more held the node."""
    ends = sum(
        count
        for i, (kind, count, _) in enumerate(steps)
        if kind == "end" and len(holders(steps[:i], node)) >= 2
    )
    return min(ends, MOST_HIST)


def answer(nodes, steps):
    if any(kind != "end" and node >= nodes for kind, _, node in steps):
        return "no such node"
    if not is_lawful(steps):
        return "not lawful"
    held = [len(holders(steps, node)) for node in range(nodes)]
    parts = [
        f"{node}: {held[node]} held, {max(held[node] - 1, 0)} others, hist {hist(steps, node)}; "
        for node in range(nodes)
    ]
    shared = [node for node in range(nodes) if held[node] >= 2]
    first = min(shared, default="none")
    return "".join(parts) + f"shared {len(shared)}, first {first}"


def expected():
    lines = []
    for line in (CASES / "data" / "steps").read_text().splitlines():
        name, nodes, words = line.split("|")
        lines.append(f"{name.strip()}: {answer(int(nodes), steps_of(words))}\n")
    return "".join(lines)


def print_random(seed):
    draw = random.Random(seed)
    nodes, words, steps = 8, [], []
    for _ in range(120):
        net, node = draw.randrange(6), draw.randrange(nodes)
        if draw.randrange(8) == 0:
            step, word = ("end", 1, None), "end"
        else:
            kind = "-" if net in holders(steps, node) else "+"
            step, word = (kind, net, node), f"{kind}{net}:{node}"
        steps.append(step)
        words.append(word)
    print(f"a random list of seed {seed} | {nodes} | {' '.join(words)}")


if __name__ == "__main__":
    if sys.argv[1:2] == ["random"]:
        print_random(int(sys.argv[2]))
    elif sys.argv[1:2] == ["check"]:
        if (CASES / "stdout").read_text() != expected():
            sys.exit("crates/ix_occupy_cases/stdout isn't what tools/occupy_cases.py answers")
    else:
        (CASES / "stdout").write_text(expected())
