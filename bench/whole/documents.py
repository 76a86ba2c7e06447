#!/usr/bin/env python3
"""Writes the documents that `step` is measured on.

usage: documents.py FOLDER
"""
import sys
from pathlib import Path


class Draws:
    """The draws of the generator of `qprop make`."""

    def __init__(self, start):
        self.state = start

    def below(self, most):
        self.state = (self.state * 75 + 74) % 65537
        return self.state % most


def settled(births, legs):
    """A document of births and legs, each a list of lines."""
    return "".join(line + "\n" for leg in [births, *legs] for line in [*leg, "settle"])


def sets(name, legs):
    """Legs of one new value of an input each."""
    return [[f"set {name} = {leg}"] for leg in range(2, legs + 1)]


def chain(services=64, legs=1000):
    """A chain: each service reads the one before it."""
    births = ["input s0 : int = 1"] + [f"derived s{k} : int rank {k} = s{k - 1} + 1" for k in range(1, services)]
    return settled(births, sets("s0", legs))


def diamonds(count=21, legs=1000):
    """Stacked diamonds: two ways from each service to the next, 21 times."""
    births, below = ["input x : int = 1"], "x"
    for k in range(1, count + 1):
        births += [
            f"derived left{k} : int rank {2 * k - 1} = {below} + 1",
            f"derived right{k} : int rank {2 * k - 1} = {below} - {k}",
            f"derived both{k} : int rank {2 * k} = left{k} + right{k} - {below}",
        ]
        below = f"both{k}"
    return settled(births, sets("x", legs))


def fan(readers=60, legs=1000):
    """A fan: one input that 60 services read."""
    births = ["input x : int = 1"] + [f"derived f{k} : int rank 1 = x * {k + 1} + {k}" for k in range(readers)]
    return settled(births, sets("x", legs))


def sums(inputs=48, legs=1000):
    """Wide sums: 48 inputs, 12 sums of 16 of them, three of these above; four inputs change in each leg."""
    births = [f"input i{k} : int = {k}" for k in range(inputs)]
    for k in range(12):
        births.append(f"derived sum{k} : int rank 1 = sum() over " + ", ".join(f"i{(5 * k + at) % inputs}" for at in range(16)))
    births += [f"derived {word}s : int rank 2 = {word}() over " + ", ".join(f"sum{k}" for k in range(12)) for word in ("sum", "min", "max")]
    draws = Draws(7)
    return settled(births, [[f"set i{draws.below(inputs)} = {draws.below(1000)}" for _ in range(4)] for _ in range(2, legs + 1)])


def rewirings(inputs=16, derived=48, legs=200):
    """Rewirings: about ten members that come or go, three definitions and four values in each of 200 legs."""
    draws = Draws(11)
    names = [f"i{k}" for k in range(inputs)] + [f"d{j}" for j in range(derived)]
    births = [f"input i{k} : int = {k}" for k in range(inputs)]
    members = {}
    for j in range(derived):
        members[j] = sorted({draws.below(inputs + j) for _ in range(3)})
        births.append(f"derived d{j} : int rank {j + 1} = max() over " + ", ".join(names[k] for k in members[j]))
    return settled(births, [rewired(draws, names, inputs, derived, members) for _ in range(2, legs + 1)])


def rewired(draws, names, inputs, derived, members):
    lines = []
    for _ in range(10):
        j = draws.below(derived)
        member = draws.below(inputs + j)
        if member not in members[j] and len(members[j]) < 16:
            members[j].append(member)
            lines.append(f"add d{j} {names[member]}")
        elif member in members[j] and len(members[j]) > 1:
            members[j].remove(member)
            lines.append(f"drop d{j} {names[member]}")
    for _ in range(3):
        j = draws.below(derived)
        members[j] = sorted({draws.below(inputs + j) for _ in range(4)})
        lines.append(f"define d{j} = max() over " + ", ".join(names[k] for k in members[j]))
    return lines + [f"set i{draws.below(inputs)} = {draws.below(1000)}" for _ in range(4)]


def drawn(inputs, derived, legs, changes):
    """A network whose services read two others, drawn from those before them; so many new values in each leg."""
    draws = Draws(5)
    births = [f"input i{k} : int = {k}" for k in range(inputs)]
    names = [f"i{k}" for k in range(inputs)]
    for j in range(derived):
        a, b = (names[draws.below(len(names))] for _ in range(2))
        births.append(f"derived d{j} : int rank {j + 1} = {a} - {b}")
        names.append(f"d{j}")
    values = lambda leg: [f"set i{(leg * changes + k) % inputs} = {draws.below(1000)}" for k in range(changes)]
    return settled(births, [values(leg) for leg in range(2, legs + 1)])


def legs(count):
    """Legs of one new value each, in a network of 64 services of which it reaches a part."""
    return drawn(16, 48, count, 1)


DOCUMENTS = {
    "one_line": lambda: "input a : int = 3\n",
    "chain": chain,
    "diamonds": diamonds,
    "fan": fan,
    "sums": sums,
    "rewirings": rewirings,
    "legs_1": lambda: legs(1),
    "legs_100": lambda: legs(100),
    "legs_1000": lambda: legs(1000),
    "busy_8": lambda: drawn(3, 5, 300, 64),
    "busy_64": lambda: drawn(16, 48, 200, 64),
    "small_8": lambda: drawn(3, 5, 300, 1),
    "small_64": lambda: drawn(16, 48, 200, 1),
}


def main():
    folder = Path(sys.argv[1])
    folder.mkdir(parents=True, exist_ok=True)
    for name, make in DOCUMENTS.items():
        (folder / f"{name}.qprop").write_text(make())


if __name__ == "__main__":
    main()
