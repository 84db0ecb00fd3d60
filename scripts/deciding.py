#!/usr/bin/env python3
"""Puts 200 random pairs of filtersets to `same`, `cover`, `disjoint` and `partition` of the built program, and compares
what it says with what the pairs pick of all tests with short names: scripts/deciding.py [SEED]

The names are all texts of `a` and `b` up to length 4, with three kinds and both platforms. What a filterset picks is
computed here, by docs/LANGUAGE.md. If the program says that the answer is yes for every test, it must be so for these.
If it shows a test, the answer must be no for that, and the lines below it must say which filtersets pick it. Half of
the pairs are one filterset, written in two ways. No answer may be unknown.
"""

import itertools
import random
import re
import subprocess
import sys

from repository import COMMAND, report

KINDS, PLATFORMS = ["lib", "bin", "test"], ["target", "host"]
NAMES = ["".join(letters) for length in range(5) for letters in itertools.product("ab", repeat=length)]
TESTS = list(itertools.product(NAMES, KINDS, PLATFORMS))

# What each command says if the answer is yes and if it is no, and the answer by how many of two filtersets pick a test.
COMMANDS = {
    "same": ("same", "differ", lambda count: count != 1),
    "cover": ("covered", "not covered", lambda count: count >= 1),
    "disjoint": ("disjoint", "not disjoint", lambda count: count <= 1),
    "partition": ("partition", "no partition", lambda count: count == 1),
}
MATCHES = {
    "=": lambda own, name: name == own,
    "~": lambda own, name: own in name,
    "#": lambda own, name: re.fullmatch(own.replace("*", ".*").replace("?", "."), name, re.S) is not None,
}
# Whether each operator picks a test, by whether its operands do; and other ways to write it.
OPERATORS = {
    "and": (lambda a, b: a and b, ["({b}) and ({a})", "not (not ({a}) or not ({b}))", "({a}) - not ({b})"]),
    "or": (lambda a, b: a or b, ["({b}) or ({a})", "not (not ({a}) and not ({b}))", "(({a}) - ({b})) ^ ({b})"]),
    "-": (lambda a, b: a and not b, ["({a}) and not ({b})", "not (not ({a}) or ({b}))"]),
    "^": (lambda a, b: a != b, ["({b}) ^ ({a})", "(({a}) - ({b})) or (({b}) - ({a}))", "not (not ({a}) ^ ({b}))"]),
}


def random_predicate(rng):
    which = rng.random()
    if which < 0.2:
        word, at, values = ("kind", 1, KINDS) if which < 0.1 else ("platform", 2, PLATFORMS)
        own = rng.choice(values)
        return f"{word}({own})", lambda test: test[at] == own
    sign = rng.choice("=~#")
    own = "".join(rng.choices("ab*?" if sign == "#" else "ab", k=rng.randint(1, 3)))
    return f"test({sign}{own})", lambda test: MATCHES[sign](own, test[0])


def random_filterset(rng, depth=3):
    """Returns a random filterset: its text, the text of the same in other words, and whether it picks a test."""
    if depth == 0 or rng.random() < 0.2:
        text, picks = random_predicate(rng)
        return text, f"not not {text}" if rng.random() < 0.3 else text, picks
    text, other, picks = random_filterset(rng, depth - 1)
    if rng.random() < 0.2:
        return f"not ({text})", f"not ({other})", lambda test: not picks(test)
    operator, (joins, laws) = rng.choice(list(OPERATORS.items()))
    right_text, right_other, right_picks = random_filterset(rng, depth - 1)
    return (f"({text}) {operator} ({right_text})", rng.choice(laws).format(a=other, b=right_other),
            lambda test: joins(picks(test), right_picks(test)))


def fault_of(command, pair, status, lines):
    """Returns what is wrong with an answer about two filtersets, each by whether it picks a test, or nothing."""
    yes, no, is_met = COMMANDS[command]
    if (status, lines) == (0, [yes]):
        missed = next((test for test in TESTS if not is_met(sum(picks(test) for picks in pair))), None)
        return missed and f"the answer is no for {missed}"
    if status != 1 or lines[0] != no:
        return f"status {status}, {lines[0]!r}"
    fields = dict(line[2:].split(": ", 1) for line in lines if line.startswith("  "))
    test = fields["test"], fields["kind"], fields["platform"]
    numbers = [int(line.rpartition(" ")[2]) for line in lines if line.startswith("picked by argument ")]
    picked = [number for number, picks in enumerate(pair, 1) if picks(test)]
    is_right = picked == numbers and not is_met(len(picked))
    return None if is_right else f"{test} is picked by {picked}, and not by {numbers}"


def results(rng):
    for _ in range(200):
        text, other, picks = random_filterset(rng)
        second, _, second_picks = (other, other, picks) if rng.random() < 0.5 else random_filterset(rng)
        for command in COMMANDS:
            ran = subprocess.run([COMMAND, command, text, second], capture_output=True, text=True, check=False)
            lines = (ran.stdout + ran.stderr).splitlines() or [""]
            yield f"{command} {text!r} {second!r}", fault_of(command, (picks, second_picks), ran.returncode, lines)


if __name__ == "__main__":
    sys.exit(report("deciding", results(random.Random(int(sys.argv[1]) if sys.argv[1:] else 1))))
