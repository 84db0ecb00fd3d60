#!/usr/bin/env python3
"""Compares the size of the repository with budget.toml. Prints what is above a limit, and which may be lowered."""

import re
import sys

from repository import crates, report, text_of, tracked
from trusted import Sources, lines_of


def lines(*patterns):
    return sum(len(text_of(path).splitlines()) for path in tracked(*patterns))


def words(page):
    """Counts the words of a page outside its blocks of code."""
    text = re.sub(r"```.*?```", "", text_of(page), flags=re.S)
    return sum(len(line.split()) for line in text.splitlines() if not line.startswith("    "))


def results():
    edits = tracked("crates/*/must-fail/*.edit")
    found = {
        "crates": len(crates()),
        "lines_of_rt": lines("*.rt"),
        "lines_of_antt": lines("*.antt"),
        "must_fail_edits": len(edits),
        "crates_with_edits": len({path.split("/")[1] for path in edits}),
        "trusted_lines": sum(map(lines_of, Sources().reached().values())),
        "words_of_pages": sum(map(words, tracked("*.md", ":!examples/*/*.md"))),
        "words_of_readme": words("README.md"),
        "lines_of_scripts": lines("scripts/*", "bench/*", "tools/*", ".ci/run", "filterset"),
    }
    most = {name: int(number) for name, number in re.findall(r"(?m)^(\w+) = (\d+)$", text_of("budget.toml"))}
    for name in sorted({*found, *most}):
        number, limit = found.get(name), most.get(name)
        if number and limit and number < limit:
            print(f"budget: {name}: {number}, so lower its limit of {limit}")
        yield name, None if number and limit and number <= limit else f"it is {number}, and may be {limit}"


if __name__ == "__main__":
    sys.exit(report("budget", results()))
