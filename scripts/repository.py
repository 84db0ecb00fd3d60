"""What is in the repository: its files, and its crates. And how scripts report what they checked."""

import subprocess
from pathlib import Path

TOP = Path(__file__).resolve().parent.parent
COMMAND = TOP / "crates/filterset/out/filterset"


def tracked(*patterns):
    """Returns the files that git knows or would add, as paths from the top, sorted."""
    listed = ["git", "ls-files", "--cached", "--others", "--exclude-standard", "--", *patterns]
    out = subprocess.run(listed, cwd=TOP, capture_output=True, text=True, check=True).stdout
    return sorted({path for path in out.splitlines() if (TOP / path).is_file()})


def text_of(path):
    return (TOP / path).read_text(encoding="utf-8")


def crates():
    """Returns the crates of the repository, in the order of crates.txt, each with those that its line names."""
    lines = (line.partition("#")[0].strip() for line in text_of("crates.txt").splitlines())
    named = (line.partition(":") for line in lines if line)
    return {name.split()[0]: below.split() for name, _, below in named}


def report(script, results):
    """Prints the faults of results, each a place and a fault or None, and a line of counts. Returns the exit status."""
    passed = failed = 0
    for place, fault in results:
        passed, failed = passed + (not fault), failed + bool(fault)
        if fault:
            print(f"{script}: {place}: FAILED: {fault}")
    print(f"{passed} passed, {failed} failed")
    return 1 if failed or not passed else 0
