#!/usr/bin/env python3
"""Presses TAB in bash, zsh and fish, and compares what that adds to a line with scripts/shells/rows: what is typed, and
after a bar what is added, blanks aside: scripts/completions.py [FOLDER]

The scripts are what the built program writes (`completions SHELL`), or those that are installed below FOLDER. A shell
that this machine lacks is skipped, and named; bash must be there. The last line is 'N passed, M failed'.
"""

import os
import pty
import re
import select
import shutil
import subprocess
import sys
import tempfile
from itertools import zip_longest
from pathlib import Path

from repository import COMMAND, TOP, report, text_of

ROWS = [line.split("|") for line in text_of("scripts/shells/rows").splitlines()]
# Where each shell looks for its script below a prefix, and how it starts on a terminal.
SHELLS = {
    "bash": ("share/bash-completion/completions/filterset", ["bash", "--norc", "--noprofile", "-i"]),
    "zsh": ("share/zsh/site-functions/_filterset", ["zsh", "-f", "-i"]),
    "fish": ("share/fish/vendor_completions.d/filterset.fish", None),
}


def read_until(terminal, pattern):
    """Returns the match of a pattern in what the terminal shows, or nothing if no more comes for 20 seconds."""
    shown, found = b"", None
    while not found and select.select([terminal], [], [], 20)[0]:
        shown += os.read(terminal, 4096)
        found = re.search(pattern, shown)
    return found


def press_in_terminal(shell, script, folder):
    """Yields the command lines after TAB in a shell on a terminal of its own."""
    process, terminal = pty.fork()
    if process == 0:
        os.chdir(folder)
        os.execvpe(shell, SHELLS[shell][1], {"PATH": os.environ["PATH"], "TERM": "dumb", "PS1": "", "HOME": folder,
                                             "INPUTRC": "/dev/null", "LC_ALL": "C.UTF-8", "SCRIPT": str(script)})
    os.write(terminal, f"source {TOP}/scripts/shells/{shell}.rc\necho rea''dy\n".encode())
    for typed, _ in ROWS if read_until(terminal, rb"ready\r?\n") else ():
        os.write(terminal, typed.encode() + b"\t\x14")
        found = read_until(terminal, rb"<([^>]*)>")
        yield found and found[1].decode()
        os.write(terminal, b"\x15")
    os.close(terminal)
    os.waitpid(process, 0)


def press_in_fish(script, folder):
    """Yields the command lines after TAB in fish, which prints the words that it would complete the last one to."""
    for typed, _ in ROWS:
        ran = subprocess.run(["fish", "--no-config", "-c", "source $argv[1]; complete -C $argv[2]", script, typed],
                             cwd=folder, capture_output=True, text=True, check=False)
        words = [line.partition("\t")[0] for line in (ran.stderr + ran.stdout).splitlines()]
        yield f"{typed.rpartition(' ')[0]} {words[0]}" if len(words) == 1 else str(words) if words else typed


def results(prefix):
    for shell, (place, words) in SHELLS.items():
        with tempfile.TemporaryDirectory() as folder:
            script = Path(prefix).resolve() / place if prefix else Path(folder, f"filterset.{shell}")
            if not prefix:
                made = subprocess.run([COMMAND, "completions", shell], capture_output=True, check=True)
                script.write_bytes(made.stdout)
            yield shell, None if script.is_file() and script.stat().st_size else "there is no script"
            if shell != "bash" and not shutil.which(shell):
                print(f"completions: {shell} is not on this machine: skipped")
                continue
            Path(folder, "metadata.json").touch()
            pressed = [*(press_in_terminal(shell, script, folder) if words else press_in_fish(script, folder))]
        for (typed, added), line in zip_longest(ROWS, pressed):
            is_right = line and line.rstrip() == typed + added
            yield shell, None if is_right else f"{typed!r} became {line!r}, and not {typed + added!r}"


if __name__ == "__main__":
    sys.exit(report("completions", results(*sys.argv[1:] or [None])))
