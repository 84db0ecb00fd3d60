#!/usr/bin/env python3
"""Runs the examples of pages with the built programs, and compares what these write with what the pages show.

    scripts/examples.py [--programs FOLDER] [PAGE..]

`rt ci` builds the programs; or they are FOLDER/filterset and FOLDER/filterset_cli, with the built conformance.
examples/README.md says how examples are written. Without a page it runs README.md, docs/, examples/transcripts/ and
examples/sessions/. Then options.md must have each option that `--help` of the program for people or of one of its
commands lists, with each value, and the example of each help. The last line is 'N passed, M failed', by commands, runs
of sessions, and options.
"""

import fcntl
import json
import os
import re
import shutil
import subprocess
import sys
import tempfile
import termios
import threading
import time
from itertools import zip_longest
from pathlib import Path

from man import Help
from repository import TOP, report, tracked

PAGES = ("README.md", "docs/*.md", "examples/*/*.md")
OPTIONS = "examples/transcripts/options.md"
PROGRAMS = ("filterset", "filterset_cli")
SUITE = TOP / "crates/conformance/out/conformance"
DATA = "crates/filterset/data"
WAYS = {"message by message": 1 << 30, "byte by byte": 1}

# A heading; or a block: its language, its name, how its lines end, and its text.
PART = re.compile(r"^#+ ([^\n]*)$|^```(\w+)(?: (\w+))?( crlf)?\n(.*?)^```$", re.M | re.S)
# A request or notification of the client; and a diagnostic.
SHORT = re.compile(r'(?:(\d+|"[^"]*") )?([$a-z][\w/]*)(?: ([{\[].*))?', re.S)
DIAGNOSTIC = re.compile(r"(\d+):(\d+)-(\d+):(\d+) (warning )?(\S+) (.*)")
# An option in a help text: its short name, its long name, and what is said of it up to the next.
OPTION = re.compile(r"^ {2,6}(?:(-\w)(?:, |$))?(--[\w-]+)?(.*(?:\n(?! {2,6}-).*)*)", re.M)
FILTERSET = """\
#!/bin/bash
if [ "$1" = --try ]; then shift; fi
if [ $# -gt 0 ]; then exec -a filterset '{filterset}' "$@"; else exec '{filterset_cli}'; fi
"""


class Page:
    """A page: its commands, its sessions of the language server, with their places, and the texts of other blocks."""

    def __init__(self, path):
        content, heading = (TOP / path).read_text(errors="surrogateescape"), ""
        self.path, self.commands, self.sessions, self.files, self.texts = path, [], [], {}, {}
        for part in PART.finditer(content):
            line, (above, language, name, crlf, text) = content.count("\n", 0, part.start()) + 1, part.groups()
            heading = above or heading
            if language == "console":
                self.add_commands(line, text)
            elif language == "session":
                self.sessions.append((f"{path}:{line}", heading, text))
            elif language:
                self.files[name] = text = text.replace("\n", "\r\n") if crlf else text
                self.texts[f'"@{name}"'] = text.strip() if language == "json" else json.dumps(text, ensure_ascii=False)

    def add_commands(self, line, text):
        for number, text in enumerate(text.split("\n")[:-1], line + 1):
            if text.startswith("$ "):
                self.commands.append((f"{self.path}:{number}", [text[2:]], []))
            elif re.match(">( |$)", text) and not self.commands[-1][2]:
                self.commands[-1][1].append(text[2:])
            else:
                self.commands[-1][2].append(text)


def written_by(room, i):
    """Yields the lines that a page shows of the i-th command."""
    for stream, sign in ("out", ""), ("err", "! "):
        *lines, last = (room / f"{i}.{stream}").read_bytes().decode(errors="surrogateescape").split("\n")
        yield from (sign + line for line in ([*lines, last, "(no line break)"] if last else lines))
    status = (room / f"{i}.status").read_text().strip()
    yield from [] if status == "0" else [f"[{status}]"]


def run_commands(page, programs):
    """Runs the commands of a page. Yields the place of each, and its fault or None."""
    with tempfile.TemporaryDirectory() as made:
        room, where, tools = (Path(made, name) for name in ("kept", "work", "bin"))
        for folder in (room, where, tools):
            folder.mkdir()
        for file in [*(TOP / "examples").glob("*.*"), *(TOP / DATA).iterdir()]:
            shutil.copy(file, where)
        for folder in ("examples", DATA):
            shutil.copytree(TOP / folder, where / folder)
        (where / "filterset").symlink_to(tools / "filterset")
        (tools / "conformance").symlink_to(SUITE)
        (tools / "filterset").write_text(FILTERSET.format(**programs))
        (tools / "filterset").chmod(0o755)
        script = ["set -o pipefail"]
        for i, (_, command, _) in enumerate(page.commands):
            streams = f"> {room}/{i}.out 2> {room}/{i}.err"
            script += ["{ " + "\n".join(command), f"}} {streams}", f"echo $? > {room}/{i}.status"]
        environment = {"PATH": f"{tools}:/usr/local/bin:/usr/bin:/bin", "LC_ALL": "C.UTF-8", "HOME": made}
        ran = subprocess.run(["bash", "-c", "\n".join(script)], cwd=where, env=environment, timeout=600,
                             stdin=subprocess.DEVNULL, capture_output=True, check=False)
        for i, (place, command, shown) in enumerate(page.commands):
            if not (room / f"{i}.status").is_file():
                yield place, f"$ {command[0]}\n  it was not run: {ran.stderr.decode(errors='replace').strip()[:300]}"
                continue
            pairs = enumerate(zip_longest(shown, written_by(room, i)), 1)
            yield place, next((f"$ {command[0]}\n  line {number} is {found!r}, and not {wanted!r}"
                               for number, (wanted, found) in pairs if wanted != found), None)


def check_options(program):
    """Checks that the page of options has a command for each option and value that help lists, and each example."""
    shown = ["\n".join(command) for _, command, _ in Page(OPTIONS).commands]
    for command in [(), *((name,) for name in Help(program).commands())]:
        said, words = Help(program, *command), " ".join(("filterset", *command))
        needed = {said.example: re.escape(said.example)}
        for short, long, rest in OPTION.findall(said.listed("Options")):
            values = re.search(r"\[possible values: ([^]]*)\]", rest)
            for name in {short, long} - {"", "-h", "--help"}:
                for value in values[1].split(", ") if values and name == long else [""]:
                    end = rf" {value}\b" if value else r"(?=\s|$)"
                    needed[f"{words} {name} {value}".rstrip()] = rf"{words}\b.*\s{name}{end}"
        for what, pattern in needed.items():
            is_shown = any(re.search(pattern, command) for command in shown)
            yield OPTIONS, None if is_shown else f"it has no command for {what}"


def sent_by(sign, text):
    """Returns the bytes of a step of the client."""
    if sign == "=":
        count, shown = re.fullmatch(r"(?:(\d+) )?(.*)", text, re.S).groups()
        return "".join(map(json.loads, shown.split("\n"))).encode(errors="surrogateescape") * int(count or 1)
    if short := SHORT.fullmatch(text):
        members = zip(("id", "method", "params"), (short[1], json.dumps(short[2]), short[3]))
        text = '{"jsonrpc":"2.0"' + "".join(f',"{key}":{value}' for key, value in members if value) + "}"
    body = text.encode()
    return b"Content-Length: %d\r\n\r\n%s" % (len(body), body)


def diagnostic_of(line):
    """Returns a diagnostic, as the protocol has it."""
    *numbers, warning, code, message = DIAGNOSTIC.fullmatch(line).groups()
    start, end = ({"line": int(row), "character": int(column)} for row, column in (numbers[:2], numbers[2:]))
    return {"code": code, "message": message.replace("\\n", "\n"), "severity": 2 if warning else 1,
            "source": "filterset", "range": {"start": start, "end": end}}


def answer_of(text):
    """Returns the message of the server that a step shows."""
    first, *below = text.split("\n")
    words = first.split(" ", 3)
    if words[0] == "diagnostics":
        params = {"uri": words[1], "diagnostics": list(map(diagnostic_of, below))}
        params |= {"version": int(words[2])} if words[2:] else {}
        return {"jsonrpc": "2.0", "method": "textDocument/publishDiagnostics", "params": params}
    if words[1:2] == ["error"]:
        return {"jsonrpc": "2.0", "id": json.loads(words[0]), "error": {"code": int(words[2]), "message": words[3]}}
    if words[1:2] == ["result"]:
        value = text.split(" ", 2)[2]
        return {"jsonrpc": "2.0", "id": json.loads(words[0]), "result": ".." if value == ".." else json.loads(value)}
    return json.loads(text)


def send(server, sent, size):
    """Sends bytes to a server in pieces of this size, each when it has read the one before."""
    try:
        for at in range(0, len(sent), size):
            os.write(server.stdin.fileno(), sent[at:at + size])
            while any(fcntl.ioctl(server.stdin, termios.FIONREAD, bytes(4))) and server.poll() is None:
                time.sleep(0)
    except BrokenPipeError:
        pass


def receive(server):
    """Returns the next message of a server, or what else it wrote."""
    head = server.stdout.readline() + server.stdout.readline()
    length = re.fullmatch(rb"Content-Length: (\d+)\r\n\r\n", head)
    return json.loads(server.stdout.read(int(length[1]))) if length else head.decode(errors="replace")


def take(server, sign, text, said, size):
    """Takes a step of a session. Returns what has to come and what came, as texts, equal if their values are."""
    if sign in {">", "="}:
        send(server, sent_by(sign, text), size)
    elif sign == "<":
        wanted, found = answer_of(text), receive(server)
        if "result" in found and wanted.get("result") == "..":
            found["result"] = ".."
        return [json.dumps(message, sort_keys=True, ensure_ascii=False) for message in (wanted, found)]
    elif sign == "!":
        said.append(text)
    elif sign == "end":
        server.stdin.close()
    else:
        found = server.stdout.read(), server.stderr.read().decode().splitlines(), server.wait()
        return [f"the end: {end}" for end in ((b"", said, int(text)), found)]
    return "", ""


def steps_of(text, page, folder):
    """Returns the arguments of the server, and the steps of a session, each the first word of its line and the rest."""

    def path_of(name):
        path = Path(folder, name)
        path.write_text(page.files[name])
        return str(path)

    text = re.sub(r'"@\w+"', lambda named: page.texts.get(named[0], named[0]), text)
    lines = re.split(r"\n(?! )", text.rstrip("\n"))
    steps = [re.sub(r"\n +", "\n", line).partition(" ")[::2] for line in lines]
    words = steps.pop(0)[1].split() if steps[0][0] == "with" else []
    words = [path_of(word[1:]) if word.startswith("@") else word for word in words]
    named = lambda found: json.dumps(path_of(found[1]))
    return words, [(sign, re.sub(r'"path @(\w+)"', named, text)) for sign, text in steps]


def talk(program, words, steps, size):
    """Takes the steps of a session with a server. Returns what had to come and what came if these differ."""
    said, pipes = [], dict.fromkeys(("stdin", "stdout", "stderr"), subprocess.PIPE)
    with subprocess.Popen(["filterset", "lsp", *words], executable=program, **pipes) as server:
        timer = threading.Timer(30, server.kill)
        timer.start()
        try:
            pairs = (take(server, *step, said, size) for step in steps)
            return next((pair for pair in pairs if pair[0] != pair[1]), None)
        finally:
            server.kill()
            timer.cancel()


def run_sessions(page, program):
    """Runs the sessions of a page in both ways. Yields the place of each, and its fault or None."""
    for place, name, text in page.sessions:
        for way, size in WAYS.items():
            with tempfile.TemporaryDirectory() as folder:
                words, steps = steps_of(text, page, folder)
                pair = talk(program, words, steps, size) if steps[-1][0] == "status" else ("a line `status`", "none")
            at = max(0, len(os.path.commonprefix(pair or ())) - 60)
            wanted, found = (f"{'..' if at else ''}{text[at:at + 300]}" for text in pair or ("", ""))
            yield place, pair and f"{name}, {way}\n  wanted {wanted}\n  found  {found}"


def results(programs, pages):
    """Yields the place of each example, and its fault or None; of all pages if none is given."""
    for page in map(Page, pages or tracked(*PAGES)):
        yield from run_commands(page, programs)
        yield from run_sessions(page, programs["filterset"])
    if not pages:
        yield from check_options(programs["filterset"])


def main(words):
    folder = Path(words[1]).resolve() if words[:1] == ["--programs"] else None
    programs = {name: (folder or TOP / "crates" / name / "out") / name for name in PROGRAMS}
    if missing := [program for program in (SUITE, *programs.values())[bool(folder):] if not program.is_file()]:
        return report("examples", [(missing[0], "there is no such file: run rt ci first")])
    return report("examples", results(programs, words[2:] if folder else words))


if __name__ == "__main__":
    sys.exit(main(sys.argv[1:]))
