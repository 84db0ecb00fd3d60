#!/usr/bin/env python3
"""Makes the manual pages out of docs/ and of what the built program says with --help: scripts/man.py FOLDER

It writes filterset.1, filterset-COMMAND.1 for each command, filterset-cli.1, filterset-cli.5 and
nextest-filterset.7 into FOLDER, in the macros of man(7). A command must have a section in docs/PROGRAM.md. The pages
have the last date of CHANGELOG.md.
"""

import re
import subprocess
import sys
import textwrap
from pathlib import Path

from repository import COMMAND, text_of

# A block of a page in Markdown, by its kind.
BLOCK = re.compile(r"""
    ^```\w*\n(?P<fenced>(?s:.*?))^```\n
    | (?P<indented>(?:^[ ]{4}.*\n(?:\n(?=[ ]{4}))?)+)
    | (?P<table>(?:^\|.*\n)+)
    | (?P<items>(?:^(?:-|\d+\.)[ ].*\n(?:^[ ]{2,}\S.*\n)*)+)
    | ^\#+[ ](?P<heading>.*)\n
    | (?P<text>(?:^(?!```|\||-[ ]|\d+\.[ ]|\#)\S.*\n)+)
    """, re.M | re.X)
# A part of a line that is set in its own way: code, strong text, a link.
SPAN = re.compile(r"`([^`]+)`|\*\*(.+?)\*\*|\[((?:`[^`]*`|[^\]`])*)\]\([^)]*\)")
# An option or an argument in a help text, and what is said of it.
OPTION = re.compile(r"^ {2,6}((?:-\w, )?[-<[].*?)(?: {2,}(.*))?$", re.M)
# What pages call by its place in the repository, and what that is where the programs are installed.
INSTALLED = [(r"\./filterset(?=`? <|\n)", "filterset-cli"), (r"\./filterset\b", "filterset"),
             (r"\$ data=.*\n", ""), (r"\$data/|crates/filterset/data/", "")]
# What roff would take for something else, or set as another character.
ROFF = {"\\": r"\e", "-": r"\-", "'": r"\(aq", "`": r"\(ga", "^": r"\(ha", "~": r"\(ti", '"': r"\(dq"}


def literal(text, kept=""):
    """Returns a text in which each character stands for itself; those in `kept` are left to roff."""
    return "".join(c if c in kept else ROFF.get(c, c) if c.isascii() else f"\\[u{ord(c):04X}]" for c in text)


def sentence(text):
    return literal(re.sub(r"\\([|*_<>])", r"\1", text), "-'\"")


def prose(text):
    """Returns a text of Markdown as roff: code and strong text in bold, links without their targets."""
    roff, *spans = SPAN.split(text)
    roff = sentence(roff)
    for code, strong, link, rest in zip(*[iter(spans)] * 4):
        roff += prose(link) if link else rf"\fB{literal(code) if code else sentence(strong)}\fR"
        roff += sentence(rest)
    return roff


def guarded(text):
    """Returns a text none of whose lines is a request."""
    return re.sub("(?m)^(?=[.'])", r"\\&", text)


def filled(text):
    """Returns a text of Markdown as lines that roff fills."""
    text = textwrap.fill(prose(" ".join(text.split())), 110, break_long_words=False, break_on_hyphens=False)
    return [guarded(text)]


def tagged(tag, text):
    return [".TP", rf"\fB{literal(tag)}\fR", *filled(text)]


def example(text):
    return [".PP", ".RS 4", ".nf", guarded(literal(textwrap.dedent(text).rstrip("\n"))), ".fi", ".RE"]


def table(text):
    """Returns rows, each with its first cell as the tag. Two heads are a row too; of more, each is before its cells."""
    heads, _, *rows = [[cell.strip().replace(r"\|", "|") for cell in re.split(r"(?<!\\)\|", line)[1:-1]]
                       for line in text.splitlines()]
    roff = [".TP", *(rf"\fI{sentence(head)}\fR" for head in heads)] if len(heads) == 2 else []
    for tag, *cells in rows:
        roff += [".TP", *filled(tag)] if tag else [".IP"]
        for i, cell in enumerate(cells):
            roff += ([".br"] if i else []) + filled(cell if len(cells) == 1 else f"{heads[i + 1]}: {cell}")
    return roff


SET = {"fenced": example, "indented": example, "table": table, "heading": lambda text: [f".SS {prose(text)}"],
       "items": lambda text: [line for item in re.split(r"(?m)^(?:-|\d+\.) ", text)[1:]
                              for line in [r".IP \(bu 2", *filled(item)]],
       "text": lambda text: [".PP", *filled(text)]}


def roff_of(markdown):
    """Returns the blocks of a text of Markdown."""
    text = markdown.strip("\n") + "\n"
    for pattern, name in INSTALLED:
        text = re.sub(pattern, name, text)
    return [line for block in BLOCK.finditer(text) for line in SET[block.lastgroup](block[block.lastgroup])]


def section_of(heading, is_whole=True):
    """Returns the text of docs/PROGRAM.md below a heading, up to the next one of its level or above, or to the next."""
    text = text_of("docs/PROGRAM.md")
    found = re.search(rf"(?m)^(#+) {re.escape(heading)}\n", text) or sys.exit(f"man: docs/PROGRAM.md lacks {heading}")
    rest, most = text[found.end():], len(found[1]) if is_whole else 6
    end = re.search(rf"(?m)^#{{1,{most}}} |\Z", re.sub(r"(?ms)^```.*?^```", lambda code: "x" * len(code[0]), rest))
    return rest[:end.start()]


class Help:
    """What the program says of itself, or of one of its commands, with --help."""

    def __init__(self, program, *command):
        self.text = subprocess.run([program, *command, "--help"], capture_output=True, text=True, check=True).stdout
        self.about = self.text.partition("\n")[0]
        self.usage, self.example = (re.search(rf"(?m)^{name}: \S+ (.*)", self.text)[1] for name in ("Usage", "Example"))

    def listed(self, heading):
        return self.text.partition(f"\n{heading}:\n")[2].partition("\n\n")[0]

    def commands(self):
        names = [line.split()[0] for line in self.listed("Commands").splitlines()]
        return [name for name in names if name != "help"]

    def sections(self):
        """Returns what the pages of the program and of its commands have at their ends."""
        found = OPTION.findall(self.listed("Arguments")) + OPTION.findall(self.listed("Options"))
        return {"OPTIONS": [line for option in found for line in tagged(*option)], "EXAMPLES": example(f"filterset {self.example}")}


def pages(program):
    """Yields the name of each page, what it is about, its sections, and the pages that it refers to."""
    own, described = Help(program), section_of("`filterset`, the program for people", is_whole=False)
    commands = {f"filterset-{name}": (name, Help(program, name)) for name in own.commands()}
    statuses = re.search(r"(?m)(?:^\|.*\n)+", described)[0]
    yield "filterset.1", own.about, {
        "SYNOPSIS": example("\n".join(f"filterset {said.usage}" for _, said in commands.values())),
        "DESCRIPTION": roff_of(described.replace(statuses, "")),
        "COMMANDS": [line for page, (_, said) in commands.items() for line in tagged(f"{page}(1)", said.about)],
        "EXIT STATUS": table(statuses)[3:],
        "FILES": roff_of(section_of("Files")),
        **own.sections(),
    }, [*(f"{page}.1" for page in commands), "filterset-cli.1", "nextest-filterset.7"]
    for page, (name, said) in commands.items():
        yield f"{page}.1", said.about, {
            "SYNOPSIS": [rf"\fBfilterset {literal(said.usage)}\fR"],
            "DESCRIPTION": roff_of(section_of(f"`{name}`")),
            **said.sections(),
        }, ["filterset.1", "nextest-filterset.7"]
    yield "filterset-cli.1", "reads packages, tests and filtersets as JSON, and reports the answers", {
        "SYNOPSIS": [r"\fBfilterset\-cli\fR < \fIRECORD\fR"],
        "DESCRIPTION": roff_of(section_of("`filterset_cli`, the program for records", is_whole=False)),
    }, ["filterset-cli.5", "filterset.1"]
    yield "filterset-cli.5", "the record that filterset-cli reads, and the report that it writes", {
        "THE RECORD": roff_of(section_of("The record")),
        "THE REPORT": roff_of(section_of("The report")),
    }, ["filterset-cli.1", "nextest-filterset.7"]
    yield "nextest-filterset.7", "the language of filtersets", {
        "DESCRIPTION": roff_of(text_of("docs/LANGUAGE.md").partition("\n")[2]),
    }, ["filterset.1", "filterset-check.1"]


def main(folder, program=COMMAND):
    Path(folder).mkdir(parents=True, exist_ok=True)
    version = subprocess.run([program, "--version"], capture_output=True, text=True, check=True).stdout.strip()
    date = max(re.findall(r"\d{4}-\d\d-\d\d", text_of("CHANGELOG.md")))
    for page, about, sections, others in pages(program):
        name, number = page.split(".")
        lines = [f'.TH {name.upper()} {number} {date} "{version}" "Filtersets of cargo\\-nextest"', ".nh", ".ad l",
                 ".SH NAME", rf"{literal(name)} \- {sentence(about[0].lower() + about[1:])}"]
        sections["SEE ALSO"] = [",\n".join(rf"\fB{literal(other[:-2])}\fR({other[-1]})" for other in others)]
        lines += [line for heading, body in sections.items() if body for line in [f".SH {heading}", *body]]
        text = re.sub(r"(?m)^(\.S[HS] .*\n)\.PP\n", r"\1", "\n".join(lines) + "\n")
        Path(folder, page).write_text(text)


if __name__ == "__main__":
    main(*sys.argv[1:])
