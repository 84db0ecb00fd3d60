#!/usr/bin/env python3
"""Checks what the pages (README.md, docs/ and the other .md files) say against the files of the repository.

- Links lead to files, and to headings of them. Files and folders that a page names are there. What pages about the code
  (`OF_CODE`) name in backquotes, is a word of some source.
- Quoted Rust and quoted clauses are in a source; quotations of crates.txt and of what a crate or test writes are right.
- LANGUAGE.md has the reference text of the library. Tables of filtersets agree with examples/answers.* and faults.*.
- PROVED.md names each public function of the crates in its headings, and each of their named clauses.
"""

import json
import re
import sys
from itertools import chain

from repository import TOP, crates, report, text_of, tracked
from trusted import Sources

OF_CODE = ("docs/ARCHITECTURE.md", "docs/CALLING.md", "docs/DEFINITIONS.md", "docs/PROVED.md")
FENCED = re.compile(r"(?ms)^```(\w*)[^\n]*\n(.*?)^```$")
INDENTED = re.compile(r"(?m)(?:\A|\n\n)((?:^    .*\n(?:\n(?=    ))?)+)")
CLAUSE = re.compile(r"(?m)^\s*(?:ensures|requires)\b.*\n?(?:(?!\s*(?:ensures|requires|//)\b)\s*\S.*\n?)*")
# What a page names by a path from the top or from the folder of a crate, and the parts of it that stand for any name.
NAMED = re.compile(r"(?:(?:crates|docs|examples|scripts|bench|tools|\.ci)/"
                   r"|(?:[a-z_]+/)?(?:src|specs|proofs|must-fail)/)[\w/.+*-]*")
ANY = re.compile(r"\b(NAME|X|F|N|TYPE|PATH|CRATE|FOLDER|FUNCTION|GROUP|FILE)\b|\*")
# A function with the type or trait before it, or the name of a clause, in what a crate promises.
CALL = re.compile(r"""(?m)(?:(\w+)(?:<[^(]*>)? (?:pub )?|"" |^ *)fn (\w+)|^ +(?:ensures|requires)\*? (\w+) \{""")


def squeezed(text):
    return " ".join(text.split())


class Page:
    """A page: its text outside fenced blocks, its blocks, each with its language, and the code in its sentences."""

    def __init__(self, path):
        self.path, text = path, text_of(path)
        self.text = FENCED.sub(lambda block: "\n" * block[0].count("\n"), text)
        self.blocks = FENCED.findall(text)
        self.blocks += [("", re.sub("(?m)^    ", "", block)) for block in INDENTED.findall(self.text)]
        self.code = re.findall(r"`([^`]+)`", self.text)


def check_links(page):
    for path, anchor in re.findall(r"\[[^\]]*\]\(([^)\s#]*)#?([^)\s]*)\)", page.text):
        target = (TOP / page.path).parent / path if path else TOP / page.path
        yield "://" in path or target.exists(), f"there is no {path}"
        if anchor and target.exists():
            heads = re.findall(r"(?m)^#+ (.*)", FENCED.sub("", target.read_text()))
            anchors = {re.sub(r"[^\w\- ]", "", head.lower()).replace(" ", "-") for head in heads}
            yield anchor in anchors, f"{path} has no heading #{anchor}"


def check_names(page, files, words):
    cited = (word.removeprefix("./") for language, text in page.blocks if language != "rust" for word in text.split())
    for code in {*page.code, *cited}:
        if NAMED.fullmatch(code) and "/out" not in code:
            path = r"[^/\n]*".join(map(re.escape, ANY.sub("\0", code.rstrip("/.")).split("\0")))
            is_there = re.search(rf"(?m)^(?:crates/(?:[a-z_]+/)?)?{path}(?:\.antt|\.rt)?(?:/.*)?$", files)
            yield is_there, f"there is no {code}"
        elif page.path in OF_CODE and code in page.code and re.fullmatch(r"\w+(::\w+)*", code):
            yield set(code.split("::")) <= words, f"no source has the name {code}"


def check_quotations(page, sources, lists):
    for language, text in page.blocks:
        for part in [text] if language == "rust" else CLAUSE.findall(text) if not language else []:
            yield any(squeezed(part) in source for source in sources), f"no source has: {squeezed(part)}"
        first = text.partition("\n")[0]
        for known in (known for known in lists if not language and first in known.splitlines()):
            yield text.rstrip() in known, f"this goes on otherwise: {first}"


def check_tables(page, reports):
    """Checks the tables whose head begins with `filterset`: a row has a fault of one, or all tests that it picks."""
    for table in re.findall(r"(?m)^\| filterset \|.*\n\|[-|: ]+\|\n((?:\|.*\n)+)", page.text):
        for line in table.splitlines():
            first, *cells = [cell.strip().replace("\\|", "|") for cell in re.split(r"(?<!\\)\|", line)[1:-1]]
            text = first.split("`")[1] if first else text
            tests = re.findall(r"(?m)^  test \S+ (.*): yes$", reports.get(text, ""))
            faults = re.findall(r"(?m)^  fault (\d+) (\d+) (\w+): (.*)$", reports.get(text, ""))
            is_fault = any(cells[0] == f"{offset}, {length}" and cells[1] == f"`{code}`" and cells[2].startswith(label)
                           for offset, length, code, label in faults)
            yield is_fault or [f"`{test}`" for test in tests] == cells[0].split(", "), f"a row of {text} is wrong"


def check_calls(page, sources):
    words = {"pub", "const", *re.findall(r"\w+", " ".join(page.code))}
    for crate in re.findall(r"`(\w+)`", " ".join(re.findall("(?m)^#.*", page.text))):
        for found in (found for _, text in sources.public(crate) for found in CALL.findall(text)):
            yield set(filter(None, found)) <= words, f"it does not name {' '.join(found).strip()} of {crate}"


def results():
    rust = [text_of(path) for path in tracked("crates/*.rt")]
    words = {*crates(), *re.findall(r"\w+", "\n".join([*rust, *map(text_of, tracked("crates/*.antt"))]))}
    files, lists = "\n".join(tracked()), [text_of("crates.txt"), *map(text_of, tracked("crates/*/stdout"))]
    sources, reports = list(map(squeezed, rust)), {}
    lists += re.findall(r'(?s)"\\\n(.*?)";', "\n".join(rust))
    for name in ("answers", "faults"):
        texts = json.loads(text_of(f"examples/{name}.json"))["filtersets"]
        reports.update(zip(texts, re.split(r"(?m)^filterset \d+ ", text_of(f"examples/{name}.report"))[1:]))
    for page in map(Page, tracked("*.md")):
        for is_right, said in chain(check_links(page), check_names(page, files, words), check_tables(page, reports),
                                    check_quotations(page, sources, lists)):
            yield page.path, None if is_right else said
    for is_right, said in check_calls(Page("docs/PROVED.md"), Sources()):
        yield "docs/PROVED.md", None if is_right else said
    reference = re.search(r'r"[^"]*?\n## ([^"]*)"', text_of("crates/filterset_language/src/reference.rt"))[1]
    is_there = reference.strip() in text_of("docs/LANGUAGE.md")
    yield "docs/LANGUAGE.md", None if is_there else "it has not the sections of FILTERSET_REFERENCE_MD"


if __name__ == "__main__":
    sys.exit(report("pages", results()))
