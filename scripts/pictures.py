#!/usr/bin/env python3
"""Draws docs/pictures/: examples/sessions/neovim.toml with its faults as neovim shows them (neovim.expected, which
scripts/lsp/client.sh compares with a real session), and how the instructions of docs/MEASURED.md compare with the original's.
"""

import re
from html import escape

from repository import TOP, text_of

HEAD = '<svg xmlns="http://www.w3.org/2000/svg" width="{0}" height="{1}" font-family="monospace" font-size="14">\n'

def text(x, y, said, colour):
    return f'<text x="{x}" y="{y}" fill="{colour}" xml:space="preserve">{escape(said)}</text>'


def box(x, y, width, height, colour):
    return f'<rect x="{x}" y="{y}" width="{width}" height="{height}" rx="4" fill="{colour}"/>'


def editor():
    opened = text_of("examples/sessions/neovim.expected").partition("\nmessage")[0]
    faults = re.findall(r"(?m)^  (\d+):(\d+)-\d+:(\d+) \w+ `.*?` (.*)$", opened)
    yield box(0, 0, 900, 320, "#1e1e2e")
    for at, line in enumerate(text_of("examples/sessions/neovim.toml").splitlines()):
        y = 26 + 21 * at
        yield text(12, y, f"{at + 1:2}", "#6c7086") + text(44, y, line, "#cdd6f4")
        for row, begin, end, said in faults:
            if int(row) == at:
                first, last = (len(line.encode()[:int(column)].decode()) for column in (begin, end))
                yield box(44 + 8.43 * first, y + 4, 8.43 * (last - first), 2, "#f38ba8")
                yield text(60 + 8.43 * len(line), y, "■ " + said.replace("\\n", ": "), "#f38ba8")


def speed():
    rows = re.findall(r"(?m)^\| `([\w-]+)` \| [\d,]+ \| ([\d.]+) \|", text_of("docs/MEASURED.md"))
    for at, (name, share) in enumerate(rows):
        y = 10 + 28 * at
        yield text(10, y + 15, name, "#333") + box(190, y, 560, 20, "#e3e3e3") + box(190, y, 560 * float(share), 20, "#3f7cac")
        yield text(760, y + 15, share, "#333")


for draw, width, height in ((editor, 900, 320), (speed, 820, 210)):
    picture = HEAD.format(width, height) + "\n".join(draw()) + "\n</svg>\n"
    (TOP / f"docs/pictures/{draw.__name__}.svg").write_text(picture)
