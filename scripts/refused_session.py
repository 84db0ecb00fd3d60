#!/usr/bin/env python3
"""Refuses each request for memory of the language server in turn, on scripts/lsp/refused.session, and prints how many
there were: scripts/refused_session.py PROGRAM LIBRARY

LIBRARY is tools/refuse.c, built. The server may report that it is out of memory (status 3), after whole answers to the
messages before. Otherwise memory runs out for one message, which is answered by that, once. Each of these outcomes comes:

- The message is too long to read: the answer has no id, and all documents are forgotten. Later requests about them get
  `null`; `shutdown` or `exit` is not taken, so the session ends with 1.
- A request is read: it gets an error, and changes nothing. Before `initialize` every request is an error, and without
  `shutdown` the session ends with 1.
- A notification is read: its document is forgotten, and its one diagnostic says so.
"""

import json
import os
import re
import subprocess
import sys

from examples import SHORT, sent_by
from repository import text_of

MESSAGES = text_of("scripts/lsp/refused.session").splitlines()
# The id of each message that is a request, and the method.
CALLS = [(message[1] and int(message[1]), message[2]) for message in map(SHORT.fullmatch, MESSAGES)]
NO_MEMORY = {"code": -32603, "message": "out of memory"}
UNINITIALIZED = {"code": -32002, "message": "not initialized"}
FORGOTTEN = {"uri": "file:///a", "diagnostics": [{
    "code": "memory", "message": "out of memory: close this document and open it again", "severity": 1,
    "source": "filterset", "range": dict.fromkeys(("start", "end"), {"line": 0, "character": 0})}]}


def framed(**message):
    """Returns a message as the server writes it."""
    message["jsonrpc"] = "2.0"
    return sent_by(">", json.dumps(message, separators=(",", ":"), sort_keys=True, ensure_ascii=False))


def outcomes(answers):
    """Yields each outcome: its name, the status, and what is written; `answers` are those to messages with memory."""
    yield "whole", 0, answers
    for at, (id, method) in enumerate(CALLS):
        before, later = answers[:at], [id for id, _ in CALLS[at + 1:] if id]
        status = int(method in {"initialize", "shutdown", "exit"})
        missing = {"error": UNINITIALIZED} if method == "initialize" else {"result": None}
        rest = [framed(id=id, **missing) for id in later]
        yield f"{method} unread", status, [*before, framed(id=None, error=NO_MEMORY), *rest]
        if id:
            kept = rest if status else answers[at + 1:]
            yield f"{method} read", status, [*before, framed(id=id, error=NO_MEMORY), *kept]
        elif method != "exit":  # once it is read, it needs no memory
            publish = framed(method="textDocument/publishDiagnostics", params=FORGOTTEN)
            yield f"{method} read", status, [*before, publish, *rest]


def main(program, library):
    def run(**environment):
        session = b"".join(sent_by(">", message) for message in MESSAGES)
        ran = subprocess.run([program, "lsp"], input=session, capture_output=True, timeout=60, check=False,
                             env={**os.environ, **environment})
        return ran.returncode, ran.stdout, ran.stderr

    answers = re.split(rb"(?=Content-Length: )", run()[1])[1:]
    if len(answers) != len(MESSAGES) - 1:
        sys.exit("with memory, the session has other answers than one a message but `exit`")
    names = {(status, b"".join(written)): name for name, status, written in outcomes(answers)}
    left, at, said, fronts = set(names.values()), 0, b"", {b"".join(answers[:n]) for n in range(len(answers))}
    while said != b"no request was refused\n":
        at += 1
        status, written, said = run(REFUSE_AT=str(at), LD_PRELOAD=library)
        if (status, said) != (3, b"memory refused\n") or written not in fronts:
            if (status, written) not in names:
                sys.exit(f"request {at}: status {status}, and none of the outcomes")
            left.discard(names[status, written])
    if left:
        sys.exit(f"these outcomes never came: {', '.join(left)}")
    print(at - 1)


if __name__ == "__main__":
    main(*sys.argv[1:])
