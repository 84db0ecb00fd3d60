"""Decides which tests of a binary to run: `python3 runner.py FILTERSET`, in a workspace of cargo."""

import subprocess
import sys

import filterset

metadata = subprocess.run(["cargo", "metadata", "--format-version", "1"], check=True, capture_output=True).stdout
workspace = filterset.Workspace.from_cargo_metadata(metadata)
try:
    parsed = workspace.parse(sys.argv[1])
except filterset.Rejected as rejected:
    sys.exit("\n".join(f"{it.offset}: {it.label}" for it in rejected.faults))
binary = filterset.Binary("path+file:///w/parser#0.1.0", "parser", "parser", "lib")
tests = [filterset.Test("tests::deep"), filterset.Test("tests::slow_sum")]
if parsed.matches_binary(binary) is not False:
    for test, picked in zip(tests, parsed.matches_tests(binary, tests)):
        print(test.name, "yes" if picked else "no")
