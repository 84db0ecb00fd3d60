#!/usr/bin/env python3
"""Counts the instructions of the built `filterset_cli` by callgrind, beside those of the original: bench/instructions.py [ROW..]

A row is one pass over the filtersets of a record: the record with its filtersets three times, less the record with them
once, halved. So starting, and reading packages and tests, don't count. Records have the shapes of real workspaces: 60
packages with names of all kinds, 120 binaries with 1 to 400 tests, half of them with 10 or fewer, a tenth of the tests in
a group, and filtersets as people write them in CI. `many-names` has 2,000 packages.
`ORIGINAL` is what nextest-filtering 0.23.0 took for the same, counted on 29 November 2026. The row `memory` is the
program's peak for 2,000 packages and 100,000 tests. It is not part of the gate.
"""

import json
import re
import subprocess
import sys
import tempfile
from pathlib import Path

PROGRAM = Path(__file__).parent.parent / "crates/filterset_cli/out/filterset_cli"
ORIGINAL = {"workspace-names": 54_929_281, "workspace-globs": 23_489_517, "workspace-patterns": 38_512_902,
            "workspace-groups": 41_859_832, "workspace-ci": 61_752_867, "workspace-thousand": 2_307_404_897,
            "many-names": 5_910_308}
SIZES = [1, 2, 2, 3, 4, 4, 5, 6, 8, 10, 10, 14, 18, 24, 31, 40, 64, 100, 180, 400]
PARTS = "parse lexer http proto store index query auth cli util net wal raft metrics config".split()
VERBS = "reads writes rejects retries merges splits times_out recovers round_trips escapes".split()
FILTERSETS = {
    "workspace-names": ["not test(times_out)", "test(=lexer::tests::reads_parse_0) or test(=http::tests::merges_store_4)",
                        "package(parse-core) and test(retries)",
                        "kind(lib) and not (test(slow) or test(times_out) or test(recovers))"],
    "workspace-globs": ["test(#*::reads_*)", "package(#*-server*) & test(#http::*)", "binary_id(#*::bin/*) - test(#*_wal_?)"],
    "workspace-patterns": ["test(/^(http|net)::/)", r"not test(/_(raft|wal)_\d+$/)",
                           "package(/-(core|client)/) and test(/reads|writes/)"],
    "workspace-groups": ["group(serial)", "not group(=serial) and kind(test)", "group(@global) & test(merges)"],
    "workspace-ci": ["default() and not kind(test)", "deps(lexer-core) & platform(target)",
                     "rdeps(=http-core) or binary(#it_[0-3])", "default() - (test(/retries/) + group(serial))"],
    "workspace-thousand": [" | ".join(f"test(={PARTS[i % 15]}::tests::{VERBS[i % 10]}_{PARTS[(i * 7) % 15]}_{i})"
                                      for i in range(1000))],
    "many-names": ["package(#raft-*)", r"package(/^http-(wal|net)-\d+$/)", "package(~-99)", "package(/store|index/)",
                   "deps(#*-1999)", "package(=cli-cli-8)"],
    "memory": [f"test(~case_{i}) and not test(=test_case_{i}) or package(crate-{i})" for i in range(8)],
}


def workspace():
    names = [f"{PARTS[i % 15]}-{('core', 'server', 'client', 'macros')[i % 4]}{i if i >= 30 else ''}" for i in range(60)]
    ids = [f"path+file:///w/{name}#0.1.{i}" for i, name in enumerate(names)]
    packages = [{"id": ids[i], "name": name, "links": [ids[j] for j in {i // 2, i // 3} if j != i], "workspace": i % 10 != 9,
                 "targets": [{"kind": "lib", "name": name.replace("-", "_")}, {"kind": "test", "name": f"it_{i % 7}"}]}
                for i, name in enumerate(names)]
    binaries = []
    for i in range(120):
        owner = packages[i % 54 if packages[i % 54]["workspace"] else 0]
        kind = ("lib", "test", "bin")[i % 3]
        name = owner["name"].replace("-", "_") if kind == "lib" else f"it_{i % 7}"
        end = {"lib": "", "test": f"::{name}", "bin": f"::bin/{name}"}[kind]
        tests = [f"{PARTS[(i + t) % 15]}::tests::{VERBS[t % 10]}_{PARTS[(t * 7) % 15]}_{t}" for t in range(SIZES[i % 20])]
        binaries.append({"package": owner["id"], "id": f"{owner['name']}{end}-{i}", "name": name, "kind": kind,
                         "platform": "host" if i % 25 == 0 else "target",
                         "tests": [{"name": test, **({"group": "serial"} if k % 10 == 3 else {})} for k, test in enumerate(tests)]})
    return {"packages": packages, "groups": ["serial"], "default": "not test(slow)", "binaries": binaries}


def record_of(row):
    if row.startswith("workspace"):
        return workspace()
    if row == "many-names":
        return {"packages": [{"id": f"p{i}", "name": f"{PARTS[i % 15]}-{PARTS[(i // 15) % 15]}-{i}",
                              "links": [f"p{i + 1}"] if i < 1999 else []} for i in range(2000)]}
    tests = [{"name": f"module_{t % 7}::sub_{t % 3}::test_case_{t}_of_300"} for t in range(300)]
    return {"packages": [{"id": f"p{i}", "name": f"crate-{i}", "links": [f"p{i + 1}"] if i < 1999 else []}
                         for i in range(2000)],
            "binaries": [{"package": f"p{b}", "id": f"crate-{b}", "name": f"crate-{b}", "kind": "lib",
                          "platform": "target", "tests": tests} for b in range(333)]}


def run(words, row, times):
    """Runs the program under some command for a record with its filtersets so many times, and returns what that prints."""
    record = json.dumps({**record_of(row), "filtersets": FILTERSETS[row] * times})
    with tempfile.TemporaryFile() as report:
        ran = subprocess.run([*words, PROGRAM], input=record, stdout=report, stderr=subprocess.PIPE, text=True)
        if ran.returncode > 1:  # 1: a filterset is refused, as by the original
            sys.exit(f"instructions: {row}: {ran.stderr}")
    return ran.stderr


def instructions(row, times):
    said = run(["valgrind", "--tool=callgrind", "--callgrind-out-file=/dev/null"], row, times)
    return int(re.search(r"Collected : (\d+)", said)[1])


def main(*rows):
    print("| row | instructions | of the original's |\n|---|---:|---:|")
    for row in rows or FILTERSETS:
        if row == "memory":
            print(f"| memory | {int(run(['/usr/bin/time', '-f', '%M'], row, 1)) // 1000} MB | |")
            continue
        ours = (instructions(row, 3) - instructions(row, 1)) // 2
        print(f"| {row} | {ours:,} | {ours / ORIGINAL[row]:.3f} |")


if __name__ == "__main__":
    main(*sys.argv[1:])
