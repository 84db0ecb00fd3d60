"""Tests: `python3 -m unittest` in this folder, with FILTERSET_LIB set."""

import json
import os
import unittest
from concurrent.futures import ThreadPoolExecutor

import filterset

HERE = os.path.dirname(os.path.abspath(__file__))
KINDS = {
    "test": filterset.Kind.TEST,
    "archive-filter": filterset.Kind.TEST_ARCHIVE,
    "override-filter": filterset.Kind.OVERRIDE_FILTER,
    "default-filter": filterset.Kind.DEFAULT_FILTER,
}
ANSWERS = {"yes": True, "no": False, "unknown": None}

with open(os.path.join(HERE, "..", "cases.json"), encoding="utf-8") as it:
    CASES = json.load(it)


def workspace_of(case):
    made = filterset.Workspace.from_record(json.dumps(CASES["workspaces"]["parsers"]).encode())
    if "default_filter" in case:
        made.set_default_filter(case["default_filter"])
    return made


def binary_of(name):
    said = dict(CASES["binaries"][name])
    said["platform"] = filterset.Platform[said["platform"].upper()]
    return filterset.Binary(**said)


class Cases(unittest.TestCase):
    def test_accepted(self):
        for case in CASES["accepted"]:
            with self.subTest(case["text"]):
                parsed = workspace_of(case).parse(case["text"], KINDS[case.get("kind", "test")])
                self.assertEqual(str(parsed), case.get("print", case["text"]))
                self.assertEqual(parsed.needs_groups(), case["needs_groups"])
                for asked in case["asked"]:
                    binary = binary_of(asked["binary"])
                    tests = [filterset.Test(name, group) for name, group, _ in asked["tests"]]
                    wanted = [answer for _, _, answer in asked["tests"]]
                    self.assertEqual(parsed.matches_binary(binary), ANSWERS[asked["answer"]])
                    self.assertEqual(parsed.matches_tests(binary, tests), wanted)
                    self.assertEqual([parsed.matches_test(binary, it) for it in tests], wanted)

    def test_threads(self):
        made = filterset.Workspace.from_record(b'{"filtersets": []}')
        made.set_default_filter("test(#case_*) and not test(/[02468]$/)")
        parsed = [made.parse("default() or test(/^slow::/)") for _ in range(9)]
        binary = filterset.Binary("p", "p", "p", "lib")
        tests = [filterset.Test(f"case_{it}") for it in range(20)] + [filterset.Test("slow::1")]
        wanted = [it % 2 == 1 for it in range(20)] + [True]
        with ThreadPoolExecutor(4) as pool:
            asked = [pool.submit(it.matches_tests, binary, tests) for it in parsed[1:]]
            self.assertEqual(parsed[0].matches_tests(binary, tests), wanted)
            self.assertEqual([it.result() for it in asked], [wanted] * 8)

    def test_rejected(self):
        for case in CASES["rejected"]:
            with self.subTest(case["text"]):
                with self.assertRaises(filterset.Rejected) as caught:
                    workspace_of(case).parse(case["text"], KINDS[case.get("kind", "test")])
                self.assertEqual(caught.exception.faults, [filterset.Fault(**it) for it in case["faults"]])

    def test_wrong_arguments(self):
        for made in (b"{", b"\xff", b"[]"):
            with self.assertRaises(filterset.FiltersetError):
                filterset.Workspace.from_record(made)
            with self.assertRaises(filterset.FiltersetError):
                filterset.Workspace.from_cargo_metadata(made)
        workspace = workspace_of({})
        with self.assertRaises(filterset.FiltersetError):
            workspace.parse("all()", 9)
        with self.assertRaises(filterset.FiltersetError):
            workspace.parse("all()").matches_binary(filterset.Binary("p", "b", "n", "lib", 2))
        with self.assertRaises(filterset.Rejected):
            workspace.set_default_filter("default()")
        self.assertEqual(workspace.parse("default()").matches_binary(binary_of("lexer")), True)

    def test_depth(self):
        for case in CASES["nested"]:
            workspace = workspace_of({})
            if "depth" in case:
                workspace.set_depth(case["depth"])
            text = "".join(it if isinstance(it, str) else it[0] * it[1] for it in case["text"])
            with self.subTest(case["text"]):
                if case["offset"] is None:
                    self.assertTrue(workspace.parse(text).matches_binary(binary_of("lexer")))
                else:
                    label = "more levels of parentheses and negations than the limit"
                    fault = filterset.Fault("NestedTooDeeply", case["offset"], case["length"], label, "")
                    for parse in (workspace.parse, workspace.set_default_filter):
                        with self.assertRaises(filterset.Rejected) as caught:
                            parse(text)
                        self.assertEqual(caught.exception.faults, [fault])

    def test_groups_and_version(self):
        workspace = workspace_of({})
        workspace.set_groups(["é", "db"])
        self.assertTrue(workspace.parse("group(é)").needs_groups())
        with self.assertRaises(filterset.Rejected):
            workspace.parse("group(serial)")
        self.assertEqual(filterset.version(), "0.1.0")


if __name__ == "__main__":
    unittest.main()
