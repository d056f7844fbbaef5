"""Tests of job.py: python3 -B jobs/test_job.py. The program's place is taken by lists/generator/jobs.py, the independent reference;
where target/bin/job is built, it must give the same."""

import copy
import glob
import json
import math
import os
import random
import struct
import subprocess
import sys
import tempfile
import unittest

HERE = os.path.dirname(os.path.abspath(__file__))
ROOT = os.path.dirname(HERE)
SAMPLES = sorted(glob.glob(os.path.join(ROOT, "samples", "*.json")))
BUILT = os.path.join(ROOT, "target", "bin", "job")
REFERENCE = os.path.join(ROOT, "lists", "generator", "jobs.py")
sys.path.insert(0, HERE)

from answer import NoAnswer, decimal, in_words, read_answer, real_of  # noqa: E402
from description import Unreadable, encode, job_of  # noqa: E402

# Document 01's job: two nodes with one link.
PAIR = {
    "nodes": ["a", "b"],
    "links": [{"between": ["a", "b"], "conductance": 1}],
    "tau": 1,
    "signal": [1, 0],
}
PAIR_BYTES = struct.pack("<HHH3H4H4d4dd2d", 0x97, 2, 4, 0, 2, 4, 0, 1, 0, 1, 1, -1, -1, 1, 1, -1, -1, 1, 1, 1, 0)
PAIR_TEXT = "done 2\n3fe5555555555556\n3fd5555555555555\n"
ROWS = {"row_starts": [0, 2, 4], "columns": [0, 1, 0, 1], "values": [[1, -1, -1, 1], [1, -1, -1, 1]]}
WEIGHTS = {"root_bound": 2, "weights": [[1, 2], {"b": 4, "a": 3}]}


def changed(base, **changes):
    """The description with some names set, or left out where the value is None."""
    description = {**copy.deepcopy(base), **changes}
    return {name: value for name, value in description.items() if value is not None}


PAIR_ROWS = changed(PAIR, links=None, rows=ROWS)


class Encoding(unittest.TestCase):
    def bytes_of(self, description):
        return encode(job_of(json.loads(json.dumps(description))))

    def test_document_01(self):
        self.assertEqual(len(PAIR_BYTES), 108)
        self.assertEqual(self.bytes_of(PAIR), PAIR_BYTES)
        self.assertEqual(self.bytes_of(PAIR_ROWS), PAIR_BYTES)
        self.assertEqual(self.bytes_of(changed(PAIR_ROWS, rows={**ROWS, "columns": ["a", "b", "a", 1]})), PAIR_BYTES)
        self.assertEqual(self.bytes_of(changed(PAIR, signal={"b": 0, "a": 1}, order=4, adjoint=False, about="x")), PAIR_BYTES)

    def test_each_field(self):
        network, signal = PAIR_BYTES[2:-24], PAIR_BYTES[-16:]
        one = struct.pack("<d", 1)
        self.assertEqual(self.bytes_of(changed(PAIR, adjoint=True)), b"\x97\x01" + PAIR_BYTES[2:])
        self.assertEqual(self.bytes_of(changed(PAIR, bound=0.5)), b"\xb7\0" + network + one + struct.pack("<d", 0.5) + signal)
        weights = struct.pack("<5d", 2, 1, 2, 3, 4)
        self.assertEqual(self.bytes_of(changed(PAIR, **WEIGHTS)), b"\xd7\0" + network + one + weights + signal)
        third = struct.pack("<4d", 1, -1, -1, 1)
        self.assertEqual(self.bytes_of(changed(PAIR, order=6)), b"\x9f\0" + network + third + one + signal)
        everything = changed(PAIR, bound=3, adjoint=True, **WEIGHTS)
        self.assertEqual(self.bytes_of(everything), b"\xf7\x01" + network + one + struct.pack("<d", 3) + weights + signal)

    def test_no_nodes(self):
        empty = {"nodes": [], "links": [], "tau": 0.25, "signal": []}
        self.assertEqual(self.bytes_of(empty), struct.pack("<4Hd", 0x97, 0, 0, 0, 0.25))

    def test_how_values_are_formed(self):
        """Amounts are divided first and added from the left; columns rise; a second link at one place adds to the first."""
        links = [
            {"between": ["c", "a"], "conductance": [0.1, 1]},
            {"between": ["a", "b"], "conductance": [0.2, 2]},
            {"between": ["a", "c"], "conductance": [0.3, 3]},
        ]
        nodes = ["a", "b", "c", "alone"]
        described = {"nodes": nodes, "links": links, "tau": 1, "signal": [0] * 4, "capacities": [3, 7, 10, 1]}
        job = job_of(described)
        self.assertEqual(job.row_starts, [0, 3, 5, 7, 7])
        self.assertEqual(job.columns, [0, 1, 2, 0, 1, 0, 2])
        a, c = (0.1 / 3 + 0.2 / 3) + 0.3 / 3, 0.1 / 10 + 0.3 / 10
        self.assertEqual(job.samples[0], [a, -(0.2 / 3), -(0.1 / 3) - 0.3 / 3, -(0.2 / 7), 0.2 / 7, -c, c])
        plain = job_of(changed(described, capacities=None))
        self.assertEqual(plain.samples[1], [6, -2, -4, -2, 2, -4, 4])
        self.assertNotEqual((0.1 + 0.2) + 0.3, 0.1 + (0.2 + 0.3))
        self.assertEqual(plain.samples[0][0], (0.1 + 0.2) + 0.3)

    def test_what_the_program_refuses_is_encoded(self):
        for change in ({"tau": -1}, {"tau": math.nan}, {"bound": 0}, {"signal": [math.inf, math.nan]}):
            self.bytes_of(changed(PAIR, **change))
        rows = {"row_starts": [3, 2, 65535], "columns": [9, 65535], "values": [[math.inf, 0], [0, math.nan]]}
        self.bytes_of(changed(PAIR_ROWS, rows=rows))

    def test_limits(self):
        nodes = [f"node {i}" for i in range(64)]
        rows = {"row_starts": [0] * 64 + [512], "columns": [0] * 512, "values": [[0] * 512] * 3}
        job = self.bytes_of({"nodes": nodes, "rows": rows, "order": 6, "tau": 1, "bound": 1, "signal": [0] * 64})
        self.assertEqual(len(job), 13976)


# Changes that can't be encoded, and what is said of them.
ERRORS = [
    (PAIR, {"tau": None}, "'tau' is missing"),
    (PAIR, {"taus": 1}, "unknown name 'taus'"),
    (PAIR, {"tau": "1"}, "tau: a text where a number is wanted"),
    (PAIR, {"tau": True}, "tau: true or false where a number is wanted"),
    (PAIR, {"tau": 10**400}, "tau: the number is too large"),
    (PAIR, {"nodes": ["a", "a"]}, "nodes[1]: a second node is called 'a'"),
    (PAIR, {"nodes": ["a", 7]}, "nodes[1]: 7 is not a name"),
    (PAIR, {"nodes": ["a", "b\n"]}, "nodes[1]: 'b\\n' is not a name"),
    (PAIR, {"nodes": "ab"}, "nodes: a text where a list is wanted"),
    (PAIR, {"nodes": ["a", *(f"n{i}" for i in range(64))]}, "nodes: 65 nodes; a job has at most 64"),
    (PAIR, {"signal": [1]}, "signal: 1 elements where 2 are wanted"),
    (PAIR, {"signal": [1, None]}, "signal[1]: null where a number is wanted"),
    (PAIR, {"signal": {"a": 1}}, "signal: 'b' is missing"),
    (PAIR, {"signal": {"a": 1, "b": 0, "c": 0}}, "signal: unknown name 'c'; known are a, b"),
    (PAIR, {"signal": {"a": 1, "b": []}}, "signal.b: a list where a number is wanted"),
    (PAIR, {"links": None}, "either 'links' or 'rows'"),
    (PAIR, {"rows": ROWS}, "either 'links' or 'rows'"),
    (PAIR, {"links": [{"between": ["a", "c"], "conductance": 1}]}, "links[0].between[1]: no node is called 'c'"),
    (PAIR, {"links": [{"between": ["a", "a"], "conductance": 1}]}, "links[0].between: a link from 'a' to itself"),
    (PAIR, {"links": [{"between": ["a"], "conductance": 1}]}, "links[0].between: 1 elements where 2 are wanted"),
    (PAIR, {"links": [{"between": ["a", "b"]}]}, "links[0]: 'conductance' is missing"),
    (PAIR, {"links": [{"between": ["a", "b"], "conductance": [1]}]}, "links[0].conductance: 1 elements where 2 are wanted"),
    (PAIR, {"links": [3]}, "links[0]: the number 3 where an object is wanted"),
    (PAIR, {"capacities": [1, 0]}, "capacities.b: a capacity of 0"),
    (PAIR, {"order": 5}, "order: 5 is neither 4 nor 6"),
    (PAIR, {"order": True}, "order: True is neither 4 nor 6"),
    (PAIR, {"adjoint": 1}, "adjoint: the number 1 where true or false is wanted"),
    (PAIR, {"order": 6, "adjoint": True}, "adjoint: no job of order 6 has it"),
    (PAIR, {"order": 6, **WEIGHTS}, "weights: no job of order 6 has it"),
    (PAIR, {"root_bound": 1}, "'weights' is missing"),
    (PAIR, {"weights": [[1, 1], [1, 1]]}, "'root_bound' is missing"),
    (PAIR, {"root_bound": 1, "weights": [[1, 1]]}, "weights: 1 elements where 2 are wanted"),
    (PAIR, {"root_bound": 1, "weights": [[1, 1], [1]]}, "weights[1]: 1 elements where 2 are wanted"),
    (PAIR_ROWS, {"order": 6}, "rows.values: 2 elements where 3 are wanted"),
    (PAIR_ROWS, {"capacities": [1, 1]}, "capacities: they go with links"),
    (PAIR_ROWS, {"rows": {**ROWS, "row_starts": [0, 4]}}, "rows.row_starts: 2 elements where 3 are wanted"),
    (PAIR_ROWS, {"rows": {**ROWS, "row_starts": [0, 2, 65536]}}, "rows.row_starts[2]: 65536 is not a whole number"),
    (PAIR_ROWS, {"rows": {**ROWS, "row_starts": [0, 2, 4.0]}}, "rows.row_starts[2]: 4.0 is not a whole number"),
    (PAIR_ROWS, {"rows": {**ROWS, "columns": [0, 1, 0, -1]}}, "rows.columns[3]: -1 is not a whole number"),
    (PAIR_ROWS, {"rows": {**ROWS, "columns": [0, 1, 0, "c"]}}, "rows.columns[3]: no node is called 'c'"),
    (PAIR_ROWS, {"rows": {**ROWS, "columns": [0, 1, 0]}}, "rows.values[0]: 4 elements where 3 are wanted"),
    (PAIR_ROWS, {"rows": {**ROWS, "values": [[1, 1, 1, "x"], []]}}, "rows.values[0][3]: a text where a number is wanted"),
    (
        PAIR_ROWS,
        {"rows": {"row_starts": [0, 2, 4], "columns": [0] * 513, "values": [[0] * 513] * 2}},
        "rows.columns: 513 entries; a job has at most 512",
    ),
]


class Errors(unittest.TestCase):
    def test_each(self):
        for base, change, said in ERRORS:
            with self.subTest(said):
                with self.assertRaises(Unreadable) as raised:
                    job_of(changed(base, **change))
                self.assertIn(said, str(raised.exception))


class Answers(unittest.TestCase):
    job = job_of(PAIR)

    def test_document_01(self):
        self.assertEqual(in_words(read_answer(PAIR_TEXT), self.job), ["a  0.6666666666666667", "b  0.3333333333333333"])

    def test_bits_can_be_had_again(self):
        drawn = random.Random(1)
        for bits in [0, 1 << 63, 1, 0x7FEFFFFFFFFFFFFF, 0x7FF0000000000000, *(drawn.getrandbits(64) for _ in range(20000))]:
            x = real_of(f"{bits:016x}")
            again = struct.unpack(">Q", struct.pack(">d", float(decimal(x))))[0]
            self.assertTrue(again == bits or (math.isnan(x) and decimal(x) == "nan"))

    def test_no_answers(self):
        for text in (
            "",
            "done 2",
            "done 2\n",
            "done 1\n3fe5555555555556\n3fd5555555555555\n",
            "done 02\n3fe5555555555556\n3fd5555555555555\n",
            "done 2\n3FE5555555555556\n3fd5555555555555\n",
            "done 2\n3fe5555555555556\n3fd555555555555\n",
            "done 2\n3fe5555555555556\n3fd5555555555555\n\n",
            "done\n",
            "refused\n",
            "refused 8 3ff0000000000000\n",
            "refused 7 1\n",
            "refused 2 -1\n",
            "refused 10 3\n",
            "refused 2  1\n",
            "refused 21 5\nmore\n",
            "Refused 21 5\n",
        ):
            with self.subTest(text), self.assertRaises(NoAnswer):
                read_answer(text)

    def test_answers_to_another_description(self):
        for text in ("done 0\n", "refused 2 2\n", "refused 4 7\n", "refused 5 7ff0000000000000\n", "refused 11 0000000000000000\n"):
            with self.subTest(text), self.assertRaises(NoAnswer):
                in_words(read_answer(text), self.job)


# Descriptions that the program refuses, and the words of it.
REFUSALS = [
    (PAIR_ROWS, {"rows": {**ROWS, "row_starts": [0, 5, 4]}}, "row 2: row start 1 exceeds the next, 5 > 4: the row of b"),
    (PAIR_ROWS, {"rows": {**ROWS, "row_starts": [0, 2, 5]}}, "row 3: the last row start is 5, and there are 4 columns"),
    (PAIR_ROWS, {"rows": {**ROWS, "columns": [0, 1, 2, 1]}}, "row 4: column 2 is no node: entry 2, in the row of b"),
    (
        PAIR_ROWS,
        {"rows": {"row_starts": [4, 4, 4], "columns": [0, 1, 2, 1], "values": [[0] * 4] * 2}},
        "row 4: column 2 is no node: entry 2, before the first row",
    ),
    (
        PAIR_ROWS,
        {"rows": {**ROWS, "values": [[0] * 4, [0, -math.inf, math.nan, 0]]}},
        "row 5: the value -inf is not finite: sample 2, entry 1, in the row of a",
    ),
    (PAIR, {"links": [{"between": ["a", "b"], "conductance": [1, math.nan]}]}, "row 5: the value nan is not finite: sample 2, entry 0"),
    (PAIR, {"tau": -0.5}, "row 7: tau is -0.5"),
    (PAIR, {"tau": math.nan}, "row 7: tau is nan"),
    (PAIR, {"tau": 2, "bound": 1}, "row 8: the bound is 1.0 and tau is 2.0: their product is not below π/2; tau must stay below about 1.5708"),
    (PAIR, {"tau": 1, "bound": 1, **WEIGHTS}, "row 8: (bound·root_bound)·root_bound is 4.0 and tau is 1.0"),
    (PAIR, {"bound": 0}, "row 9: bound is 0.0"),
    (PAIR, {**WEIGHTS, "root_bound": -1}, "row 9: root_bound is -1.0"),
    (PAIR, {**WEIGHTS, "weights": [[1, 1], [1, -0.0]]}, "row 11: the weight of b in sample 2 is -0.0"),
    ({"nodes": [], "links": [], "tau": 1, "signal": [], "root_bound": 1, "weights": [[], []]}, {}, "row 12: a job with weights has"),
]


class Program(unittest.TestCase):
    """The whole way, as a command."""

    @classmethod
    def setUpClass(cls):
        cls.folder = tempfile.TemporaryDirectory()
        cls.reference = cls.written("reference", "#!/bin/sh\nexec '%s' -B '%s'\n" % (sys.executable, REFERENCE))
        os.chmod(cls.reference, 0o755)

    @classmethod
    def tearDownClass(cls):
        cls.folder.cleanup()

    @classmethod
    def written(cls, name, text):
        path = os.path.join(cls.folder.name, name)
        with open(path, "w", encoding="utf-8") as file:
            file.write(text)
        return path

    def command(self, *arguments, given=b""):
        run = subprocess.run([sys.executable, "-B", os.path.join(HERE, "job.py"), *arguments], input=given, capture_output=True)
        return run.returncode, run.stdout, run.stderr.decode()

    def run_with(self, program, path):
        return self.command("run", "--program", program, path)

    def test_three_commands(self):
        path = self.written("pair.json", json.dumps(PAIR))
        self.assertEqual(self.command("encode", path), (0, PAIR_BYTES, ""))
        printed = b"a  0.6666666666666667\nb  0.3333333333333333\n"
        self.assertEqual(self.command("decode", path, given=PAIR_TEXT.encode()), (0, printed, ""))
        self.assertEqual(self.run_with(self.reference, path), (0, printed, ""))

    def test_no_nodes(self):
        path = self.written("empty.json", json.dumps({"nodes": [], "links": [], "tau": 1, "signal": []}))
        self.assertEqual(self.run_with(self.reference, path), (0, b"done: there are no nodes\n", ""))

    def test_refusals(self):
        for base, change, words in REFUSALS:
            with self.subTest(words):
                path = self.written("refused.json", json.dumps({**base, **change}))
                status, printed, errors = self.run_with(self.reference, path)
                self.assertEqual((status, errors), (1, ""))
                self.assertIn("refused, " + words, printed.decode())
        path = self.written("pair.json", json.dumps(PAIR))
        self.assertEqual(self.command("decode", path, given=b"refused 21 5\n"), (1, b"refused, row 21: malformed job of 5 bytes\n", ""))

    def test_errors(self):
        for text, said in (
            ("{", "line 1, column 2: no JSON"),
            ('{"tau": 1e400}', "the number 1e400 is too large"),
            ('{"tau": 1, "tau": 2}', "the name 'tau' stands twice"),
            ("[]", "a list where an object is wanted"),
            ("[" * 100000, "no JSON"),
            (json.dumps(changed(PAIR, tau=[])), "tau: a list where a number is wanted"),
        ):
            with self.subTest(said):
                path = self.written("wrong.json", text)
                status, printed, errors = self.command("encode", path)
                self.assertEqual((status, printed), (2, b""))
                self.assertIn(f"job.py: {path}: ", errors)
                self.assertIn(said, errors)
        status, printed, errors = self.command("encode", os.path.join(self.folder.name, "nowhere.json"))
        self.assertEqual((status, printed), (2, b""))
        self.assertIn("No such file", errors)

    def test_programs_that_fail(self):
        path = self.written("pair.json", json.dumps(PAIR))
        failing = self.written("failing", "#!/bin/sh\necho done 0\nexit 3\n")
        wrong = self.written("wrong", "#!/bin/sh\necho something\n")
        for program, said in ((failing, "status 3"), (wrong, "something"), ("/nowhere/job", "there is no program")):
            if os.path.exists(program):
                os.chmod(program, 0o755)
            status, printed, errors = self.run_with(program, path)
            self.assertEqual((status, printed), (2, b""))
            self.assertIn(said, errors)

    def test_help(self):
        for arguments in (["--help"], ["encode", "--help"], ["decode", "--help"], ["run", "--help"]):
            self.assertEqual(self.command(*arguments)[0], 0)
        self.assertEqual(self.command()[0], 2)

    def test_samples(self):
        self.assertGreaterEqual(len(SAMPLES), 5)
        for path in SAMPLES:
            with self.subTest(os.path.basename(path)):
                status, printed, errors = self.run_with(self.reference, path)
                refused = "refused" in os.path.basename(path)
                self.assertEqual((status, errors), (1 if refused else 0, ""))
                self.assertEqual(printed.startswith(b"refused"), refused)
                if os.path.exists(BUILT):
                    self.assertEqual(self.run_with(BUILT, path), (status, printed, ""))

    def test_adjoint_sample_is_the_adjoint(self):
        """The drive's value after the forward step is the sum of the adjoint step's values times the signal."""
        values = {}
        for name in ("machine_room", "machine_room_adjoint"):
            path = os.path.join(ROOT, "samples", name + ".json")
            values[name] = [float(line.split()[-1]) for line in self.run_with(self.reference, path)[1].decode().splitlines()]
        signal = [86.5, 104, 71.25, 43.5, 31]
        carried_back = sum(weight * x for weight, x in zip(values["machine_room_adjoint"], signal))
        self.assertAlmostEqual(values["machine_room"][2], carried_back, 10)


if __name__ == "__main__":
    unittest.main()
