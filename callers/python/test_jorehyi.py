"""What document 01 prints and marks, document 02's masks and lowered sets, the edges of what may be lent, and every
misuse that the module rejects."""

import ctypes
import doctest
import unittest
from pathlib import Path

import jorehyi
from jorehyi import Answer, Edge, Session, Verdict, judge, parse, session, verdict

CRATES = Path(__file__).resolve().parents[2] / "crates"
SAME = b"lines\t1\nH\t0\nH\t0\n=\n"
FIVE_PUTS = b"put\t0\t1\nput\t1\t1\nput\t2\t1\nput\t3\t1\nput\t4\t1\n"
EMPTY = (None,) * 16


def no(fault, line):
    return Answer("no", fault=fault, line=line)


class Document(unittest.TestCase):
    def test_the_printed_session(self):
        lines = (CRATES / "session" / "stdin").read_bytes()
        answers = (CRATES / "session" / "stdout").read_bytes()
        # Register 1 is twice H on qubit 0, whose first value is 2h, root two; H's own node is put in after its high
        # part's.
        registers = (None, Edge(61457, 2)) + (None,) * 14
        self.assertEqual(session(lines), Session(0, 8, answers, 2, registers))

    def test_the_unit_needs_three_nodes(self):
        self.assertEqual(session(b"unit\t0\t1\n", capacity=3).output, b"ok\t3\n")
        self.assertEqual(session(b"unit\t0\t1\n", capacity=2).output, b"no\t8\n")

    def test_h_needs_two_nodes(self):
        self.assertEqual(session(b"gate\t0\tH\t0\n", capacity=2).output, b"ok\t2\n")
        self.assertEqual(session(b"gate\t0\tH\t0\n", capacity=1).output, b"no\t8\n")

    def test_the_marked_verdicts(self):
        self.assertEqual(judge(SAME), Answer("same"))
        self.assertEqual(judge(b"lines\t1\nT\t0\nT\t0\n=\nS\t0\n"), Answer("same"))
        self.assertEqual(judge(b"lines\t1\nX\t0\nZ\t0\nX\t0\n=\nZ\t0\n"), Answer("factor", factor=65536))
        self.assertEqual(judge(b"lines\t1\nS\t0\n=\nZ\t0\n"), Answer("differ"))

    def test_masks(self):
        # H on qubit 0 has indices 1 and 2; the unit has every qubit's input and middle.
        text = b"put\t0\t7\non\t0\ngate\t0\tH\t0\non\t0\nunit\t1\t8\non\t1\n"
        expected = b"ok\t0\nm\t0\nok\t2\nm\t6\nok\t26\nm\t7190235\n"
        self.assertEqual(session(text).output, expected)
        # A collection moves the unit's nodes.
        text += b"drop\t0\ncollect\non\t1\n"
        self.assertEqual(session(text).output, expected + b"ok\t26\nok\t24\nm\t7190235\n")
        self.assertEqual(session(b"on\t0\t0\non\t16\non\t0\n").output, b"no\t1\nno\t2\nno\t3\n")

    def test_lowered_sets(self):
        # H on qubit 0 goes from the indices 1 and 2 to 0 and 1, as by two single calls, also after a collection.
        text = b"gate\t0\tH\t0\nlows\t1\t0\t6\non\t1\nlow\t2\t0\t1\nlow\t2\t2\t2\ncmp\t1\t2\n"
        self.assertEqual(session(text).output, b"ok\t2\nok\t4\nm\t3\nok\t5\nok\t5\nsame\n")
        text = b"gate\t0\tH\t0\nlows\t1\t0\t6\ndrop\t0\ncollect\ngate\t0\tH\t0\nlows\t0\t0\t6\ncmp\t0\t1\n"
        self.assertEqual(session(text).output, b"ok\t2\nok\t4\nok\t4\nok\t2\nok\t4\nok\t4\nsame\n")

    def test_four_nodes_lower_a_set_but_not_its_indices_one_by_one(self):
        together = b"gate\t0\tH\t0\nlows\t0\t0\t6\n"
        self.assertEqual(session(together, capacity=4).output, b"ok\t2\nok\t4\n")
        singly = b"gate\t0\tH\t0\nlow\t0\t0\t1\nlow\t0\t0\t2\n"
        self.assertEqual(session(singly, capacity=4).output, b"ok\t2\nok\t3\nno\t8\n")

    def test_refused_sets(self):
        empty = b"lows\t0\t0\nlows\t16\t0\t1\nlows\t0\t0\t1\nlows\t0\t0\t16777216\nlows\t0\t0\t2\n"
        self.assertEqual(session(empty, capacity=2).output, b"no\t1\nno\t2\nno\t4\nno\t4\nno\t3\n")
        filled = b"gate\t0\tH\t0\nlows\t0\t0\t4\nlows\t0\t0\t2\nlows\t0\t0\t0\n"
        self.assertEqual(session(filled, capacity=2).output, b"ok\t2\nno\t7\nno\t8\nok\t2\n")


class Edges(unittest.TestCase):
    def test_empty_text(self):
        self.assertEqual(session(b""), Session(0, 0, b"", 0, EMPTY))
        self.assertEqual(judge(b""), no(10, 1))

    def test_nothing_lent_at_all(self):
        # no line exists, so none is stopped before
        self.assertEqual(session(b"", 0, 0, 0), Session(0, 0, b"", 0, EMPTY))
        self.assertEqual(verdict(b"", 0, 0, 0), Verdict(9, b""))

    def test_session_output(self):
        # An answer has 5 bytes here, and a line is begun while 16 remain.
        for out, lines, code in ((0, 0, 9), (15, 0, 9), (16, 1, 9), (21, 2, 9), (31, 4, 9), (32, 4, 9), (36, 5, 0)):
            with self.subTest(out=out):
                registers = tuple(Edge(1, 0) if i < lines else None for i in range(16))
                self.assertEqual(session(FIVE_PUTS, 0, 0, out), Session(code, lines, b"ok\t0\n" * lines, 0, registers))

    def test_verdict_output(self):
        for out in (0, 15, 16, 31):
            for text in (SAME, b"", b"nonsense"):
                self.assertEqual(verdict(text, out=out), Verdict(9, b""))
        for out in (32, 33):
            self.assertEqual(verdict(SAME, out=out), Verdict(0, b"same\n"))

    def test_the_default_output_has_room_for_every_line(self):
        for text in (b"collect", b"collect\n", b"\n" * 1000, b"put\t0\t1\n" + b"at\t0\t0\n" * 1000):
            result = session(text)
            self.assertEqual(result.code, 0)
            self.assertEqual(result.lines, len(text.removesuffix(b"\n").split(b"\n")))

    def test_empty_store(self):
        text = b"put\t0\t65536\ngate\t1\tX\t0\nat\t0\t0\n"
        self.assertEqual(session(text, capacity=0).output, b"ok\t0\nno\t8\nv\t65536\n")
        self.assertEqual(judge(SAME, 0), no(8, 1))

    def test_capacity_is_rounded_down(self):
        for store, answer in ((47, b"no\t8\n"), (48, b"ok\t3\n"), (63, b"ok\t3\n")):
            _, output = jorehyi._call("jorehyi_session", b"unit\t0\t1", store, 0, 16, jorehyi.SESSION_WORDS)
            self.assertEqual(output[:5], answer)

    def test_the_cache_changes_no_answer(self):
        for cache in (0, 1, 3, 4, 5, 8, 4096):
            self.assertEqual(verdict(SAME, cache=cache).output, b"same\n")

    def test_the_largest_capacity(self):
        self.assertEqual(judge(SAME, jorehyi.MAX_CAPACITY), Answer("same"))

    def test_faulty_texts(self):
        for text, answer in (
            (b"\n", no(10, 1)),
            (b"lines\t0\n=\n", no(10, 1)),
            (b"lines\t9\n=\n", no(10, 1)),
            (b"lines 1\n=\n", no(10, 1)),
            (b"lines\t1\nh\t0\n=\n", no(11, 2)),
            (b"lines\t1\nH\t00\n=\n", no(11, 2)),
            (b"lines\t1\n=\nH\t0\r\n", no(11, 3)),
            (b"lines\t1\n=\n\n", no(11, 3)),
            (b"lines\t1\n\0\n=\n", no(11, 2)),
            (b"lines\t2\nX\t0\nCX\t0\t2\n=\n", no(12, 3)),
            (b"lines\t2\nCX\t1\t1\n=\n", no(13, 2)),
            (b"lines\t1\n=\n=\n", no(14, 3)),
            (b"lines\t1\nH\t0", no(14, 3)),
        ):
            self.assertEqual(judge(text), answer, text)


class Raw(unittest.TestCase):
    """The result's length, and which memory stays as it was."""

    def call(self, name, text, length):
        """The function's answer, its output and its result, of which it is lent so many words."""
        library = jorehyi._library()
        store = (ctypes.c_uint8 * 1024)()
        cache = (ctypes.c_uint64 * 64)()
        out = (ctypes.c_uint8 * 64)(*[0xA5] * 64)
        result = (ctypes.c_uint64 * 60)(*[7] * 60)
        done = getattr(library, name)(text, len(text), store, 1024, cache, 64, out, 64, result, length)
        return done, bytes(out), list(result)

    def test_too_short_a_result(self):
        for name, text, length in (("jorehyi_session", b"unit\t0\t1", 51), ("jorehyi_verdict", SAME, 1)):
            for shorter in (0, length):
                self.assertEqual(self.call(name, text, shorter), (False, b"\xa5" * 64, [7] * 60))

    def test_a_longer_result(self):
        done, out, result = self.call("jorehyi_session", b"put\t15\t7", 60)
        self.assertEqual((done, out), (True, b"ok\t0\n" + b"\xa5" * 59))
        self.assertEqual(result, [0, 1, 5, 0] + [0] * 45 + [1, 7, 0] + [7] * 8)
        done, out, result = self.call("jorehyi_verdict", SAME, 60)
        self.assertEqual((done, out), (True, b"same\n" + b"\xa5" * 59))
        self.assertEqual(result, [0, 5] + [7] * 58)


class Misuse(unittest.TestCase):
    def test_text_that_is_not_bytes(self):
        for text in ("lines", bytearray(SAME), memoryview(SAME), None, 5, [1]):
            for call in (session, verdict, judge):
                with self.assertRaises(TypeError):
                    call(text)

    def test_sizes_that_are_no_numbers(self):
        for size in ("5", 5.0, True, b"5"):
            for name in ("capacity", "cache", "out"):
                for call in (session, verdict):
                    with self.assertRaises(TypeError):
                        call(SAME, **{name: size})

    def test_sizes_out_of_range(self):
        for name, size in (
            ("capacity", -1),
            ("capacity", 65536),
            ("cache", -1),
            ("cache", 2**60),
            ("out", -1),
            ("out", 2**63),
        ):
            for call in (session, verdict):
                with self.assertRaises(ValueError):
                    call(SAME, **{name: size})

    def test_only_answers_are_parsed(self):
        self.assertEqual(parse(b"no\t14\t1048577\n"), no(14, 1048577))
        for line in (
            b"",
            b"same",
            b"same\n\n",
            b"same\t\n",
            b"Same\n",
            b"factor\n",
            b"factor\t1\n",
            b"factor\t65537\n",
            b"factor\t+2\n",
            b"factor 2\n",
            b"no\t9\t1\n",
            b"no\t010\t1\n",
            b"no\t10\t0\n",
            b"no\t10\t1\t\n",
            b"\xff\n",
        ):
            with self.assertRaises(ValueError):
                parse(line)


def load_tests(_loader, tests, _pattern):
    tests.addTests(doctest.DocTestSuite(jorehyi))
    return tests


if __name__ == "__main__":
    unittest.main()
