"""What the calls of the package answer: `python3 -m unittest` in the folder python/."""
import concurrent.futures
import ctypes
import doctest
import threading
import unittest
from pathlib import Path

import fing
from fing import Refusal, Reply, Status, _replies

TOP = Path(__file__).resolve().parents[2]
EXAMPLES = sorted((TOP / "examples").glob("*.fing"))
LOOP = "val loop = fix f (x : Int) : Int => f x val y = loop 1"
MEBIBYTE = 1048576


def doubled(times):
    """A source whose value has 2 to the power of so many parts."""
    lines = [f"val x{i + 1} = {{a = x{i}, b = x{i}}}" for i in range(times)]
    return "\n".join(["val x0 = 1", *lines])


def raw(words, source, room):
    """A call of the library with a page of so many bytes: the status, and the whole buffer, which is longer by a byte."""
    page, written = ctypes.create_string_buffer(b"?" * room, room + 1), ctypes.c_size_t(999)
    status = _replies._fing_reply(words, len(words), source, len(source), page, room, ctypes.byref(written))
    return status, page.raw, written.value


class Examples(unittest.TestCase):
    def test_there_are_examples(self):
        self.assertGreater(len(EXAMPLES), 10)

    def test_replies_are_the_stored_ones(self):
        for source in EXAMPLES:
            with self.subTest(source.name):
                wanted = source.with_suffix(".check").read_text()
                answer = fing.check(source.read_bytes())
                self.assertEqual(answer.text, wanted)
                if wanted.startswith("refused "):
                    self.assertIs(answer.status, Status.REFUSED)
                    self.assertEqual(fing.emit(source.read_text()), answer)
                    self.assertEqual(fing.run(source.read_text()), answer)
                else:
                    self.assertIs(answer.status, Status.OK)
                    ran = fing.run(source.read_text())
                    self.assertEqual(ran, Reply(Status.OK, source.with_suffix(".run").read_text()))

    def test_what_is_emitted_is_well_typed(self):
        for source in EXAMPLES:
            emitted = fing.emit(source.read_bytes())
            if emitted.status is Status.OK:
                with self.subTest(source.name):
                    self.assertEqual(fing.verify(emitted.text), Reply(Status.OK, "well typed\n"))


class Statuses(unittest.TestCase):
    def test_accepted(self):
        self.assertEqual(fing.run("val x = 6 * 7"), Reply(Status.OK, "x = 42\n"))

    def test_a_string_is_its_bytes(self):
        self.assertEqual(fing.check("-- é\nval x = 1"), fing.check("-- é\nval x = 1".encode()))

    def test_words_that_are_no_command_line(self):
        for words in ([], ["chek"], ["check", "file"], ["run", "--budget", "x"], ["check\n"], ["check\r"], ["gen"], [""]):
            with self.subTest(words):
                self.assertEqual(fing.reply(words, "val x = 1"), Reply(Status.WORDS, ""))

    def test_a_budget_out_of_range(self):
        self.assertIs(fing.run("val x = 1", budget=10_000_000).status, Status.OK)
        self.assertEqual(fing.run("val x = 1", budget=10_000_001), Reply(Status.WORDS, ""))
        self.assertEqual(fing.run("val x = 1", budget=-1), Reply(Status.WORDS, ""))

    def test_a_fault(self):
        self.assertEqual(fing.run("val x = 1 / 0"), Reply(Status.FAULTED, "fault DivideByZero\n"))

    def test_a_spent_budget(self):
        self.assertEqual(fing.run(LOOP, budget=10), Reply(Status.SPENT, "spent 10\n"))

    def test_out_of_memory(self):
        self.assertEqual(fing.check(doubled(40)), Reply(Status.OUT_OF_MEMORY, ""))

    def test_the_longest_source(self):
        self.assertIs(fing.check(b" " * MEBIBYTE).status, Status.OK)
        self.assertEqual(fing.check(b" " * (MEBIBYTE + 1)), Reply(Status.TOO_LONG, ""))

    def test_gen_has_no_source(self):
        wanted = Reply(Status.OK, "bindings 8 nodes 223 steps 84\n")
        self.assertEqual(fing.reply(["gen", "1"]), wanted)
        self.assertEqual(fing.reply(["gen", "1"], b" " * (MEBIBYTE + 1)), wanted)


class Refusals(unittest.TestCase):
    def check_line(self, call, source, reason, arguments, span):
        answer = call(source)
        self.assertIsInstance(answer, Refusal)
        self.assertIs(answer.status, Status.REFUSED)
        self.assertEqual((answer.reason, answer.arguments, answer.span), (reason, arguments, span))

    def test_a_refused_phrase_is_at_its_span(self):
        source = "-- é\nval x = 1\nval z = y"
        answer = fing.check(source)
        self.assertEqual(source.encode()[slice(*answer.span)], b"y")

    def test_reasons_of_programs(self):
        self.check_line(fing.check, "val x = y", "Unbound", ("y",), (8, 9))
        self.check_line(fing.check, "val x = {y = 1, y = 2}", "DuplicateField", ("y",), (16, 17))

    def test_a_type_in_parentheses_is_one_argument(self):
        source = (TOP / "examples/applicative-refused.fing").read_bytes()
        self.check_line(fing.check, source, "Differ", ("(@ a0 bool)", "(@ a0 int)"), (516, 522))

    def test_reasons_of_bytes(self):
        self.check_line(fing.check, "val x = 1; val y = 2", "BadByte", ("9",), (9, 10))
        self.check_line(fing.check, 'val s = "ab', "BadText", ("8",), (8, 9))
        self.check_line(fing.check, "val x = 9223372036854775808", "Wide", ("8",), (8, 9))
        self.check_line(fing.check, "(" * 1001, "TooDeep", ("1000",), (1000, 1001))

    def test_the_place_of_a_syntax_error_is_in_tokens(self):
        self.check_line(fing.check, "val x =", "Syntax", ("3",), None)

    def test_reasons_of_texts(self):
        self.check_line(fing.verify, "omega 3\nint\n3\n", "Version", (), None)
        self.check_line(fing.verify, "val x = 1", "NotOmega", (), None)
        self.check_line(fing.verify, "omega 2\nbool\n3\n", "IllTyped", (), None)


class Pages(unittest.TestCase):
    SOURCE = (TOP / "examples/sum.fing").read_bytes()
    WHOLE = (TOP / "examples/sum.check").read_bytes()

    def test_pages_of_every_size(self):
        for room in range(len(self.WHOLE) + 3):
            with self.subTest(room):
                status, page, written = raw(b"check", self.SOURCE, room)
                count = min(room, len(self.WHOLE))
                self.assertEqual(status, 6 if room < len(self.WHOLE) else 0)
                self.assertEqual(written, count)
                self.assertEqual(page, self.WHOLE[:count] + b"?" * (room - count) + b"\0")

    def test_nothing_is_written_without_a_reply(self):
        for words, source, status in ((b"chek", b"", 2), (b"check\xff", b"", 2), (b"check", b" " * (MEBIBYTE + 1), 8)):
            self.assertEqual(raw(words, source, 3), (status, b"???\0", 0))

    def test_lines_end_in_any_way(self):
        for words in (b"check", b"check\n", b"check\r\n"):
            self.assertEqual(raw(words, self.SOURCE, 100)[0], 0)
        self.assertEqual(raw(b"check\n\n", self.SOURCE, 100)[0], 2)

    def test_a_reply_longer_than_the_first_page(self):
        letters = "a" * 1000
        source = doubled(11).replace("val x0 = 1", f'val x0 = "{letters}"')
        answer = fing.run(source)
        self.assertIs(answer.status, Status.OK)
        self.assertGreater(len(answer.text), _replies.FIRST_ROOM)
        # x0 has one of these strings, and each further value twice as many as the one before it.
        self.assertEqual(answer.text.count(letters), 2**12 - 1)


class Threads(unittest.TestCase):
    def test_eight_threads_at_once(self):
        before = threading.stack_size(8 << 20)
        self.addCleanup(threading.stack_size, before)
        calls = [source for source in EXAMPLES for _ in range(4)]
        with concurrent.futures.ThreadPoolExecutor(8) as pool:
            answers = list(pool.map(lambda source: fing.check(source.read_bytes()).text, calls))
        self.assertEqual(answers, [source.with_suffix(".check").read_text() for source in calls])


def load_tests(loader, tests, pattern):
    """Adds the examples in the package's docstrings and in its README."""
    for module in (fing, _replies):
        tests.addTests(doctest.DocTestSuite(module))
    tests.addTests(doctest.DocFileSuite(str(TOP / "python/README.md"), module_relative=False))
    return tests
