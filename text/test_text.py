"""Tests of the text form, the explanations and the examples.

Run with: python3 text/test_text.py
"""

import itertools
import pathlib
import random
import re
import subprocess
import sys
import tempfile
import unittest

HERE = pathlib.Path(__file__).resolve().parent
sys.path.insert(0, str(HERE))

import second_opinion  # noqa: E402
from skodderym_explain import RULES, explain, read_answer  # noqa: E402
from skodderym_listing import listing  # noqa: E402
from skodderym_text import TextError, assemble, disassemble  # noqa: E402

EXAMPLES = HERE.parent / "examples"
NETLISTS = sorted(EXAMPLES.glob("*/*.netlist.text"))
TEXTS = sorted(set(EXAMPLES.glob("*/*.text")) - set(NETLISTS))
REFUSED = [
    source for source in TEXTS
    if source.with_suffix(".expected").exists()
    or (source.parent / "expected").exists()]

COUNTER = bytes.fromhex(
    "01 00 32 02 00 03 01 65 6E 03 00 06 04 00 00 00 00 6E 04 00 20 14 00 1D "
    "21 00 01 00 17 00 13 11 00 10 01 28 00 0C 21 00 01 01 20 00 05 04 00 00 "
    "00 01 17 00 00")
COUNTER_NETLIST = bytes.fromhex(
    "81 00 3F 02 00 03 01 65 6E 03 00 06 04 00 00 00 00 6E 34 00 0D 04 01 04 "
    "00 00 00 01 00 04 00 00 00 01 36 00 13 04 01 01 00 00 00 00 02 04 00 00 "
    "00 00 01 04 00 00 00 01 40 00 07 01 02 04 00 00 00 01")
COUNTER_NETLIST_TEXT = """\
netlist
  input en 1
  register n 4 = 0
  cell c0 4 = add n 4'd1
  cell c1 4 = mux en c0 n
  drive n = c1
"""
# The cycles that docs/COURSE.md shows.
COURSE_ROWS = (
    ("held_sign", [1, 0, 0, 0], [1, 0, 1, 1]),
    ("read_back", [0, 7], [1, 0]),
    ("branches", [0, 7, 3], [0, 7, 7]),
    ("branches", [1, 7, 3], [1, 1, 3]),
    ("equal_items", [2, 9], [2, 1]),
    ("never_wide", [255, 7, 0], [255, 7, 0]),
    ("in_turn", [1, 2], [2, 2]),
    ("stages", [5, 3, 1], [5, 5, 3]),
    ("stages_turned", [5, 3, 1], [5, 5, 3]),
    ("one_owner", [1, 0], [1, 1]),
    ("both_signs", [0, 1, 2], [2, 2, 3]),
    ("turns", [1, 3, 5], [1, 10, 5]),
    ("turns", [0, 3, 5], [0, 6, 3]),
    ("moving_state", [2], [3]),
    ("sums", [1, 2], [2, 3]),
    ("sums_turned", [1, 2], [2, 3]))
TAGS = [0x01, 0x02, 0x03, 0x04, *range(0x10, 0x18), *range(0x20, 0x2B),
        *range(0x30, 0x3B), 0x40, 0x81, 0x99]
DOUBTS = ("is it the file",)
HEAD = "module\n  register n 4 = 0\n  process\n"
# Texts that are not understood: the line, and a piece of what is said.
ERRORS = (
    ("", 1, "expected module or netlist"),
    ("module\ninput a 1", 2, "is indented below it"),
    ("module\n\tprocess", 2, "found a tab"),
    ("module\n  input", 2, "expected a name"),
    ("module\n  input [3:0] n", 2, "such as `input n 4`"),
    ("module\n  input n", 2, "expected a width"),
    ("module\n  input n 256", 2, "at most 255"),
    ("module\n  register n 4", 2, "initial value"),
    ("module\n  reg n", 2, "register n 4 = 0"),
    (HEAD + "    n <= n + 1", 4, "such as 4'd1"),
    (HEAD + "    n <= n + n + n", 4, "brackets"),
    (HEAD + "    n <= m", 4, "which no input or register"),
    (HEAD + "    n <= 4'd1;", 4, "without a semicolon"),
    (HEAD + "    n <= n - n", 4, "the end of the line, found -"),
    (HEAD + "    n <=", 4, "found the end of the line"),
    (HEAD + "    n[n] <= n", 4, "only a fixed bit"),
    (HEAD + "    begin", 4, "indented"),
    (HEAD + "    else", 4, "expected an if"),
    (HEAD + "    default", 4, "expected a case"),
    (HEAD + "    n <= n\n      n <= n", 5, "takes nothing"),
    (HEAD + "    n <= n\n   n <= n", 5, "expected 4 blanks"),
    (HEAD + "    cell c0 1 = not n", 4, "in a netlist"),
    ("netlist\n  cell c1 1 = not 1'd0", 2, "expected c0"),
    ("netlist\n  cell c0 1 = not #3", 2, "such as #3:4"),
    ("netlist\n  cell c0 1 = nor 1'd0", 2, "found nor"),
    ("bytes 0", 1, "two hexadecimal digits"),
    ("field 1", 1, "a tag of two hexadecimal"),
    ("module\n  expression " + "~" * 200 + "n", 2, "at most"),
)


def example_bytes(source):
    """The bytes of an example."""
    return source.with_suffix(".bin").read_bytes()


def expected_answer(source):
    """Number and place of a refused example."""
    beside = source.with_suffix(".expected")
    path = beside if beside.exists() else source.parent / "expected"
    return read_answer(path.read_text())


def answer_of(data):
    """The answer to checking a module or reading a netlist."""
    if data[:1] == b"\x81":
        return second_opinion.check_netlist(data)
    return second_opinion.check_module(data)


def random_bytes(chance, longest):
    """Any bytes."""
    return bytes(chance.randrange(256)
                 for _ in range(chance.randrange(longest)))


def random_field(chance, depth):
    """A field of a known tag with fields and bytes in it, likely bad."""
    payload = bytes(chance.choice([0, 1, 2, 4, chance.randrange(256)])
                    for _ in range(chance.choice([0, 0, 1, 2, 5, 7, 13])))
    for _ in range(chance.randrange(4) if depth else 0):
        payload += random_field(chance, depth - 1)
    if chance.random() < 0.1:
        payload += random_bytes(chance, 3)
    payload = payload[:0xFFFF]
    return (bytes([chance.choice(TAGS)]) + len(payload).to_bytes(2, "big")
            + payload)


def mutant(chance, data):
    """Some bytes changed, taken out or put in."""
    changed = bytearray(data)
    for _ in range(chance.randrange(1, 4)):
        choice = chance.random()
        place = chance.randrange(len(changed) + 1)
        if choice < 0.6:
            changed[place:place + 1] = [chance.choice(
                TAGS + [chance.randrange(256)])]
        elif choice < 0.8:
            del changed[place:place + 1]
        else:
            changed.insert(place, chance.randrange(256))
    if chance.random() < 0.7 and len(changed) >= 3:
        changed[1:3] = (len(changed) - 3).to_bytes(2, "big")
    return bytes(changed)


class RoundTrips(unittest.TestCase):
    """Every byte string comes back from its text."""

    def comes_back(self, data):
        """Check one byte string."""
        for places in (False, True):
            text = disassemble(data, places)
            self.assertEqual(assemble(text), data, text)

    def test_examples(self):
        """Each .bin is what its .text gives, and comes back."""
        self.assertGreater(len(TEXTS), 20)
        for source in TEXTS:
            with self.subTest(source.name):
                data = example_bytes(source)
                self.assertEqual(assemble(source.read_text("utf-8")), data)
                self.comes_back(data)

    def test_random_bytes(self):
        """Bytes without any order."""
        chance = random.Random(1)
        for _ in range(2000):
            self.comes_back(random_bytes(chance, 60))

    def test_all_short(self):
        """Every string of up to 1 byte, and each tag with a short payload."""
        self.comes_back(b"")
        for first in range(256):
            self.comes_back(bytes([first]))
            for size in range(9):
                self.comes_back(bytes([first, 0, size]) + bytes(size))
                self.comes_back(bytes([1, 0, size + 3, first, 0, size])
                                + bytes(range(size)))
                self.comes_back(bytes([0x81, 0, size + 3, first, 0, size])
                                + bytes(range(size)))

    def test_random_fields(self):
        """Fields inside fields, with wrong tags, fronts and remains."""
        chance = random.Random(2)
        for _ in range(1500):
            self.comes_back(random_field(chance, 5))

    def test_mutants(self):
        """Examples with some bytes changed."""
        chance = random.Random(3)
        for source in TEXTS:
            data = example_bytes(source)
            for _ in range(40):
                self.comes_back(mutant(chance, data))

    def test_deep(self):
        """Fields nested far deeper than allowed."""
        for tag, inner in ((0x17, b""), (0x24, b"\x21\0\1\0"), (0x14, b"")):
            data = inner
            for _ in range(10000):
                data = bytes([tag]) + len(data).to_bytes(2, "big") + data
            self.comes_back(data)

    def test_names(self):
        """Names that the text has to write in another way."""
        for name in (b"", b"2n", b"a b", b'"', b"\\", b"//", b"if", b"c0",
                     b"\x00\xff", b"a$b", b"#1", b"x" * 30, b"bytes"):
            declared = (bytes([2, 0, len(name) + 1, 1]) + name) * 2
            process = bytes.fromhex("04 00 10 11 00 05 00 21 00 01 00"
                                    "11 00 05 01 21 00 01 01")
            drive = bytes.fromhex("40 00 07 00 01 01 00 00 00 00")
            for tag, rest in ((1, process), (0x81, drive)):
                payload = declared + rest
                self.comes_back(bytes([tag, 0, len(payload)]) + payload)


class Text(unittest.TestCase):
    """What the text looks like, and what the assembler says."""

    def test_counter(self):
        """The case that the rules give whole."""
        source = EXAMPLES / "counter" / "counter.text"
        self.assertEqual(assemble(source.read_text()), COUNTER)
        bare = source.read_text().split("\n", 1)[1]
        self.assertEqual(disassemble(COUNTER), bare)

    def test_netlist(self):
        """The netlist of that case."""
        self.assertEqual(disassemble(COUNTER_NETLIST), COUNTER_NETLIST_TEXT)
        self.assertEqual(assemble(COUNTER_NETLIST_TEXT), COUNTER_NETLIST)

    def test_operators(self):
        """Each operator with its tag, and brackets where they are needed."""
        for text, tag in (("~n", 0x24), ("n & n", 0x25), ("n | n", 0x26),
                          ("n ^ n", 0x27), ("n + n", 0x28), ("n == n", 0x29),
                          ("^n", 0x2A), ("n[n]", 0x23), ("n[3]", 0x22),
                          ("n", 0x21), ("4'd9", 0x20), ("^(~n)", 0x2A),
                          ("~n + (n & (^n))", 0x28)):
            whole = f"module\n  input n 4\n  expression {text}\n"
            data = assemble(whole)
            self.assertEqual(data[8], tag)
            self.assertEqual(disassemble(data), whole)

    def test_spellings(self):
        """Other spellings of the same file."""
        plain = "module\n  register n 8 = 0\n  process\n    n <= 8'd10\n"
        for other in ("8'hA", "8'h0a", "8'b1010", "(8'd10)", "8'b1_010"):
            self.assertEqual(assemble(plain.replace("8'd10", other)),
                             assemble(plain))
        wide = plain.replace("  ", "      ").replace("\n", "  // x\r\n\n")
        self.assertEqual(assemble(wide), assemble(plain))

    def test_errors(self):
        """Line and expectation of what is not understood."""
        for text, line, expected in ERRORS:
            with self.subTest(text):
                with self.assertRaises(TextError) as caught:
                    assemble(text)
                self.assertIn(expected, str(caught.exception))
                self.assertEqual(caught.exception.line, line)

    def test_listing(self):
        """A listing shows every byte once, in order."""
        chance = random.Random(4)
        for _ in range(300):
            data = mutant(chance, chance.choice([COUNTER, COUNTER_NETLIST]))
            shown = re.findall(r"^ *[0-9]+  +([0-9A-F]{2}(?: [0-9A-F]{2})*)",
                               listing(data), re.MULTILINE)
            self.assertEqual(bytes.fromhex(" ".join(shown)), data)
        self.assertIn("   31          11 00 10 01", listing(COUNTER))


class Explanations(unittest.TestCase):
    """Each refusal has its sentences."""

    def without_doubt(self, data, answer):
        """The explanation of a true answer, which has no doubts."""
        text = explain(data, *answer)
        for doubt in DOUBTS:
            self.assertNotIn(doubt, text, (data.hex(), answer))
        self.assertIn(f"Rule {answer[0]}: ", text)
        self.assertTrue(text[0].isupper() and text.endswith("."))
        return text

    def test_examples(self):
        """Every refused example is explained, and every number has one."""
        numbers = set()
        for source in REFUSED:
            with self.subTest(source.name):
                answer = expected_answer(source)
                self.without_doubt(example_bytes(source), answer)
                numbers.add(answer[0])
        self.assertEqual(numbers, set(RULES))

    def test_earlier_fields(self):
        """Rules 4, 9, 10 and 11 name the other field."""
        for name, words in (
                ("04-same-name", "at 3 (declaration 1)"),
                ("09-both-kinds", "at 15 (process 1, statement 1)"),
                ("10-two-processes", "at 15 (process 1, statement 1)"),
                ("11-read-elsewhere", "at 24 (process 1, statement 1)")):
            source = EXAMPLES / "refused" / f"{name}.text"
            text = explain(example_bytes(source), *expected_answer(source))
            self.assertIn(words, text)

    def test_held(self):
        """The sentence of the lost flag."""
        source = EXAMPLES / "held_refused" / "held_refused.text"
        self.assertEqual(
            explain(example_bytes(source), *expected_answer(source)),
            "Process 1, statement 2, first block, statement 1: blocking "
            "assignment to `held`; a non-blocking assignment to `held` "
            "stands at 68 (process 1, statement 1, first block, statement "
            "1). Rule 9: a variable is assigned by one kind only.")

    def test_mutants(self):
        """Mutants of examples: every refusal is explained without doubt."""
        chance = random.Random(5)
        seen = set()
        for source in TEXTS:
            data = example_bytes(source)
            for _ in range(150 if len(data) < 1000 else 10):
                changed = mutant(chance, data)
                answer = answer_of(changed)
                if answer:
                    seen.add(answer[0])
                    self.without_doubt(changed, answer)
        self.assertGreaterEqual(len(seen), 8)

    def test_other_reader(self):
        """A netlist where a module is read, and the other way round."""
        self.without_doubt(COUNTER_NETLIST, (2, 0))
        self.without_doubt(COUNTER, (2, 0))

    def test_any_question(self):
        """A wrong question gets an answer too."""
        chance = random.Random(6)
        for _ in range(1500):
            data = chance.choice([COUNTER, COUNTER_NETLIST, b"", b"\1\0"])
            if chance.random() < 0.7:
                data = mutant(chance, data)
            number, place = chance.randrange(17), chance.randrange(70)
            self.assertTrue(explain(data, number, place))

    def test_answers(self):
        """Only a line of the right form is an answer."""
        self.assertEqual(read_answer("refused 9 at 51\n"), (9, 51))
        self.assertIsNone(read_answer("accepted"))


class Expected(unittest.TestCase):
    """The expected answers are those of the second opinion."""

    def test_refused(self):
        """Each refused example has its number and place."""
        for source in REFUSED:
            with self.subTest(source.name):
                data, expected = example_bytes(source), expected_answer(source)
                if expected[0] < 12:
                    self.assertEqual(answer_of(data), expected)
                else:
                    self.assertEqual(expected[1], 0)
                    self.assertIsNone(answer_of(data))
        over = EXAMPLES / "refused" / "12-too-many-cells.text"
        self.assertEqual(second_opinion.translate(example_bytes(over)),
                         (12, 0))

    def test_just_within(self):
        """With an item fewer the module of example 12 is translated."""
        source = EXAMPLES / "refused" / "12-too-many-cells.text"
        text = source.read_text().replace("      item 5'd16\n", "")
        found = second_opinion.Translation(assemble(text))
        self.assertEqual(len(found.cells), 1024)

    def test_accepted(self):
        """The other examples are accepted and translated."""
        for source in set(TEXTS) - set(REFUSED):
            with self.subTest(source.name):
                data = example_bytes(source)
                self.assertIsNone(answer_of(data))
                if data[:1] == b"\x81":
                    continue
                netlist = second_opinion.translate(data)
                self.assertIsNone(second_opinion.check_netlist(netlist))
                self.assertEqual(assemble(disassemble(netlist)), netlist)

    def test_netlists(self):
        """The netlists that the proved program wrote are the same."""
        self.assertEqual(len(NETLISTS), 6)
        for source in NETLISTS:
            with self.subTest(source.name):
                module = source.with_suffix("").with_suffix(".bin")
                netlist = second_opinion.translate(module.read_bytes())
                self.assertEqual(disassemble(netlist), source.read_text())

    def test_whole_case(self):
        """The second opinion translates the counter as the rules do."""
        self.assertEqual(second_opinion.translate(COUNTER), COUNTER_NETLIST)


class Behaviour(unittest.TestCase):
    """The examples do what their pages say."""

    def cycle(self, name, folder=None):
        """The cycle of an example."""
        source = EXAMPLES / (folder or name) / f"{name}.text"
        return second_opinion.Cycle(example_bytes(source)).run

    def test_course(self):
        """The rows of docs/COURSE.md."""
        for name, row, after in COURSE_ROWS:
            with self.subTest(name):
                self.assertEqual(self.cycle(name, "course")(row), after)

    def test_counter(self):
        """It counts, and goes round."""
        run = self.cycle("counter")
        self.assertEqual(run([1, 15]), [1, 0])
        self.assertEqual(run([0, 7]), [0, 7])

    def test_swap(self):
        """It exchanges."""
        self.assertEqual(self.cycle("swap")([1, 2]), [2, 1])

    def test_held(self):
        """No permission while a log is held or just stored."""
        run = self.cycle("held_repaired")
        for stored, confirmed, held, old in itertools.product((0, 1),
                                                              repeat=4):
            after = run([stored, confirmed, held, old])
            keeps = 1 if stored else 0 if confirmed else held
            self.assertEqual(after, [stored, confirmed, keeps,
                                     int(not held and not stored)])

    def test_held_lost(self):
        """By the meaning of a cycle the refused module loses the flag."""
        run = self.cycle("held_refused")
        stored = run([1, 0, 0, 0])
        self.assertEqual(stored, [1, 0, 0, 0])
        self.assertEqual(run([0, 0] + stored[2:]), [0, 0, 0, 1])

    def test_slots(self):
        """From every row: a chosen slot had its log confirmed."""
        run = self.cycle("slots")
        widths = (1, 1, 2, 4, 2, 1, 1, 2)
        for row in itertools.product(*(range(2 ** w) for w in widths)):
            request, enable, confirmed, mask, oldest, held, _, _ = row
            after = dict(zip(("mask", "oldest", "held", "grant", "chosen"),
                             run(list(row))[3:]))
            free = mask >> oldest & 1
            wanted = request | held
            self.assertEqual(after["grant"], wanted & free)
            self.assertEqual(after["held"], wanted & (1 - free))
            if after["grant"]:
                self.assertEqual(mask >> after["chosen"] & 1, 1)
                self.assertEqual(after["mask"] >> after["chosen"] & 1, 0)

    def test_slots_never_lose_a_log(self):
        """From the start on, no unconfirmed log is ever overwritten."""
        run, chance = self.cycle("slots"), random.Random(7)
        row, unconfirmed = [0, 0, 0, 15, 0, 0, 0, 0], set()
        for _ in range(2000):
            row[:3] = [chance.randrange(2), chance.randrange(2),
                       chance.randrange(4)]
            row = run(row)
            if row[1] and row[2] in unconfirmed:
                unconfirmed.remove(row[2])
            if row[6]:
                self.assertNotIn(row[7], unconfirmed)
                unconfirmed.add(row[7])

    def test_average(self):
        """The average of the last four signals."""
        run, chance = self.cycle("average"), random.Random(8)
        row, last = [0] * 8, [0, 0, 0, 0]
        for _ in range(200):
            row[:2] = [chance.randrange(64), chance.randrange(2)]
            last = [row[0]] + last[:3]
            row = run(row)
            self.assertEqual(row[7], sum(last) // 4 if row[1] else row[0])

    def test_machine(self):
        """After a reset it finishes with 12."""
        run = self.cycle("machine")
        row = run([0, 1] + [0] * 7)
        row[1] = 0
        cycles = 0
        while not row[2]:
            row, cycles = run(row), cycles + 1
        self.assertEqual((row[3], cycles), (12, 27))


class Page(unittest.TestCase):
    """What README.md shows is what the tools print."""

    def setUp(self):
        """Read the page."""
        self.page = (HERE / "README.md").read_text("utf-8")
        self.words = " ".join(self.page.split())

    def shows(self, text):
        """The page has a text, indented, as a block of its own."""
        block = "".join(f"    {line}\n" for line in text.splitlines())
        self.assertIn("\n" + block, self.page)

    def test_way_through(self):
        """The lamp: refused, explained, mended."""
        block = self.page.split("Write `mine.text`:\n\n")[1].split("\n\n")[0]
        text = block.replace("\n    ", "\n").lstrip()
        data = assemble(text)
        answer = answer_of(data)
        self.assertIn("refused {} at {}".format(*answer), self.page)
        self.assertIn(explain(data, *answer), self.words)
        mended = assemble(text.replace("lamp = ", "lamp <= "))
        self.shows(disassemble(second_opinion.translate(mended)))

    def test_counter(self):
        """The counter in text and bytes."""
        self.shows(disassemble(COUNTER))
        self.shows(listing(COUNTER))

    def test_broken(self):
        """The example of a file that is not in order."""
        block = self.page.split("without an operand:\n\n")[1].split("\n\n")[0]
        data = assemble(block.replace("\n    ", "\n").lstrip())
        self.assertEqual(answer_of(data), (2, 9))
        self.shows(disassemble(data))


class Fronts(unittest.TestCase):
    """The programs that a newcomer calls."""

    def call(self, program, *arguments, stdin=b""):
        """Run one of the programs."""
        return subprocess.run(
            [sys.executable, str(HERE / program), *map(str, arguments)],
            input=stdin, capture_output=True, check=False)

    def test_way_through(self):
        """Assemble, look, explain."""
        with tempfile.TemporaryDirectory() as folder:
            target = pathlib.Path(folder) / "mine.bin"
            source = EXAMPLES / "held_refused" / "held_refused.text"
            self.assertEqual(self.call("assemble", source, target).stderr,
                             b"")
            self.assertEqual(target.read_bytes(), example_bytes(source))
            text = self.call("disassemble", target).stdout
            again = self.call("assemble", stdin=text).stdout
            self.assertEqual(again, target.read_bytes())
            by_input = self.call("explain", target, stdin=b"refused 9 at 93\n")
            by_words = self.call("explain", target, "refused 9 at 93")
            self.assertIn(b"`held`", by_input.stdout)
            self.assertEqual(by_input.stdout, by_words.stdout)

    def test_options(self):
        """Places and listing."""
        source = EXAMPLES / "counter" / "counter.bin"
        places = self.call("disassemble", "--places", source).stdout
        self.assertIn(b"n <= n + 4'd1  // at 31", places)
        listed = self.call("disassemble", "--listing", source).stdout
        self.assertIn(b"20 00 05 04 00 00 00 01", listed)

    def test_errors(self):
        """Errors go to standard error, with a status of 1."""
        wrong = self.call("assemble", stdin=b"module\n  reg n\n")
        self.assertEqual(wrong.returncode, 1)
        self.assertIn(b"line 2: expected", wrong.stderr)
        nothing = self.call("explain", EXAMPLES / "counter" / "counter.bin",
                            "accepted")
        self.assertEqual(nothing.returncode, 1)

    def test_examples_are_built(self):
        """Every .bin is what examples/make gives."""
        made = self.call(EXAMPLES / "make", "--check")
        self.assertEqual((made.returncode, made.stderr), (0, b""))


if __name__ == "__main__":
    unittest.main()
