"""Tests of cantaribol.py. What is expected comes from the listings in designs/,
from the documents' cases in rust/generator/cases, or is worked out by hand.

    python3 python/test_cantaribol.py

The last line is 'N passed, M failed'.
"""

import os
import pickle
import re
import subprocess
import sys
import threading
import unittest
from pathlib import Path
from types import SimpleNamespace

import cantaribol
from cantaribol import Board, Design, Failed, Fate, Refused, Stuck

TOP = Path(__file__).resolve().parent.parent
DESIGNS = TOP / "designs"
CASES = TOP / "rust" / "generator" / "cases"

# A register that starts at 5. Rule 0 displays 7 and makes it 9; rule 1 has the
# number 1 as its guard, so it is stuck; rule 2 would display 8.
STUCK_SECOND = (
    b"RG\x05\0\0\0UM"
    b"RL\x15\0\x02\x01\x07\x02\x09\x0B\x01\x07\0\0\0\x09\x0A\0\x01\x01\x01\x09\0\0\0"
    b"RL\x0B\0\x01\x01\0\0\0\x0B\x01\x08\0\0\0"
    b"RL\x08\0\x02\x01\x0B\x01\x08\0\0\0"
    b"SC\x03\0\x01\x02"
)

# A register that starts at 2. Rule 0 displays it, rule 1 makes it 3 while it is 2.
TWO_TO_THREE = (
    b"RG\x02\0\0\0UM"
    b"RL\x07\0\x02\x01\x0B\x0A\0\0\0"
    b"RL\x14\0\x04\x02\x0A\0\0\0\x01\x02\0\0\0\x0A\0\x01\x01\x01\x03\0\0\0"
    b"SC\x02\0\x01"
)


ONE = b"\x01\x01\0\0\0"


def deep():
    """64 modules. Each method adds 15 to what the one below gives, from depth 16;
    the lowest gives 1, and the rule of the highest module displays the sum."""
    file = b"UMMD\0\x01\0\x05\0" + ONE
    for below in range(62):
        body = b"\x04\0" * 15 + bytes([10, below, 0, 0]) + ONE * 15
        file += b"UMMD\0\x01\0" + len(body).to_bytes(2, "little") + body
    return file + b"UMRL\x07\0\x02\x01\x0B\x0A\x3E\0\0SC\x01\0"


def bundled(name):
    return Design((DESIGNS / f"{name}.bin").read_bytes())


def expected(name):
    return (DESIGNS / f"{name}.expected").read_text()


def clocks_of(listing):
    """The last line is the ending."""
    return len(listing.splitlines()) - 1


def case(name):
    """A stored case: the clocks asked for, the file, and what is printed."""
    text = (CASES / f"{name}.txt").read_text()
    head, prints = text.split("prints\n")
    given = bytes.fromhex(head.split("input\n")[1])
    return int.from_bytes(given[:4], "little"), given[4:], prints


def listed(design, clocks):
    """A list as document 01 prints it, by single clocks."""
    board, lines, end, count = Board(design), [], "LIMIT", 0
    for clock in range(clocks):
        outcome = board.clock()
        fields = [clock, outcome.letters or ".", *outcome.displays]
        lines.append(" ".join(map(str, fields)))
        count += outcome.fired
        if not outcome.fired:
            end = "STUCK" if outcome.stuck else "QUIET"
            break
    detail = [outcome.stuck.rule, outcome.stuck.number] if end == "STUCK" else []
    return "\n".join([*lines, last_line(end, count, detail, board)]) + "\n"


def last_line(end, count, detail, board):
    registers = board.design.registers
    values = [value if at in registers else "-" for at, value in enumerate(board.state)]
    return " ".join(map(str, [end, count, *detail, *values]))


class Listings(unittest.TestCase):
    def test_p10(self):
        """Document 01, P10: 3 clocks, count 3, and the register has 8."""
        board = Board(bundled("p10"))
        ending, count = board.run(3)
        self.assertTrue(ending.limit)
        self.assertEqual((count, board.state[0]), (3, 8))
        self.assertEqual(listed(bundled("p10"), 3), expected("p10"))

    def test_queue_drain_first(self):
        text = "0 FF 0 101\n1 FF 1 102\n2 FF 2 103\n3 FF 3 104\n4 FU 4\n5 UU\nQUIET 5 5 0 4 -\n"
        self.assertEqual(expected("queue-drain-first"), text)
        self.assertEqual(listed(bundled("queue-drain-first"), 100), text)

    def test_queue_feed_first(self):
        text = expected("queue-feed-first")
        self.assertEqual(text.splitlines()[:2], ["0 UF 0", "1 FE 101"])
        self.assertEqual(listed(bundled("queue-feed-first"), 100), text)

    def test_gcd(self):
        board = Board(bundled("gcd"))
        ending, count = board.run(101)
        self.assertTrue(ending.quiet)
        self.assertEqual((count, board.state[:4]), (7, [2, 8, 0, 0]))
        self.assertEqual(listed(bundled("gcd"), 101), expected("gcd"))

    def test_every_bundled_design(self):
        names = sorted(path.stem for path in DESIGNS.glob("*.bin"))
        self.assertEqual(len(names), 14)
        for name in names:
            text = expected(name)
            self.assertEqual(listed(bundled(name), clocks_of(text)), text, name)

    def test_every_bundled_design_as_a_run(self):
        for path in DESIGNS.glob("*.bin"):
            text = expected(path.stem)
            board = Board(bundled(path.stem))
            ending, count = board.run(clocks_of(text))
            line = last_line(str(ending).upper(), count, [], board)
            self.assertEqual(line, text.splitlines()[-1], path.stem)

    def test_every_bundled_design_passes(self):
        for path in DESIGNS.glob("*.bin"):
            self.assertIsNone(bundled(path.stem).check(), path.stem)

    def test_every_stored_case(self):
        names = {path.stem for path in CASES.glob("*.txt")}
        self.assertEqual(len(names), 15)
        # Its input is cut short before a design begins, and p9's is refused.
        for name in sorted(names - {"under-four-bytes", "p9"}):
            clocks, file, prints = case(name)
            self.assertEqual(listed(Design(file), clocks), prints, name)


class Designs(unittest.TestCase):
    def test_counts(self):
        """As designs/gcd.hex says."""
        counts = bundled("gcd").counts
        self.assertEqual(counts, (6, 2, 4, 4))
        self.assertEqual((counts.instances, counts.methods), (6, 2))
        self.assertEqual((counts.rules, counts.entries), (4, 4))

    def test_schedule(self):
        self.assertEqual(bundled("gcd").schedule, (2, 3, 0, 1))
        requests = (7, 1, 2, 3, 4, 5, 6, 8, 9, 0, 10)
        self.assertEqual(bundled("traffic-requests").schedule, requests)
        self.assertEqual(Design(b"SC\0").schedule, ())

    def test_registers(self):
        """Those with a value, and no dash, in the last line of the listing."""
        for path in DESIGNS.glob("*.bin"):
            values = expected(path.stem).splitlines()[-1].split(" ")[2:]
            registers = tuple(at for at, value in enumerate(values) if value != "-")
            self.assertEqual(bundled(path.stem).registers, registers, path.stem)

    def test_registers_behind_methods_and_rules(self):
        file = b"CR\x02\x06\0\0\0UMMD\0\x01\x02\x01\x02\x02\0\x03\0RG\x05\0\0\0SC\0"
        self.assertEqual(Design(file).registers, (0, 2))

    def test_register_behind_a_long_body(self):
        """A block of 32 sums has 418 bytes, which needs both bytes of the length."""
        body = b"\x07\x20" + b"\x09\x04\0\x01\0\0\0\0\x01\0\0\0\0" * 32
        file = b"UMMD\0\x01\0\xA2\x01" + body + b"RG\x05\0\0\0SC\0"
        self.assertEqual(Design(file).registers, (1,))
        self.assertEqual(Design(file).method_part(0, 0), body)

    def test_parts(self):
        """Offsets and lengths as designs/gcd.hex has them."""
        design = bundled("gcd")
        self.assertEqual(design.rule_range(0), range(30, 88))
        self.assertEqual(design.rule_part(0), design.file[30:88])
        self.assertEqual(design.method_range(4, 1), range(203, 245))
        self.assertEqual(design.method_part(4, 1), design.file[203:245])

    def test_parts_that_are_not_there(self):
        design = bundled("gcd")
        self.assertEqual(design.rule_part(4), b"")
        self.assertEqual(design.rule_part(2**64 - 1), b"")
        self.assertEqual(design.method_part(0, 0), b"")
        self.assertEqual(design.method_part(4, 2), b"")

    def test_bytes_of_any_make(self):
        file = (DESIGNS / "p10.bin").read_bytes()
        lent = bytearray(file)
        design = Design(lent)
        lent[0] = 0
        self.assertEqual(design.file, file)
        self.assertEqual(Design(memoryview(file)).counts, design.counts)


class Refusals(unittest.TestCase):
    def refused(self, file, number, place, words):
        with self.assertRaises(Refused) as caught:
            Design(file)
        refusal = caught.exception
        self.assertEqual((refusal.number, refusal.place), (number, place))
        self.assertEqual(str(refusal), f"{words} (number {number}, place {place})")
        self.assertEqual(refusal.words, cantaribol.words(number))

    def test_cut_short(self):
        """README: the first 20 bytes of p10 are REFUSED 2 8."""
        file = (DESIGNS / "p10.bin").read_bytes()[:20]
        words = "the record at offset 8 is cut short by the end of the file"
        self.refused(file, 2, 8, words)

    def test_empty(self):
        """Document 01, P9."""
        _, file, prints = case("p9")
        self.assertEqual((file, prints), (b"", "REFUSED 9 0\n"))
        self.refused(file, 9, 0, "the file ends without a schedule, at offset 0")

    def test_length(self):
        self.refused(bytes(32_769), 1, 0, "the file is over 32,768 bytes")

    def test_records(self):
        words = "the record at offset 2 begins with an unknown mark"
        self.refused(b"UMXX", 3, 2, words)
        words = "the record at offset 128 is the 65th instance, the 129th method or the 65th rule"
        self.refused(b"UM" * 65, 5, 128, words)
        words = (
            "the record at offset 2 has a field out of its range, "
            "or a kind and a result that disagree"
        )
        self.refused(b"UMCR\0\0\0\0\0SC\0", 6, 2, words)
        words = (
            "the record at offset 2 has a body with an unknown or out-of-range byte, "
            "or of depth 17, or that is not exactly its expressions"
        )
        self.refused(b"UMRL\x02\0\x02\x01SC\0", 7, 2, words)

    def test_places(self):
        words = (
            "at offset 3 stands a method or rule whose latest instance is no user module, "
            "or a byte after the schedule"
        )
        self.refused(b"SC\0S", 4, 3, words)
        words = "the schedule at offset 2 names a missing rule, or one twice"
        self.refused(b"UMSC\x01\0", 8, 2, words)

    def test_goes_by_pickle(self):
        again = pickle.loads(pickle.dumps(Refused(2, 8)))
        self.assertEqual(str(again), str(Refused(2, 8)))


class Checks(unittest.TestCase):
    def failed(self, file, number, place, words):
        with self.assertRaises(Failed) as caught:
            Design(file).check()
        failure = caught.exception
        self.assertEqual((failure.number, failure.place), (number, place))
        self.assertEqual(failure.words, words)
        end = f"in the record at offset {place} (number {number}, place {place})"
        self.assertEqual(str(failure), f"{words} {end}")

    def test_number_as_a_guard(self):
        """Document 01, P8; its rule's record stands at 2."""
        self.failed(case("p8")[1], 21, 2, "wrong kind of value")

    def test_method_that_gives_another_kind(self):
        self.failed(case("liar")[1], 21, 2, "wrong kind of value")

    def test_call_of_a_missing_instance(self):
        file = b"UMRL\x07\0\x02\x01\x0B\x0A\x09\0\0SC\x01\0"
        self.failed(file, 23, 2, "instance missing or not below the caller's")


class Clocks(unittest.TestCase):
    def test_outcome(self):
        """Clock 6 of gcd: finish, rule 3, fires and displays 8."""
        board = Board(bundled("gcd"))
        self.assertEqual(board.run(6).count, 6)
        outcome = board.clock()
        self.assertEqual((outcome.fired, outcome.quiet, outcome.stuck), (True, False, None))
        fates = [Fate.UNAVAILABLE, Fate.FIRED, Fate.UNAVAILABLE, Fate.UNAVAILABLE]
        self.assertEqual(outcome.fates, tuple(zip((2, 3, 0, 1), fates)))
        self.assertEqual((outcome.letters, outcome.displays), ("UFUU", (8,)))
        self.assertEqual(str(outcome), "fired, 1 displays")

    def test_quiet(self):
        """Clock 7 of gcd."""
        board = Board(bundled("gcd"))
        board.run(7)
        outcome = board.clock()
        self.assertEqual((outcome.fired, outcome.quiet, outcome.stuck), (False, True, None))
        self.assertEqual((outcome.letters, str(outcome)), ("UUUU", "quiet"))

    def test_stuck_gives_the_registers_back(self):
        board = Board(Design(STUCK_SECOND))
        outcome = board.clock()
        self.assertEqual((outcome.fired, outcome.quiet), (False, False))
        self.assertEqual(outcome.stuck, Stuck(rule=1, number=21))
        self.assertEqual(outcome.stuck.words, "wrong kind of value")
        self.assertEqual(str(outcome), "rule 1 is stuck: wrong kind of value (number 21)")
        self.assertEqual((outcome.letters, outcome.displays), ("FS-", (7,)))
        self.assertEqual(board.state[0], 5)

    def test_stuck_run(self):
        board = Board(Design(STUCK_SECOND))
        board.state[0] = 77
        ended = board.run(10)
        self.assertEqual((ended.ending.stuck, ended.count), (Stuck(1, 21), 0))
        self.assertEqual((ended.ending.limit, ended.ending.quiet), (False, False))
        words = "rule 1 is stuck: wrong kind of value (number 21), after 0 clocks that fired"
        self.assertEqual((str(ended), board.state[0]), (words, 77))

    def test_no_clocks(self):
        ended = Board(bundled("p10")).run(0)
        self.assertEqual(str(ended), "limit, after 0 clocks that fired")

    def test_nothing_at_all(self):
        """Document 01: an empty schedule is quiet. Here no instance either."""
        board = Board(Design(b"SC\0"))
        self.assertEqual(len(board.state), 0)
        self.assertTrue(board.clock().quiet)
        self.assertTrue(board.run(5).ending.quiet)

    def test_outcomes_are_kept(self):
        """A later clock does not change what an earlier one told."""
        board = Board(Design(TWO_TO_THREE))
        first, second = board.clock(), board.clock()
        self.assertEqual((first.letters, first.displays), ("FF", (2,)))
        self.assertEqual((second.letters, second.displays), ("FU", (3,)))

    def test_two_boards_of_one_design(self):
        design = bundled("p10")
        one, other = Board(design), Board(design)
        one.run(3)
        self.assertEqual((one.state[0], other.state[0]), (8, 5))

    def test_in_a_thread(self):
        """A stack of 2 MiB is enough, as the top of cantaribol.py says."""
        board, outcomes = Board(Design(deep())), []
        thread = threading.Thread(target=lambda: outcomes.append(board.clock()))
        before = threading.stack_size(2 << 20)
        thread.start()
        threading.stack_size(before)
        thread.join()
        self.assertEqual(outcomes[0].displays, (1 + 62 * 15,))


class Overwriting(unittest.TestCase):
    def test_between_clocks(self):
        board = Board(Design(TWO_TO_THREE))
        board.run(2)
        board.state[0] = 2
        outcome = board.clock()
        self.assertEqual((outcome.letters, outcome.displays), ("FF", (2,)))
        self.assertEqual(board.state[0], 3)

    def test_gcd_starts_again(self):
        """With state, instance 0, at 0 again, init may fire again."""
        board = Board(bundled("gcd"))
        board.run(101)
        board.state[0] = 0
        self.assertEqual(board.run(101).count, 7)

    def test_ends_of_the_range(self):
        """A sum goes round at 2^32."""
        board = Board(bundled("p10"))
        board.state[0] = 2**31 - 1
        board.clock()
        self.assertEqual(board.state[0], -(2**31))
        board.state[0] = -(2**31)
        board.clock()
        self.assertEqual(board.state[0], -(2**31) + 1)

    def test_whole_state(self):
        board = Board(bundled("gcd"))
        board.state = [1, 2, 3, 4, 0, 0]
        self.assertEqual(board.state, [1, 2, 3, 4, 0, 0])
        board.state[1:3] = (8, 9)
        self.assertEqual(board.state[:4], [1, 8, 9, 4])

    def test_reset(self):
        board = Board(bundled("p10"))
        board.run(3)
        board.reset()
        self.assertEqual(board.state[0], 5)

    def test_like_a_list(self):
        board = Board(bundled("p10"))
        self.assertEqual((len(board.state), board.state[-2], board.state[-1]), (2, 5, 0))
        self.assertEqual((list(board.state), repr(board.state)), ([5, 0], "[5, 0]"))
        self.assertEqual(board.state, (5, 0))
        self.assertNotEqual(board.state, [5])
        self.assertIn(5, board.state)


class BadArguments(unittest.TestCase):
    def setUp(self):
        self.board = Board(bundled("p10"))

    def raises(self, kind, words, action, *arguments):
        with self.assertRaises(kind) as caught:
            action(*arguments)
        self.assertEqual(str(caught.exception), words)
        self.assertEqual(self.board.state, [5, 0])

    def test_values(self):
        assign = self.board.state.__setitem__
        words = "a register's value is -2147483648 to 2147483647, not {}"
        for value in (2**31, -(2**31) - 1, 2**32, 2**64):
            self.raises(ValueError, words.format(value), assign, 0, value)
        words = "a register's value is a whole number, not {}"
        self.raises(TypeError, words.format("float"), assign, 0, 1.0)
        self.raises(TypeError, words.format("str"), assign, 0, "1")
        self.raises(TypeError, words.format("NoneType"), assign, 0, None)

    def test_lengths(self):
        assign = self.board.state.__setitem__
        words = "2 values are wanted here, not {}"
        self.raises(ValueError, words.format(1), assign, slice(None), [1])
        self.raises(ValueError, words.format(3), assign, slice(None), [1, 2, 3])
        self.raises(ValueError, words.format(0), setattr, self.board, "state", [])

    def test_all_or_none(self):
        words = "a register's value is -2147483648 to 2147483647, not 2147483648"
        self.raises(ValueError, words, setattr, self.board, "state", [1, 2**31])

    def test_no_entry_comes_or_goes(self):
        self.assertFalse(hasattr(self.board.state, "append"))
        self.assertFalse(hasattr(self.board.state, "__delitem__"))

    def test_indices(self):
        state = self.board.state
        self.raises(IndexError, "the state has 2 entries and none at 2", state.__getitem__, 2)
        self.raises(IndexError, "the state has 2 entries and none at -3", state.__setitem__, -3, 1)
        self.raises(TypeError, "an index is a whole number, not str", state.__getitem__, "0")

    def test_clocks(self):
        """On gcd, which ends however many clocks it is given."""
        board = Board(bundled("gcd"))
        words = "a number of clocks is 0 to 4294967295, not {}"
        for number in (-1, 2**32, 2**32 + 3):
            self.raises(ValueError, words.format(number), board.run, number)
        words = "a number of clocks is a whole number, not float"
        self.raises(TypeError, words, board.run, 3.0)
        self.assertEqual(board.run(2**32 - 1).count, 7)

    def test_parts(self):
        design = self.board.design
        words = "{} is 0 to 18446744073709551615, not {}"
        rule, method = "a rule's number", "a method's number"
        self.raises(ValueError, words.format(rule, -1), design.rule_part, -1)
        self.raises(ValueError, words.format(rule, 2**64), design.rule_part, 2**64)
        self.raises(ValueError, words.format(method, -1), design.method_part, 1, -1)
        words = words.format("an instance's number", 2**64 + 1)
        self.raises(ValueError, words, design.method_part, 2**64 + 1, 0)

    def test_kinds(self):
        self.raises(TypeError, "a design is bytes, not str", Design, "SC")
        self.raises(TypeError, "a design is bytes, not int", Design, 5)
        self.raises(TypeError, "a board is made of a Design, not bytes", Board, b"SC\0")


class Words(unittest.TestCase):
    NUMBERS = [*range(1, 15), *range(21, 29)]

    def test_any_other_number_has_none(self):
        for number in range(-1, 300):
            has_words = cantaribol.words(number) != ""
            self.assertEqual(has_words, number in self.NUMBERS, number)

    def test_same_as_the_header(self):
        header = (TOP / "include" / "cantaribol.h").read_text()
        tables = re.findall(r"\b(?:refusals|reasons)\[\] = \{(.*?)\};", header, re.DOTALL)
        self.assertEqual(len(tables), 2)
        joined = re.sub(r'"\s*"', "", "".join(tables))
        texts = [cantaribol.words(number) for number in self.NUMBERS]
        self.assertEqual(re.findall(r'"([^"]*)"', joined), texts)

    def test_same_as_the_crate(self):
        crate = TOP / "rust" / "cantaribol" / "src"
        refusals = (crate / "refusal.rs").read_text().split("fn words", 1)[1]
        refusals = refusals.split("impl fmt::Display", 1)[0]
        reasons = (crate / "reason.rs").read_text().split("impl fmt::Display", 1)[1]
        joined = re.sub(r"\\\n\s*", "", refusals + reasons)
        texts = re.findall(r'=> (?:\{\s*)?"([^"]*)"', joined)
        # A plan and a log of its own are never too short: 13 and 14 are no words of the crate.
        numbers = [number for number in self.NUMBERS if number not in (13, 14)]
        self.assertEqual(len(texts), len(numbers))
        for number, text in zip(numbers, texts):
            self.assertIn(text, cantaribol._sentence(number, 8))

    def test_letters(self):
        """docs/FORMAT.md: the lister's letters for fates 0 to 6."""
        self.assertEqual("".join(Fate(byte).letter for byte in range(7)), "FUAEHS-")

    def test_one_version(self):
        version = cantaribol.__version__
        for name, line in {
            "include/cantaribol.h": f'#define CANTARIBOL_VERSION "{version}"',
            "include/cantaribol.pc": f"Version: {version}",
            "rust/Cargo.toml": f'version = "{version}"',
        }.items():
            self.assertIn(line, (TOP / name).read_text().splitlines(), name)


class Loading(unittest.TestCase):
    def error_with(self, path):
        program = "import cantaribol; print('imported'); cantaribol.Design(b'')"
        environment = {**os.environ, "CANTARIBOL_SO": str(path)}
        return subprocess.run(
            [sys.executable, "-c", program],
            cwd=TOP / "python",
            env=environment,
            capture_output=True,
            text=True,
        )

    def test_missing_object(self):
        said = self.error_with(TOP / "no-such-folder" / "no.so")
        self.assertEqual((said.returncode, said.stdout), (1, "imported\n"))
        self.assertIn("FileNotFoundError: no shared object", said.stderr)
        self.assertIn(f"\n    {cantaribol.COMMAND}\n", said.stderr)

    def test_another_file(self):
        path = DESIGNS / "p10.bin"
        said = self.error_with(path)
        self.assertIn(f"OSError: {path} is not the library: ", said.stderr)

    def test_another_library(self):
        with self.assertRaisesRegex(AttributeError, "cantaribol_read"):
            cantaribol._typed(SimpleNamespace())

    def test_one_command(self):
        """The one that is documented is the one that the gate runs."""
        self.assertIn(f"\n    {cantaribol.COMMAND}\n", cantaribol.__doc__)
        gate = (TOP / ".ci" / "run").read_text()
        self.assertIn(cantaribol.COMMAND, gate.splitlines())


if __name__ == "__main__":
    result = unittest.main(exit=False).result
    failed = len(result.failures) + len(result.errors)
    print(f"{result.testsRun - failed} passed, {failed} failed")
    sys.exit(failed > 0 or result.testsRun == 0)
