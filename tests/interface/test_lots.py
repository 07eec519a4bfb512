"""The usage of bin/lots and its manual, docs/lots.1, against the table and the program; blanks."""

import os
import re
import unittest

from common import ROOT, refusals, run

PROGRAM = os.environ["LOTS"]
MANUAL = (ROOT / "docs" / "lots.1").read_text(encoding="ascii")

COMMANDS = ["p N A1 R1 A2 R2 ..", "o LOT", "i LOT CLASS", "s LOT", "l LOT", "c LOT", "t"]

# Refusals of calls that the program does not make, or not so that they are given.
OF_THE_LIBRARY_ALONE = {1, 18, 20, 19, 13, 17, 14, 15}


def literal_blocks():
    parts = MANUAL.split(".Bd -literal -offset indent\n")[1:]
    return [part.split(".Ed\n", 1)[0] for part in parts]


class Usage(unittest.TestCase):
    def test_help(self):
        long, short = run("bin/lots", "--help"), run("bin/lots", "-h")
        self.assertEqual((long.returncode, long.stderr), (0, ""))
        self.assertEqual((short.returncode, short.stdout), (0, long.stdout))
        words = " ".join(long.stdout.split())
        for command in COMMANDS:
            self.assertIn(f"\n  {command} ", long.stdout)
        for number, name, _ in refusals():
            self.assertEqual(f" {number} {name}" in words, number not in OF_THE_LIBRARY_ALONE, name)

    def test_other_arguments(self):
        for arguments in (["x"], ["--helpful"], [""], ["p", "5"], ["x", "--help"]):
            done = run("bin/lots", *arguments, input="t\n")
            self.assertEqual((done.returncode, done.stdout), (2, ""), arguments)
            self.assertIn("usage: bin/lots", done.stderr)


class Manual(unittest.TestCase):
    def test_refusals(self):
        """All rows of the table, in its order."""
        found = re.findall(r"^\.It (\d+)\n([^:]+): (.*)$", MANUAL, re.MULTILINE)
        self.assertEqual([(int(number), *words) for number, *words in found], refusals())

    def test_example(self):
        """The commands of the manual get its replies."""
        commands, replies = literal_blocks()
        done = run(PROGRAM, input=commands)
        self.assertEqual((done.returncode, done.stdout, done.stderr), (0, replies, ""))

    def test_limits(self):
        before = run(PROGRAM, input="t\no 7\np 5 2 3 1\np 5 2 3 1 3\n")
        self.assertEqual(before.stdout, "no 3\nno 3\nno 16\nno 2\n")
        # Lots of all offices, and of one alone: no office has a share.
        for step in (1, 16):
            opens = "".join(f"o {step * lot}\n" for lot in range(1, 4083))
            full = run(PROGRAM, input="p 5 2 3 1 2\n" + opens)
            self.assertEqual(full.stdout, "ok\n" * 4082 + "no 11\n")
        long = run(PROGRAM, input=f"t{' ' * 300}\no 1")
        self.assertEqual((long.returncode, long.stdout), (0, "no 16\nno 3\n"))


class Blanks(unittest.TestCase):
    def test_replies(self):
        """Blanks stand last in a look and are within marginal; the totals have them there alone."""
        commands = ["p 5 2 3 1 2", "o 7", "i 7 3", "l 7", "i 7 1", "i 7 4", "i 7 3", "l 7", "s 7",
                    "l 7", "i 7 3", "c 7", "t"]
        replies = ["ok", "ok", "ok", "undecided 1 0 1 0 1", "ok", "no 7", "ok",
                   "rejected 3 0 3 0 2", "ok", "undecided 2 0 2 0 1", "ok", "ok",
                   "tally 0 1 0 3 0"]
        done = run(PROGRAM, input="\n".join(commands))
        self.assertEqual(done.stdout.splitlines(), replies)


if __name__ == "__main__":
    unittest.main()
