"""The manual says what the programs do: its examples are run, its pieces decoded, its words are the table's."""
import os
import re
import subprocess
import tempfile
import unittest
from pathlib import Path

from command import boardfile, refusals
from command.main import COMMANDS, usage_of
from command.tests.workshop import ROOT

MANUAL = (ROOT / "docs" / "MANUAL.md").read_text()
PAGE = (ROOT / "docs" / "channel.1").read_text()
SCOPE = (ROOT / "docs" / "SCOPE.md").read_text()
ONLY_FROM_C = {1, 21, 22, 23}  # refusals that the commands never give
SECTIONS = ("Wiring rule", "Pin list", "Spans and constraints", "Filling tracks", "Drawing", "Board file",
            "Judge, blanks, programs", "The shop's refusal words", "Bench examples", "Which form belongs where",
            "Contracts and examples")
CITED = re.compile(r'SCOPE[,] "([^"]+)"')


def blocks(section):
    """The transcripts of a section: for each command, its output with all space between words made one. A line that is
    not indented ends one."""
    found, inside = [], False
    for line in section.splitlines():
        if line.startswith("    $ "):
            found.append([line[6:], ""])
            inside = True
        elif not line.startswith("    "):
            inside = False
        elif inside:
            found[-1][1] += f" {line}"
    return [(command, " ".join(output.split())) for command, output in found]


def sections():
    """The manual's sections by heading, of second and third degree."""
    parts = re.split(r"^##+ (.*)$", MANUAL, flags=re.MULTILINE)
    return dict(zip(parts[1::2], parts[2::2]))


class Manual(unittest.TestCase):
    def setUp(self):
        room = tempfile.TemporaryDirectory(prefix="channel-test-")
        self.addCleanup(room.cleanup)
        self.room = Path(room.name)
        (self.room / "bin").mkdir()
        (self.room / "bin" / "channel").symlink_to(ROOT / "channel")

    def told(self, command):
        environment = dict(os.environ, PATH=f"{self.room / 'bin'}:{os.environ['PATH']}")
        done = subprocess.run(["sh", "-c", command], cwd=self.room, env=environment, stdout=subprocess.PIPE,
                              stderr=subprocess.STDOUT, check=False)
        return " ".join(done.stdout.decode().split())

    def test_every_example_is_as_it_is_told(self):
        count = 0
        for heading, section in sections().items():
            for command, due in blocks(section):
                with self.subTest(heading, command=command):
                    self.assertEqual(self.told(command), due)
                    count += 1
        self.assertGreater(count, 30)

    def test_every_refusal_is_told_with_an_example(self):
        headings = [heading for heading in sections() if heading[0].isdigit()]
        table = refusals.read_table()
        self.assertEqual(headings, [f"{number} {refusal.word}" for number, refusal in table.items()])
        for heading in headings:
            number = int(heading.split()[0])
            shown = any(due.startswith(f"REFUSED {number} ") for _, due in blocks(sections()[heading]))
            self.assertEqual(shown, number not in ONLY_FROM_C, heading)
            if number in ONLY_FROM_C:  # the remedies of the others are in their examples
                self.assertIn(table[number].remedy, " ".join(sections()[heading].split()))

    def test_the_pieces_of_the_worked_example(self):
        rows = re.findall(r"^\| (\d+) \| `([0-9a-f ]+)` \| (.*) \|$", MANUAL, re.MULTILINE)
        self.assertEqual(len(rows), 11)
        for number, word, words in rows:
            board = bytes(4) + bytes.fromhex(word)
            self.assertEqual(boardfile.described(boardfile.piece_of(board, 1)), words, number)

    def test_the_commands_are_told(self):
        for command in COMMANDS.values():
            self.assertIn(f"`{usage_of(command)}`", MANUAL)

    def test_the_order_screen_is_told(self):
        keys = ROOT / "screen" / "KEYS.md"
        if keys.exists():
            told = re.sub(r"^#.*\n", "", keys.read_text(), flags=re.MULTILINE).strip()
            self.assertIn(" ".join(told.split()), " ".join(re.sub(r"^#.*\n", "", MANUAL, flags=re.MULTILINE).split()))


class ManPage(unittest.TestCase):
    def test_commands_and_refusals(self):
        plain = PAGE.replace("\\-", "-").replace("\\(aq", "'")
        for name in COMMANDS:
            self.assertIn(f"\n.B channel {name}\n", PAGE.replace("\\-", "-"))
        for number, refusal in refusals.read_table().items():
            self.assertIn(f"\n.B {number} {refusal.word}\n", plain)


class Scope(unittest.TestCase):
    def test_every_part_of_the_scope_has_its_paragraph(self):
        for name in SECTIONS:
            self.assertIn(f"\n### {name}\n\n", SCOPE)
        for number in (1, 2, 3):
            self.assertIn(f"\n**Demand {number}: ", SCOPE)
        for number in range(1, 15):
            self.assertIn(f"\n**Req {number:02}. ", SCOPE)

    def test_every_heading_that_is_cited_stands_there(self):
        cited = set()
        for folder, inner, names in os.walk(ROOT):
            inner[:] = [name for name in inner if name not in (".git", "out", "target", "__pycache__")]
            for name in names:
                if name.endswith((".rt", ".antt", ".edit", ".md", ".py", ".c", ".h")):
                    cited |= set(CITED.findall(Path(folder, name).read_text()))
        self.assertIn("Wiring rule", cited)
        for name in cited:
            self.assertIn(f"\n### {name}\n", SCOPE)
