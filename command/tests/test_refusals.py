"""One table of refusals: the C header, the pictures, the command and the manual have its words and no others."""
import re
import subprocess
import tempfile
import unittest
from pathlib import Path

from command import answers, refusals
from command.explain import is_of_board, meaning_of
from command.tests.workshop import ROOT
from picture.scenes import status_of

PRINTER = """
#include <stdio.h>
#include "refusals_table.h"
int main(void)
{
    for (int i = 0; i < REFUSALS_COUNT; i++)
        printf("%d\\t%s\\t%s\\t%s\\n", refusals_table[i].number, refusals_table[i].word, refusals_table[i].meaning,
               refusals_table[i].remedy);
}
"""


class Table(unittest.TestCase):
    def setUp(self):
        self.table = refusals.read_table()

    def test_numbers_and_words(self):
        self.assertEqual(list(self.table), [0, 1, 2, 3, 4, 5, *range(7, 17), 18, 21, 22, 23])
        self.assertEqual(len({refusal.word for refusal in self.table.values()}), len(self.table))

    def test_the_header_for_c_programs(self):
        rows = re.findall(r"^ \* +(\d+)  (\S.*?)  +\S", (ROOT / "screen" / "channel.h").read_text(), re.MULTILINE)
        self.assertEqual(rows, [(str(number), self.table[number].word) for number in list(self.table)[1:]])

    def test_the_header_for_the_order_screen(self):
        with tempfile.TemporaryDirectory() as folder:
            room = Path(folder)
            (room / "print.c").write_text(PRINTER)
            subprocess.run(["python3", ROOT / "screen" / "make_refusals.py", room / "refusals_table.h"], check=True)
            subprocess.run(["cc", "-std=c11", "-Wall", "-Wextra", "-Werror", "print.c", "-o", "print"], cwd=room,
                           check=True)
            printed = subprocess.run([room / "print"], stdout=subprocess.PIPE, check=True).stdout.decode()
        self.assertEqual(printed, "".join(refusals.TABLE.read_text().splitlines(keepends=True)[1:]))

    def test_a_header_that_cannot_be_written(self):
        done = subprocess.run(["python3", ROOT / "screen" / "make_refusals.py", "/nowhere/at/all.h"],
                              stderr=subprocess.PIPE, check=False)
        self.assertEqual((done.returncode, done.stderr.count(b"\n")), (2, 1))

    def test_the_pictures(self):
        for number, refusal in self.table.items():
            verdict = answers.Verdict("REFUSED", number, 5, ())
            self.assertEqual(status_of(verdict), f"REFUSED {number} 5: {refusal.word}")
            self.assertNotIn("%p", meaning_of(verdict))

    def test_no_answer_has_a_number_that_is_not_used(self):
        for number in range(30):
            ring = b"RING 1 1\n" if number == 7 else b""
            taken = answers.refusal_of(b"REFUSED %d 1\n" % number + ring)
            self.assertEqual(taken is not None, number in self.table, number)

    def test_which_are_of_a_board_file(self):
        pins = b"TOP 1 1\nBOT 0 0\n"
        for number in range(1, 30):
            self.assertEqual(is_of_board(answers.Verdict("REFUSED", number, 5, ()), pins), 8 <= number <= 13)
        for place, long in ((65536, True), (5, False)):
            self.assertEqual(is_of_board(answers.Verdict("REFUSED", 0, place, ()), pins), long)

    def test_a_table_of_another_form(self):
        lines = refusals.TABLE.read_text().splitlines(keepends=True)
        before, seven, after = lines[:7], lines[7], lines[8:]
        wrong = {
            "empty": [], "heading alone": lines[:1], "no heading": lines[1:], "cut": lines[:-1],
            "more": [*lines, "24\ta\tb\tc\n"], "a number left out": before + after,
            "two exchanged": [*before, after[0], seven, *after[1:]],
            "a text less": [*before, "7\ta\tb\n", *after], "an empty text": [*before, "7\ta\t\tc\n", *after],
        }
        for number in (6, 17, 19, 20):
            at = 1 + sum(used < number for used in self.table)
            for name, end in (("among the others", at), ("for another", at + 1)):
                wrong[f"{number}, which is not used, {name}"] = [*lines[:at], f"{number}\ta\tb\tc\n", *lines[end:]]
        for name, changed in wrong.items():
            with self.subTest(name), tempfile.NamedTemporaryFile("w", suffix=".tsv") as file:
                file.write("".join(changed))
                file.flush()
                self.assertRaises(refusals.BadTable, refusals.read_table, file.name)
