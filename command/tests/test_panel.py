"""Two lists on one panel: what `panel` writes and says, and what is refused under which name."""
import random
import sys
import unittest.mock

from command import answers, panels
from command.tests.panel_lists import (A_B, A_B_LISTED, B, B_A, BARE, GAP, PARKED, STRAIGHT, Panels, begins, text,
                                       wide)
from command.tests.workshop import A, REFUSED_LISTS, ROOT, TANGLED

sys.path.insert(0, str(ROOT / "reference"))
import channel  # noqa: E402  (the independent program, which lists the random lists)
import random_channels  # noqa: E402
import random_texts  # noqa: E402
from text_cases import in_columns  # noqa: E402

JOINED = {  # two lists, their panel, the column in which the second begins, and by how much it is raised
    "plain": (A, B, A_B, 5, 3),
    "the other way round": (B, A, B_A, 8, 6),
    "one column each": (STRAIGHT, STRAIGHT, b"TOP 1 2\nBOT 1 2\n", 2, 1),
    "no pins before": (BARE, A, b"TOP 0 0 0 1 2 3\nBOT 0 0 1 2 0 3\n", 3, 0),
    "no pins behind": (A, BARE, b"TOP 0 1 2 3 0 0\nBOT 1 2 0 3 0 0\n", 5, 3),
    "the highest is in BOT": (b"TOP 1 0\nBOT 9 9\n", STRAIGHT, b"TOP 1 0 10\nBOT 9 9 10\n", 3, 9),
    "gaps stay": (GAP, b"TOP 5 5\nBOT 90 90\n", b"TOP 400 400 1 405 405\nBOT 7 7 1 490 490\n", 4, 400),
    "the highest number that fits": (wide(1, 510), STRAIGHT, b"TOP 510 511\nBOT 510 511\n", 2, 510),
    "as wide as may be": (wide(511, 3), STRAIGHT, text([0] * 510 + [3, 4], [0] * 510 + [3, 4]), 512, 3),
    "511 columns behind": (STRAIGHT, wide(511, 3), text([1] + [0] * 510 + [4], [1] + [0] * 510 + [4]), 2, 1),
}


def joined(one, two):
    """The rows of a panel, by the request's words."""
    highest = max(one[0] + one[1])
    return [above + [net + highest if net > 0 else 0 for net in behind] for above, behind in zip(one, two)]


def without_gaps(rows):
    """The same list, its nets numbered from 1 in the same order."""
    nets = sorted({0, *rows[0], *rows[1]})
    return [[nets.index(net) for net in row] for row in rows]


def listed(pins):
    """What the independent program says of a list, as the command takes it."""
    output = channel.listing(pins)
    return output, answers.facts_of(output) or answers.refusal_of(output)


class Due(unittest.TestCase):
    """What is asked of the programs, on lists that the independent program lists."""

    def setUp(self):
        self.draw = random.Random(2026)
        patch = unittest.mock.patch("command.programs.listing", listed)
        patch.start()
        self.addCleanup(patch.stop)

    def parts(self):
        rows = [random_channels.escaping(self.draw) for _ in range(2)]
        if self.draw.random() < 0.8:
            rows = list(map(without_gaps, rows))
        return rows, [panels.part_of("pins", random_texts.typed(self.draw, *pair)) for pair in rows]

    def test_the_panel_of_any_two_lists(self):
        seen = set()
        for _ in range(300):
            rows, parts = self.parts()
            top, bot = joined(*rows)
            over = [net for net in top + bot if net > 511]
            due = b"REFUSED 18 %d\n" % min(over) if over else text(top, bot)
            if len(top) > 512:
                due = b"REFUSED 3 513\n"
            self.assertEqual(panels.due(*parts), due)
            seen.add(due.split()[0])
        self.assertEqual(seen, {b"REFUSED", b"TOP"})

    def test_the_listing_of_any_panel(self):
        """A panel is tangled exactly if one of its lists is, and else listed just as is due."""
        tangled = plain = 0
        for _ in range(300):
            rows, parts = self.parts()
            top, bot = joined(*rows)
            if max(top + bot) > 511 or len(top) > 512:
                continue
            output = channel.listing(text(top, bot))
            panels.refuse_another_listing(*parts, text(top, bot))
            self.assertEqual(output.startswith(b"REFUSED 7 "), any(map(panels.is_tangled, parts)))
            tangled += output.startswith(b"REFUSED 7 ")
            plain += output.startswith(b"BOARD ") and output == panels.listing_due(*parts)
        self.assertGreater(min(tangled, plain), 20)


class Panel(Panels):
    def test_the_panel(self):
        for name, (first, second, due, column, by) in JOINED.items():
            with self.subTest(name):
                status, output, words = self.told(first, second)
                self.assertEqual((status, output, words.splitlines(True)[0]), (0, due, begins(column, by)))
                nets = [word for word in due.split() if word not in (b"0", b"TOP", b"BOT")]
                self.assertEqual("parked" in words, 1 in map(nets.count, nets))

    def test_padded_lists(self):
        for first, second in ((in_columns(A), B), (A, in_columns(B)), (in_columns(A), in_columns(B))):
            self.assertEqual(self.told(first, second), (0, A_B, begins(5, 3)))

    def test_standard_input(self):
        self.assertEqual(self.told(A, B, "panel", "-", "b.txt", stdin=A), (0, A_B, begins(5, 3)))
        self.assertEqual(self.told(A, B, "panel", "a.txt", "-", stdin=B), (0, A_B, begins(5, 3, "standard input")))
        self.assertEqual(self.told(A, B, "panel", "-", "-", stdin=B)[:2], (2, b""))

    def test_a_list_twice(self):
        due = b"TOP 0 1 2 3 0 4 5 6\nBOT 1 2 0 3 4 5 0 6\n"
        self.assertEqual(self.told(A, B, "panel", "a.txt", "a.txt"), (0, due, begins(5, 3, "a.txt")))

    def test_names_that_begin_with_a_dash(self):
        self.put("-odd", A)
        self.assertEqual(self.told(A, B, "panel", "--", "-odd", "b.txt"), (0, A_B, begins(5, 3)))

    def test_on_to_other_commands(self):
        self.told(A, B)
        self.assertEqual(self.piped("CH panel a.txt b.txt | CH list -"), (0, A_B_LISTED, begins(5, 3)))
        status, output, _ = self.piped("CH panel a.txt b.txt | CH make - board")
        self.assertEqual((status, output), (0, A_B_LISTED))
        self.assertEqual(self.piped("CH panel a.txt b.txt | CH judge - board")[:2], (0, b"GOOD 5\n"))
        status, output, _ = self.piped("CH panel a.txt b.txt | CH picture - --second 5")
        self.assertEqual((status, b"the second list begins in column 5<" in output), (0, True))
        status, output, _ = self.piped("CH panel a.txt b.txt | CH picture - board --second=5")
        self.assertEqual((status, b"the second list begins in column 5<" in output), (0, True))

    def test_three_lists_in_either_grouping(self):
        draw = random.Random(9)
        lists = [(A, B, PARKED), (B, GAP, A), (BARE, STRAIGHT, BARE), (TANGLED, A, TANGLED),
                 (wide(300, 4), A, wide(208, 5)), (wide(1, 500), STRAIGHT, wide(1, 10))]
        lists += [[random_texts.typed(draw, *without_gaps(random_channels.escaping(draw))) for _ in range(3)]
                  for _ in range(4)]
        for first, second, third in lists:
            self.told(first, second)
            self.put("c.txt", third)
            left = self.piped("CH panel a.txt b.txt | CH panel - c.txt")
            right = self.piped("CH panel b.txt c.txt | CH panel a.txt -")
            self.assertEqual((left[:2], left[0]), (right[:2], 0))

    def test_help(self):
        status, output, words = self.told(A, B, "help", "panel")
        self.assertEqual((status, words), (0, ""))
        self.assertTrue(output.startswith(b"usage: channel panel PINS1 PINS2 > PANEL\n\nWrites on standard output "))
        self.assertEqual(self.told(A, B, "panel", "--help")[1], output)

    def test_a_panel_over_one_of_its_lists(self):
        """The shell has emptied it, which is told; nothing is joined to what stood there."""
        for name in ("a.txt", "b.txt"):
            self.told(A, B)
            status, _, words = self.piped(f"CH panel a.txt b.txt >{name}")
            self.assertEqual((status, (self.room / name).read_bytes()), (1, b"REFUSED 2 0\n"))
            self.assertIn(f"channel: {name}: this is no pin list: ", words)
            self.assertIn("the file is empty", words)


class Tangled(Panels):
    SAID = ("the list is tangled, and so is the panel: it has no board with one trunk a net (channel list shows a "
            "ring)\n")

    def test_a_tangled_list_is_joined(self):
        for first, second, due, column, by, names in (
                (TANGLED, A, b"TOP 1 2 0 3 4 5\nBOT 2 1 3 4 0 5\n", 3, 2, ("a.txt",)),
                (A, TANGLED, b"TOP 0 1 2 3 4 5\nBOT 1 2 0 3 5 4\n", 5, 3, ("b.txt",)),
                (TANGLED, TANGLED, b"TOP 1 2 3 4\nBOT 2 1 4 3\n", 3, 2, ("a.txt", "b.txt"))):
            told = "".join(f"channel: {name}: {self.SAID}" for name in names)
            self.assertEqual(self.told(first, second), (0, due, begins(column, by) + told))
            self.assertEqual(self.told(due, A, "list", "a.txt")[1][:10], b"REFUSED 7 ")

    def test_on_to_other_commands(self):
        self.told(A, TANGLED)
        status, output, _ = self.piped("CH panel a.txt b.txt | CH list -")
        self.assertEqual((status, output), (1, b"REFUSED 7 2\nRING 4 5\nRING 5 6\n"))
        status, output, _ = self.piped("CH panel a.txt b.txt | CH picture - --second 5")
        self.assertEqual((status, b"the second list begins in column 5<" in output), (1, True))


class Parked(Panels):
    def test_parked_pins_of_either_list(self):
        two = ("2 pins are parked (net 2 at column 1, BOT; net 30 at column 3, TOP): each number stands just once\n")
        status, _, words = self.told(PARKED, A)
        self.assertEqual((status, words), (0, begins(4, 30) + f"channel: a.txt: {two}"))
        status, output, words = self.told(A, PARKED)
        self.assertEqual((status, words), (0, begins(5, 3) + f"channel: b.txt: {two}"))
        self.assertEqual(output, b"TOP 0 1 2 3 4 4 33\nBOT 1 2 0 3 5 0 0\n")
        words = self.told(PARKED, PARKED, "panel", "a.txt", "-", stdin=PARKED)[2]
        told = f"channel: a.txt: {two}channel: standard input: {two}"
        self.assertEqual(words, begins(4, 30, "standard input") + told)

    def test_they_are_told_after_rings(self):
        words = self.told(b"TOP 1 2 9\nBOT 2 1 0\n", A)[2].splitlines()
        self.assertEqual([word in line for word, line in zip(("begins", "tangled", "parked"), words)], [True] * 3)

    def test_a_parked_pin_that_fills_the_panel(self):
        """A slip of the pen may be what made a number too high, so it is told under refusal 18 as well."""
        status, output, words = self.told(b"TOP 1 1 510\nBOT 0 0 0\n", A)
        self.assertEqual((status, output, words.count("\n")), (1, b"REFUSED 18 512\n", 3))
        self.assertIn("channel: a.txt: 1 pin is parked (net 510 at column 3, TOP)", words.splitlines()[2])
        self.assertIn("b.txt: 1 pin is parked", self.told(wide(512, 2), b"TOP 1\nBOT 0\n")[2].splitlines()[2])


class Refused(Panels):
    def test_each_list_is_refused_under_its_own_name(self):
        for pins, due in REFUSED_LISTS.items():
            with self.subTest(due, pins=pins[:30]):
                alone = self.told(pins, pins, "list", "a.txt")
                self.assertEqual(alone[:2], (1, due))
                self.assertEqual(self.told(pins, A), alone)
                self.assertEqual(self.told(A, pins), (1, due, alone[2].replace("a.txt", "b.txt")))
                self.assertEqual(self.told(TANGLED, pins), (1, due, alone[2].replace("a.txt", "b.txt")))
                self.assertEqual(self.told(A, A, "panel", "a.txt", "-", stdin=pins),
                                 (1, due, alone[2].replace("a.txt", "standard input")))

    def test_the_first_list_comes_first(self):
        uneven, garbled, high = b"TOP 1 2 2\nBOT 2 1\n", b"", b"TOP 512\nBOT 0\n"
        for first, second, due in ((high, garbled, b"REFUSED 5 1\n"), (uneven, high, b"REFUSED 4 3\n"),
                                   (garbled, uneven, b"REFUSED 2 0\n"), (wide(513), wide(513), b"REFUSED 3 513\n")):
            status, output, words = self.told(first, second)
            self.assertEqual((status, output, words.count("\n")), (1, due, 2))
            self.assertTrue(words.startswith("channel: a.txt: "))

    def test_columns_together(self):
        for first, second, together in ((wide(512, 2), STRAIGHT, "512 columns, b.txt 1, together 513"),
                                        (STRAIGHT, wide(512, 2), "1 column, b.txt 512, together 513"),
                                        (wide(300, 2), wide(300, 500), "300 columns, b.txt 300, together 600")):
            status, output, words = self.told(first, second)
            self.assertEqual((status, output), (1, b"REFUSED 3 513\n"))
            self.assertEqual(words, "channel: panel: a row has more than 512 columns: column 513 is the first too "
                                    f"many; a.txt has {together}\nchannel: leave out columns, or order two boards\n")

    def test_a_panel_that_is_full(self):
        remedy = "channel: number the nets of both lists without gaps, or order two boards\n"
        for first, second, place, net, by in ((wide(2, 400), wide(2, 112), 512, 112, 400),
                                              (A, wide(3, 511), 514, 511, 3),
                                              (wide(1, 511), wide(1, 511), 1022, 511, 511),
                                              (wide(1, 500), b"TOP 300 0 20\nBOT 300 12 20\n", 512, 12, 500),
                                              (GAP, b"TOP 111 300 300\nBOT 111 200 200\n", 600, 200, 400)):
            status, output, words = self.told(first, second)
            self.assertEqual((status, output), (1, b"REFUSED 18 %d\n" % place))
            said = (f"channel: panel: a net of the second list would get the number {place}, over 511; it is net {net} "
                    f"of b.txt, raised by {by}, the highest number of a.txt\n{remedy}")
            self.assertTrue(words.startswith(said), words)
        words = self.told(A, A, "panel", "-", "b.txt", stdin=wide(1, 510))[2]
        self.assertIn("; it is net 2 of b.txt, raised by 510, the highest number of standard input\n", words)

    def test_too_wide_comes_before_full(self):
        self.assertEqual(self.told(wide(300, 500), wide(300, 500))[:2], (1, b"REFUSED 3 513\n"))
        self.assertEqual(self.told(wide(300, 500), wide(212, 500))[:2], (1, b"REFUSED 18 1000\n"))

    def test_nothing_more_is_said(self):
        for first, second in ((wide(512, 2), STRAIGHT), (wide(2, 400), wide(2, 112))):
            for word in ("begins", "tangled", "parked"):
                self.assertNotIn(word, self.told(first, second)[2])
