"""Boards on a customer's own laminate: `make --laminate` tells the blank of its table for a board, or makes none."""
from command.tests.test_blank import PLAIN
from command.tests.test_turn import SAVES, SAVES_TOLD
from command.tests.workshop import LISTED, OLD, TANGLED, Workshop


class Laminate(Workshop):
    def made(self, *words, **options):
        """How `make` ends, what it writes, what it says, and the board that it leaves."""
        done = self.run_channel("make", *words, **options)
        board = self.room / "board"
        return done.status, done.output, done.words, board.read_bytes() if board.exists() else None

    def setUp(self):
        super().setUp()
        self.put("table", PLAIN)
        self.told = "channel: pins: its board goes on the 2-track blank of table (stock: 8)\n"

    def test_where_the_option_stands(self):
        for words in (("pins", "board", "--laminate", "table"), ("pins", "--laminate", "table", "board"),
                      ("--laminate", "table", "pins", "board"), ("--laminate=table", "pins", "board"),
                      ("pins", "board", "--laminate=table"), ("--laminate", "table", "--", "pins", "board")):
            with self.subTest(words):
                (self.room / "board").unlink(missing_ok=True)
                self.assertEqual(self.made(*words), (0, LISTED, self.told, self.board))

    def test_odd_names(self):
        self.put("-a=b", b"3")
        self.told = self.told.replace("2-track blank of table", "3-track blank of -a=b")
        for words in (("--laminate", "-a=b"), ("--laminate=-a=b",)):
            self.assertEqual(self.made("pins", "board", *words), (0, LISTED, self.told, self.board))

    def test_standard_input(self):
        told = self.told.replace("table", "standard input")
        self.assertEqual(self.made("pins", "board", "--laminate", "-", stdin=PLAIN), (0, LISTED, told, self.board))
        told = self.told.replace("pins", "standard input")
        self.assertEqual(self.made("-", "board", "--laminate=table", stdin=self.pins.read_bytes()),
                         (0, LISTED, told, self.board))

    def test_a_board_on_standard_output(self):
        self.assertEqual(self.made("pins", "-", "--laminate", "table"),
                         (0, self.board, LISTED.decode() + self.told, None))

    def test_what_is_told_beside_it(self):
        self.put("pins", b"TOP 1 2 1 3 3 9\nBOT 0 0 0 0 2 0\n")
        lines = self.made("pins", "board", "--laminate", "table")[2].splitlines(keepends=True)
        self.assertEqual(lines[:2], ["channel: pins: its board goes on the 4-track blank of table (stock: 8)\n",
                                     f"channel: pins: {SAVES_TOLD}"])
        self.assertTrue(lines[2].startswith("channel: pins: 1 pin is parked (net 9 "), lines[2:])

    def test_wrong_use(self):
        self.put("board", OLD)
        for words in (("pins", "board", "--laminate"), ("pins", "board", "--laminate="), ("pins", "board", "table"),
                      ("pins", "board", "--laminate", ""), ("pins", "--laminate", "table"),
                      ("pins", "board", "--lam", "table"),
                      ("pins", "board", "--laminate", "table", "--laminate", "table"),
                      ("pins", "board", "--laminate=table", "--laminate=table"), ("--laminate", "--", "pins", "board"),
                      ("-", "board", "--laminate", "-"), ("pins", "board", "--laminate", "none"),
                      ("pins", "board", "--laminate", "."), ("pins", "board", "--laminate=--help")):
            with self.subTest(words):
                status, output, said, board = self.made(*words)
                self.assertEqual((status, output, board, said.count("\n")), (2, b"", OLD, 1))
        self.assertIn("PINS and TABLE cannot both be standard input", self.made("-", "board", "--laminate", "-")[2])
        self.assertIn("--laminate stands twice; usage: channel make PINS BOARD [--laminate TABLE]",
                      self.made("pins", "board", "--laminate=a", "--laminate=b")[2])
        self.assertIn("--laminate needs a TABLE", self.made("pins", "board", "--laminate")[2])

    def test_the_table_is_not_written_over(self):
        (self.room / "link").symlink_to("table")
        for name in ("table", "link", "./table"):
            status, output, words, _ = self.made("pins", name, "--laminate", "table")
            self.assertEqual((status, output, words.count("\n")), (2, b"", 1))
            self.assertIn("is the table of blanks itself, which the board would replace", words)
        with open(self.room / "table", "rb+") as table:
            self.assertEqual(self.run_channel("make", "pins", "-", "--laminate", "table", stdout=table).status, 2)
            self.assertEqual(self.run_channel("make", "pins", "table", "--laminate", "-", stdin=table).status, 2)
        self.assertEqual((self.room / "table").read_bytes(), PLAIN)

    def test_a_table_that_is_refused(self):
        self.put("board", OLD)
        for table, line, part in ((b"1", "16 2", "no blank of the table holds 2 tracks; its last entry is 1"),
                                  (b"", "15 0", "; it has no entry"),
                                  (b"2 4 4", "15 3", "; entry 3 is 4, and entry 2 is 4")):
            for place in ("board", "new", "-"):
                with self.subTest(table, place=place):
                    self.put("table", table)
                    status, output, words, board = self.made("pins", place, "--laminate", "table")
                    self.assertEqual((status, output, board), (1, f"REFUSED {line}\n".encode(), OLD))
                    self.assertEqual((words.count("\n"), self.files()), (2, ["board", "pins", "table"]))
                    self.assertIn(part, words)

    def test_turned_over_it_may_go_on_a_blank(self):
        self.put("pins", SAVES)
        self.put("table", b"2")
        status, output, words, board = self.made("pins", "board", "--laminate", "table")
        self.assertEqual((status, output, board, words.count("\n")), (1, b"REFUSED 16 3\n", None, 3))
        self.assertTrue(words.endswith(f"channel: pins: {SAVES_TOLD}"), words)

    def test_the_refusals_of_the_pin_list_come_first(self):
        for table in (b"0", b"x", b"1"):
            self.put("table", table)
            for pins, line in ((TANGLED, b"REFUSED 7 2\n"), (b"TOP 1\nBOT 1 1\n", b"REFUSED 4 2\n")):
                self.put("pins", pins)
                without = self.made("pins", "board")
                self.assertEqual((without[0], without[1][:12]), (1, line))
                self.assertEqual(self.made("pins", "board", "--laminate", "table"), without)

    def test_a_file_that_is_no_table(self):
        self.put("board", OLD)
        self.put("table", b"2\t4")
        status, output, words, board = self.made("pins", "board", "--laminate", "table")
        self.assertEqual((status, output, board, words.count("\n")), (2, b"", OLD, 1))
        self.assertIn("table: this is no table of blanks: at line 1, column 2 a tab stands", words)

    def test_a_board_that_is_not_judged_good(self):
        self.fake("board_judge", "echo REFUSED 11 2")
        self.assertEqual(self.made("pins", "board", "--laminate", "table")[::3], (2, None))

    def test_without_a_table_no_chooser_is_run(self):
        self.fake("choose", "touch \"$0.ran\"")
        self.assertEqual(self.made("pins", "board"), (0, LISTED, "", self.board))
        self.assertFalse((self.home / "bin" / "choose.ran").exists())
        (self.home / "bin" / "choose").unlink()
        self.assertEqual(self.made("pins", "board"), (0, LISTED, "", self.board))
