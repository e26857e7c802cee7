"""The order screen through pipes: commands as lines, answers as plain ASCII, and the exit status."""
import os
import random
import resource
import signal
import stat
import subprocess

from order_drawing import A, B, ROOT, channel, damaged, drawing, text_of
from order_keys import ORDER
from order_looks import bar_of
from pseudo_terminal import PATIENCE, check


def piped(folder, commands, *arguments, file_size=None):
    """Lines answered, lines of complaint, exit status."""
    def start():
        if file_size is not None:
            signal.signal(signal.SIGXFSZ, signal.SIG_IGN)
            resource.setrlimit(resource.RLIMIT_FSIZE, (file_size, file_size))

    done = subprocess.run([str(ORDER), *map(str, arguments)], input=commands, stdout=subprocess.PIPE, cwd=folder,
                          stderr=subprocess.PIPE, timeout=4 * PATIENCE, preexec_fn=start, check=False)
    return done.stdout.decode().splitlines(), done.stderr.decode().splitlines(), done.returncode


def examples(folder):
    a, b = text_of(A), text_of(B)
    out, err, status = piped(folder, a + b"show\n")
    check("piped A", out, a.decode().splitlines() +
          ["DENSITY 1 2 1 0", "width 4  tracks 2  blank 8  density 2  chain 2  pieces 11"] +
          [bar_of(A)] + drawing(A, channel.board(a)))
    check("piped A: complaints, status", (err, status), ([], 0))
    out, err, status = piped(folder, b"TOP 1 2\nBOT 2 1\nshow\n")
    check("piped C", out[:5] + [out[5][:11], out[6], out[7][:12]] + out[8:], [
        "    v v", "TOP 1 2", "BOT 2 1", "    ^ ^", "DENSITY 2 2", "REFUSED 7 2", bar_of(([1, 2], [2, 1])),
        "What to do: ", "net 1 above net 2 in column 1", "net 2 above net 1 in column 2",
        "the fewest wires to move: 2 nets, the same ring"])
    check("piped C: status", status, 1)
    (folder / "b.pins").write_bytes(b)
    out, err, status = piped(folder, b"load b.pins\nsave new\nsave-pins new.pins\nshow\nquit\nshow\n")
    check("piped B", out[5:], ["DENSITY 1 3 4 4 4 4 2", "width 7  tracks 5  blank 8  density 4  chain 3  pieces 30"] +
          [bar_of(B)] + drawing(B, channel.board(b)))
    check("piped B: the files saved", [(folder / name).read_bytes() for name in ("new", "new.pins")],
          [channel.board(b), b])
    check("piped B: status", status, 0)
    for name, board in damaged().items():
        (folder / name).write_bytes(board)
    for name, verdict in (("good", "GOOD 2 "), ("h", "REFUSED 12 6 "), ("i", "REFUSED 11 3 "), ("j", "REFUSED 13 12 ")):
        out, err, status = piped(folder, a + b"judge %s\n" % name.encode())
        check(f"piped {name}", [line for line in out if line.startswith(verdict)] != [], True)
        check(f"piped {name}: status", status, 0 if name == "good" else 1)
    check("piped J: the piece marked", "  2    o--o  ####" in out, True)


def table_of_refusals():
    lines = (ROOT / "command" / "refusals.tsv").read_text(encoding="utf-8").splitlines()[1:]
    return {int(number): texts for number, *texts in (line.split("\t") for line in lines)}


def words_of_the_table(folder):
    """Each refusal that the screen can show is told in the words of the one table."""
    table = table_of_refusals()
    boards = {8: b"", 9: bytes(4), 10: channel.encode(5, 0, [])}
    for number, board in boards.items():
        (folder / f"refused{number}").write_bytes(board)
    (folder / "large").write_bytes(bytes(70000))
    a = text_of(A)
    cases = {
        0: a + b"judge large\n", 2: b"TOP 01\nBOT 1\nshow\n", 3: text_of(([0] * 513, [0] * 513)) + b"show\n",
        4: b"TOP 0 0\nBOT 0\nshow\n", 5: b"TOP 512\nBOT 0\nshow\n",
        7: b"TOP 1 2\nBOT 2 1\nshow\n",
        8: a + b"judge refused8\n", 9: a + b"judge refused9\n", 10: a + b"judge refused10\n",
        11: a + b"judge i\n", 12: a + b"judge h\n", 13: a + b"judge j\n"}
    for number, commands in cases.items():
        out, _, status = piped(folder, commands)
        said = [line for line in out if line.startswith("REFUSED")][0]
        place = said.split()[2]
        word, meaning, remedy = (text.replace("%p", place) for text in table[number])
        due = f"REFUSED {number} {place}  " + (meaning if word in meaning else f"{word}: {meaning}")
        check(f"refusal {number}", (said[:len(due)], status), (due, 1))
        check(f"refusal {number}: what to do", f"What to do: {remedy}." in out, True)


def mistakes(folder):
    def complaint(what, commands, due, status=1, arguments=()):
        _, err, seen = piped(folder, commands, *arguments)
        check(f"{what}: one line", len(err), 1)
        check(what, due in err[0], True)
        check(f"{what}: status", seen, status)

    a = text_of(A)
    complaint("unknown command", b"\x1b[31mfoo\n", "line 1: this is no command (try help): ?[31mfoo")
    complaint("half a command", b"save-pin x\n", "line 1: this is no command (try help): save-pin x")
    complaint("no file name", b"help\nload\n", "line 2: a file name is missing after load")
    complaint("unreadable file", b"load none\n", "No such file")
    complaint("missing folder", a + b"save none/x\n", "cannot write")
    complaint("a file that exists", a + b"save new\n", "the file exists, and only 'replace' writes over it: new")
    complaint("a list that exists", a + b"save-pins new\n", "and only 'replace-pins' writes over it: new")
    complaint("no board", b"TOP 1\nBOT 0 1\nsave y\n", "there is no board to save")
    complaint("a list refused first", b"TOP 1\nBOT 0 1\njudge good\n", "no board is judged")
    complaint("a row of 70,000 bytes", b"TOP " + b"0 " * 35000 + b"\n", "REFUSED 0 65536")
    complaint("a file of 70,000 bytes", b"load large\n", "REFUSED 0 65536")
    (folder / "more").write_bytes(b"TOP 0\nBOT 0\nx")
    complaint("a file with a third line", b"load more\n", "REFUSED 2 12")
    (folder / "cut").write_bytes(b"TOP 0 1\nBOT 1 0")
    complaint("a cut file", b"load cut\n", "REFUSED 2 15")
    complaint("a cut file at the start", b"", "REFUSED 2 15", 1, ("cut",))
    complaint("an unreadable file at the start", b"", "cannot read", 2, ("none",))
    complaint("wrong use", b"", "usage", 2, ("a", "b"))
    (folder / "carriage").write_bytes(b"TOP 0\r\nBOT 0\r")
    complaint("a file cut before its last line feed", b"load carriage\n", "ends too early at line 2, byte 7")
    (folder / "carriages").write_bytes(b"TOP 0\rBOT 0\r")
    complaint("a file without line feeds", b"load carriages\n", "REFUSED 2 6")
    out, _, _ = piped(folder, b"TOP" + b" 0" * 32768 + b"\nBOT 0\nshow\n")
    check("two rows over the limit", [line[:15] for line in out if line.startswith("REFUSED")], ["REFUSED 0 65536"])
    check("nothing asked, nothing refused", piped(folder, b""), ([], [], 0))
    check("an empty list is refused if asked", piped(folder, b"show\n")[2], 1)


def whole_files(folder):
    """A file is written whole or not at all: what was there stays, and nothing is left beside it."""
    b, board = text_of(B), channel.board(text_of(B))
    (folder / "old").write_bytes(b"old")
    before = sorted(os.listdir(folder))
    for command in ("save fresh", "replace old", "save-pins fresh", "replace-pins old"):
        for limit in (0, 10):
            _, err, status = piped(folder, b + command.encode() + b"\n", file_size=limit)
            check(f"{command}, {limit} bytes allowed", (len(err), "File too large" in err[0], status), (1, True, 1))
            check(f"{command}, {limit} bytes allowed: the old file", (folder / "old").read_bytes(), b"old")
            check(f"{command}, {limit} bytes allowed: no other", sorted(os.listdir(folder)), before)
    (folder / "old").chmod(0o640)
    check("replaced", piped(folder, b + b"replace old\n")[1:], ([], 0))
    check("whole", (folder / "old").read_bytes(), board)
    check("the mode is kept", stat.S_IMODE((folder / "old").stat().st_mode), 0o640)


def links(folder):
    """Of a link the target is replaced, and the link stays; what is no regular file is left alone."""
    b, board = text_of(B), channel.board(text_of(B))
    (folder / "deep").mkdir()
    (folder / "deep" / "target").write_bytes(b"old")
    for name, target in (("link", "second"), ("second", "deep/target"), ("dangling", "deep/missing"), ("loop", "loop")):
        (folder / name).symlink_to(target)
    _, err, _ = piped(folder, b + b"save link\nsave dangling\n")
    check("a link is there", ["exists" in line for line in err], [True, True])
    check("through links", piped(folder, b + b"replace link\nreplace dangling\n")[1:], ([], 0))
    check("the links stay", [os.readlink(folder / name) for name in ("link", "second", "dangling")],
          ["second", "deep/target", "deep/missing"])
    check("the targets are written", [(folder / "deep" / name).read_bytes() for name in ("target", "missing")],
          [board] * 2)
    os.mkfifo(folder / "pipe")
    for name, why in (("pipe", "not a regular file"), ("deep", "not a regular file"), ("loop", "symbolic links")):
        _, err, status = piped(folder, b + b"replace %s\n" % name.encode())
        check(f"replacing {name}", (why in "".join(err), status), (True, 1))
    check("the pipe stays", stat.S_ISFIFO((folder / "pipe").stat().st_mode), True)
    check("nothing is left beside", [n for n in os.listdir(folder) + os.listdir(folder / "deep") if n[0] == "."], [])


def random_board(chance):
    """Rows, and a board of their width with any pieces of the grid."""
    width, tracks = chance.randint(1, 14), chance.randint(0, 6)
    rows = tuple([chance.choice((0, 0, 1, 2, 103)) for _ in range(width)] for _ in range(2))
    numbers = [[chance.randint(0, most) for most in (2, 14, 9, 14)] for _ in range(chance.choice((4, 40, 200)))]
    pieces = [piece for piece in map(tuple, numbers) if channel.piece_right(width, tracks, piece)]
    return rows, channel.encode(width, tracks, pieces)


def random_boards(folder):
    """Drawings of random boards, and the verdict on them. Signs at pins are left out, and what is said of parked ones;
    no marked piece is compared."""
    chance = random.Random(1)
    commands, due = b"", []
    for n in range(300):
        rows, board = random_board(chance)
        (folder / f"random{n}").write_bytes(board)
        commands += text_of(rows) + b"judge random%d\n" % n
        said = channel.judged(text_of(rows), board).decode().strip()
        if int(said.split()[1]) > 7 or said.startswith("GOOD"):
            due.append((said, [] if said.startswith("REFUSED 13") else drawing(rows, board)))
    out = [line for line in piped(folder, commands)[0]
           if (not line or line.strip(" v^p")) and line[:11] != "What to do:" and " parked: " not in line]
    verdicts = [i for i, line in enumerate(out) if line.startswith(("GOOD", "REFUSED"))]
    check("random boards: verdicts", [out[i].split("  ")[0] for i in verdicts], [said for said, _ in due])
    for i, (said, shown) in zip(verdicts, due):
        check(f"random board: {said}", out[i + 1:i + 1 + len(shown)], shown)


def run(folder):
    for part in (examples, words_of_the_table, mistakes, whole_files, links, random_boards):
        part(folder)
