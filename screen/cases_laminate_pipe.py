"""A customer's own laminate through pipes: what `show` tells of it, the forms of a table, and the exit status."""
import random

from cases_laminate import OWN, REFUSED, STRAY
from cases_pipe import piped
from order_density import piped_line
from order_drawing import A, B, channel, damaged, drawing, text_of
from order_laminate import MOST, choice, entries, explained, name_line, not_taken, own_words, summary
from order_looks import bar_of
from pseudo_terminal import check

FORMS = {b"": [], b" \n\r\n  ": [], b"7": [7], b"7\n": [7], b"7\r\n": [7], b" \r\n\n 7  \n": [7], b"0": [0],
         b"1 0 2": [1, 0, 2], b"5\n6\r\n7 8   9": [5, 6, 7, 8, 9], b"10 20\n100": [10, 20, 100],
         b"4294967295": [MOST], b"4294967296 1": [MOST, 1], b"4294967298 3": [MOST, 3], b"3 " + b"9" * 5000: [3, MOST],
         b"1 " * 32768: [1] * 32768, b"1" * 65536: [MOST], b" " * 65535 + b"8": [8]}
LOADED_BAD = "loaded bad (2 entries)"


def shown(rows, table, name="own"):
    """What `show` is due to print of a list that has a board."""
    chosen = choice(table, channel.fill(*rows)[0])
    why = explained(*chosen) if isinstance(chosen, tuple) else ()
    return [*text_of(rows).decode().splitlines(), piped_line(rows), summary(rows, table), name_line(table, name), *why,
            bar_of(rows), *drawing(rows, channel.board(text_of(rows)))]


def laminate_command(folder, table, name="own"):
    (folder / name).write_text(" ".join(map(str, table)))
    return f"laminate {name}\n".encode()


def whole_answers(folder):
    """All lines of an answer; the status is 1 exactly if the table is refused for a list that is shown."""
    for rows in (A, B):
        for table in (OWN, [5], [512], *REFUSED.values()):
            command = laminate_command(folder, table)
            told = f"loaded own ({entries(table)})"
            refused = isinstance(choice(table, channel.fill(*rows)[0]), tuple)
            check(f"{table[:5]}: shown", piped(folder, text_of(rows) + command + b"show\n"),
                  ([told, *shown(rows, table)], [], int(refused)))
            check(f"{table[:5]}: only loaded", piped(folder, text_of(rows) + command), ([told], [], 0))
    check("entries: B", own_words(OWN, 5), "own 6")


def dropping(folder):
    """`laminate` alone drops it, and the answer is as it was; a new one takes the place of the one before."""
    command = laminate_command(folder, OWN)
    plain = piped(folder, text_of(A) + b"show\n")[0]
    out, err, status = piped(folder, text_of(A) + command + b"laminate\r\nshow\n")
    check("dropped", (out, err, status), (["loaded own (5 entries)", "dropped the laminate own", *plain], [], 0))
    check("dropped: plain", plain[3], summary(A))
    check("none to drop", piped(folder, b"laminate\n"), ([], ["order: line 1: there is no laminate to drop"], 1))
    out, _, status = piped(folder, command + laminate_command(folder, [9], "other") + text_of(A) + b"show\n")
    check("another", (out[2:], status), (shown(A, [9], "other"), 0))
    (folder / "own").write_bytes(b"1 2 6")
    out, _, _ = piped(folder, command + text_of(B) + b"show\n")
    check("the file is read when it is loaded", out[4], summary(B, [1, 2, 6]))


def follows_the_list(folder):
    """The table is checked, and the entry chosen, for each list that is shown; beside a refused list, or a judged
    board, nothing is told of it, and it counts for nothing."""
    for name, board in damaged().items():
        (folder / name).write_bytes(board)
    bad, stock = laminate_command(folder, [9, 8], "bad"), laminate_command(folder, [3], "stock")
    lists = [(A, 0), (B, 1), (B[::-1], 1), (A[::-1], 0)]
    for rows, due in lists:
        out, _, status = piped(folder, stock + text_of(rows) + b"show\n")
        check(f"{rows}: stock of 3", (out[1:], status), (shown(rows, [3], "stock"), due))
    out, _, status = piped(folder, stock + text_of(B) + b"show\nturn\nshow\n" + text_of(A) + b"show\n")
    check("one after the other", ([line for line in out if line.startswith("width")], status),
          ([summary(rows, [3]) for rows in (B, B[::-1], A)], 1))
    for rows in (b"TOP 1 2\nBOT 2 1\n", b"TOP 1 1\nBOT 0\n", b"TOP 512\nBOT 0\n", b"TOP 01\nBOT 0\n", b""):
        plain = piped(folder, rows + b"show\n")
        check(f"{rows}: as without it", piped(folder, bad + rows + b"show\n"), ([LOADED_BAD, *plain[0]], [], 1))
    for name, due in (("good", 0), ("h", 1)):
        judge = text_of(A) + f"judge {name}\n".encode()
        check(f"{name}: judged as without it", piped(folder, bad + judge),
              ([LOADED_BAD, *piped(folder, judge)[0]], [], due))
        out, _, status = piped(folder, judge + bad + b"show\n")
        check(f"{name}: then shown", (out[-len(shown(A, [9, 8], 'bad')):], status), (shown(A, [9, 8], "bad"), 1))


def forms(folder):
    """Every form that a table may have, up to the longest file; numbers over 32 bits are bad entries in their place."""
    for text, table in FORMS.items():
        (folder / "form").write_bytes(text)
        out, err, _ = piped(folder, b"laminate form\n" + text_of(A) + b"show\n")
        check(f"{text[:30]}: taken", (out[0], out[4], err), (f"loaded form ({entries(table)})", summary(A, table), []))
    (folder / "form").write_bytes(b" " * 65536 + b"8")
    check("one byte more", piped(folder, b"laminate form\n"), (
        [], ["order: line 1: not loaded: over 65536 bytes; form is no table"], 1))


def mistakes(folder):
    """What is no table leaves the one before; each complaint is one line, and the status 1."""
    command = laminate_command(folder, OWN)
    complaints = {b"laminate none": "cannot read none: No such file or directory",
                  b"laminate .": "cannot read .: not a regular file",
                  b"laminate ": "a file name is missing after laminate",
                  b"laminate " + b"n" * 5000: "too long a file name: " + "n" * 60,
                  b"laminates own": "this is no command (try help): laminates own"}
    for n, (text, (line, column, stray)) in enumerate(STRAY.items()):
        (folder / f"stray{n}").write_bytes(text)
        complaints[b"laminate stray%d" % n] = not_taken(f"stray{n}", line, column, stray)
    for line, due in complaints.items():
        check(f"{line[:20]}", piped(folder, command + line + b"\n" + text_of(A) + b"show\n"),
              (["loaded own (5 entries)", *shown(A, OWN)], [f"order: line 2: {due}"], 1))
    every_byte(folder)
    (folder / "odd\x1b[31m").write_bytes(b"2")
    out, _, _ = piped(folder, b"laminate odd\x1b[31m\n" + text_of(A) + b"show\nlaminate\n")
    check("a name with control characters", (out[0], out[5], out[-1]), (
        "loaded odd?[31m (1 entry)", "own laminate of 1 entry: odd?[31m", "dropped the laminate odd?[31m"))


def every_byte(folder):
    """Of all bytes only digits, spaces and line feeds may stand between two numbers; the others are told of."""
    for byte in range(256):
        (folder / f"byte{byte}").write_bytes(b"12%c34" % byte)
    out, err, _ = piped(folder, b"".join(b"laminate byte%d\n" % byte for byte in range(256)))
    good = [10, 32, *range(48, 58)]
    check("every byte: taken", out, [f"loaded byte{b} ({'1 entry' if b >= 48 else '2 entries'})" for b in good])
    bad = [byte for byte in range(256) if byte not in good]
    check("every byte: complaints", len(err), len(bad))
    for byte, line in zip(bad, err):
        named = {9: "a tab", 13: "a lone carriage return"}.get(byte, f"byte {byte:02X} (hexadecimal)")
        what = f"'{chr(byte)}'" if 0x20 < byte < 0x7f else named
        check(f"byte {byte}", line, f"order: line {byte + 1}: {not_taken(f'byte{byte}', 1, 3, what)}")


def helping(folder):
    helped = piped(folder, b"help\n")[0]
    for due in ("laminate FILE      takes a customer's own laminate, a table of track counts, from a file",
                "laminate           drops it"):
        check(f"help: {due}", due in helped, True)


def random_table(chance):
    """A table of rising entries, often small ones; or one of them is spoilt, or the table has too many or none."""
    most = chance.choice((1, 2, 3, 9, 512))
    table = sorted(chance.sample(range(1, most + 1), min(most, chance.choice((1, 3, 8)))))
    spoil = chance.randint(0, 5)
    if spoil == 0:
        table[chance.randrange(len(table))] = chance.choice((0, 513, table[0], 2**33))
    elif spoil == 1:
        table = chance.choice(([], list(range(1, 66)), list(range(1, 65)), table[::-1]))
    return table


def random_lists(folder):
    """Random tables for random lists: the entry is the request's, and the rest of the summary stays."""
    chance, cases, commands = random.Random(3), [], b""
    while len(cases) < 400:
        width = chance.randint(1, 12)
        rows = tuple([chance.choice((0, 0, 1, 2, 3, 4, 5, 6)) for _ in range(width)] for _ in range(2))
        if not channel.filled(*rows)[2]:  # it has a board
            cases.append((rows, random_table(chance)))
    for n, (rows, table) in enumerate(cases):
        commands += text_of(rows) + laminate_command(folder, table, f"table{n}") + b"show\n"
    out, _, _ = piped(folder, commands)
    seen = [line for line in out if line.startswith("width")]
    check("random lists: answers", len(seen), len(cases))
    for line, (rows, table) in zip(seen, cases):
        check(f"{rows}, {table[:9]}", line, summary(rows, table))
    counts = [sum(sign in line for line in seen) for sign in (" own REFUSED 15 ", " own REFUSED 16 ", " own ")]
    check("random lists: many of each kind", (counts[0] > 40, counts[1] > 40, counts[2] - counts[0] - counts[1] > 40),
          (True, True, True))


def run(folder):
    for part in (whole_answers, dropping, follows_the_list, forms, mistakes, helping, random_lists):
        part(folder)
