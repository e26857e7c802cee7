"""The test of the comparison itself: a wrong answer in each part has to be found, and shown with its input."""
import random
import re
from unittest import mock

import batch
import channel
import draft_checks
import draft_lists
import entry_cases
import exhaustive
import form_checks
import layout_search
import looks_checks
import own_checks
import panel_checks
import panel_lists
import parked_checks
import program_cases
import random_boards
import ring_channels
import ring_checks
import small_channels
import text_cases
import turned_checks
import wrong_drafts
import wrong_own
import wrong_panels

ROWS = ([0, 1, 2, 3], [1, 2, 0, 3])
PINS = "TOP 0 1 2 3\nBOT 1 2 0 3"
FILE = channel.board(text_cases.GOOD)
DRAFTED, _ = draft_lists.split(draft_lists.SELF)
# The wrong entries of wrong_parked.c, and the jobs whose cases tell each. The search on small channels tells the
# routers among them too.
WRONG_PARKED = {"BLOCKS": ("channel_job",), "DRAWS": ("channel_job",), "COUNTS": ("channel_job",),
                "SKIPS": ("own_board_job", "scatter_job", "maze_job")}
WRONG_ROUTERS = ("BLOCKS", "DRAWS")
# The wrong entries of wrong_looks.c: the cases of channel_job tell each, and so do small channels.
WRONG_LOOKS = ("LAST", "PLACED", "STRAIGHT", "PARKED", "SQUARE")
# The wrong entries of wrong_own.c: the cases of both jobs with tables tell each, and so do the request's words.
WRONG_OWN = ("EQUAL", "FALLING", "ZERO", "HIGH", "CUT", "CUT_TRACKS", "LONG", "SHORT", "NONE", "FROM_0", "LATER",
             "LARGEST", "ABOVE", "BAD_FIRST", "BARE_FIRST", "LAST", "NO_TRACKS")
# The wrong judges of wrong_sweep.c: the boards made to hurt a sweep tell each, those made by hand and those drawn.
WRONG_SWEEPS = ("FORGETS", "TRUNKS", "BRANCHES", "BESIDE", "STARTS", "CONTACTS", "POINTS", "EDGE", "BARE", "LAST")
# The wrong entries of wrong_rings.c: the cases of both jobs with rings tell each, and so do all rings of small
# channels, but for the order of refusals and a buffer that is too short.
WRONG_RINGS = ("WALK", "HIGHEST_COLUMN", "HIGHEST_NET", "NO_PAIR", "TURNED", "ENDS", "LONGER", "TOUCHED", "ROOM",
               "LATE")
NOT_SMALL = ("ROOM", "LATE")
# The wrong entries of wrong_panels.c: the cases of both jobs with two lists tell each, and so do the request's words.
WRONG_PANELS = ("COUNT", "TOP_ALONE", "UNPARKED", "ZEROS", "BEFORE", "TANGLED", "SECOND_FIRST", "THROUGH", "LATE_WIDE",
                "EARLY_WIDE", "COLUMNS", "NARROW", "FIRST_MET", "LAST_MET", "POSITION", "LOW", "HIGH", "WRITTEN",
                "CLEARED", "ROOM", "LATE")
# The wrong entries of wrong_drafts.c: the cases of both jobs with drafts tell each, and so do the request's words, but
# for what no calls make of an empty draft.
WRONG_DRAFTS = ("ONE_COLUMN", "UNMARKED", "GAP", "WHOLE_WORD", "OVER", "IN_SPAN", "AT_START", "PARTLY", "LAST_WORD",
                "BYTE", "NO_ZERO", "FIRST_OFF", "LAST_OFF", "EQUAL", "FALLING", "FROM_0", "TO_513", "TO_511",
                "CUT_COLUMN", "NET_0", "NET_512", "NO_511", "CUT_NUMBER", "LATE_21", "FAR_LEAVE", "CUT_PLACE",
                "NO_PLACE", "COLUMN_PLACE", "FIRST_WORD", "SHIFT_32", "BESIDE", "ACROSS", "OUTSIDE", "BEHIND",
                "NEAREST", "CLEAR_SHORT", "CLEAR_ALL", "ASK_WRITES", "ROOM", "MORE_ROOM", "LATE", "ASKS_FREE")
NOT_FROM_EMPTY = ("GAP", "NO_ZERO", "FIRST_OFF", "LAST_OFF")
# Two lists, rows that are not theirs joined, and what is then said to be wrong.
NOT_JOINED = (
    (panel_lists.A, panel_lists.C, ([0, 1, 2, 3, 0, 0], [1, 2, 0, 3, 0, 0]), "tangled"),
    (panel_lists.A, panel_lists.A, panel_lists.B, "density"),
    (([1, 2, 1, 2], [0, 0, 0, 0]), panel_lists.F, ([2, 1, 2, 1, 0], [0, 0, 0, 0, 0]), "tracks"),
    (([1, 2, 1, 2], [0, 0, 0, 0]), panel_lists.F, ([1, 2, 1, 2, 0], [0, 1, 0, 0, 0]), "chain"),
)
# Forms that get Req 01 wrong: what they take before a number, and at the end of a line.
WRONG_FORMS = {
    "no runs of spaces": (b" ", rb"\r?\n"), "tabs": (rb"[ \t]+", rb"\r?\n"), "no carriage return": (b" +", rb"\n"),
    "a carriage return in each line": (b" +", rb"\r\n"), "any carriage returns": (b" +", rb"\r*\n"),
    "a carriage return alone": (b" +", rb"(?:\r\n?|\n)"), "spaces before a line's end": (b" +", rb" *\r?\n"),
}


def wrong_dues(cases, answers, first_difference):
    """Changes the answer due of each case in turn: the difference has to name that case."""
    if first_difference(cases, answers):
        yield f"a right answer is called a difference: {first_difference(cases, answers)}"
    for case in cases:
        right = case.due
        case.due = right + right[-1:]
        told = first_difference(cases, answers)
        if not told or case.shown() not in told:
            yield f"a wrong answer is not found: {case.shown()}"
        case.due = right


def program_faults(first_difference):
    inputs = (("listing",), ("board_writer",), ("board_judge", FILE), ("board_judge", None), ("ring_finder",),
              ("panel_joiner", text_cases.PADDED), ("panel_joiner", None))
    cases = [program_cases.Case(program, text_cases.GOOD, *board) for program, *board in inputs]
    if PINS not in cases[0].shown() or any(data.hex() not in cases[i].shown()
                                           for i, data in ((2, FILE), (5, text_cases.PADDED))):
        yield "a program's input is not shown"
    yield from wrong_dues(cases, [case.run() for case in cases], first_difference)


def entry_questions():
    return [batch.read(text_cases.GOOD), batch.bounds(*ROWS), batch.route(*ROWS), batch.judge(*ROWS, FILE),
            batch.blank(9), batch.looks(*ROWS), batch.ceiling(*ROWS), batch.own_blank([8, 12], 9),
            batch.fewest_ring(*ROWS), batch.join(ROWS, ([1, 2], [2, 1])), batch.draft(DRAFTED, puts={9: 33}),
            batch.route([1, 2], [2, 1]), batch.fewest_ring([1, 2], [2, 1]), batch.draft(DRAFTED),
            batch.join(([1, 2], [2, 1]), ROWS)]


def entry_faults(first_difference):
    cases = entry_questions()
    shown = [case.shown() for case in cases]
    if (any(PINS not in shown[i] for i in (1, 2, 3, 5, 6, 8, 9, -1)) or FILE.hex() not in shown[3]
            or "8 12" not in shown[7] or any("TOP 1 2\nBOT 2 1" not in shown[i] for i in (9, -1))
            or "word 9: 21\narrive 5 2 4, arrive 5 1 2, " not in shown[10]):
        yield "an entry's input is not shown"
    yield from wrong_dues(cases, batch.answers([case.question for case in cases]), first_difference)
    missing = batch.answers([cases[0].question, b"\x0b" + bytes(batch.HEADER.size - 1), cases[1].question])
    if len(missing) != 3 or missing[0] != cases[0].due or "no answer" not in missing[1]:
        yield "a batch program that ends too soon is not told"


def buffer_faults():
    """Entries that write beside what they may."""
    program = batch.PROGRAM.with_name("batch_wrong")
    batch.build(batch.ROOT / "reference" / "wrong_entries.c", program)
    due = ["0 1 top 0 kept bot 0 changed 2048 inputs kept", "0 0 inputs changed",
           "7 1 ring 1 2 changed 8 board changed -1 inputs kept", "0 2 scratch changed 20476 inputs kept",
           "14 9 inputs kept", "0 1 inputs changed", "0 3 inputs changed", "16 9 inputs changed",
           "0 1 ring 3 4 changed 8 inputs kept", "0 1 top 5 changed 4 bot 5 kept inputs changed",
           "0 5 0:2:ff 1:1:ff, 0 5, 0 512, 0 3 0:1:ff, 0 1 1:1:ff, 23 5 4095:1:ff00000000000000,"
           " 23 5 4095:1:ff00000000000000, 0 0 draft changed 32768 inputs kept"]
    for line, wanted in zip(batch.answers([case.question for case in entry_questions()[:11]], program), due):
        if line != wanted:
            yield f"a spoilt byte is told as '{line}', due '{wanted}'"


def search_faults():
    """A search that finds a layout of a tangled channel, or none of another, or one of another number of tracks."""
    rows = [([1, 2], [2, 1]), ROWS, ([7, 7], [0, 0]), ([7, 7], [5, 0]), ([9], [8]), ([1, 2, 3], [2, 1, 0])]
    found = {exhaustive.shape_of(*r): layout_search.fewest(exhaustive.shape_of(*r)) for r in rows}
    if list(exhaustive.router_differences(rows, found)):
        yield "the router and the search differ"
    for top, bot in rows:
        shape = exhaustive.shape_of(top, bot)
        for wrong in [(0, [])] if found[shape] is None else [None, (3, found[shape][1])]:
            told = [exhaustive.told(d) for d in exhaustive.router_differences(rows, {**found, shape: wrong})]
            if not any(batch.joined("TOP", *top) in text and batch.joined("BOT", *bot) in text for text in told):
                yield f"a wrong search is not found: {top} {bot} {wrong}"
    if not exhaustive.router_fault(([1, 2], [2, 1]), "7 1 ring 1 2 changed 8 board kept inputs kept", None):
        yield "a spoilt ring is not found"
    cut = channel.encode(4, 2, channel.open_board(FILE)[2][:-1])
    if exhaustive.ring_right([1, 2], [2, 1], [(1, 1), (2, 1)]):
        yield "a wrong ring is not found"
    if exhaustive.board_fault(ROWS, FILE, 2) or not exhaustive.board_fault(ROWS, cut, 2):
        yield "a wrong board is not found, or a right one called wrong"


def parked_entry_faults(first_difference):
    """Entries that get parked pins wrong, on cases as they are drawn and on all channels of 2 columns."""
    small = [tuple(map(list, shape)) for shape in small_channels.shapes(2)]
    found = {exhaustive.shape_of(*rows): layout_search.fewest(rows) for rows in small}
    program = batch.PROGRAM.with_name("batch_parked")
    for wrong, jobs in WRONG_PARKED.items():
        batch.build(program=program, source="wrong_parked.c", flags=[f"-D{wrong}"])
        for job in jobs:
            cases, _ = entry_cases.made(("self-test", job, 0))
            told = first_difference(cases, batch.answers([case.question for case in cases], program))
            if not told or "no answer" in told:
                yield f"the wrong entry {wrong} is not found by the cases of {job}: {told}"
        if wrong in WRONG_ROUTERS and not list(exhaustive.router_differences(small, found, program)):
            yield f"the wrong entry {wrong} is not found by the search"
        if wrong in WRONG_ROUTERS and not list(parked_checks.router_differences(small, program)):
            yield f"the wrong entry {wrong} is not found where the parked pins are removed"


def looks_entry_faults(first_difference):
    """Entries that get looks or their ceiling wrong, on cases as they are drawn and on all channels of 2 columns."""
    small = [tuple(map(list, shape)) for shape in small_channels.shapes(2)]
    cases, _ = entry_cases.made(("self-test", "channel_job", 0))
    program = batch.PROGRAM.with_name("batch_looks")
    for wrong in WRONG_LOOKS:
        batch.build(program=program, source="wrong_looks.c", flags=[f"-DWRONG={wrong}"])
        told = first_difference(cases, batch.answers([case.question for case in cases], program))
        if not told or "no answer" in told:
            yield f"the wrong entry {wrong} is not found by the cases drawn: {told}"
        found = [fault for fault, _ in looks_checks.entry_differences(small, program)]
        if not found:
            yield f"the wrong entry {wrong} is not found on small channels"
        if wrong == "PARKED" and not any("removed" in fault for fault in found):
            yield f"the wrong entry {wrong} is not found where the parked pins are removed"


def ring_entry_faults(first_difference):
    """Entries that get the ring with the fewest nets wrong, on cases made by hand and as they are drawn, and by trying
    all rings of small channels."""
    small = [(top, bot) for top, bot, _ in ring_channels.BY_HAND] + [
        tuple(map(list, shape)) for shape in small_channels.shapes(2)]
    jobs = {job: entry_cases.made(("self-test", job, 0))[0] for job in ("fixed_job", "ring_job")}
    program = batch.PROGRAM.with_name("batch_rings")
    for wrong in ("NOTHING", *WRONG_RINGS):
        batch.build(program=program, source="wrong_rings.c", flags=[f"-DWRONG={wrong}"])
        found = {} if wrong in NOT_SMALL else {
            "all rings of small channels": next(ring_checks.entry_differences(small, program), None)}
        for job, cases in jobs.items():
            asked = [case for case in cases if case.kind() == batch.FEWEST_RING]
            found[job] = first_difference(asked, batch.answers([case.question for case in asked], program))
        for name, told in found.items():
            if (told is None) != (wrong == "NOTHING") or "no answer" in str(told):
                yield f"the wrong entry {wrong} is not found by {name}, or a right one is called wrong: {told}"


def panel_faults():
    """Programs that get two lists on one panel wrong, by the request's words; rows that are not the joined ones, by
    what a joined list is; and three lists that differ with their grouping."""
    questions = panel_checks.by_hand()
    with wrong_panels.program():
        if list(panel_checks.differences(questions)):
            yield "a right joining of two lists is called wrong"
    for name, slip in wrong_panels.SLIPS.items():
        with wrong_panels.program(**slip):
            if not any(panel_checks.differences(questions)):
                yield f"a program that gets two lists on one panel wrong is not found: {name}"
    told = panel_checks.Told([rows for lists in NOT_JOINED for rows in lists[:3]], batch.PROGRAM)
    for first, second, rows, words in NOT_JOINED:
        if words not in str(panel_checks.joined_fault(first, second, rows)):
            yield f"rows that are not those of {first} and {second} are not found: {words}"
        if not panel_checks.entry_fault(told, (first, second, None), rows):
            yield f"rows that are not those of {first} and {second} are not found by the entries: {words}"
    rows, other = (0, panel_lists.A), (0, panel_lists.B)
    if panel_checks.grouping_fault(rows, rows) or panel_checks.grouping_fault((3, 513), (18, 512)):
        yield "three lists that come out the same are called different"
    if not all(panel_checks.grouping_fault(rows, wrong) for wrong in (other, (18, 512))):
        yield "three lists that differ with their grouping are not found"


def panel_entry_faults(first_difference):
    """Entries that get them wrong, on cases made by hand, on cases as they are drawn, and by the request's words."""
    asked, program = panel_checks.by_hand(), batch.PROGRAM.with_name("batch_panels")
    threes = [*panel_checks.small_threes(), *panel_checks.drawn_threes("self-test", 100)]
    jobs = {job: entry_cases.made(("self-test", job, 0))[0] for job in ("fixed_panel_job", "panel_job")}
    for wrong in ("NOTHING", *WRONG_PANELS):
        batch.build(program=program, source="wrong_panels.c", flags=[f"-DWRONG={wrong}"])
        found = {"the request's words": next(panel_checks.entry_differences(asked, program), None)}
        for job, cases in jobs.items():
            found[job] = first_difference(cases, batch.answers([case.question for case in cases], program))
        if wrong in ("NOTHING", "COUNT", "UNPARKED"):  # others come out the same in either grouping
            found["three lists"] = next(panel_checks.three_differences(
                threes, lambda pairs: panel_checks.entry_joined(pairs, program)), None)
        for name, told in found.items():
            if (told is None) != (wrong == "NOTHING") or "no answer" in str(told) or "broken: nothing" in str(told):
                yield f"the wrong entry {wrong} is not found by {name}, or a right one is called wrong: {told}"


def draft_faults():
    """Programs that get a draft wrong, by the request's words; and lines of entries that change other words than they
    should, or under a refusal."""
    lists = draft_lists.by_hand()
    with wrong_drafts.program():
        if list(draft_checks.differences(lists)):
            yield "a right draft is called wrong"
    for name, slip in wrong_drafts.SLIPS.items():
        with wrong_drafts.program(**slip):
            if not any("broken" in fault for fault, _ in draft_checks.differences(lists)):
                yield f"a program that gets a draft wrong is not found: {name}"
    calls, right = [draft_lists.arrive(5, 2, 3), draft_lists.leave(7)], "0 0 8:2:20, 23 7 draft kept inputs kept"
    if draft_checks.words_fault(calls, batch.calls_told(right)):
        yield "the right words of a draft are called wrong"
    for wrong in ("0 0 8:1:20, 23 7", "0 0 8:2:40, 23 7", "0 0 8:3:20, 23 7", "0 0, 23 7", "0 0 8:2:20, 23 7 0:1:80"):
        if not draft_checks.words_fault(calls, batch.calls_told(f"{wrong} draft kept inputs kept")):
            yield f"wrong words of a draft are not found: {wrong}"


def draft_entry_faults(first_difference):
    """Entries that get them wrong, on cases made by hand, on cases as they are drawn, and by the request's words or on
    words of any kind."""
    asked, damaged = draft_checks.cases_of(draft_lists.by_hand()), draft_checks.damaged_cases("self-test", 20)
    program = batch.PROGRAM.with_name("batch_drafts")
    jobs = {job: entry_cases.made(("self-test", job, 0))[0] for job in ("fixed_draft_job", "draft_job")}
    for wrong in ("NOTHING", *WRONG_DRAFTS):
        batch.build(program=program, source="wrong_drafts.c", flags=[f"-DWRONG={wrong}"])
        found = {}
        if wrong not in NOT_FROM_EMPTY:
            found["the request's words"] = next(draft_checks.entry_differences(asked, program), None)
        if wrong in ("NOTHING", *NOT_FROM_EMPTY):
            found["words of any kind"] = next(draft_checks.damaged_differences(damaged, program), None)
        for job, cases in jobs.items():
            found[job] = first_difference(cases, batch.answers([case.question for case in cases], program))
        for name, told in found.items():
            if (told is None) != (wrong == "NOTHING") or "no answer" in str(told) or "broken: nothing" in str(told):
                yield f"the wrong entry {wrong} is not found by {name}, or a right one is called wrong: {told}"


def own_faults():
    """Programs that get a customer's own blanks wrong, by the request's words."""
    questions = own_checks.asked(2)
    with wrong_own.program():
        if list(own_checks.differences(questions)):
            yield "a right choice from a table of blanks is called wrong"
    for name, slip in wrong_own.SLIPS.items():
        with wrong_own.program(**slip):
            if not any(own_checks.differences(questions)):
                yield f"a program that gets own blanks wrong is not found: {name}"


def own_entry_faults(first_difference):
    """Entries that get them wrong, on cases made by hand, on cases as they are drawn, and by the request's words."""
    asked, program = own_checks.cases_of(own_checks.asked(2)), batch.PROGRAM.with_name("batch_own")
    jobs = {job: entry_cases.made(("self-test", job, 0))[0] for job in ("fixed_table_job", "table_job")}
    for wrong in ("NOTHING", *WRONG_OWN):
        batch.build(program=program, source="wrong_own.c", flags=[f"-DWRONG={wrong}"])
        found = {"the request's words": next(own_checks.entry_differences(asked, program), None)}
        for job, cases in jobs.items():
            found[job] = first_difference(cases, batch.answers([case.question for case in cases], program))
        for name, told in found.items():
            if (told is None) != (wrong == "NOTHING") or "no answer" in str(told):
                yield f"the wrong entry {wrong} is not found by {name}, or a right one is called wrong: {told}"
        if wrong == "ABOVE" and not list(own_checks.stock_differences(program)):
            yield f"the wrong entry {wrong} is not found where the stock is the table"


def sweep_entry_faults(first_difference):
    """Judges that get a sweep of lines wrong, on boards made by hand to hurt one and on such boards as they are
    drawn."""
    program = batch.PROGRAM.with_name("batch_sweep")
    jobs = {job: entry_cases.made(("self-test", job, 0))[0] for job in ("fixed_crowded_job", "crowded_job")}
    for wrong in ("NOTHING", *WRONG_SWEEPS):
        batch.build(program=program, source="wrong_sweep.c", flags=[f"-DWRONG={wrong}"])
        for job, cases in jobs.items():
            told = first_difference(cases, batch.answers([case.question for case in cases], program))
            if (told is None) != (wrong == "NOTHING") or "no answer" in str(told):
                yield f"the wrong judge {wrong} is not found by {job}, or a right one is called wrong: {told}"


def seeing(name, seen):
    """Puts a wrong function in place of one of channel.py: it sees of the rows what `seen` leaves of them."""
    right = getattr(channel, name)
    return mock.patch.object(channel, name, lambda top, bot: right(*seen(top, bot)))


def turned_faults():
    """Programs that answer otherwise of a board turned over, on refused rows and on all channels of up to 3 columns; a
    layout below the floor; and a channel that takes more tracks one way up."""
    high, small = [((1, 1), (0, 512))], [shape for width in (1, 2, 3) for shape in small_channels.shapes(width)]
    wrong = {
        "a net counts only if TOP has a pin of it": seeing(
            "bounds", lambda top, bot: (top, tuple(net if net in top else 0 for net in bot))),
        "the fill does not see BOT's last pin": seeing("filled", lambda top, bot: (top, (*bot[:-1], 0))),
        "copper stays on its track": mock.patch.object(turned_checks, "turned_pieces", lambda _, pieces: pieces),
    }
    for name, program in wrong.items():
        with program:
            found = list(turned_checks.small_differences(small))
        if not found:
            yield f"a program that gets a board turned over wrong is not found: {name}"
    with seeing("check", lambda top, _: (top, top)):
        found = list(turned_checks.large_differences(high))
    if not found or list(turned_checks.large_differences(high)):
        yield "refused rows of which only TOP is checked are not found, or right ones called wrong"
    chain = (1, 1, 0), (0, 2, 2)
    if turned_checks.floor_fault(chain, 2) or not list(turned_checks.floor_differences({chain: (1, [])})):
        yield "a layout below the floor is not found, or one on it is called below"
    if not turned_checks.numbering_fault(turned_checks.SIDED):
        yield "a channel that takes more tracks one way up is not found"


def turned_entry_faults():
    """An entry that tells another density of some channels turned over."""
    small = [tuple(map(list, shape)) for shape in small_channels.shapes(2)]
    program = batch.PROGRAM.with_name("batch_turned")
    batch.build(program=program, source="wrong_turned.c")
    if list(turned_checks.entry_differences(small)):
        yield "the right density and chain are called wrong"
    if not any("turned over" in fault for fault, _ in turned_checks.entry_differences(small, program)):
        yield "the wrong density of a channel turned over is not found"


def with_parked_records(text):
    """The listing that is due, with a record for each parked net as if it were straight."""
    lines = channel.listing(text).splitlines(keepends=True)
    if not lines[0].startswith(b"BOARD"):
        return b"".join(lines)
    rows = channel.parse(text)
    columns = {net: c for c, pair in enumerate(zip(*rows), 1) for net in pair}
    lines[2:-1] += [channel.line("NET", n, columns[n], columns[n], 0) for n in small_channels.parked_in(*rows)]
    return b"".join(lines[:2] + sorted(lines[2:-1], key=lambda line: int(line.split()[1])) + lines[-1:])


def parked_record_faults(first_difference):
    """A listing program that has a record for each parked net, on cases as they are drawn; copper on a parked pin."""
    drawn = program_cases.text_job(random.Random("self-test"))
    cases = [case for case in drawn if case.program == "listing"]
    if not first_difference(cases, [with_parked_records(*case.inputs) for case in cases]):
        yield "a record for a parked net is not found"
    text = text_cases.text([7, 5, 7], [0, 0, 0])
    rows = channel.parse(text)
    if parked_checks.record_fault(rows, channel.listing(text)):
        yield "right records are called wrong"
    if not parked_checks.record_fault(rows, with_parked_records(text)):
        yield "a record for a parked net is not found on small channels"
    tracks, _, pieces = channel.draw(*rows)
    stub = pieces + [(random_boards.BRANCH, 2, 1, 2)]
    if exhaustive.board_fault(rows, channel.encode(3, tracks, pieces), 1):
        yield "a right board with a parked pin is called wrong"
    if not exhaustive.board_fault(rows, channel.encode(3, tracks, stub), 1):
        yield "copper on a parked pin is not found"


def with_form(gap, end):
    row = b"((?:" + gap + b"(?:0|[1-9][0-9]*))+)" + end
    return mock.patch.object(channel, "FORM", re.compile(b"TOP" + row + b"BOT" + row))


def with_place(changed):
    """A reader that answers another place of garbled, of the text and the right place."""
    right = channel.parse

    def parse(text):
        try:
            return right(text)
        except channel.Refused as refusal:
            raise channel.Refused(2, changed(text, refusal.place)) from refusal
    return mock.patch.object(channel, "parse", parse)


def reader_faults(first_difference):
    """Readers that get spaces and line ends wrong, on texts as they are drawn."""
    def drawn():
        return list(entry_cases.text_job(random.Random("self-test")))

    right = drawn()
    wrong = {name: with_form(*parts) for name, parts in WRONG_FORMS.items()}
    wrong["the place of a carriage return"] = with_place(lambda text, place: place - text[:place].endswith(b"\r"))
    wrong["the place in a run of spaces"] = with_place(
        lambda text, place: min(place, len(text[:place].rstrip(b" ")) + 1))
    for name, reader in wrong.items():
        with reader:
            answers = [case.due for case in drawn()]
        if not first_difference(right, answers):
            yield f"a reader that gets this wrong is not found: {name}"


def compare(first_difference, lacking):
    """The first fault of the comparison, or None; and what was tried, in words."""
    faults = [*form_checks.faults(), *looks_checks.faults(), *ring_checks.faults(), *panel_checks.faults(),
              *draft_checks.faults(), *program_faults(first_difference), *entry_faults(first_difference),
              *buffer_faults(), *search_faults(), *parked_entry_faults(first_difference),
              *looks_entry_faults(first_difference), *ring_entry_faults(first_difference), *panel_faults(),
              *panel_entry_faults(first_difference), *draft_faults(), *draft_entry_faults(first_difference),
              *own_faults(), *own_entry_faults(first_difference), *sweep_entry_faults(first_difference),
              *turned_faults(), *turned_entry_faults(), *parked_record_faults(first_difference),
              *reader_faults(first_difference)]
    if lacking({1, 2}, {1, 2, 3}) is None or lacking({1, 2}, {1, 2}):
        faults.append("a number that is never answered is not told")
    return faults[0] if faults else None, (
        "the form is as its states say, looks as they are counted one by one, the ring with the fewest nets that of all"
        " rings, lists joined by hand as they are joined, and calls to a draft answered by hand as they are answered;"
        " wrong answers of programs and entries, spoilt buffers, a wrong search, readers that get spaces or line ends"
        " wrong, records, copper, steps, density and a judge that get parked pins wrong, wrong looks and ceilings,"
        " wrong rings, wrong panels, wrong drafts, wrong choices of own blanks, judges that get a sweep of lines wrong,"
        " and what gets a board turned over wrong are found and shown")
