"""Running the five proved programs. What is no whole answer with status 0 is a failure of that step."""
import signal
import subprocess
import tempfile
from pathlib import Path

from command import answers, boardfile, built, places
from command.failure import Failure, reason

LISTING, WRITER, JUDGE, FINDER = "listing", "board_writer", "board_judge", "ring_finder"
JOINER = "panel_joiner"
STEPS = {LISTING: "the listing program", WRITER: "the board writer", JUDGE: "the judge", FINDER: "the ring finder",
         JOINER: "the panel joiner"}
FOR_BOARDS = (LISTING, WRITER, JUDGE)
FOR_PICTURES = (*FOR_BOARDS, FINDER)


def ended(status):
    """How a program ended, for people."""
    if status >= 0:
        return f"ended with status {status}"
    try:
        return f"was ended by signal {signal.Signals(-status).name}"
    except ValueError:
        return f"was ended by signal {-status}"


def run(program, data=b"", folder=None):
    """What a proved program writes of its input, its files being in the folder."""
    return run_step(STEPS[program], [places.PROGRAMS / program], data, folder)


def run_step(step, command, data=b"", folder=None):
    """What a program writes. Raises Failure, which names the step, if it does not end well."""
    try:
        done = subprocess.run(command, input=data, capture_output=True, cwd=folder, check=False)
    except OSError as error:
        raise Failure(f"{step} could not be run: {reason(error)} ({command[0]})") from error
    if done.returncode != 0:
        said = done.stderr.decode(errors="replace").strip().splitlines()
        raise Failure(f"{step} failed: it {ended(done.returncode)}" + (f" and said: {said[0]}" if said else ""))
    return done.stdout


def listing(pins):
    """The listing of a pin list: its bytes, and its refusal or what it says of the board."""
    output = run(LISTING, pins)
    answer = answers.facts_of(output) or answers.refusal_of(output)
    if answer is None:
        raise Failure(f"{STEPS[LISTING]} failed: its output is neither a listing nor a refusal ({shown(output)})")
    return output, answer


def board(pins):
    """The board file of a pin list; or, second, the refusal. No board file begins as a refusal does: the lowest bit of
    its fourth byte is 0."""
    output = run(WRITER, pins)
    refusal = answers.refusal_of(output)
    if refusal is None and len(output) != boardfile.length_due(output):
        raise Failure(f"{STEPS[WRITER]} failed: its output is neither a board file nor a refusal ({shown(output)})")
    return output, refusal


def run_on_files(program, files):
    """What a proved program writes of the files that it is given, by name. Their bytes are looked at again
    afterwards."""
    try:
        with tempfile.TemporaryDirectory(prefix="channel-") as folder:
            for name, data in files.items():
                Path(folder, name).write_bytes(data)
            output = run(program, folder=folder)
            same = all(Path(folder, name).read_bytes() == data for name, data in files.items())
    except OSError as error:
        raise Failure(f"the files for {STEPS[program]} could not be written: {reason(error)}") from error
    if not same:
        raise Failure(f"the files for {STEPS[program]} are not those that were written")
    return output


def judge(pins, board_bytes):
    """The judge's output and what it means."""
    output = run_on_files(JUDGE, {"pins": pins, "board": board_bytes})
    verdict = answers.verdict_of(output)
    if verdict is None:
        raise Failure(f"{STEPS[JUDGE]} failed: its output is neither GOOD nor a refusal ({shown(output)})")
    return output, verdict


def judged_board(pins):
    """The board file of a pin list that has one, after the judge has passed those very bytes; and the verdict."""
    board_bytes, refusal = board(pins)
    if refusal is not None:
        raise Failure(f"{STEPS[WRITER]} refuses what {STEPS[LISTING]} lists: REFUSED {refusal.number} {refusal.place}")
    _, verdict = judge(pins, board_bytes)
    if verdict.word != "GOOD":
        raise Failure("the judge does not pass the board writer's board: "
                      f"REFUSED {verdict.number} {verdict.place}; no board is made")
    return board_bytes, verdict


def refuse_disagreement(facts, board_bytes, verdict):
    """The listing program, the board writer and the judge are to speak of one board: width, tracks and pieces."""
    width, tracks, pieces, _ = boardfile.header_of(board_bytes)
    if (facts.width, facts.tracks, facts.pieces) != (width, tracks, pieces) or verdict.place != tracks:
        raise Failure("the listing, the board file and the judge do not speak of one board; no board is made")


def shown(output):
    """The start of an output, for a message."""
    return f"{len(output)} bytes, first {output[:24]!r}" if output else "nothing"


def ready(*names):
    """Sees that the programs are there and are what the sources say."""
    built.ready(names)
