"""A pin list turned over, for a board that is mounted upside down: TOP and BOT exchanged. The proved listing program
answers of both lists, and has to say the same where turning over changes nothing."""
from command import answers, programs
from command.failure import Failure

WORD = 3  # the bytes of TOP and of BOT


def turned(pins):
    """A text of the form turned over. What stands behind the words changes places whole, pads and line ends too, so
    that a text turned over twice is the same bytes."""
    end = pins.index(b"\n") + 1
    return b"TOP" + pins[end + WORD:] + b"BOT" + pins[WORD:end]


def either_way(answer):
    """What an answer says that is so of the list turned over too. Tracks are not: the router fills them from below."""
    if isinstance(answer, answers.Verdict):
        return f"refusal {answer.number}"
    return f"width {answer.width}, density {answer.density} and chain {answer.chain}"


def listed(over, answer):
    """What the listing program says of a turned list, if it agrees with the answer of the list that was turned."""
    _, other = programs.listing(over)
    said, due = either_way(other), either_way(answer)
    if said != due:
        raise Failure(f"{programs.STEPS[programs.LISTING]} failed: of the pin list it says {due}, of the same list "
                      f"turned over {said}; nothing is written")
    return other


def saving_words(facts, over):
    """How many tracks are saved if the board is turned over; nothing if none is."""
    fewer = facts.tracks - over.tracks
    if fewer <= 0:
        return ""
    tracks = "1 track" if over.tracks == 1 else f"{over.tracks} tracks"
    return f"turned over, its board takes {tracks}, {fewer} fewer (channel turn writes the turned list)"
