"""The looks of a routing and their bar, as the order screen should show them: counted scan by scan."""
from order_drawing import channel

PIPED = 60  # cells of the bar's line through a pipe
LONGEST = 255  # in any window
SHORTEST = 5  # cells between the brackets


def looks_of(rows):
    """The looks of a list: at each scan all nets that are not placed yet, also where it then places none. And their
    ceiling."""
    spans, below = channel.spans_of(*rows), channel.below_of(channel.steps_of(*rows))
    unplaced, looks, goes_on = set(spans), 0, True
    while unplaced and goes_on:
        looks += len(unplaced)
        end, placed = 0, set()
        for net in sorted(unplaced, key=lambda net: (spans[net][0], net)):
            if spans[net][0] > end and not below.get(net, set()) & unplaced:
                placed.add(net)
                end = spans[net][1]
        unplaced -= placed
        goes_on = bool(placed)
    return looks, len(spans) * (len(spans) + 1) // 2


def bar(looks, ceiling, across):
    """The text that is due in so many cells."""
    words = f"looks {looks} of at most {ceiling}"
    cells = min(across, LONGEST) - len(f"{words} []")
    if ceiling == 0 or cells < SHORTEST:
        return words if len(words) <= across else ""
    filled = min(max(looks * cells // ceiling, looks > 0), cells)
    return f"{words} [{('#' * filled).ljust(cells)}]"


def bar_of(rows, across=PIPED):
    return bar(*looks_of(rows), across)


def beside(message, looks, ceiling, across):
    """The message line: what of the message fits, and after two blank cells the bar in what is left."""
    return (f"{message}  "[:across] + bar(looks, ceiling, across - len(message) - 2)).rstrip()
