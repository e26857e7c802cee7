"""channel panel PINS1 PINS2 > PANEL

Writes on standard output the pin list of one panel for two boards: the columns of PINS2 follow those of PINS1, its net
numbers raised by the highest of PINS1. Each net stands on the track that it has by itself, and the panel needs the
larger count of tracks. One of PINS1 and PINS2 may be - for standard input, so that a third list is joined by a pipe:
channel panel A B | channel panel - C. PANEL has to be another file than both, since the shell empties it first.

A refused list is not joined: its line is printed, with status 1, and standard error says which list it is. So it is
where both together have over 512 columns, or a raised number is over 511. But a tangled list is joined, and the panel
is tangled then, as standard error says. There it also stands in which column PINS2 begins, by how much its numbers are
raised, and which pins of either list are parked, if any.
"""
from command import inputs, panels, programs, told
from command.explain import explained_panel
from command.standard import say, write_output

SUMMARY = "join two pin lists on one panel"
OPERANDS = (2, 2)
TANGLED_WORDS = ("the list is tangled, and so is the panel: it has no board with one trunk a net (channel list shows a "
                 "ring)")


def run(*names):
    inputs.refuse_standard_twice(*names, "PINS2", "PINS1")
    texts = [inputs.read(name) for name in names]
    programs.ready(programs.LISTING, programs.JOINER)
    parts = [panels.part_of(*named) for named in zip(names, texts)]
    output, refusal = panels.joined(*parts)
    write_output(output)
    refused = panels.first_refused(parts)
    if refused is not None:
        return told.status(refused.answer, refused.pins, pins_name=refused.name)
    if refusal is None:
        tell_of_panel(parts)
    else:
        for words in explained_panel(refusal, *map(panels.described, parts)):
            say(words)
    for part in parts:
        told.tell_parked(part.pins, part.name)
    return told.GOOD if refusal is None else told.REFUSED


def tell_of_panel(parts):
    """Says where the second list begins, and which lists are tangled."""
    say(panels.begin_words(*parts))
    for part in parts:
        told.tell_of_list(TANGLED_WORDS if panels.is_tangled(part) else "", part.name)
