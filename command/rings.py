"""The ring with the fewest nets: the proved ring finder is asked for it. What is no whole answer with status 0, or is
none that this pin list can have, is a failure of that step."""
from command import answers, inputs, programs
from command.explain import ring_words
from command.failure import Failure
from command.possible import HIGHEST_NET, MOST_COLUMNS, refuses_text, rows_known

SAME = ", the same ring"


def found(pins):
    """What the ring finder writes of a pin list, and what it means: a ring, which has no pairs where there is none, or
    a refusal."""
    output = programs.run(programs.FINDER, pins)
    answer = answers.ring_of(output) or answers.refusal_of(output)
    if answer is None:
        fail(f"its output is neither a ring, nor NONE, nor a refusal ({programs.shown(output)})")
    if not possible(answer, pins):
        fail(f"what it says is no answer of this pin list ({programs.shown(output)})")
    return output, answer


def found_beside(pins, refusal):
    """The ring with the fewest nets of a list that is refused as tangled. There is one, and not with more nets than the
    refusal's."""
    output, answer = found(pins)
    if not isinstance(answer, answers.Ring) or not 0 < len(answer.pairs) <= len(refusal.ring):
        fail(f"of a list in which {programs.STEPS[programs.LISTING]} shows a ring of {len(refusal.ring)} nets it says "
             f"what cannot be ({programs.shown(output)})")
    return answer


def fail(words):
    raise Failure(f"{programs.STEPS[programs.FINDER]} failed: {words}")


def possible(answer, pins):
    """Whether an answer can be one of this pin list. That no ring has fewer nets, or that there is none, is not asked
    again; a tangled list is not refused."""
    if isinstance(answer, answers.Ring):
        return len(pins) <= inputs.MOST and is_ring(answer.pairs, *rows_known(pins))
    return refuses_text(answer, pins)


def is_ring(pairs, top, bot):
    """Whether pairs are a ring of the rows: different nets, begun at the lowest, each at TOP of its column and the next
    one at BOT there. No pairs say that there is no ring, of any rows that are not refused."""
    nets = [net for net, _ in pairs]
    different = len(set(nets)) == len(nets) != 1
    if len(top) != len(bot) or not 0 < len(top) <= MOST_COLUMNS or not different or nets and nets[0] != min(nets):
        return False
    return all(1 <= net <= HIGHEST_NET and 1 <= column <= len(top) and top[column - 1] == str(net)
               and bot[column - 1] == str(lower) for (net, column), lower in zip(pairs, nets[1:] + nets[:1]))


def words_of(ring, shown=None):
    """The ring in words, cut short where it is long; nothing if there is none. Where it is the ring that is shown
    already, that is said in place of its pairs."""
    if not ring.pairs:
        return ""
    same = shown is not None and is_same(ring, shown)
    return f"the fewest wires to move: {len(ring.pairs)} nets" + (SAME if same else f": {ring_words(ring.pairs)}")


def is_same(ring, shown):
    """Whether a ring has the pairs of another, which may begin at any of its nets."""
    return set(ring.pairs) == set(shown)
