"""A draft of nets that come and go (Req 14), written from the owner's text alone, in two ways and neither by bits.

`Draft` keeps the nets that are here, each with its span, and works the counts out from these. `Marks` keeps for each
column the set of the numbers marked there, and so knows what becomes of any memory, also of one that no list of calls
makes of an empty draft. A call answers its value and the marks that came or went, pairs of a column and a number; a
refusal is `channel.Refused`.
"""
from channel import Refused

WORDS, COLUMNS, HIGHEST_NET = 4096, 512, 511
CALLS = ("clear", "arrive", "leave", "count", "greatest")
COLUMN_WORDS, WORD = 8, 64  # of a column, and the bits of a word


def check_lent(words):
    if words < WORDS:
        raise Refused(1, WORDS)


def check_number(number):
    if not 1 <= number <= HIGHEST_NET:
        raise Refused(21, number)


def check_span(number, first, last):
    check_number(number)
    if not 1 <= first < last <= COLUMNS:
        raise Refused(21, number)


class Draft:
    """A draft of so many words that began empty: the nets that have arrived and not left since."""

    def __init__(self, words=WORDS):
        self.words, self.spans = words, {}

    def clear(self):
        check_lent(self.words)
        gone = [mark for net in self.spans for mark in self.marks_of(net)]
        self.spans = {}
        return 0, gone

    def arrive(self, number, first, last):
        check_lent(self.words)
        check_span(number, first, last)
        if number in self.spans:
            raise Refused(22, number)
        self.spans[number] = first, last
        return 0, self.marks_of(number)

    def leave(self, number):
        check_lent(self.words)
        check_number(number)
        if number not in self.spans:
            raise Refused(23, number)
        gone = self.marks_of(number)
        del self.spans[number]
        return 0, gone

    def count(self, column):
        check_lent(self.words)
        return sum(first <= column <= last for first, last in self.spans.values()), []

    def greatest(self):
        """The most spans that are open at once, met from left to right: one that ends is open in its last column."""
        check_lent(self.words)
        ends = sorted([(first, 1) for first, _ in self.spans.values()]
                      + [(last + 1, -1) for _, last in self.spans.values()])
        most = now = 0
        for _, step in ends:
            now += step
            most = max(most, now)
        return most, []

    def marks_of(self, net):
        first, last = self.spans[net]
        return [(column, net) for column in range(first, last + 1)]


class Marks:
    """A draft whose words are any: the numbers marked in each column, 0 among them if its bit is set."""

    def __init__(self, memory):
        self.words, self.columns = len(memory), [set() for _ in range(COLUMNS)]
        for place, word in enumerate(memory[:WORDS]):
            if word:
                self.columns[place // COLUMN_WORDS] |= numbers_in(word, place % COLUMN_WORDS)

    def clear(self):
        check_lent(self.words)
        gone = [(c, number) for c, numbers in enumerate(self.columns, 1) for number in numbers]
        self.columns = [set() for _ in range(COLUMNS)]
        return 0, gone

    def arrive(self, number, first, last):
        check_lent(self.words)
        check_span(number, first, last)
        if self.marked(number):
            raise Refused(22, number)
        for column in range(first, last + 1):
            self.columns[column - 1].add(number)
        return 0, self.marked(number)

    def leave(self, number):
        check_lent(self.words)
        check_number(number)
        gone = self.marked(number)
        if not gone:
            raise Refused(23, number)
        for column, _ in gone:
            self.columns[column - 1].remove(number)
        return 0, gone

    def count(self, column):
        check_lent(self.words)
        return len(self.columns[column - 1]) if 1 <= column <= COLUMNS else 0, []

    def greatest(self):
        check_lent(self.words)
        return max(map(len, self.columns)), []

    def marked(self, number):
        return [(c, number) for c, numbers in enumerate(self.columns, 1) if number in numbers]


def answer_of(draft, call):
    """What a call, its name and what is given, answers: 0 and the value, or the number and place of a refusal; and the
    marks that came or went."""
    name, *given = call
    try:
        value, marks = getattr(draft, name)(*given)
        return (0, value), marks
    except Refused as refusal:
        return (refusal.number, refusal.place), []


def numbers_in(word, place):
    """The numbers marked in a word of a column, of which it is the one of this place, from 0."""
    return {place * WORD + bit for bit, set_ in enumerate(reversed(f"{word:b}")) if set_ == "1"}


def bits_of(marks):
    """The bits that hold marks, by the place of their word: net n's is bit n mod 64 of a column's word n / 64."""
    bits = {}
    for column, number in marks:
        place = (column - 1) * COLUMN_WORDS + number // WORD
        bits[place] = bits.get(place, 0) | 1 << number % WORD
    return bits


def runs(bits):
    """The same as runs of words eight apart, each in the next column, that have the same bits: place, count, bits."""
    left = dict(bits)
    for place in sorted(bits):
        if place not in left:
            continue
        run, end = left[place], place
        while left.get(end) == run:
            del left[end]
            end += COLUMN_WORDS
        yield place, (end - place) // COLUMN_WORDS, run
