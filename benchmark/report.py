"""Runs the measuring programs and prints their numbers as text:

    python3 benchmark/report.py FOLDER COMPILER [--quick]

The folder has one program four times, with its code in other places; a time is the mean of their medians, so that
where the linker happens to put a loop counts for less. The exit status is 0 if both sides agree, whatever the times
are; 1 if they differ.
"""
import math
import shutil
import statistics
import subprocess
import sys
import tempfile
from pathlib import Path

RATIO_GOAL = 1.10
TIME_GOALS = {"bounds": 40e3, "route": 300e3, "judge": 1e6, "fewest-ring": 5e6}  # nanoseconds, of any input
PAIRWISE_GOAL = 25  # how many times longer the pairwise judge takes on each board of 4,095 pieces, at least
GROWTH_GOALS = {"bounds": 1.2}  # the power of the width, from 64 to 512 columns
WIDTHS = (64, 128, 256, 512)
SHAPES = {  # the name and what it is
    "example-B": ("example B", "the scope's; joined with itself"),
    "dense": ("density 256", "256 nets, one inside the other, no two in a column"),
    "padded": ("density 256, padded", "the same list in columns of four, a carriage return before each line feed"),
    "chain": ("chain of 511", "511 nets, each above the next"),
    "fullest": ("fullest channel", "the chain with a pin in every place: no router's board has more pieces"),
    "ring-255": ("ring of 255", "255 nets, each above the next and the last above the first"),
    "ring-511": ("ring of 511", "the same of 511 nets, the largest ring"),
    "ring-pairs": ("255 rings of 2", "255 rings of two nets"),
    "ring-layers": ("rings of 128", "128 layers of two nets, each above both of the next: 2 to the power 128 rings"),
    "panel-dense": ("density 128, twice", "128 nets, one inside the other, joined with the same list once more"),
    "panel-full": ("chain of 255, twice", "255 nets, each above the next, a pin in every place, joined likewise"),
    "file-4095": ("4,095 pieces", "the fullest channel's pieces, repeated up to what a file holds"),
    "file-4095-mixed": ("4,095 pieces, mixed", "the same in random order"),
    "one-column": ("4,095 in a column", "branches of one column, their ends at random"),
    "one-track": ("4,095 on a track", "trunks of one track, their ends at random"),
    "one-point": ("4,095 at a point", "one contact again and again"),
}
FULL_FILES = ("file-4095", "file-4095-mixed", "one-column", "one-track", "one-point")
GROWING = {"dense": "nested nets", "fullest": "fullest channel"}  # measured on fewer columns too


def name(shape):
    return SHAPES[shape][0]


def lines_of(command, **options):
    """The fields of the lines of a program's output."""
    output = subprocess.run(command, stdout=subprocess.PIPE, check=True, text=True, **options).stdout
    return [line.split() for line in output.splitlines()]


def processor():
    for line in Path("/proc/cpuinfo").read_text().splitlines():
        if line.startswith("model name"):
            return line.split(":", 1)[1].strip()
    return "a processor that does not say its name"


def times_of(programs, seconds):
    """Nanoseconds of Rattle, C and the pairwise version, 0 where there is none, by operation and shape; and the growth,
    by operation, shape and columns."""
    medians, growth = {}, {}
    for program in programs:
        for word, operation, shape, columns, *times in lines_of([program, "time", str(seconds)]):
            sides = tuple(map(float, times))
            if word == "TIME":
                medians.setdefault((operation, shape), []).append(sides)
            else:
                growth.setdefault((operation, shape, int(columns)), []).append(sides)
    return means(medians), means(growth)


def means(sides):
    return {key: tuple(map(statistics.fmean, zip(*some))) for key, some in sides.items()}


def counts_of(program):
    """Instructions of one call on both sides, by operation and shape; none without valgrind."""
    if shutil.which("valgrind") is None:
        print("valgrind is missing: no instructions are counted.\n")
        return {}
    counts = {}
    with tempfile.TemporaryDirectory() as folder:
        command = ["valgrind", "--tool=callgrind", "--toggle-collect=measured", "--dump-after=measured",
                   f"--callgrind-out-file={folder}/part", program, "count"]
        calls = lines_of(command, stderr=subprocess.DEVNULL)
        for i, (_, operation, shape, _) in enumerate(calls, 1):  # Rattle's call comes first, then C's
            counts.setdefault((operation, shape), []).append(instructions_in(Path(folder, f"part.{i}")))
    return counts


def instructions_in(part):
    for line in part.read_text().splitlines():
        if line.startswith("totals:"):
            return int(line.split()[1])
    raise ValueError(f"{part} has no total")


def spell(nanoseconds):
    for limit, unit, scale in ((1e3, "ns", 1), (1e6, "µs", 1e3), (math.inf, "ms", 1e6)):
        if nanoseconds < limit:
            return f"{nanoseconds / scale:.3g} {unit}"


def print_row(*fields):
    print("| " + " | ".join(map(str, fields)) + " |")


def print_inputs(program):
    print_row("Input", "What it is", "Columns", "Pieces", "Density", "Chain", "The router answers")
    print("|---|---|---:|---:|---:|---:|---|")
    for _, shape, columns, pieces, _, bounds, number, value in lines_of([program, "facts"]):
        density, chain = divmod(int(bounds), 65536)
        answer = f"{int(value) % 65536} tracks" if number == "0" else f"{number}, {value} pairs"
        print_row(*SHAPES[shape], columns, f"{int(pieces):,}", density, chain, answer)
    print("\nThe draft of an input has its nets over the columns that they span. draft-wide: a net over 512 columns "
          "leaves it and arrives again; draft-short: a net over two columns.\n")


def print_times(times, counts):
    print_row("Operation", "Input", "Rattle", "C", "Ratio", "C, pairwise", "Instructions, Rattle", "C", "Ratio")
    print("|---|---|---:|---:|---:|---:|---:|---:|---:|")
    for (operation, shape), (rattle, plain, pairwise) in times.items():
        fields = [operation, name(shape), spell(rattle), spell(plain), f"{rattle / plain:.2f}",
                  spell(pairwise) if pairwise else "", "", "", ""]
        if (operation, shape) in counts:
            a, b = counts[operation, shape]
            fields[6:] = f"{a:,}", f"{b:,}", f"{a / b:.2f}"
        print_row(*fields)
    print()


def exponent(values):
    """The slope of the logarithms over doublings of the width, by least squares."""
    middle = (len(values) - 1) / 2
    rise = sum((i - middle) * math.log2(v) for i, v in enumerate(values))
    return rise / sum((i - middle) ** 2 for i in range(len(values)))


def print_growth(growth):
    print_row("Operation", "Input", "Side", *WIDTHS, "Exponent")
    print("|---|---|---|" + "---:|" * (len(WIDTHS) + 1))
    for operation in ("bounds", "route", "judge", "fewest-ring"):
        for shape, label in GROWING.items():
            for side, who in enumerate(("Rattle", "C", "C, pairwise")):
                values = [growth[operation, shape, width][side] for width in WIDTHS]
                if all(values):
                    print_row(operation, label, who, *map(spell, values), f"{exponent(values):.2f}")
    print()


def print_ratio_goal(what, pairs):
    """Says where Rattle takes too much; a key is an operation, a shape and, where the growth is meant, the columns."""
    over = [f"{operation} of {name(shape)}{''.join(f' on {columns} columns' for columns in width)} {rattle / plain:.2f}"
            for (operation, shape, *width), (rattle, plain, *_) in pairs.items() if rattle / plain > RATIO_GOAL]
    verdict = "does not hold: " + "; ".join(over) if over else "holds"
    print(f"- {what} at most {RATIO_GOAL:.2f} of C's everywhere: {verdict}")


def print_goals(times, growth, counts):
    narrower = {key: pair for key, pair in growth.items() if key[2] < WIDTHS[-1]}
    print_ratio_goal("Time", {**times, **narrower})
    if counts:
        print_ratio_goal("Instructions", counts)
    for operation, goal in TIME_GOALS.items():
        longest, shape = max((sides[0], shape) for (asked, shape), sides in times.items() if asked == operation)
        verdict = "holds" if longest < goal else "does not hold"
        print(f"- {operation} under {spell(goal)}: {verdict}: at most {spell(longest)}, of {name(shape)}")
    least, shape = min((pairwise / rattle, shape) for (_, shape), (rattle, _, pairwise) in times.items()
                       if shape in FULL_FILES)
    verdict = "holds" if least >= PAIRWISE_GOAL else "does not hold"
    print(f"- comparing pairs takes at least {PAIRWISE_GOAL} times as long as judging, on each board of 4,095 pieces: "
          f"{verdict}: {least:.0f} times, of {name(shape)}")
    for operation, goal in GROWTH_GOALS.items():
        steepest = max(exponent([growth[operation, shape, width][0] for width in WIDTHS])
                       for shape in GROWING)
        verdict = "holds" if steepest <= goal else "does not hold"
        print(f"- {operation} grows at most as the width to the power {goal}: {verdict}: {steepest:.2f}")


def main(folder, compiler, quick):
    programs = sorted(folder.glob("measure-*"))
    print(f"Rattle's library and plain C11 ({compiler}, -O2) on {processor()}: processor time, medians, the sides by "
          "turns.\n", flush=True)
    if subprocess.run([programs[0], "agree", "1000" if quick else "5000"], check=False).returncode != 0:
        print("The two sides differ; nothing is measured.")
        return 1
    print()
    print_inputs(programs[0])
    times, growth = times_of(programs, 0.02 if quick else 0.2)
    counts = counts_of(programs[0])
    print_times(times, counts)
    print_growth(growth)
    print_goals(times, growth, counts)
    return 0


if __name__ == "__main__":
    sys.exit(main(Path(sys.argv[1]), sys.argv[2], "--quick" in sys.argv[3:]))
