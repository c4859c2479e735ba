"""Writes the tables of docs/PERFORMANCE.md, and its plot where times were measured. The sentences between the tables are written by hand."""

import pathlib
import statistics
import sys

import plot
from measures import COUNT, HEADS, figure

CRATE = pathlib.Path(__file__).resolve().parent
TOP = CRATE.parent.parent
PAGE = TOP / "docs" / "PERFORMANCE.md"
PLOT = TOP / "docs" / "performance.svg"

# The numbers of keys among which the growing calls are measured.
COUNTS = [100, COUNT, 100_000, 1_000_000]

# The calls that the Rust crate doesn't have and whose cost is told among few or many keys, too.
MARKS = ["push_back_mut behind all", "iter", "get", "insert", "insert_mut", "remove", "append", "split_at"]
GROWING = {f"Sequence::{call}": (100, 1_000_000) for call in MARKS}
GROWING |= {f"Branch::{call} of 100": (100_000,) for call in ("merge_ours", "merge")}

# How much more than the original's a call is said to be slower from.
SLOWER = 1.02

# What stacks and sets are built from, and the calls that have another name there.
BUILT_FROM = {"Stack": "List", "RedBlackTreeSet": "RedBlackTreeMap", "HashTrieSet": "HashTrieMap"}
CALLS_BELOW = {
    "push": "push_front",
    "push_mut": "push_front_mut",
    "pop": "drop_first",
    "pop_mut": "drop_first_mut",
    "contains": "get",
    "contains absent": "get absent",
}


def table(heads, rows, words):
    """Returns the lines of a table, whose first `words` columns are words and the others figures."""
    rule = ["---"] * words + ["---:"] * (len(heads) - words)
    return [f"|{'|'.join(cells)}|" for cells in [heads, rule] + rows]


def grows(recorded):
    """Says whether the original's figures were recorded among few or many keys, too."""
    return "at 100" in recorded or "at 1000000" in recorded


def wanted(names, recorded):
    """Returns the cases with the numbers of keys among which the page tells their cost, the longest first.

    Among a million keys a case takes a minute or more, so those alone are there that the original's figures are known of, and
    those of GROWING.
    """
    pairs = [(name, COUNT) for name in names]
    for name in names:
        of_case = recorded.get(name, {})
        if grows(of_case):
            pairs += [(name, count) for count in (100, 100_000)]
            pairs += [(name, 1_000_000)] if "at 1000000" in of_case else []
        pairs += [(name, count) for count in GROWING.get(name, ())]
    return sorted(pairs, key=lambda pair: -pair[1])


def costs(measures):
    """Returns the table of what calls cost among 10,000 keys, but for stacks and sets that cost what they are built from."""

    def is_as_below(name):
        container, call = name.split("::")
        below = f"{BUILT_FROM.get(container)}::{CALLS_BELOW.get(call, call)}"
        return below in measures.names and measures.cells(below)[:3] == measures.cells(name)[:3]

    rows = [[f"`{name}`", *measures.cells(name)] for name in measures.names if not is_as_below(name)]
    return table(["call", *HEADS], rows, 1)


def growth(measures):
    """Returns the table of the calls that were measured among few or many keys: instructions here, and the ratio."""

    def cell(name, count):
        ours, ratio = measures.ours(name, count), measures.ratio(name, count)
        return figure(ours) if ratio is None else f"{figure(ours)} ({ratio:.2f})"

    names = [name for name in measures.names if name in GROWING or grows(measures.recorded.get(name, {}))]
    counts = [count for count in COUNTS if count != COUNT]  # which the other table has
    rows = [[f"`{name}`", *(cell(name, count) for count in counts)] for name in names]
    return table(["call"] + [f"n = {count:,}" for count in counts], rows, 1)


def reasons():
    """Returns why calls are slower: each reason with the cases that it holds of."""
    lines = [line for line in (CRATE / "reasons.tsv").read_text().splitlines() if not line.startswith("#")]
    return [(reason, cases.split(", ")) for cases, reason in (line.split("\t") for line in lines)]


def slower(measures):
    """Returns the table of the calls that are slower than the original's, by reasons."""
    left = {name: measures.ratio(name) for name in measures.names if (measures.ratio(name) or 0) > SLOWER}
    rows = []
    for reason, cases in reasons() + [("not looked into yet", sorted(left))]:
        there = [f"`{case}` {left.pop(case):.2f}" for case in cases if case in left]
        if there:
            rows.append([", ".join(there), reason])
    return table(["call, and its ratio", "why"], rows, 2)


def summary(measures):
    """Returns in a sentence how all calls compare with the original's."""
    ratios = [ratio for name in measures.names if (ratio := measures.ratio(name)) is not None]
    few = sum(ratio <= SLOWER for ratio in ratios)
    return (
        f"Of {len(ratios)} calls among {COUNT:,} keys, {few} take at most {SLOWER} of the Rust crate's instructions; "
        f"the median is {statistics.median(ratios):.2f}."
    )


def filled(page, parts):
    """Returns the page with each part's lines between its two marks."""
    for name, lines in parts.items():
        first, last = f"<!-- {name}: by ./bench --page -->\n", "<!-- end -->"
        before, mark, rest = page.partition(first)
        _, end, after = rest.partition(last)
        if not mark or not end:
            sys.exit(f"bench: {PAGE} has no part `{name}`")
        page = before + mark + "\n".join(lines) + "\n" + end + after
    return page


def compared(times):
    """Returns what the lines of the table of times say of 10,000 keys: the peers, and each call with its ratios to them."""
    heads, _, *rows = [line.strip("|").split("|") for line in times if line.startswith("|")]
    chosen = [i for i, head in enumerate(heads) if head.endswith(f", n = {COUNT:,}")]
    ratios = [(row[0].strip("`"), [None if row[i] == "-" else float(row[i]) for i in chosen]) for row in rows]
    return [heads[i].partition(",")[0] for i in chosen], ratios


def write(measures, about, beside):
    """Writes the tables and the plot of the page. `about` tells what measured, and when; `beside` is what beside.py measured."""
    measured = [*about, "", summary(measures)]
    parts = {"measured": measured, "growth": growth(measures), "slower": slower(measures), "costs": costs(measures)}
    PAGE.write_text(filled(PAGE.read_text(), parts | beside))
    if beside:
        PLOT.write_text(plot.drawn(*compared(beside["times"]), COUNT))
