"""What calls cost, here, in the Rust crate and in im-rc."""

import pathlib
import subprocess

CRATE = pathlib.Path(__file__).resolve().parent

# What was recorded of the Rust crate, and of im-rc.
ORIGINAL = CRATE / "original.tsv"
IM = CRATE / "im.tsv"

# How many keys all cases are measured among.
COUNT = 10_000

# Cases that are no calls of one container: beside.py measures them.
APART = ["kept", "undo", "scopes", "queens", "Bump", "Global"]

# The heads of the figures of a case.
HEADS = ["instructions", "ratio", "requests", "im-rc"]


def figure(value):
    """Returns a number in some four digits, or a dash for none."""
    if value is None:
        return "-"
    return f"{value:,.0f}" if value >= 1000 else f"{value:.1f}"


def hundredths(value):
    """Returns a number with two digits after the point, or a dash for none."""
    return "-" if value is None else f"{value:.2f}"


def cases(program):
    """Returns the names of all cases of a program, in its order."""
    told = subprocess.run([program, "1"], capture_output=True, text=True, check=True).stdout
    return [line.split(" ", 1)[1] for line in told.splitlines()]


def recorded(path):
    """Returns what a file tells of another library: the figures of each case by their heads, and the words above them."""
    lines = path.read_text().splitlines()
    words = " ".join(line.lstrip("# ") for line in lines if line.startswith("#"))
    heads, *rows = [line.split("\t") for line in lines if not line.startswith("#")]
    return {row[0]: {head: float(cell) for head, cell in zip(heads[1:], row[1:]) if cell != "-"} for row in rows}, words


def record(path, cases, found, about):
    """Writes what the cases cost in another library by number of keys. `about` tells which it is, what built and measured it, when."""
    lines = [
        "# " + about[0] + " on the same keys in the same order, built by cargo for release as",
        f"# {about[1]}: instructions of one call by",
        "# callgrind, those of glibc's malloc and free too, and its requests for memory. - where nothing was recorded.",
        "\t".join(["case", "at 100", f"at {COUNT}", "at 1000000", f"requests at {COUNT}"]),
    ]
    for case in cases:
        counts = [f"{found[case, count][0]:.4g}" if (case, count) in found else "-" for count in (100, COUNT, 1_000_000)]
        lines.append("\t".join([case, *counts, f"{found[case, COUNT][1]:.2f}"]))
    path.write_text("\n".join(lines) + "\n")


class Measures:
    """What one call of each case costs: instructions and requests for memory by name and number of keys, and what was recorded of
    the Rust crate and of im-rc."""

    def __init__(self, found):
        self.found = found
        self.recorded, self.of_original = recorded(ORIGINAL)
        self.of_im, self.about_im = recorded(IM)
        self.names = [name for name, count in found if count == COUNT]

    def ours(self, name, count=COUNT):
        """Returns the instructions, or None."""
        return self.found[name, count][0] if (name, count) in self.found else None

    def theirs(self, name, count=COUNT):
        """Returns those of the original, or None."""
        return self.recorded.get(name, {}).get(f"at {count}")

    def ratio(self, name, count=COUNT):
        """Returns how many times theirs ours is, or None."""
        ours, theirs = self.ours(name, count), self.theirs(name, count)
        return None if ours is None or theirs is None else ours / theirs

    def cells(self, name):
        """Returns the figures of a case, as they stand under HEADS: the Rust crate's requests in brackets where they differ."""
        ours = hundredths(self.found[name, COUNT][1])
        theirs = hundredths(self.recorded.get(name, {}).get(f"requests at {COUNT}"))
        requests = ours if theirs in (ours, hundredths(None)) else f"{ours} ({theirs})"
        im = self.of_im.get(name, {}).get(f"at {COUNT}")
        beside_im = None if im is None else self.ours(name) / im
        return [figure(self.ours(name)), hundredths(self.ratio(name)), requests, hundredths(beside_im)]
