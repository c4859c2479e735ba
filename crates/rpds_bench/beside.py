"""Measures times and bytes of the proved program beside those of the Rust crate, of im-rc and of std's containers."""

import concurrent.futures
import contextlib
import os
import re
import subprocess
import tempfile

from measures import COUNT, cases
from page import table

# The calls whose times are told.
CALLS = [
    "List::push_front",
    "List::push_front_mut",
    "List::reverse_mut",
    "Queue::clone",
    "Queue::enqueue_mut",
    "Queue::dequeue_mut",
    "Queue::mixed_mut",
    "Queue::eq",
    "Queue::cmp",
    "Vector::get",
    "Vector::set",
    "Vector::push_back_mut",
    "Vector::iter",
    "Sequence::get",
    "Sequence::insert",
    "Sequence::insert_mut",
    "Sequence::split_at",
    "Sequence::append",
    "Sequence::iter",
    "RedBlackTreeMap::get",
    "RedBlackTreeMap::insert",
    "RedBlackTreeMap::insert_mut",
    "RedBlackTreeMap::remove",
    "RedBlackTreeMap::remove_mut",
    "RedBlackTreeMap::iter",
    "RedBlackTreeMap::eq clone",
    "RedBlackTreeMap::range first",
    "RedBlackTreeMap::range of 100",
    "RedBlackTreeMap::union absent",
    "RedBlackTreeMap::diff of 100",
    "RedBlackTreeSet::is_subset",
    "HashTrieMap::get",
    "HashTrieMap::insert",
    "HashTrieMap::insert_mut",
    "HashTrieMap::remove",
    "HashTrieMap::iter",
    "HashTrieMap::eq clone",
    "HashTrieSet::union absent",
    "HashTrieSet::intersection few",
]
COUNTS = [5, 100, COUNT, 1_000_000]

# The uses, and the numbers of keys that they begin with.
USES = {
    "undo::RedBlackTreeMap": "undo store of an ordered map",
    "undo::HashTrieMap": "undo store of a hashed map",
    "undo::Vector": "undo store of a vector",
    "scopes::RedBlackTreeMap": "scopes over an ordered map",
    "scopes::HashTrieMap": "scopes over a hashed map",
    "queens::RedBlackTreeSet": "8 queens over ordered sets",
    "queens::HashTrieSet": "8 queens over hashed sets",
}
USE_COUNTS = [100, 1000]

# The container of std that serves where ours does.
OF_STD = {
    "List": "Vec",
    "Queue": "VecDeque",
    "Vector": "Vec",
    "Sequence": "Vec",
    "RedBlackTreeMap": "BTreeMap",
    "RedBlackTreeSet": "BTreeSet",
    "HashTrieMap": "HashMap",
    "HashTrieSet": "HashSet",
}

# The containers whose bytes are told among many items, too, and how many versions an undo store of them keeps at most.
MANY = {"Sequence": 1_000_000}
MOST_VERSIONS = 10_000

# What is built and dropped over an arena, and how many items it gets.
IN_ARENAS = ["List", "Vector", "HashTrieMap", "RedBlackTreeMap"]
IN_ARENA = 1000

# Memory that was freed stays with the program: no round but the first waits for the system to clear pages.
ENVIRONMENT = os.environ | {"MALLOC_TRIM_THRESHOLD_": str(2**40), "MALLOC_MMAP_THRESHOLD_": str(2**40)}


@contextlib.contextmanager
def one_processor():
    """Keeps what is started meanwhile on one processor, and before all else where the system allows it."""
    processors = os.sched_getaffinity(0)
    os.sched_setaffinity(0, {max(processors)})
    with contextlib.suppress(PermissionError):
        os.sched_setscheduler(0, os.SCHED_FIFO, os.sched_param(1))
    try:
        yield
    finally:
        os.sched_setscheduler(0, os.SCHED_OTHER, os.sched_param(0))
        os.sched_setaffinity(0, processors)


def nanoseconds(program, case, count, rounds):
    """Returns what the fastest of some rounds takes."""
    words = [program, str(count), case, str(rounds)]
    told = subprocess.run(words, capture_output=True, text=True, check=True, env=ENVIRONMENT).stdout
    return min(int(line.split()[0]) for line in told.splitlines())


def ratio(ours, theirs, count):
    """Returns how many times as long one takes as the other, each a program and a case: by the fastest round of either."""
    turns, rounds = (2, 1) if count > 100_000 else (5, 5)
    runs = [(nanoseconds(*ours, count, rounds), nanoseconds(*theirs, count, rounds)) for _ in range(turns)]
    return f"{min(our for our, _ in runs) / min(their for _, their in runs):.2f}"


def times(program, peers):
    """Returns the table of how calls compare in time with those of each peer: a name, a program, and numbers of keys."""
    heads = [f"{name}, n = {count:,}" for name, _, counts in peers for count in counts]
    there = {peer: cases(peer) for _, peer, _ in peers}

    def cells(call):
        for _, peer, counts in peers:
            for count in counts:
                yield ratio((program, call), (peer, call), count) if call in there[peer] else "-"

    with one_processor():
        return table(["call", *heads], [[f"`{call}`", *cells(call)] for call in CALLS], 1)


def uses(program, rust_program):
    """Returns the table of how uses compare in time with those of the Rust crate, and of clones of std's containers."""

    def row(case):
        use, container = case.split("::")
        others = [(rust_program, case), (rust_program, f"{use}::{OF_STD[container]}")]
        return [USES[case], *(ratio((program, case), other, count) for other in others for count in USE_COUNTS)]

    heads = [f"{other}, n = {count:,}" for other in ("Rust crate", "std") for count in USE_COUNTS]
    with one_processor():
        return table(["use", *heads], [row(case) for case in USES], 1)


def arenas(program):
    """Returns the table of how containers over the kit's arena compare in time with those over the program's allocator."""
    with one_processor():
        ratios = [ratio((program, f"Bump::{name}"), (program, f"Global::{name}"), IN_ARENA) for name in IN_ARENAS]
    return table([f"`{name}`" for name in IN_ARENAS], [ratios], 0)


def chunk(size):
    """Returns the bytes that glibc's malloc takes for a request, its own among them."""
    return max(32, (size + 8 + 15) // 16 * 16)


def held(trace):
    """Returns the bytes that are held after the last request, by the lines of valgrind's trace of malloc and free."""
    sizes, now, at_last = {}, 0, 0
    asked = re.compile(r"(malloc|realloc|free)\((\w+)(?:,(\d+))?\)(?: = (\w+))?")
    for call, first, second, made in (found for line in trace for found in asked.findall(line)):
        if call != "malloc":
            now -= sizes.pop(first, 0)
        if made:
            sizes[made] = chunk(int(second or first))
            now += sizes[made]
            at_last = now
    return at_last


def bytes_held(program, case, count):
    """Returns the bytes that a program holds when it has run a case on so many keys."""
    with tempfile.NamedTemporaryFile("r") as log:
        tool = ["valgrind", "--tool=massif", "--massif-out-file=/dev/null", "--trace-malloc=yes", f"--log-file={log.name}"]
        subprocess.run([*tool, program, str(count), case], capture_output=True, check=True)
        return held(log)


def memory(program, rust_program):
    """Returns the table of the bytes that an entry of a container takes, and a version that an undo store keeps."""
    # No program has a case `no::container`: it holds the keys, as all do.
    nothing = "no::container"
    rows = [(name, COUNT) for name in OF_STD] + list(MANY.items())
    there = {side: {nothing, *cases(side)} for side in (program, rust_program)}
    runs = {
        (side, case, count): None
        for name, count in rows
        for side in there
        for case in (nothing, f"kept::{name}", f"kept::{OF_STD[name]}", f"undo::{name}")
        if case in there[side]
    }
    with concurrent.futures.ThreadPoolExecutor(len(os.sched_getaffinity(0))) as pool:
        found = dict(zip(runs, pool.map(lambda run: bytes_held(*run), runs)))

    def apart(side, case, below, count, parts):
        run = (side, case, count)
        return f"{(found[run] - found[side, below, count]) / parts:,.0f}" if run in found else "-"

    def row(name, count):
        ours, undo = f"kept::{name}", f"undo::{name}"
        entries = [(program, ours), (rust_program, ours), (rust_program, f"kept::{OF_STD[name]}")]
        versions = [apart(side, undo, ours, count, min(count, MOST_VERSIONS)) for side in (program, rust_program)]
        head = f"`{name}`" if count == COUNT else f"`{name}` of {count:,}"
        return [head, *(apart(side, case, nothing, count, count) for side, case in entries), *versions]

    heads = ["container", "an entry", "Rust crate", "std", "a version", "Rust crate"]
    return table(heads, [row(*of_row) for of_row in rows], 1)


def parts(program, rust_program, peers, about):
    """Returns the parts of the page that are measured here, by their names. `about` tells what measured, and when."""
    return {
        "times": [about, "", *times(program, peers)],
        "uses": uses(program, rust_program),
        "arenas": arenas(program),
        "memory": memory(program, rust_program),
    }
