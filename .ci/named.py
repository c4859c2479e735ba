"""Finds names on the pages that no source has: of calls, types and definitions that went or got another name."""

import re

from sources import CRATES, TOP

# Names of the Rust crate, of std and of the kit, and one that shows how a name is formed.
ELSEWHERE = set("ListSync new_with_ptr_kind ptr_eq IndexMut SHORTER_PROOFS start_io start_lib TYPE_CALL_mistake".split())

CODE = re.compile(r"`([^`\n]+)`")
# What is a name for sure: words joined by underscores or by capitals.
NAME = re.compile(r"\b(?:[a-zA-Z]\w*_\w+|[A-Z]\w*[a-z]\w*[A-Z]\w*)\b")


def words_there():
    """Returns the words of all sources and scripts, and the names of their files."""
    found = [it for part in ("src", "specs", "proofs", "wrong") for it in CRATES.glob(f"*/{part}/**/*")]
    found += [*CRATES.glob("rpds_bench/*.*"), *(TOP / ".ci").iterdir(), TOP / "run", TOP / "crates.txt"]
    files = [it for it in found if it.is_file()]
    words = {word for it in files for word in re.findall(r"\w+", it.read_text())}
    return words | {it.stem for it in files}


def faults_of_page(name, text, words):
    """Returns a line for each name on a page, written as code, that isn't among these words."""
    codes = [(at, code) for at, line in enumerate(text.splitlines(), 1) for code in CODE.findall(line)]
    found = [(at, word) for at, code in codes for word in NAME.findall(code)]
    return [f"{name}:{at}: no source has `{word}`" for at, word in found if word not in words | ELSEWHERE]


def test():
    """Returns what is found on a made-up page where it should be something else."""
    text = "As `Bag::put_in(x)` and `RedBag`, a word and `word`.\n`BlueBag` has `ptr_eq` and `take_out_mut`.\n"
    wanted = ["page:2: no source has `BlueBag`", "page:2: no source has `take_out_mut`"]
    found = faults_of_page("page", text, {"put_in", "RedBag"})
    return None if found == wanted else found
