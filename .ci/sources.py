"""Reads what the sources say: their public items, what is said of each, and the proved bounds of counted calls."""

import collections
import pathlib
import re

TOP = pathlib.Path(__file__).resolve().parent.parent
CRATES = TOP / "crates"

# The containers, and the path of each, whose file and folder have its calls.
CONTAINERS = {
    "List": "rpds_list/src/list",
    "Stack": "rpds_list/src/stack",
    "Queue": "rpds_list/src/queue",
    "History": "rpds_history/src/history",
    "Vector": "rpds_vector/src/vector",
    "Sequence": "rpds_sequence/src/sequence",
    "HashTrieMap": "rpds_hash/src/map/hash_trie_map",
    "HashTrieSet": "rpds_hash/src/set/hash_trie_set",
    "RedBlackTreeMap": "rpds_tree/src/map/red_black_tree_map",
    "RedBlackTreeSet": "rpds_tree/src/set/red_black_tree_set",
    "Branch": "rpds_branch/src/branch",
    "Table": "rpds_table/src/table",
    "Snapshots": "rpds_snapshots/src/snapshots",
    "Arena": "rpds_arena/src/arena",
    "Interner": "rpds_arena/src/interner",
    "NestVector": "rpds_nest/src/nest_vector",
}

ITEM = re.compile(r"pub (?:const )?(fn|struct|enum|trait|type|const|static) (\w+)")
CLAUSE = re.compile(r"(requires|ensures|decreases|ghost)\b")
Item = collections.namedtuple("Item", "kind name text docs head parts clauses required file")

# How a sentence begins that speaks of cost, of memory or of errors without a name, of which the page speaks elsewhere.
ELSEWHERE = re.compile(
    "|".join(
        [
            r"It (allocates|takes|makes|compares|costs|copies|cuts|looks up|shares|goes|moves)\b",
            r"(None|No item) is cloned|Most steps",
            r"(The|Those that the last) (two share|nodes|items are shared|leaf)\b|They are shared|All nodes but|To make it",
            r"Takes no memory|Memory is taken|Two allocations|No path|Where this (map|set) is the smaller one",
            r"(An|The) errors?\b(?!.*\^)|It comes, too|More items|Where .*`usize::MAX`",
            r"A proof may|What the (map|set) holds",
        ]
    )
)
# A sentence that says when an error comes which has a name.
NAMED_ERROR = re.compile(r"`[A-Z]\w*(::\w+)?` where ")
CITATION = re.compile(r" \([A-Z][^()]*, \d{4}(; [^()]*)?\)")

# How the sizes in the clauses of counts are written on the page, whose head says what the letters are.
LENGTH = r"length (?:self|other)(?:\.(?:now|old))?(?:\.\w+)?"
SIZES = [
    (rf"most_levels \({LENGTH} \+ {LENGTH}\)", "2 * log2(n + m + 1)"),
    (rf"most_levels \((?:max \({LENGTH}\) \({LENGTH}\)|{LENGTH})\)", "2 * log2(n + 1)"),
    (r"self\.(?:now|old)\.depth", "2 * log2(n + 1)"),
    (rf"min \({LENGTH}\) \({LENGTH}\)", "m"),
    (r"self\.(?:now|old)\.waiting", "w"),
    (r"digit_count self\.now\.degree", "d"),
    (r"hash_count .*? \((?:hashes_of|map) .*\)", "h"),
    (rf"vec_len \w+|{LENGTH}", "n"),
]
COUNTS = {"compared": "comparison", "matched": "comparison", "visited": "visited node", "moved": "moved item", "made": "new node"}


def files_of(stem):
    """Returns the file of a container, and those of its folder."""
    folder = CRATES / stem
    return [f"{stem}.rt"] + [str(it.relative_to(CRATES)) for it in sorted(folder.rglob("*.rt"))]


def lines_of(file):
    return (CRATES / file).read_text().splitlines()


def gathered(lines, at):
    """Returns the head of an item as one line, without its clauses and its body."""
    words = []
    for line in lines[at:]:
        word = line.strip()
        if CLAUSE.match(word) or word.startswith("//") or word in ("{", "{}"):
            break
        words.append(word.removesuffix("{}").removesuffix("{").strip())
        if word.endswith(("{", "{}", ";")):
            break
    text = " ".join(words).rstrip(";")
    return text.replace("( ", "(").replace(", )", ")").replace("< ", "<").replace(", >", ">")


def parts_of(lines, at, kind):
    """Returns the variants, public fields or calls of the type or trait that begins at a line, each with what is said of it."""
    begins = {"enum": r"    [A-Z]", "struct": r"    pub (?!ghost)", "trait": r"    fn "}.get(kind)
    found, docs = [], []
    first = next((place for place in range(at, len(lines)) if lines[place].endswith(("{", "{}", ";"))), at)
    if not begins or not lines[first].endswith("{"):
        return found
    for place in range(first + 1, len(lines)):
        line, word = lines[place], lines[place].strip()
        if line == "}":
            break
        if word.startswith("///"):
            docs.append(word[3:].strip())
        elif re.match(begins, line):
            text = gathered(lines, place) if kind == "trait" else word.rstrip("{,").strip()
            said = said_of(docs) if kind == "trait" else sentences(docs)[0]
            found.append((re.sub(r"^(fn|pub) ", "", text), said))
        if not word.startswith(("///", "#[")):
            docs = []
    return found


def clauses_of(lines, at, kind):
    """Returns what a function requires or ensures, a text a clause."""
    words = []
    for line in lines[at:]:
        word = line.strip()
        if word in ("{", "{}") or (word.endswith("{") and not any(map(CLAUSE.match, words))):
            break
        words.append(word.partition("//")[0].strip())
    clauses = re.split(r"\b(?=(?:requires|ensures|decreases)\b)", " ".join(words))
    return [body[1] for clause in clauses if (body := re.match(rf"{kind} (?:\w+ )?\{{ (.*) \}}$", clause.strip()))]


def items_in(lines, file):
    """Returns the public items of a text, each with the head of its `impl`."""
    found, docs, head = [], [], ""
    for at, line in enumerate(lines):
        word = line.strip()
        if word.startswith("///"):
            docs.append(word[3:].strip())
            continue
        if line.startswith("impl"):
            head = gathered(lines, at)
        elif line == "}":
            head = ""
        public = ITEM.match(word)
        if public and (head or not line.startswith(" ")):
            kind, name = public.groups()
            text = re.sub(r"^pub ((const )?fn )?|\bmut (?=\w+: )", "", gathered(lines, at))
            clauses = [clauses_of(lines, at, it) if kind == "fn" else [] for it in ("ensures", "requires")]
            found.append(Item(kind, name, text, docs, head, parts_of(lines, at, kind), *clauses, file))
        if not word.startswith("#["):
            docs = []
    return found


def items_of(file):
    return items_in(lines_of(file), file)


def impls_of(file):
    """Returns the heads of the `impl` blocks of a file."""
    lines = lines_of(file)
    return [gathered(lines, at) for at, line in enumerate(lines) if line.startswith("impl")]


def split_head(head):
    """Returns the trait that an `impl` is of, if there is one, and the type, both as they are written."""
    rest, depth = head.removeprefix("impl"), 0
    for at, char in enumerate(rest):
        depth += (char == "<") - (char == ">")
        if depth == 0 and (char == ">" or not rest.startswith("<")):
            rest = rest[at + 1 :] if char == ">" else rest
            break
    trait, split, owner = rest.partition(" for ")
    return (trait.strip(), owner.strip()) if split else ("", trait.strip())


def owner_of(head):
    """Returns the name of the type that an `impl` is of, and that of the trait, if there is one."""
    trait, owner = split_head(head)
    name = re.match(r"(?:&(?:'\w+ )?)?(?:\w+::)*(\w+|\[\w+\])", owner)
    return (name[1] if name else ""), (re.match(r"\w+", trait)[0] if trait else "")


def traits_of(stem, name):
    """Returns the traits of a type of these files but for `Model`, and those of a reference to it, without lifetimes."""
    own, borrowed = set(), set()
    for file in files_of(stem):
        for trait, owner in map(split_head, impls_of(file)):
            if trait and re.match(rf"(&(?:'\w+ )?)?(?:\w+::)*{name}\b", owner):
                (borrowed if owner.startswith("&") else own).add(re.sub(r"'\w+ ", "", trait))
        derived = re.findall(rf"#\[derive\((.*)\)\]\n(?:#\[.*\]\n)*pub struct {name}\b", "\n".join(lines_of(file)))
        own |= {trait for traits in derived for trait in traits.split(", ")} - {"Drop"}
    return own - {"Model"}, borrowed


def walk_of(stem, container):
    """Returns the files and the name of the type that a container's `iter` returns, or None where it has no `iter`."""
    items = [item for file in files_of(stem) for item in items_of(file)]
    walks = [item.text for item in items if item.name == "iter" and owner_of(item.head) == (container, "")]
    return type_at(stem, re.search(r"-> (?:Result<)?(\w+)<", walks[0])[1]) if walks else None


def type_at(stem, name):
    """Returns the files and the name of the type that a container's files call by a name, which may be an alias."""
    stems = {stem.rpartition("/")[2]: stem for stem in CONTAINERS.values()}
    if any(traits_of(stem, name)):
        return stem, name
    for file in files_of(stem):
        if alias := re.search(rf"^pub type {name}<.*> = (\w+)<", "\n".join(lines_of(file)), re.MULTILINE):
            return type_at(stem, alias[1])
    modules = [module_used(file, name) for file in files_of(stem)]
    return next(type_at(stems[module], name) for module in modules if module in stems and stems[module] != stem)


def without_links(text):
    """Returns a text with the names of its links alone."""
    return re.sub(r"\[(`[^`]*`)\](\([^)]*\))?", r"\1", text)


def sentences(docs):
    """Returns the sentences of the first paragraph of what is said of an item, at least one, without links and citations."""
    text = " ".join(docs[: docs.index("")] if "" in docs else docs)
    text = CITATION.sub("", without_links(text))
    return re.split(r"(?<=[.]) (?=[A-Z`])", text)


def said_of(docs):
    """Returns what decides an item's use: the first sentence, the next one that the page doesn't say elsewhere, and when an
    error comes that has a name."""
    first, *others = sentences(docs)
    more = [text for text in others if not ELSEWHERE.match(text)][:1]
    later = []
    for place, line in enumerate(docs):
        if not line:
            later += sentences(docs[place + 1 :])
    errors = [text for text in others + later if NAMED_ERROR.match(text) and text not in more]
    return " ".join([first, *more, *errors])


# What calls require, in words. What every call with an iterator or a closure requires of it is said in the page's head.
REQUIRED = [
    (r"\(1 ≤ bits\) × \(bits < 64\)", "1 to 63 bits"),
    (r"IsDegree degree", "a degree of 2, 4, 8, 16, 32 or 64"),
    (r"IsTrue \(fits [KT]\.cmp \(bound_copied start\) \(bound_copied end\)\)", "bounds that fit, as `range_fits` tests"),
    (r"length keeps\.now ≡ length self\.now\.(?:entries|members)", "one flag for each"),
    (r"place < 64", "a place below 64"),
    (r"\(x y : K\) → K\.is_clone x y → K\.cmp x y ≡ Equal", "clones of keys that compare equal"),
    (r"\(\w+ : List .*\) → C\.can_from_iter \w+", "a container that any items make"),
    (r"\(c : C\) → C\.is_complete c", "that takes them all"),
]
OF_ARGUMENTS = re.compile(
    r"\(it : [UI]\.IntoIter\) → .*|I\.can_next \w+|IsFinite \(I\.remaining \w+\)|(?:.* → )?F\.IsAlwaysCallable \w+|.* → F\.pre .*"
)
CLONES = re.compile(r"\(x y : ([KVTH])\) → \1\.is_clone x y → y ≡ x")
CLONED = {"K": "keys", "V": "values", "T": "items", "H": "the hasher"}


def required_by(item):
    """Returns what a caller has to prove, in words, or None where a clause has none."""
    words, cloned = [], []
    for clause in item.required:
        said = [text for pattern, text in REQUIRED if re.fullmatch(pattern, clause)]
        if clones := CLONES.fullmatch(clause):
            cloned.append(CLONED[clones[1]])
        elif not said and not OF_ARGUMENTS.fullmatch(clause):
            return None
        words += said
    if cloned:
        words.append("equal clones of " + " and ".join([", ".join(cloned[:-1]), cloned[-1]] if cloned[1:] else cloned))
    return f" Requires {' and '.join(words)}." if words else ""


def costs_of(docs):
    """Returns what the table of a type's page has: what its costs are in, and the costs and allocations of each call. Nothing is
    said of constant costs without an allocation, and nothing of allocations where there are none, or no column of them."""
    rows = [without_links(line) for line in docs if line.startswith("| ")]
    rows = [[cell.strip() for cell in re.split(r"(?<!\\)\|", row)[1:-1]] for row in rows]
    costs, above = collections.defaultdict(list), ""
    for calls, cost, *last in rows[1:]:
        made = last[0] if last else "none"
        above = made = re.sub("^the same", above, made)
        constant = cost in ("", "constant", "none", "none made") and made == "none"
        for call in re.finditer(r"`(\w+)`( of [^,]*)?", calls):
            case = f"{call[2].strip()}: " if call[2] else ""
            made_too = {"": "; allocations alike", "none": ""}.get(made, f"; allocations: {made}")
            costs[call[1]].append("" if constant else case + cost + made_too)
    return (rows[0][1] if rows else ""), {name: "; ".join(cases) for name, cases in costs.items()}


def handed_on(file, name):
    """Returns whether a file has the name in a `pub use`."""
    return any(re.search(rf"\b{name}\b", used) for used in re.findall(r"pub use ([^;]*);", "\n".join(lines_of(file))))


def handed_on_by(file):
    """Returns the names that a file has in its `pub use`."""
    used = re.findall(r"pub use (?:[^;]*::)?([^;]*);", "\n".join(lines_of(file)))
    return [name.split(" as ")[-1].strip() for names in used for name in names.strip("{}\n ,").split(",")]


def modules_of(file):
    """Returns the public modules that a file declares."""
    return re.findall(r"^pub mod (\w+);", "\n".join(lines_of(file)), re.M)


def module_used(file, name):
    """Returns the module from which a file takes a name, or None."""
    for path, names in re.findall(r"^(?:pub )?use ([\w:]+)::(\w+|\{[^}]*\});", "\n".join(lines_of(file)), re.M):
        if re.search(rf"\b{name}\b", names):
            return path.split("::")[-1]
    return None


def path_of(file, name):
    """Returns the shortest path in its own crate by which an item of a file is reached from outside, or None."""
    crate, _, rest = file.removesuffix(".rt").partition("/src/")
    modules = rest.split("/")
    for depth in range(len(modules) + 1):
        here = "/".join(modules[:depth]) or "lib"
        if depth == len(modules) or handed_on(f"{crate}/src/{here}.rt", name):
            return "::".join([crate, *modules[:depth], name])
        if f"pub mod {modules[depth]};" not in lines_of(f"{crate}/src/{here}.rt"):
            return None
    return None


def amount(text, names):
    """Returns an amount of a clause as the page writes it, or None where the page has no words for it."""
    for name, value in names.items():
        text = re.sub(rf"\b{name}\b", value, text)
    for size, words in SIZES:
        text = re.sub(size, words, text)
    text = re.sub(r"m \* (\d+)", r"\1 * m", text)
    text = re.sub(r"2 \* (log2\([^()]*\)) \+ 2 \* \1", r"4 * \1", text)
    text = re.sub(r"(\d+) \* (\d+)", lambda both: str(int(both[1]) * int(both[2])), text)
    if text.startswith("(") and text.endswith(")"):
        text = text[1:-1]
    known = re.fullmatch(r"[nmwdh\d ()+*]*", text.replace("log2(", "("))
    return text.replace(" * ", " ") if known else None


def counts_of(clause):
    """Returns the greatest counts that a clause allows, by kind."""
    names = {}
    while given := re.match(r"let (\w+) = (.*?) in (.*)", clause):
        names[given[1]], clause = given[2], given[3]
    both = re.fullmatch(r"IsWithin (\w+|\(.+?\)) (\w+|\(.+\)) steps\.old steps\.new", clause)
    made = re.fullmatch(r"IsMadeWithin (\w+|\(.+\)) steps\.old steps\.new", clause)
    most = re.fullmatch(r"steps\.new\.(\w+) ≤ steps\.old\.\1 \+ (.+)", clause)
    added = re.fullmatch(r"steps\.new ≡ record steps\.old \{ (\w+) = steps\.old\.\1 \+ (\w+) \}", clause)
    if both:
        counts = {"compared": both[1], "made": both[2]}
    elif made:
        counts = {"made": made[1]}
    elif clause == "steps.new ≡ steps.old":
        counts = {"made": "0"}
    else:
        counts = {found[1]: found[2] for found in (most, added) if found}
    return {kind: words for kind, text in counts.items() if (words := amount(text, names))}


def bound_of(twin):
    """Returns the bound that the counted form of a call promises, in words, or None where there are none for it."""
    counts = {}
    for clause in twin.clauses:
        counts = counts_of(clause) | counts
    none = [f"no {noun}" for kind, noun in COUNTS.items() if counts.get(kind) == "0"]
    some = [(counts[kind], noun) for kind, noun in COUNTS.items() if counts.get(kind, "0") != "0"]
    some = [f"1 {noun}" if count == "1" else f"`{count}` {noun}s" for count, noun in some]
    words = [*none, *(["at most " + " and ".join(some)] if some else [])]
    beside = re.findall(r"It doesn't count (.*?)\.(?: |$)", " ".join(twin.docs))
    said = [text for text in sentences(twin.docs) if not text.startswith("It doesn't count ")]
    plain = re.match(r"`\w+` with counts[:.] (.)(.*?)\.?$", " ".join(said))
    if not some and plain:
        words = [plain[1].lower() + plain[2]]
    return ", ".join([*words, *(f"but for {text}" for text in beside)]) + "." if words else None
