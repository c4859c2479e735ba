"""Compares two tables of docs/DIFFERENCES.md with the sources, that of the calls of maps and sets and that of the traits of all
containers: what either lacks is told."""

import re

HEAD = re.compile(r"\|calls\|(.*)\|[^|]*\|")
TRAITS_HEAD = re.compile(r"\|container\|(.*)\|")


def table_of(page):
    """Returns the rows of the page's table: the calls of each, the containers that have them, and why others don't."""
    rows, containers = [], None
    for line in page.splitlines():
        if head := HEAD.fullmatch(line):
            containers = re.findall(r"`(\w+)`", head[1])
        elif not line.startswith("|"):
            containers = None
        elif containers and not line.startswith("|---"):
            calls, *marks, why = line[1:-1].split("|")
            has = {container for container, mark in zip(containers, marks) if mark}
            rows.append((re.findall(r"`(\w+)`", calls), has, why))
    return rows


def plain(names):
    """Returns the calls, without a counted form whose plain call is there."""
    return {name for name in names if name.removesuffix("_counted") not in names - {name}}


def faults_of_table(page, calls):
    """Returns what is wrong with the page's table, where these are the calls of each container."""
    rows, faults = table_of(page), []
    for container, names in calls.items():
        listed = [name for row, has, _ in rows if container in has for name in row]
        faults += [f"the table of calls lacks `{name}` of `{container}`" for name in sorted(plain(names) - set(listed))]
        faults += [f"the table of calls has `{name}` of `{container}`, which isn't there" for name in sorted(set(listed) - names)]
        faults += [f"the table of calls has `{name}` of `{container}` twice" for name in sorted(set(listed)) if listed.count(name) > 1]
    for row, has, why in rows:
        if has != calls.keys() and not why:
            faults.append(f"the table of calls doesn't say why some lack `{row[0]}`")
    return faults


def table_of_traits(page):
    """Returns the rows of the page's table of traits by container: of each column its head, and whether it has a mark there."""
    rows, heads = {}, None
    for line in page.splitlines():
        if head := TRAITS_HEAD.fullmatch(line):
            heads = head[1].split("|")
        elif not line.startswith("|"):
            heads = None
        elif heads and not line.startswith("|---"):
            container, *marks = line[1:-1].split("|")
            rows[container.strip("`")] = [(head, bool(mark)) for head, mark in zip(heads, marks, strict=True)]
    return rows


def short(trait):
    """Returns the name of a trait, with its type where that tells two apart."""
    name = re.match(r"\w+", trait)[0]
    return f"{name}<&T>" if name == "Extend" and "&" in trait else name


def faults_of_traits(page, traits):
    """Returns what is wrong with the page's table of traits, where these are those of each container, of a reference to it, and
    of its walk. The head of a column has the traits, behind `&` or 'walk' where they aren't the container's own."""
    rows, faults = table_of_traits(page), []
    faults += [f"the table of traits lacks `{container}`" for container in traits if container not in rows]
    faults += [f"the table of traits has `{container}`, which isn't there" for container in rows if container not in traits]
    for container in rows.keys() & traits.keys():
        own, borrowed, walk = ({short(trait) for trait in found} for found in traits[container])
        for head, mark in rows[container]:
            has = borrowed if head.startswith("`&`") else walk if head.startswith("walk") else own
            for trait in re.findall(r"`(\w[^`]*)`", head):
                if mark != (trait in has):
                    faults.append(f"the table of traits says that `{container}` {'has' if mark else 'lacks'} `{trait}` under {head}")
    return sorted(faults)


MADE_UP = """\
|calls|`Bag`|`Row`|why some lack them|
|---|---|---|---|
|`new`, *`len`*|x|x||
|`first`||x|a bag has no order|
|`last`||x||

|container|`Extend`|`Extend<&T>`|`Eq`, `Ord`|`&`: `IntoIterator`|walk: `Clone`|
|---|---|---|---|---|---|
|`Bag`|x||x||x|
|`Row`|x|x||x||
"""


def test():
    """Returns what is found of a made-up table where it should be something else."""
    both = {"new", "len", "len_counted"}
    cases = [
        ({"Bag": both, "Row": both | {"first", "last"}}, []),
        ({"Bag": both | {"grab"}, "Row": both | {"first", "last"}}, ["the table of calls lacks `grab` of `Bag`"]),
        ({"Bag": both, "Row": both | {"last"}}, ["the table of calls has `first` of `Row`, which isn't there"]),
    ]
    silent = "the table of calls doesn't say why some lack `last`"
    faults = [found for calls, wanted in cases if (found := faults_of_table(MADE_UP, calls)) != [*wanted, silent]]
    bag, row = ({"Extend<T>", "Eq", "Ord"}, set(), {"Clone"}), ({"Extend<T>", "Extend<&T>"}, {"IntoIterator"}, set())
    kinds = [
        ({"Bag": bag, "Row": row}, []),
        ({"Bag": bag}, ["the table of traits has `Row`, which isn't there"]),
        ({"Bag": bag, "Row": row, "Sack": row}, ["the table of traits lacks `Sack`"]),
        ({"Bag": ({"Extend<&T>", "Eq", "Ord"}, *bag[1:]), "Row": row}, [
            "the table of traits says that `Bag` has `Extend` under `Extend`",
            "the table of traits says that `Bag` lacks `Extend<&T>` under `Extend<&T>`",
        ]),
        ({"Bag": bag, "Row": ({*row[0], "Eq"}, set(), {"Clone"})}, [
            "the table of traits says that `Row` has `IntoIterator` under `&`: `IntoIterator`",
            "the table of traits says that `Row` lacks `Clone` under walk: `Clone`",
            "the table of traits says that `Row` lacks `Eq` under `Eq`, `Ord`",
        ]),
    ]
    return faults + [found for traits, wanted in kinds if (found := faults_of_traits(MADE_UP, traits)) != wanted]
