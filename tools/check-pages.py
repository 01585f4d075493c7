#!/usr/bin/env python3
"""Tells what README.md and docs/*.md name that is not there: tools/check-pages.py [PAGE ..]

Where each name is there, it says nothing and its status is 0. It judges

- links: the file, and the heading behind `#`;
- paths in backquotes that begin with a folder of the repository or end as its files do;
- calls, `crate::call` and `crate::Type::call`, by the sources of the crate;
- clauses, where a table or a sentence says of which call: `ensures NAME {` and `requires NAME {` of it;
- facts, such as `IsLegal` and `HasWritten`, by all that the crates' files define or name;
- wrong bodies in a table's column of them, and in italics those that lie in `wrong/`;
- how many lines a file, a type's file or a crate's sources have, where the number stands beside its name. Any of
  four counts is right: all lines, those that are not empty, of these those that are no comment, and of these those
  that import no name.

A name that stands in none of these forms is not judged.
"""
import functools
import glob
import os
import re
import sys
from collections.abc import Iterator

ROOT = os.path.dirname(os.path.dirname(os.path.abspath(__file__)))
# Where the repository's own files lie; a path below another folder is another program's.
FOLDERS = ("crates", "docs", "tools", "examples", "scale", ".ci")
# What is built or made and so may be missing.
MADE = re.compile(r"/out(/|$)|^target/|\.log$|/__pycache__/")
# What looks like a name of ours and is another's: of the toolchain, or of a file that the reader is to write.
OTHERS = {"Tree::find", "Node::search", "crates/computations/src/at_least.rt"}
# What in a path stands for other text: `crates/NAME/src`, `*.md`, `..`, `<..>`.
OPEN = re.compile(r"[*<>{}$]|\.\.|(^|/)[A-Z]{2,}(/|$)")
QUOTED = re.compile(r"`([^`]+)`")
LINK = re.compile(r"(?<!!)!?\[(?:[^\]`]|`[^`]*`)*\]\(([^)\s]+)\)")
CALL = re.compile(r"(?:\w+::)+\w+")
CLAUSE = re.compile(r"\b(?:ensures\*?|requires|invariant|ghost)\s+(\w+)\s*(?:\{|:)")
FUNCTION = re.compile(r"^\s*(?:pub(?:\([a-z]+\))? )?(?:const )?(?:unsafe )?(?:ghost )?fn (\w+)")
BLOCK = re.compile(r"^(?:pub(?:\([a-z]+\))? )?(impl|trait)\b(.*)")
THING = re.compile(r"^\s*(?:pub(?:\([a-z]+\))? )?(?:struct|enum|trait|type|const|static|mod|macro) (\w+)", re.M)
USED = re.compile(r"^\s*pub use ([^;]+);", re.M)
VARIANT = re.compile(r"^    (\w+)(?: \{|\(|,| =)", re.M)
FACT = re.compile(r"\b(?:Is|Has|Are|May|Holds|Keeps|Was)[A-Z]\w*")
LINES_OF = re.compile(r"(?:\b|^)(\d[\d,]*) lines (?:of|in) `([^`]+)`")
LINES_IN = re.compile(r"`([^`]+)` ?(?:\(|, |has |of )(\d[\d,]*) lines")


def text_of(path: str) -> str:
    """What a file holds."""
    with open(path, encoding="utf-8") as told:
        return told.read()


@functools.cache
def crates() -> tuple[str, ...]:
    """The names of the crates."""
    return tuple(os.path.basename(os.path.dirname(it)) for it in glob.glob(f"{ROOT}/crates/*/src"))


@functools.cache
def sources(crate: str) -> dict[str, str]:
    """The files of a crate's code, each with its text."""
    found = glob.glob(f"{ROOT}/crates/{crate}/src/**/*.rt", recursive=True)
    return {path: text_of(path) for path in found}


def names_in(text: str) -> set[str]:
    """The words of a piece of code."""
    return set(re.findall(r"\w+", text))


def names_of(header: str) -> list[str]:
    """The words of a block's header, without its parameters."""
    return re.findall(r"\w+", re.sub(r"<.*?>", "", header))


class Crate:
    """What a crate's sources say: its things, and of each function its owner and its clauses."""

    def __init__(self, name: str):
        self.things: set[str] = set()
        # Of each function of the crate: the words of the block that it stands in, and the names of its clauses.
        self.functions: dict[str, list[tuple[set[str], set[str]]]] = {}
        # Of each type, the words of the traits that it has.
        self.traits: dict[str, set[str]] = {}
        for text in sources(name).values():
            self.things.update(THING.findall(text))
            for used in USED.findall(text):
                self.things |= names_in(used)
            self.read(text)

    def read(self, text: str) -> None:
        """Takes in the functions of one file."""
        block: set[str] = set()
        clauses: set[str] = set()
        for line in text.split("\n"):
            if begun := BLOCK.match(line):
                block, clauses = names_in(begun[2]), set()
                trait, is_of_trait, kind = begun[2].partition(" for ")
                if is_of_trait:
                    self.traits.setdefault(names_of(kind)[0], set()).update(names_of(trait))
            elif line == "}":
                block, clauses = set(), set()
            if made := FUNCTION.match(line):
                clauses = set()
                self.functions.setdefault(made[1], []).append((block, clauses))
            clauses.update(CLAUSE.findall(line))


@functools.cache
def crate(name: str) -> Crate:
    """A crate, read once."""
    return Crate(name)


@functools.cache
def owners_of(kind: str) -> frozenset[str]:
    """The crates that have a type or trait of this name."""
    return frozenset(it for it in crates() if kind in crate(it).things)


@functools.cache
def variants_of(kind: str) -> frozenset[str]:
    """The variants of each enum of this name."""
    found: set[str] = set()
    for name in owners_of(kind):
        for text in sources(name).values():
            for body in re.findall(r"\benum %s\b[^{]*\{(.*?)^\}" % kind, text, re.M | re.S):
                found.update(VARIANT.findall(body))
    return frozenset(found)


def calls_of(kind: str, call: str) -> list[set[str]]:
    """The clauses of each function of this name in a block of this type or trait, or of a trait that the type has."""
    kinds = {kind}.union(*(crate(it).traits.get(kind, ()) for it in crates()))
    blocks = [it for name in crates() for it in crate(name).functions.get(call, [])]
    return [clauses for words, clauses in blocks if kinds & words]


def has_call(kind: str, call: str) -> bool:
    """Whether a type has a call or a variant of this name."""
    return bool(calls_of(kind, call)) or call in variants_of(kind)


def wrong_call(name: str) -> str:
    """Why a name of the form `crate::call`, `crate::Type::call` or `Type::call` is none; empty where it is, or another's."""
    first, *rest = name.split("::")
    if first in crates():
        inner = sources(first)
        if len(rest) == 1:
            known = rest[0] in crate(first).things or rest[0] in crate(first).functions
            known = known or any(re.search(r"\b%s\.rt$" % re.escape(rest[0]), it) for it in inner)
            return "" if known else f"{first} has no {rest[0]}"
        kind, call = rest[-2:]
        if kind[0].islower():
            return "" if call in crate(first).things or call in crate(first).functions else f"{first} has no {call}"
        if kind not in crate(first).things:
            return f"{first} has no {kind}"
        return "" if has_call(kind, call) else f"{kind} has no {call}"
    if len(rest) == 1 and first[0].isupper() and owners_of(first):
        return "" if has_call(first, rest[0]) else f"{first} has no {rest[0]}"
    return ""


def clauses_of(name: str) -> set[str] | None:
    """The names of a call's clauses; none at all where it is no call of ours."""
    first, *rest = name.split("::")
    if first in crates() and len(rest) == 1:
        found = [clauses for _, clauses in crate(first).functions.get(rest[0], [])]
    elif rest and rest[-1:] and len([first, *rest]) > 1:
        kind = [first, *rest][-2]
        found = calls_of(kind, rest[-1]) if kind[0].isupper() else []
    else:
        found = []
    return set().union(*found) if found else None


@functools.cache
def headings(path: str) -> frozenset[str]:
    """The anchors of a page: its headings as a browser of repositories writes them."""
    seen: dict[str, int] = {}
    found = []
    for line in re.sub(r"^```.*?^```", "", text_of(path), flags=re.M | re.S).split("\n"):
        if told := re.match(r"#+ +(.*?) *#*$", line):
            plain = re.sub(r"\[([^\]]*)\]\([^)]*\)", r"\1", told[1])
            slug = re.sub(r"[^\w\- ]", "", plain.lower()).replace(" ", "-")
            times = seen.get(slug, 0)
            seen[slug] = times + 1
            found.append(f"{slug}-{times}" if times else slug)
    return frozenset(found)


def shown(path: str) -> str:
    """A file's name, from the repository's top where it lies there."""
    return os.path.relpath(path, ROOT) if path.startswith(ROOT + "/") else path


def wrong_link(page: str, link: str) -> str:
    """Why a link leads nowhere; empty where it leads somewhere, or out of the repository."""
    if re.match(r"\w+:", link):
        return ""
    path, _, anchor = link.partition("#")
    to = os.path.normpath(os.path.join(os.path.dirname(page), path)) if path else page
    if not os.path.exists(to):
        return f"no file {path}"
    if anchor and to.endswith(".md") and anchor not in headings(to):
        return f"{shown(to)} has no heading #{anchor}"
    return ""


def places_of(page: str, path: str) -> Iterator[str]:
    """Where a path may lie: from the repository's top, from the page's folder, or in a crate or a folder of examples."""
    yield f"{ROOT}/{path}"
    yield os.path.join(os.path.dirname(page), path)


def wrong_path(page: str, told: str) -> str:
    """Why a path names nothing; empty where it does, or where it is no path of ours."""
    path = told.split()[0].rstrip("/") if told.split() else ""
    first = path.split("/")[0]
    if "/" not in path or first not in FOLDERS or OPEN.search(path) or MADE.search(path) or not re.fullmatch(r"[\w./-]+", path):
        return ""
    return "" if any(os.path.exists(it) for it in places_of(page, path)) else f"no file {path}"


def counts_of(name: str) -> set[int]:
    """How many lines a file, the files of a type, or a crate's sources may be said to have; none where it is no such name."""
    if name in crates():
        texts = list(sources(name).values())
    elif "/" in name and os.path.isfile(f"{ROOT}/{name}"):
        texts = [text_of(f"{ROOT}/{name}")]
    else:
        made = re.compile(r"^pub (?:struct|enum|trait) %s\b" % re.escape(name), re.M)
        texts = [text for it in crates() for text in sources(it).values() if made.search(text)]
    lines = [line.strip() for text in texts for line in text.splitlines()]
    full = [line for line in lines if line]
    said = [line for line in full if not line.startswith(("//", "--", "#"))]
    own = [line for line in said if not line.startswith(("use ", "ghost use "))]
    return {len(it) for it in (lines, full, said, own)} if texts else set()


def wrong_counts(line: str) -> Iterator[str]:
    """What a line says of the lines of a file that is not so."""
    told = [(name, number) for number, name in LINES_OF.findall(line)] + LINES_IN.findall(line)
    for name, number in told:
        right = counts_of(name)
        if right and int(number.replace(",", "")) not in right:
            yield f"{name} has not {number} lines ({', '.join(map(str, sorted(right)))})"


def told_calls(cell: str) -> list[str]:
    """The calls of a cell, each with its crate: a word alone is of what stands behind `of`, or of the call before it."""
    for names, owner in re.findall(r"((?:`[a-z]\w*`(?:, | and )?)+) of `((?:\w+::)+\w+)`", cell):
        whole = ", ".join(f"`{owner}::{it}`" for it in re.findall(r"`(\w+)`", names))
        cell = cell.replace(f"{names} of `{owner}`", whole)
    found, owner = [], ""
    for told in QUOTED.findall(cell):
        if CALL.fullmatch(told):
            owner = told.rpartition("::")[0]
            found.append(told)
        elif re.fullmatch(r"[a-z]\w*", told) and owner:
            places = [f"{owner}::{told}", f"{found[0].partition('::')[0]}::{told}"]
            found.append(next((it for it in places if not wrong_call(it)), places[0]))
    return found


def plain_names(cell: str) -> str:
    """A cell without what stands in brackets, or behind `of` and `by`, which is another thing's name."""
    return re.sub(r"\b(?:of|by) (?:the \w+ )?`[^`]*`", "", re.sub(r"\([^()]*\)", "", cell))


def wrong_clauses(calls: str, cell: str) -> Iterator[str]:
    """The calls of a cell that are none, and the clauses of another that none of these calls has."""
    named = told_calls(calls)
    yield from filter(None, map(wrong_call, named))
    found = [clauses_of(it) for it in named]
    if not found or None in found or re.search(r"`\w+` of |by tests|trait", re.sub(r"\([^()]*\)", "", cell)):
        return
    known = set().union(*found)
    for name in QUOTED.findall(plain_names(cell)):
        if re.fullmatch(r"[a-z]\w*", name) and name not in known:
            yield f"no clause {name} of {', '.join(named)}"


def wrong_bodies(cell: str) -> Iterator[str]:
    """The wrong bodies of a cell that no file is: those in italics lie in `wrong/`, the others in `must-fail/`."""
    plain = plain_names(cell)
    slanted = " ".join(re.findall(r"\*([^*]*)\*", plain))
    told = [("wrong", it) for it in QUOTED.findall(slanted)]
    told += [("must-fail", it) for it in QUOTED.findall(re.sub(r"\*[^*]*\*", "", plain))]
    for folder, name in told:
        if re.fullmatch(r"\w+", name) and not glob.glob(f"{ROOT}/crates/*/{folder}/{name}.edit"):
            yield f"no wrong body {folder}/{name}.edit"


def cells_of(line: str) -> list[str]:
    """The cells of a line of a table."""
    return [it.strip() for it in re.split(r"(?<!\\)\|", line)[1:-1]]


def wrong_row(header: list[str], cells: list[str], above: str) -> Iterator[str]:
    """What a row of a table names that is not there; an empty cell for the call stands for the one above."""
    row = dict(zip(header, cells))
    if "Call" in row and "Clause" in row:
        yield from wrong_clauses(row["Call"] or above, row["Clause"])
    for head, cell in row.items():
        if told := re.fullmatch(r"Clause of `(\w+)`", head):
            owners = [it for it in crates() if told[1] in crate(it).functions]
            yield from wrong_clauses(", ".join(f"`{it}::{told[1]}`" for it in owners), cell)
    if "Wrong body" in row:
        yield from wrong_bodies(row["Wrong body"])


@functools.cache
def facts() -> frozenset[str]:
    """The names of facts that stand in the crates' definitions, contracts and proofs."""
    found: set[str] = set()
    for part in ("src", "specs", "proofs"):
        for path in glob.glob(f"{ROOT}/crates/*/{part}/**/*.*", recursive=True):
            found.update(FACT.findall(text_of(path)))
    return frozenset(found)


# `clause` of `call`, and the clause `name` of `call`.
PROSE = re.compile(r"clauses? ((?:`\w+`(?:, | and )?)+) of `((?:\w+::)+\w+)`")


def wrong_words(page: str, line: str) -> Iterator[str]:
    """What a line names by links, paths, calls, clauses and numbers that is not there."""
    for link in LINK.findall(QUOTED.sub("", line) if line.startswith("    ") else line):
        yield wrong_link(page, link)
    for told in QUOTED.findall(line):
        if told not in OTHERS:
            yield wrong_path(page, told)
            yield wrong_call(told) if CALL.fullmatch(told) else ""
            yield f"no fact {told}" if FACT.fullmatch(told) and told not in facts() else ""
    for names, call in PROSE.findall(line):
        known = clauses_of(call)
        if known is not None:
            yield from (f"no clause {it} of {call}" for it in re.findall(r"\w+", names) if it not in {*known, "and"})
    yield from wrong_counts(line)


def wrong_in(page: str) -> Iterator[tuple[int, str]]:
    """What a page names that is not there, each with its line."""
    header: list[str] = []
    above, is_code = "", False
    for number, line in enumerate(text_of(page).split("\n"), 1):
        is_code ^= line.startswith("```")
        if is_code:
            continue
        yield from ((number, it) for it in wrong_words(page, line) if it)
        if not line.startswith("|"):
            header, above = [], ""
        elif not header:
            header = cells_of(line)
        elif not line.startswith("|-"):
            cells = cells_of(line)
            yield from ((number, it) for it in wrong_row(header, cells, above))
            if "Call" in header:
                above = dict(zip(header, cells)).get("Call") or above


def main() -> None:
    if sys.argv[1:] == ["--help"]:
        print(__doc__)
        return
    pages = sys.argv[1:] or [f"{ROOT}/README.md", *sorted(glob.glob(f"{ROOT}/docs/*.md"))]
    said = dict.fromkeys(f"{shown(page)}:{number}: {it}" for page in map(os.path.abspath, pages) for number, it in wrong_in(page))
    print("\n".join(said), end="\n" if said else "")
    sys.exit(1 if said else 0)


if __name__ == "__main__":
    main()
