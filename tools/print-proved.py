#!/usr/bin/env python3
"""Prints what is proved of each public call, as Markdown, from the source alone.

    tools/print-proved.py [CRATE ..]
    tools/print-proved.py --definitions [CRATE ..]

Without a name it takes each crate of crates.txt, lowest first. A call is listed under its file with its line, the first
sentence of its `///`, what it asks (the names of its `requires`) and what it says (those of its `ensures`). A clause that
has no name is counted. A call of a trait that stands in an `impl` has the trait's clauses, and those that are printed
here beside them. Under a type stands what always holds of its values (`ghost invariant`), by the facts that are named in
it. A wrong body is an edit in the crate's `must-fail/`, which the gate tries, or, in italics, in its `wrong/`, which
`tools/try-wrong-bodies.sh` tries; each is printed with its file and with the function in which its text stands.

With --definitions it prints each definition of the crates' specs/ in the order of reading, with its line, the sentence
above it, and whether a clause of a public call cites it, by itself or through a definition that such a clause cites.
"""
import os
import re
import signal
import sys

signal.signal(signal.SIGPIPE, signal.SIG_DFL)
ROOT = os.path.dirname(os.path.dirname(os.path.abspath(__file__)))
OPEN, SHUT = "([{", ")]}"


def lines_of(path):
    with open(path, encoding="utf-8") as file:
        return file.read().split("\n")


def crates():
    named = [line.split(":")[0] for line in lines_of(f"{ROOT}/crates.txt") if line and not line.startswith("#")]
    return [name for name in named if os.path.isdir(f"{ROOT}/crates/{name}/src")]


def sources(crate):
    """The files of a crate's src/ with their lines."""
    found = {}
    for at, folders, names in os.walk(f"{ROOT}/crates/{crate}/src"):
        folders.sort()
        for name in sorted(names):
            if name.endswith(".rt"):
                path = f"{at}/{name}"
                found[os.path.relpath(path, f"{ROOT}/crates/{crate}")] = lines_of(path)
    return found


def root_of(crate):
    """The lines of a crate's root file."""
    files = sources(crate)
    return files.get("src/lib.rt") or files.get("src/main.rt") or []


def exported(lines):
    """What the root file of a crate exports, as (module, name)."""
    text = re.sub(r"//[^\n]*", "", "\n".join(lines))
    found = set()
    for one in re.finditer(r"^pub use ([\w:]+)::(?:(\w+)|\{([^}]*)\});", text, re.M):
        names = [one[2]] if one[2] else [name.strip() for name in one[3].split(",")]
        found |= {(one[1], name) for name in names if name}
    return found


def sentence(block):
    """The first sentence of the lines of a comment."""
    text = " ".join(line.strip() for line in block).strip()
    ended = re.match(r"(.+?[.!?])(?=\s|$)", text)
    return ended[1] if ended else text


def block_above(lines, at, mark):
    """The lines of the comment above a line, without its mark, behind attributes."""
    found = []
    at -= 1
    while at >= 0 and (lines[at].strip().startswith("#[") or lines[at].strip().startswith(mark)):
        if lines[at].strip().startswith(mark):
            found.insert(0, lines[at].strip()[len(mark):])
        at -= 1
    return found


def scanned(lines, at):
    """The characters from a line on, without comments, each with how deep it stands in brackets."""
    depth = 0
    for line in lines[at:]:
        for one in line.split("//")[0] + "\n":
            if one in SHUT:
                depth -= 1
            yield one, depth
            if one in OPEN:
                depth += 1


def contract(lines, at):
    """The clauses of the function that begins at a line, as (kind, name), and the text of all of them."""
    found, whole, text = [], "", ""
    for one, depth in scanned(lines, at):
        if depth == 0 and one == ";":
            break
        if depth == 0 and one == "{":
            clause = re.search(r"\b(requires|ensures)\*?\s*(\w*)\s*$", text)
            if not clause:
                break
            found.append((clause[1], clause[2]))
            text = ""
        elif depth == 0:
            text += one
        elif found:
            whole += one
    return found, whole


def facts_in(text):
    """The facts that a ghost member names."""
    return list(dict.fromkeys(re.findall(r"\b(?:Is|Are|Has|Knows|Keeps|May)[A-Z]\w*", text)))


def ghost_of(lines, at, end, name):
    """The text of a ghost member of an `impl`, or nothing where it has none of this name."""
    for number in range(at, end):
        if re.match(rf"\s*ghost {name}\s*=\s*\{{", lines[number]):
            text = ""
            for one, depth in scanned(lines, number):
                if depth > 0:
                    text += one
                elif one == ";":
                    return " ".join(text.split())
    return ""


def end_of(lines, at):
    """The line at which an item of column 0 ends."""
    for number in range(at, len(lines)):
        if lines[number].startswith("}") or (number == at and lines[number].rstrip().endswith("}")):
            return number
    return len(lines)


HEAD = re.compile(r"^(?:unsafe )?impl(?:<(?:[^<>]|<[^<>]*>)*>)? (?:(.+?) for )?([A-Za-z_]\w*)")
CALL = re.compile(r"^(    |)((?:pub(?:\([^)]*\))? )?)(?:unsafe |const )*fn (\w+)")


class Call:
    is_layout = False

    def __init__(self, name, path, lines, at, trait=None):
        self.name, self.path, self.line, self.trait = name, path, at + 1, trait
        self.what = sentence(block_above(lines, at, "///"))
        self.clauses, self.text = contract(lines, at)


class Kind:
    """A public type with what always holds of it, or a member of a trait that every implementation keeps.

    What `Model` says of a type is its layout, which no clause cites but by the type's value."""

    def __init__(self, name, path, at, what, text, is_layout=False):
        self.name, self.path, self.line, self.what = name, path, at + 1, what
        self.text, self.is_layout = text, is_layout


def own_traits():
    """The names of the public traits of all crates."""
    found = set()
    for crate in crates():
        for lines in sources(crate).values():
            for line in lines:
                one = re.match(r"pub trait (\w+)", line)
                if one:
                    found.add(one[1])
    return found


def is_test(lines, at):
    return at > 0 and "cfg(test)" in lines[at - 1]


def calls_of(crate, traits):
    """The public calls of a crate and what always holds of its public types, file by file."""
    files = sources(crate)
    out = exported(root_of(crate))
    names = {name for _, name in out}
    found = []
    for path, lines in files.items():
        module = path[4:-3].replace("/", "::")
        is_root = path == "src/lib.rt"
        at = 0
        while at < len(lines):
            line = lines[at]
            free = CALL.match(line)
            head = HEAD.match(line)
            trait = re.match(r"^pub trait (\w+)", line)
            if free and not free[1]:
                if free[2] == "pub " and (is_root or (module, free[3]) in out):
                    found.append(Call(free[3], path, lines, at))
            elif head and not is_test(lines, at):
                end = end_of(lines, at)
                of, name = head[1], head[2]
                if name in names:
                    found += members(path, lines, at, end, of, name, traits)
                at = end
            elif trait and trait[1] in names:
                end = end_of(lines, at)
                found += trait_members(path, lines, at, end, trait[1])
                at = end
            at += 1
    return found


def members(path, lines, at, end, of, name, traits):
    """The public calls of an `impl`, and what its ghost members say."""
    found = []
    short = re.sub(r"<.*", "", of).split("::")[-1].strip() if of else None
    ghosts = "\n".join(line for line in lines[at:end] if line.startswith("    ghost ") and "ghost use" not in line)
    if ghosts:
        found.append(Kind(name, path, at, what_holds(lines, at, end, short), ghosts, short == "Model"))
    for number in range(at + 1, end):
        one = CALL.match(lines[number])
        if one and one[1] and (one[2] == "pub " if not short else short in traits):
            found.append(Call(f"{name}::{one[3]}", path, lines, number, short))
    return found


def what_holds(lines, at, end, short):
    """What is printed of the ghost members of an `impl`: what always holds, what is said, or nothing."""
    always = ghost_of(lines, at, end, "invariant")
    if always:
        facts = ", ".join(f"`{one}`" for one in facts_in(always))
        return f"always {facts or f'`{always}`'}"
    for member in ("output", "eq", "cmp", "copied"):
        text = ghost_of(lines, at, end, member)
        if text:
            return f"as `{short}`, `ghost {member}` is `{text}`"
    return ""


def trait_members(path, lines, at, end, name):
    """The calls of a public trait, and its ghost members that have a `///`."""
    found = []
    for number in range(at + 1, end):
        one = CALL.match(lines[number])
        ghost = re.match(r"    ghost (\w+):", lines[number])
        if one and one[1]:
            found.append(Call(f"{name}::{one[3]}", path, lines, number))
        elif ghost and ghost[1] != "use":
            what = sentence(block_above(lines, number, "///"))
            if what:
                found.append(Kind(f"{name}::{ghost[1]}", path, number, f"for proofs alone: {what}", lines[number]))
    return found


def edits_of(crate):
    """The wrong bodies of a crate by the file that each changes, with the function in which its text stands."""
    found = {}
    for folder in ("must-fail", "wrong"):
        at = f"{ROOT}/crates/{crate}/{folder}"
        for name in sorted(os.listdir(at)) if os.path.isdir(at) else []:
            if not name.endswith(".edit"):
                continue
            path, olds = None, []
            for line in lines_of(f"{at}/{name}"):
                if line.startswith("file:"):
                    path = line[5:].strip()
                elif line.startswith("old:"):
                    olds.append(line[5:])
            shown = f"`{name[:-5]}`" if folder == "must-fail" else f"*`{name[:-5]}`*"
            where = place_of(f"{ROOT}/crates/{crate}/{path}", olds)
            found.setdefault(path, []).append((shown, where))
    return found


def place_of(path, olds):
    """The function in which the first text that an edit takes away stands, imports left out."""
    if not os.path.isfile(path):
        return "no such file"
    holder, function, found = None, None, "no such text"
    for line in lines_of(path):
        head = re.match(r"^(?:pub(?:\([^)]*\))? )?trait (\w+)", line) or HEAD.match(line)
        call = CALL.match(line)
        if head:
            holder = head[head.lastindex]
        elif call:
            function = (call[1], f"{holder}::{call[3]}" if call[1] else call[3])
        if any(old in line for old in olds) and not line.lstrip().startswith(("use ", "ghost use ")):
            if function:
                return f"`{function[1]}`"
            found = "in no function"
        if function and line == function[0] + "}":
            function = None
    return found


def said(clauses, kind):
    """The names of the clauses of one kind, as text."""
    named = [f"`{name}`" for which, name in clauses if which == kind and name]
    bare = sum(1 for which, name in clauses if which == kind and not name)
    if bare:
        named.append("one without a name" if bare == 1 else f"{bare} without a name")
    return ", ".join(named)


def print_crate(crate, traits):
    calls, edits = calls_of(crate, traits), edits_of(crate)
    print(f"\n## `{crate}`\n\n{sentence(head_of(crate))}")
    of_others = sorted((module, name) for module, name in exported(root_of(crate)) if module in crates() and module != crate)
    if of_others:
        print("It exports also " + ", ".join(f"`{module}::{name}`" for module, name in of_others) + ".")
    for path in sorted({call.path for call in calls if not isinstance(call, Kind) or call.what} | set(edits)):
        print(f"\n### `crates/{crate}/{path}`\n")
        plain = {}
        for call in (one for one in calls if one.path == path and not (isinstance(one, Kind) and not one.what)):
            if isinstance(call, Kind):
                print(f"- `{call.name}`, line {call.line}: {call.what}")
            elif call.trait and not call.clauses:
                plain.setdefault((call.name.split("::")[0], call.trait), []).append(call)
            else:
                print_call(call)
        for (name, trait), those in plain.items():
            named = ", ".join(f"`{one.name.split('::')[1]}` ({one.line})" for one in those)
            print(f"- `{name}`, the clauses of `{trait}` alone: {named}")
        if path in edits:
            print("- Wrong bodies: " + "; ".join(f"{name} ({where})" for name, where in edits[path]))


def print_call(call):
    asks, says = said(call.clauses, "requires"), said(call.clauses, "ensures")
    parts = [call.what, asks and f"Asks {asks}.", says and f"Says {says}.", "" if asks or says else "No clause."]
    of = f" (and the clauses of `{call.trait}`)" if call.trait else ""
    print(f"- `{call.name}`{of}, line {call.line}: {' '.join(part for part in parts if part)}")


def head_of(crate):
    """The first paragraph of a crate's root comment."""
    found = []
    for line in root_of(crate):
        if not line.startswith("//!") or line.strip() == "//!":
            break
        found.append(line[3:])
    return found


# The definitions.

DEFINED = re.compile(r"^(?:\w+ )*?pub (?:record |data )?([^\s:({]+)")


def modules(crate):
    """The modules of a crate's specs/, by their paths, with their lines, in the order of reading."""
    at = f"{ROOT}/crates/{crate}/specs"
    return listed_in(at, "", lines_of(f"{at}/Lib.antt")) if os.path.isfile(f"{at}/Lib.antt") else []


def listed_in(at, folder, listed):
    """The modules that a list of a folder names; in place of one that is a list, those that it names."""
    found = []
    for name in [one[1] for one in (re.match(r"pub mod (\w+)", line) for line in listed) if one]:
        path = folder + name
        lines = lines_of(f"{at}/{path}.antt") if os.path.isfile(f"{at}/{path}.antt") else []
        if os.path.isdir(f"{at}/{path}"):
            found += listed_in(at, f"{path}/", lines)
        elif lines:
            found.append((path, lines))
    return found


def definitions(lines):
    """Each definition of a module as (name, place of its first line, place behind its last)."""
    starts = [(at, DEFINED.match(line)) for at, line in enumerate(lines)]
    found = [(at, one[1]) for at, one in starts if one and "pub mod " not in lines[at]]
    ends = [at for at, _ in found[1:]] + [len(lines)]
    return [(name, at, end) for (at, name), end in zip(found, ends)]


def imported(lines):
    """Which module of which crate each name comes from that these lines take in."""
    found = {}
    for one in re.finditer(r"^\s*(?:ghost )?use Rattle\.(\w+)\.specs\.([\w.]+)\.\{([^}]*)\}", "\n".join(lines), re.M):
        for name in one[3].split(","):
            first, last = name.split(" as ")[0].strip(), name.split(" as ")[-1].strip()
            found[last] = (one[1], one[2].replace(".", "/"), first)
    return found


def words_of(text):
    """The words of a text of definitions or clauses, members of records left out."""
    return set(re.findall(r"(?<![\w.])[A-Za-z_]\w*", re.sub(r"--.*", "", text)))


def cited(traits):
    """The definitions that a clause of a public call cites, by itself or through another definition."""
    known = {}
    for crate in crates():
        for module, lines in modules(crate):
            names = imported(lines)
            those = definitions(lines)
            names.update({name: (crate, module, name) for name, _, _ in those})
            for name, at, end in those:
                known[crate, module, name] = {names[word] for word in words_of("\n".join(lines[at:end])) if word in names}
    found, todo = set(), set()
    for crate in crates():
        files = sources(crate)
        for call in (one for one in calls_of(crate, traits) if not one.is_layout):
            names = imported(files[call.path])
            todo |= {names[word] for word in words_of(call.text) if word in names}
    while todo:
        one = todo.pop()
        if one in known and one not in found:
            found.add(one)
            todo |= known[one]
    return found


def print_definitions(names):
    reached = cited(own_traits())
    for crate in names:
        those = modules(crate)
        if those:
            print(f"\n## `{crate}`")
        for module, lines in those:
            head = [line[2:] for line in lines[:next((at for at, line in enumerate(lines) if line[:2] != "--"), 0)]]
            defined = definitions(lines)
            public = [name for name, _, _ in defined if (crate, module, name) in reached]
            print(f"\n### `crates/{crate}/specs/{module}.antt`\n\n{sentence(head)}"
                  + ("" if public else " No public clause cites this module.") + "\n")
            for name, at, _ in defined:
                what = " ".join(line.strip() for line in block_above(lines, at, "--"))
                of = "" if not public or name in public else " (cited by no public clause)"
                print(f"- `{name}`, line {at + 1}{of}: {what or 'no sentence'}")


def main():
    words = sys.argv[1:]
    wants_definitions = "--definitions" in words
    names = [word for word in words if not word.startswith("--")]
    known = crates()
    strange = [word for word in words if word.startswith("--") and word != "--definitions"]
    strange += [name for name in names if name not in known]
    if strange:
        sys.exit(f"{strange[0]} is neither a crate nor an option: tools/print-proved.py [--definitions] [CRATE ..]")
    if wants_definitions:
        print_definitions(names or known)
    else:
        traits = own_traits()
        for crate in names or known:
            print_crate(crate, traits)


if __name__ == "__main__":
    main()
