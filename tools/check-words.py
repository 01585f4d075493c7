#!/usr/bin/env python3
"""Compares the manual page and the completions with the words that the program takes: tools/check-words.py [PROGRAM]

Which modes, options and statuses there are, `crates/command_line` and `crates/task_runs` say. Which options a mode takes,
the manual's synopsis and the completions of both shells have to say alike; and PROGRAM, where one is named, is asked for
each. Where all is alike, it says nothing. The completions for bash are run; those for zsh are read.
"""
import os
import re
import subprocess
import sys
import tempfile

ROOT = os.path.dirname(os.path.dirname(os.path.abspath(__file__)))
BASH, ZSH = f"{ROOT}/tools/completions/millwheel.bash", f"{ROOT}/tools/completions/_millwheel"
# Words with which each mode is a command, over files that are not there.
RIGHT = {
    "solo": ["solo", "t", "e"], "replay": ["replay", "--plan=p", "t", "e"],
    "run": ["run", "--workers=1", "--rounds=0", "t", "e"], "plain": ["plain", "t", "e"],
    "audit": ["audit", "--trace=x", "t", "e"], "collect": ["collect", "f"], "load": ["load", "7", "3"],
}
# What an option has behind `=`, where a file's name will not do.
VALUES = {"--workers": "=1", "--rounds": "=0", "--history": "", "--live": ""}
# Has bash complete the last of these words, and prints what it offers.
ASK = 'source "$1"; shift; COMP_WORDS=("$@"); COMP_CWORD=$(($# - 1)); _millwheel; printf "%s\\n" "${COMPREPLY[@]}"'
USAGE = 2

Table = dict[str, set[str]]


def text_of(path: str) -> str:
    """What a file of the repository holds."""
    with open(f"{ROOT}/{path}" if not path.startswith("/") else path, encoding="utf-8") as told:
        return told.read()


def modes() -> list[str]:
    """The modes of the grammar."""
    return re.findall(r'is_word mode \(codes "(\w+)"\)', text_of("crates/command_line/specs/Grammar.antt"))


def options() -> set[str]:
    """The options and flags that the words may have."""
    return {f"--{it}" for it in re.findall(r'(?:valued|flag)\(alloc, "(\w+)"\)', text_of("crates/command_line/src/parser.rt"))}


def statuses() -> set[str]:
    """The numbers with which the program ends."""
    return set(re.findall(r"^number_of .* = (\d+)$", text_of("crates/task_runs/specs/Numbers.antt"), re.M))


def section(manual: str, name: str) -> str:
    """A section of the manual page."""
    return re.search(r'^\.SH "?%s"?\n(.*?)(?=^\.SH|\Z)' % name, manual, re.M | re.S)[1]


def heads(part: str) -> set[str]:
    """What the paragraphs of a section are headed by."""
    return {re.split(r"[\s\"]", it.strip())[0] for it in re.findall(r"^\.TP\n\.BI? (.*)$", part, re.M)}


def of_manual(manual: str) -> Table:
    """The options of each mode by the synopsis."""
    lines = re.findall(r"^millwheel (\w+)(.*)$", re.sub(r"\\f.", "", section(manual, "SYNOPSIS")), re.M)
    return {mode: set(re.findall(r"--\w+", rest)) for mode, rest in lines}


def offered(*words: str) -> set[str]:
    """What bash offers for the last of these words."""
    ran = subprocess.run(["bash", "-c", ASK, "bash", BASH, "millwheel", *words], text=True, stdout=subprocess.PIPE, check=True)
    return set(ran.stdout.split())


def of_zsh() -> Table:
    """The options of each mode by the completions for zsh."""
    text = text_of(ZSH)
    named = {name: set(re.findall(r"(--\w+)=?\[", told)) for name, told in re.findall(r"^(\w+)=\(('.*')\)$", text, re.M)}
    lines = re.findall(r"^    (\w+)\) _arguments -S (.*) ;;$", text, re.M)
    return {mode: set().union(*(named.get(it, set()) for it in re.findall(r"\$(\w+)", rest))) for mode, rest in lines}


def takes(program: str, mode: str, option: str, room: str) -> bool:
    """Whether the program takes an option with a mode."""
    right = RIGHT[mode]
    words = right if any(it.startswith(f"{option}=") for it in right) else [*right, option + VALUES.get(option, "=x")]
    return subprocess.run([program, *words], cwd=room, capture_output=True).returncode != USAGE


def of_program(program: str) -> Table:
    """The options of each mode by the program."""
    with tempfile.TemporaryDirectory() as room:
        return {mode: {it for it in options() if takes(program, mode, it, room)} for mode in modes()}


def differences(manual: str, program: str | None) -> list[str]:
    """What is said otherwise in one place than in another."""
    wanted = of_program(os.path.abspath(program)) if program else of_manual(manual)
    tables = {"the manual's synopsis": of_manual(manual), "completions for zsh": of_zsh()}
    tables["completions for bash"] = {mode: offered(mode, "--") for mode in modes()}
    said = [f"{name}: {mode} has {sorted(table.get(mode, set()))}, and takes {sorted(wanted[mode])}"
            for name, table in tables.items() for mode in wanted if table.get(mode, set()) != wanted[mode]]
    lists = {
        "modes of the synopsis": (set(of_manual(manual)), set(modes())),
        "modes of the manual": (heads(section(manual, "MODES")), set(modes())),
        "modes for bash": (offered(""), set(modes())),
        "modes for zsh": (set(re.findall(r"^    '(\w+):", text_of(ZSH), re.M)), set(modes())),
        "modes that zsh knows options of": (set(of_zsh()), set(modes())),
        "options of the manual": ({it.replace("\\", "") for it in heads(section(manual, "OPTIONS"))}, options()),
        "options for bash before a mode": (offered("--"), options()),
        "statuses of the manual": (heads(section(manual, "EXIT STATUS")), statuses()),
        "words that this script tries": (set(RIGHT), set(modes())),
    }
    return said + [f"{name}: {sorted(found)}, and there are {sorted(right)}" for name, (found, right) in lists.items() if found != right]


def main() -> None:
    manual = text_of("docs/millwheel.1").replace("\\-", "-")
    said = differences(manual, sys.argv[1] if sys.argv[1:] else None)
    print("\n".join(said), end="\n" if said else "")
    sys.exit(1 if said else 0)


if __name__ == "__main__":
    main()
