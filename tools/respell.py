#!/usr/bin/env python3
"""Brings the repository's own definitions and lemmas to snake case, once, after port.py.

usage: python3 tools/respell.py [--check]      at the top of the checkout

What turns: a name in lower case that joins words by capitals or dashes (storedWithin, frame-ends) and that an .antt file of crates/ declares:
a definition, a lemma, a field, a constructor. It turns in .antt files, in `ghost use` items and clauses of .rt files, in code spans of
comments, and in must-fail edits of .antt files. What stays: types, modules, functions of src/, names that a file takes from the kit, and the
names that the check makes (the declared goals of proofs/F, and what stands behind `tie.` or a step there).

A lemma that would fall together with a definition gets `_lem`. Exit status: 0, or 1 where two names of one file would fall together.
"""
import collections, os, re, sys

TOKEN = re.compile(r"[^\s(){}\[\],;.\"@«»`]+")
DECLARED = re.compile(r"^[ \t]*((?:abbrev |unfoldable |pub |data |record |module )*)([^\s(){}\[\],;.:\"]+)((?: \([^)]*\)| \{[^}]*\})*) :([^\n]*)", re.M)
WANTS = re.compile(r"[a-z][^A-Z-]*[A-Z]|[^-]*[a-z0-9'₀]-[a-z0-9]")
# A definition whose new spelling a lemma of its file has already.
APART = {"noStart": "no_start_reason"}
CLAUSE = re.compile(r"(ghost use [^;]*;|(?:requires|ensures)\*?(?: \w+)? \{(?:[^{}]|\{[^{}]*\})*\}|ghost [\w :]*\{[^}]*\})", re.S)
SPAN = re.compile(r"`([^`\n]+)`")


def files(suffix):
    for folder, dirs, names in os.walk("crates"):
        dirs[:] = sorted(d for d in dirs if d != "out")
        for name in sorted(names):
            if name.endswith(suffix):
                yield os.path.join(folder, name)


def read(path):
    with open(path, encoding="utf-8") as it:
        return it.read()


def code(text):
    return re.sub(r"--[^\n]*", "", text)


def of_function(path):
    """Whether it is the proof of one function: its declared goals are the check's names."""
    return bool(re.match(r"crates/\w+/proofs/[^/]+/", path))


def snake(name):
    if "-" in name:
        name = name.replace("-", "_")
    return re.sub(r"([a-z0-9])([A-Z]+)", lambda it: it[1] + "_" + it[2].lower(), name)


def wants(name):
    return name[0].islower() and bool(WANTS.match(name)) and name != "dB"


def names():
    """Old and new spelling of each name that turns everywhere, and for each file those that turn in it alone."""
    everywhere, local = set(), collections.defaultdict(set)
    for path in files(".antt"):
        for it in DECLARED.finditer(code(read(path))):
            if not wants(it[2]) or it[4].lstrip().startswith("tie."):
                continue
            if of_function(path):
                if it[2] not in ("invariant-loop", "decreases-loop") and not it[2].endswith("-spec"):
                    local[path].add(it[2])
            else:
                everywhere.add(it[2])
    taken = collections.defaultdict(set)
    for name in everywhere:
        taken[snake(name)].add(name)
    table = {}
    for new, olds in taken.items():
        for old in olds:
            table[old] = APART.get(old) or (new + "_lem" if len(olds) > 1 and "-" in old else new)
    return table, {path: {it: snake(it) for it in those} for path, those in local.items()}


def from_kit(text):
    """The names that a file takes from the kit, not from a crate of this repository."""
    own = set(os.listdir("crates"))
    taken = set()
    for it in re.finditer(r"\buse ([^\s{;]+)\.\{([^}]*)\}", text):
        path = it[1].split(".")
        if path[0] == "Rattle" and path[1] in own:
            continue
        for item in it[2].split(","):
            taken.add(item.strip().split(" as ")[0].strip())
    return taken


def turn(text, table):
    return TOKEN.sub(lambda it: table.get(it[0], it[0]), text)


def turn_antt(text, table, function):
    lines = []
    for line in text.split("\n"):
        at = re.search(r"(?:^|\s)--(?:\s|$)", line)
        body, note = (line[: at.start()], line[at.start() :]) if at else (line, "")
        if function:
            # behind a dot stands a step of the check, but for own fields
            body = re.sub(r"(\btie\.)?" + TOKEN.pattern, lambda it: it[0] if it[1] else table.get(it[0], it[0]), body)
        else:
            body = turn(body, table)
        lines.append(body + SPAN.sub(lambda it: "`" + turn(it[1], table) + "`", note))
    return "\n".join(lines)


def turn_rt(text, table):
    text = CLAUSE.sub(lambda it: turn(it[0], table), text)
    return re.sub(r"(//[^\n]*)", lambda it: SPAN.sub(lambda s: "`" + turn(s[1], table) + "`", it[0]), text)


def twice(path, text):
    """Names that one file would have twice."""
    seen, found = set(), set()
    for it in re.finditer(r"\buse [^\s{;]+\.\{([^}]*)\}", text):
        for item in it[1].split(","):
            name = item.strip().split(" as ")[-1].strip()
            found |= {name} & seen if name else set()
            seen.add(name)
    for it in re.finditer(r"^(?:abbrev |unfoldable |pub )*([^\s(){}\[\],;.:\"]+) :", code(text), re.M):
        found |= {it[1]} & seen
        seen.add(it[1])
    return sorted(found)


def main():
    check = "--check" in sys.argv[1:]
    table, local = names()
    bad = changed = 0
    for path in [*files(".antt"), *files(".rt"), *files(".edit")]:
        text = read(path)
        kit = from_kit(text)
        mine = {**table, **local.get(path, {})}
        mine = {old: new for old, new in mine.items() if old not in kit}
        if path.endswith(".antt"):
            new = turn_antt(text, mine, of_function(path))
        elif path.endswith(".rt"):
            new = turn_rt(text, mine)
        elif re.search(r"^file: (specs|proofs)/", text, re.M):
            new = turn(text, mine)
        else:
            new = turn_rt(text, mine)
        before = set(twice(path, text))
        for name in twice(path, new):
            if name not in before:
                bad = 1
                print(f"{path}: {name} would stand twice")
        if new != text:
            changed += 1
            if not check:
                with open(path, "w", encoding="utf-8") as it:
                    it.write(new)
    print(f"respell: {len(table)} names, {changed} files")
    return bad


sys.exit(main())
