#!/usr/bin/env python3
"""Counts, in the sources of a commit (or of the work tree), the places that docs/DESIGN-PASS.md speaks of, point by point.

    python3 tools/design_count.py [COMMIT] [--list]
"""

import collections
import pathlib
import re
import subprocess
import sys

ROOT = pathlib.Path(__file__).resolve().parent.parent


def git(*words):
    return subprocess.run(["git", "-C", ROOT, *words], check=True, capture_output=True, text=True).stdout


def files(commit, tail):
    """Path and text of each file under crates/ whose path ends so."""
    if commit is None:
        for path in sorted(ROOT.glob("crates/**/*" + tail)):
            if "/out/" not in str(path) and "/target/" not in str(path):
                yield str(path.relative_to(ROOT)), path.read_text()
        return
    for path in git("ls-tree", "-r", "--name-only", commit, "crates").split():
        if path.endswith(tail):
            yield path, git("show", f"{commit}:{path}")


def bare(text):
    return re.sub(r"//[^\n]*", "", text)


FUNCTION = re.compile(r"^( *)(pub )?(?:extern \"C\" )?fn (\w+)(.*?)(?: |\n\1)\{\n(.*?)^\1\}", re.S | re.M)


def functions(text):
    """Name, head (parameters, result, clauses), body of each function."""
    for m in FUNCTION.finditer(bare(text)):
        yield m.group(3), m.group(4), m.group(5)


def parameters(head):
    inner = re.match(r"(?:<[^>]*>)?\s*\((.*?)\)\s*(?:->|\n|$)", head, re.S)
    if not inner:
        return []
    parts = [" ".join(p.split()) for p in re.split(r",(?![^<\[(]*[>\])])", inner.group(1))]
    return [p for p in parts if p]


def loops(body):
    """The condition and the body of each `while`."""
    for m in re.finditer(r"^( *)while (.*?) \{\n(.*?)^\1\}", body, re.S | re.M):
        yield m.group(2), m.group(3)


def counts_by_hand(condition, body):
    """Does the loop move a variable of its condition by one (or by a fixed width beside it)?"""
    for name in re.findall(r"[a-z_]+", condition):
        if re.search(rf"\b{name} (?:\+= 1|-= 1|= {name} [+-] 1);", body):
            return True
    return False


def shape(body):
    """A body with its types, sizes and constants masked."""
    body = re.sub(r"b?\"[^\"]*\"|b'[^']*'|\b\d[\w]*\b", "N", body)
    body = re.sub(r"\b[a-z_]+(?=::)", "m", body)
    body = re.sub(r"\b[A-Z]\w*(?:::\w+)*\b", "C", body)
    body = re.sub(r"\b(?:u8|u16|u32|u64|i16|i32|usize|true|false)\b", "T", body)
    return " ".join(body.split())


def places(commit):
    found = collections.defaultdict(list)
    shapes = collections.defaultdict(list)
    groups = collections.defaultdict(set)
    for path, text in files(commit, ".rt"):
        if "/src/" not in path:
            continue
        crate = path.split("/")[1]
        code = bare(text)
        for m in re.finditer(r"^pub enum (\w+) \{(.*?)^\}", code, re.S | re.M):
            names = re.findall(r"^    (\w+)(\(.*\))?,", m.group(2), re.M)
            if len(names) == 2 and sum(1 for n in names if n[1]) >= 1 or any(n[0] in ("Unknown", "Other", "Missing") for n in names):
                found["1a enums of the shape of Option or Result"].append(f"{crate}::{m.group(1)}")
        for m in re.finditer(r"pub struct (\w+)[^{;]*\{(.*?)^\}", code, re.S | re.M):
            if re.search(r"^\s+pub (refusal|close|known): (u32|bool)", m.group(2), re.M):
                found["1b structs with a refusal number or a flag beside their values"].append(f"{crate}::{m.group(1)}")
        for m in re.finditer(r"^(?:pub )?const (\w+): u32 = (\d+);", code, re.M):
            if int(m.group(2)) <= 62 and not re.search(r"MOST_|MAX_|_BITS|_PARTS", m.group(1)):
                found["1c constants that are the number of a kind, reason, state or refusal"].append(f"{crate}::{m.group(1)}")
        for name, head, body in functions(text):
            where = f"{crate}::{name}"
            if re.search(r"-> u32\b", head) and re.search(r"refusal|legality|framing|Settles|Refuses|outside", head):
                found["1d functions that answer a refusal or reason number, 0 for none"].append(where)
            for condition, inner in loops(body):
                kind = "3a loops that count by hand" if counts_by_hand(condition, inner) else "3b other while loops"
                found[kind].append(where)
            if len(shape(body)) > 20:
                shapes[shape(body)].append((where, " ".join(body.split())))
            simple = re.match(r"\s*match (\w+|\*self|self) \{(?:\s*[\w:|' _]+(?:\([^()]*\))? => [^{}\n]*,\n?)+\s*\}\s*$", body)
            if simple or re.search(r"fn\b", name) or re.match(r"(print_\w+|join|put_word|signed_of|bits_of|rd_number|magnitude_of|numbers_of|least)$", name):
                found["4 conversions, printing and minima by hand"].append(where)
            names = [p for p in parameters(head) if ":" in p]
            for size in (3, 4, 5, 6):
                for at in range(len(names) - size + 1):
                    groups[tuple(names[at:at + size])].add(where)
            if len(names) >= 6:
                found["5a functions of six parameters or more"].append(where)
            slices = [p for p in names if re.search(r"&(mut )?\[|\[u32; 30\]", p)]
            lengths = [p for p in names if re.match(r"(size|rows|got|count|limit|waiting): (usize|u32)$", p)]
            if slices and lengths:
                found["6 slices or arrays with a length beside them"].append(where)
            if any(p.endswith(": bool") for p in names) or re.search(r"\bcheck: Check\b", head):
                found["7 a parameter that switches the step"].append(where)
    for members in shapes.values():
        if len(members) > 1:
            found["2 functions whose bodies differ in a type, a size or a constant at most"].append(", ".join(m[0] for m in members))
    kept = [(g, w) for g, w in groups.items() if len(w) >= 3]
    top = [(g, w) for g, w in kept if not any(set(g) < set(o) and w <= v for o, v in kept)]
    for g, w in sorted(top, key=lambda x: -len(x[1])):
        found["5b runs of three parameters or more that three functions share"].append(f"({', '.join(g)}) {len(w)}: {', '.join(sorted(w))}")
    answers = imports = 0
    for path, text in files(commit, ".antt"):
        if path.endswith("Answers.antt"):
            answers += len(re.findall(r"^pub [\w-]+ : goal\.", text, re.M))
        imports += len(re.findall(r"^use (?:mathlib|lib|borrow|Prim|native)\.", text, re.M))
    found["8a answers"] = [str(answers)]
    found["8b imports of proof files by the names of another library"] = [str(imports)]
    return found


def main():
    words = [w for w in sys.argv[1:] if w != "--list"]
    found = places(words[0] if words else None)
    for point in sorted(found):
        number = found[point][0] if point.startswith("8") else len(found[point])
        print(f"{point}: {number}")
        if "--list" in sys.argv and not point.startswith("8"):
            for place in found[point]:
                print(f"    {place}")


if __name__ == "__main__":
    main()
