"""Fails on a line that is too long, a must-fail edit that is not named FUNCTION-WHAT after a public function of its crate (a conversion goes
by the definition that it gives), and a public function of a library that asks its caller for something."""
import re
import sys

from edits import ROOT as root, conversions, edits

LONGEST = 140
# rt tidy writes an import on one line, however long.
IMPORT = re.compile(r"(pub )?use |ghost use ")
# A clause may have a name, and a star.
REQUIRES = re.compile(r"\brequires\*?( \w+)? \{")
# A method of a trait or of an impl of one; what is only declared ends with a semicolon.
METHOD = re.compile(r"^ *fn (\w+)(.*?)(?:;|\{)$", re.M | re.S)
wrong = []
lines = answers = functions = 0


def public_functions(source):
    """The public functions of a source, by name and signature."""
    # Behind a clause the body's brace stands on a line of its own.
    yield from re.findall(r'^\s*pub (?:extern "C" )?fn (\w+)([^\n]* |.*?^\s*(?:\)[^\n]* )?)\{$', source, re.M | re.S)
    # The methods of a public trait are public with it, and so are the conversions of public types.
    for trait in re.findall(r"^pub trait [^\n]*\{$.*?^\}$", source, re.M | re.S):
        yield from METHOD.findall(trait)
    for made in conversions(source):
        if made.is_public:
            yield made.definition, METHOD.search(source, made.start, made.end)[2]


for crate in sorted((root / "crates").iterdir()):
    for part in ("src", "specs", "proofs"):
        for path in sorted((crate / part).rglob("*")):
            if path.suffix not in (".rt", ".antt"):
                continue
            for number, line in enumerate(path.read_text().splitlines(), 1):
                lines += 1
                if len(line) > LONGEST and not IMPORT.match(line):
                    wrong.append(f"{path.relative_to(root)}:{number} has {len(line)} characters, {LONGEST} are the most")
    source = "".join(path.read_text() for path in sorted((crate / "src").rglob("*.rt")))
    public = list(public_functions(source))
    functions += len(public)
    for name, signature in public:
        if (crate / "src" / "lib.rt").exists() and REQUIRES.search(signature):
            wrong.append(f"crates/{crate.name}: pub fn {name} has a requires")
    named = {name for name, _ in public}
    for edit in edits(crate):
        answers += 1
        found = re.fullmatch(r"(\w+)-[a-z0-9]+(-[a-z0-9]+)*", edit.stem)
        if not found or found[1] not in named:
            wrong.append(f"{edit.relative_to(root)} is not named after a public function of the crate, and words joined by '-'")

for row in wrong:
    print("layout:", row)
print(f"layout: {lines} lines, {functions} public functions, {answers} wrong answers tried; {len(wrong)} wrong")
sys.exit(bool(wrong))
