"""The must-fail edits. Each tries one wrong answer, and is named FUNCTION-WHAT after the public function whose promise excludes it; a
conversion goes by the definition that it gives."""
import pathlib
import re
from typing import NamedTuple

ROOT = pathlib.Path(__file__).resolve().parent.parent
IMPL = re.compile(r"^impl(?:<[^\n]*?>)? (?:Try)?From<([^\n]*)> for (\w+)[^\n]* \{$.*?^\}$", re.M | re.S)
# The definition that the value is; `ok_or` makes its Option a Result.
GIVES = re.compile(r"ghost (?:try_)?from_gives = \{ λ (\w+) (\w+)\. \2 ≡ (?:(\w+) \1|ok_or \((\w+) \1\) \w+) \};")


class Conversion(NamedTuple):
    """An impl of From or TryFrom: the type that it makes, the definition that it gives (None if that is not seen), whether the types of its
    head are public, and where its text starts and ends."""
    made: str
    definition: str | None
    is_public: bool
    start: int
    end: int


def conversions(source):
    """The conversions of a crate's source."""
    private = {name for pub, name in re.findall(r"^(pub(?:\([^)]*\))? )?(?:struct|enum) (\w+)", source, re.M) if pub != "pub "}
    for found in IMPL.finditer(source):
        gives = GIVES.search(found[0])
        named = {found[2], *re.findall(r"\w+", found[1])}
        yield Conversion(found[2], gives and (gives[3] or gives[4]), not named & private, found.start(), found.end())


def edits(crate):
    return sorted((crate / "must-fail").glob("*.edit"))


def function_of(edit):
    return edit.stem.split("-")[0]


def changes(edit):
    """The file, the old and the new text of each change."""
    found, file, old = [], None, None
    for line in edit.read_text().splitlines():
        key, _, text = line.partition(": ")
        if key == "file":
            file = text
        elif key == "old":
            old = text
        elif re.match("new:", line):
            found.append((file, old, text))
    return found
