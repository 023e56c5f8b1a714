"""Looks up every name of docs/TRACE.md in the tree.

In backquotes: `crate::function` is a function of src/, `crate.name` a definition or theorem of specs/ or proofs/,
`crate/must-fail/LABEL` an edit, which tries one wrong answer, and anything else with a slash a file. A name that is not found is printed.
"""
import re
import sys

from edits import ROOT, edits

TRACE = ROOT / "docs" / "TRACE.md"


def text_of(crate, folders, suffix):
    files = [f for d in folders for f in (ROOT / "crates" / crate / d).rglob(suffix)]
    return "\n".join(f.read_text() for f in files)


def exists(name):
    if "::" in name:
        crate, function = name.split("::")
        return re.search(r"\bfn %s\b" % re.escape(function), text_of(crate, ["src"], "*.rt")) is not None
    if "/must-fail/" in name:
        crate, label = name.split("/must-fail/")
        return label in [edit.stem for edit in edits(ROOT / "crates" / crate)]
    if "/" in name:
        return (ROOT / name).exists()
    if "." in name:
        crate, item = name.split(".", 1)
        pattern = r"(?m)^\s*(?:abbrev |unfoldable )?pub (?:record |data )?%s[\s:]" % re.escape(item)
        return re.search(pattern, text_of(crate, ["specs", "proofs"], "*.antt")) is not None
    return False


names = re.findall(r"`([^`\s]+)`", TRACE.read_text())
missing = sorted({n for n in names if not exists(n)})
for name in missing:
    print("trace: docs/TRACE.md names", name, "which does not exist")
print("trace: %d names, %d missing" % (len(set(names)), len(missing)))
sys.exit(1 if missing or not names else 0)
