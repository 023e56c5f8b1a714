"""Each must-fail edit is refused at a fact of a function that it changes, as the lines of rt ci say: of the log that RT_CI_LOG names,
else of rt must-fail, which is run here.

rt is content if anything fails with an edit. Its line has the first thing that did: a goal that is not proved, by its place in the changed
source, or an answer in a proof file that does not prove its goal. That has to be in a function that the edit changes; a changed constant
is seen so by a function that names it. A goal may be told at an attribute above its function, but an edit of an attribute changes none.
The function that the edit is named after is that function, or reaches it by calls in its crate, so it is not proved either. A conversion
goes by the definition that it gives, and is reached by a call at the type that it makes; each conversion has to give one that is seen. A
public function that promises its answer by a definition, as `feed` by `fed_of`, reaches the public function that promises to be it. rt
tells apart where a proof file only names what the edit took away, and where the prover came to a limit of its own: neither says anything
of a promise, and neither counts here. Then each line is made wrong, and small edits, right and wrong ones, are judged; each that is wrong
has to be seen.
"""
import os
import pathlib
import re
import subprocess
import sys
from typing import NamedTuple

from edits import ROOT, changes, conversions, edits, function_of

REFUSED = "refused, as it must be: "
LINE = re.compile(r"^rt: must-fail (\w+)/(\S+)\.edit: (.*)$", re.M)
# The first message of a refusal: an answer in the proof of one function, by the name of its goal (+FUNCTION, if it calls itself); a goal
# at a line of the source.
ANSWER = re.compile(r"(?:\./)?proofs/\+?(\w+)/\w+\.antt:\d+:\d+: error: `(.*)")
GOAL = re.compile(r"note: (src/\S+\.rt):(\d+):\d+: it is not proved that ")
# What an answer says that names what the changed code does not have, or that rests on another one.
MISSING = re.compile(r"has no field|is not in scope|has no `|can be named from here|was not admitted")


# A function's attributes, and its text: up to its body's end, or to a semicolon where a trait only declares it.
FUNCTION = r'((?: *#\[[^\n]*\]\n)*)( *)(?:pub )?(?:extern "C" )?fn (\w+)(?:(?:[^\n]*[^\n{;]\n)*?[^\n]*;$|.*?^\2\}$)'
ITEM = re.compile(rf"^{FUNCTION}|^ *(?:pub )?const (\w+).*?;$", re.M | re.S)
CALL = re.compile(r"((?:\w+::)+|\.|\b)(\w+)(?:::<[^()]*?>)?\(")


class Item(NamedTuple):
    """A function or a constant: its name, whether it is a function, and where its attributes start, its text starts and ends. The name of a
    method has a dot in front. A conversion goes by the definition that it gives, and has no name where that is not seen."""
    name: str | None
    is_function: bool
    above: int
    start: int
    end: int


def items(source):
    """The functions and the constants of a source."""
    made = list(conversions(source))
    for found in ITEM.finditer(source):
        name = found[4] or found[2] and "." + found[3] or found[3]
        if found[3] in ("from", "try_from"):
            name = next((c.definition for c in made if c.start < found.start() < c.end), None)
        yield Item(name, found[3] is not None, found.start(), found.start() + len(found[1] or ""), found.end())


def item_at(source, place):
    return next((item for item in items(source) if item.above <= place < item.end), None)


def naming(source, names, functions):
    """The functions, or the constants, that name one of these."""
    found = [i for i in items(source) if i.is_function == functions]
    return {i.name for i in found if any(re.search(rf"\b{name}\b", source[i.start:i.end]) for name in names)}


def called(text, made):
    """What a function's text calls in its crate. A conversion is called at the type before `from`, or, as `into` and `?` name none, at the
    type of the function's answer or of its error."""
    head, _, body = text.partition("{\n")
    answer = re.search(r"-> ([^\n]*)|$", head)[1] or ""
    types = set(re.findall(r"\b(\w+)::(?:try_)?from\b", body))
    if re.search(r"\.(?:try_)?into\(", body):
        types |= set(re.findall(r"\w+", answer))
    if "?" in body and (error := re.search(r"\bResult<.*, (\w+)>", answer)):
        types.add(error[1])
    names = {"." + name if owner else name for owner, name in CALL.findall(body) if owner == "." or not owner[:1].islower()}
    return names | {c.definition for c in made if c.made in types}


def promised(name, texts):
    """The functions that a public function promises its answer by: each is public too, and promises to be the definition of its name."""
    heads = {n: re.sub(r"\s+", " ", text.partition("{\n")[0]) for n, text in texts.items() if text.startswith("pub ")}
    found = re.findall(r"\((\w+)(?: \w+)* result\)", heads.get(name, ""))
    return {n for n in found if f" ensures {{ result ≡ {n} " in heads.get(n, "")}


class Edited:
    """An edit of a crate: its sources with the edit's changes, and the functions that these are in."""

    def __init__(self, label, sources, named, pairs):
        self.label, self.sources, self.named, self.changed = label, dict(sources), named, set()
        for file, old, new in pairs:
            source = self.sources[file]
            place = source.index(old)
            item = item_at(source, place)
            if not item or place < item.start:
                self.changed.add(None)
            else:
                self.changed |= {item.name} if item.is_function else self.users_of(item.name)
            self.sources[file] = source[:place] + new + source[place + len(old):]

    def users_of(self, constant):
        """The functions that name a constant, or a constant that names it."""
        source, constants = "\n".join(self.sources.values()), {constant}
        while not naming(source, constants, False) <= constants:
            constants |= naming(source, constants, False)
        return naming(source, constants, True)

    def reached(self):
        """The functions that the one that the edit is named after reaches by calls, or promises its answer by."""
        source = "\n".join(self.sources.values())
        made, texts, calls = list(conversions(source)), {}, {}
        for item in items(source):
            if item.is_function:
                text = source[item.start:item.end]
                texts[item.name] = text
                calls.setdefault(item.name, set()).update(called(text, made))
        seen, left = set(), {self.named, "." + self.named}
        while left:
            seen |= left
            left = set().union(*(calls.get(n, set()) for n in left)) - seen
        return (seen | promised(self.named, texts)) & set(calls)

    def place(self, said):
        """The function in which a refusal's first message lies, or None."""
        if answer := ANSWER.match(said):
            return None if MISSING.search(answer[2]) else answer[1]
        if (goal := GOAL.match(said)) and goal[1] in self.sources:
            lines = self.sources[goal[1]].splitlines(True)
            item = item_at(self.sources[goal[1]], len("".join(lines[:int(goal[2]) - 1])) + 1)
            return item and item.name
        return None

    def fault(self, told):
        """What is wrong with this edit by what rt told of it, or None."""
        if None in self.changed:
            return "it changes what is no function's answer, or a conversion that gives no definition that is seen"
        if len(told) != 1:
            return f"{len(told)} lines tell of it"
        if not told[0].startswith(REFUSED):
            return told[0]
        said = told[0].removeprefix(REFUSED)
        if self.place(said) not in self.changed:
            return f"it changes {' '.join(sorted(map(str, self.changed)))}, and is refused elsewhere: {said}"
        if not self.changed & self.reached():
            return f"{self.named} does not reach {' '.join(sorted(self.changed))}"
        return None


def made_wrong(told, function):
    """What rt would have told of an edit, refused in this function, if it were not refused as it should be."""
    said = told[0].removeprefix(REFUSED)
    yield []
    yield told * 2
    yield ["BAD EDIT: an 'old:' text is in src/lib.rt 0 times, and not once"]
    yield ["NOT REFUSED: the crate is still proved with this edit"]
    yield [f"refused, as it must be (only by a limit of the prover): {said}"]
    yield [f"refused, as it must be (only because a proof file names what the edit took away): {said}"]
    yield [f"{REFUSED}./proofs/of_none/Answers.antt:1:1: error: `returns`: the two types differ"]
    yield [f"{REFUSED}./proofs/Laws.antt:1:1: error: `law`: the two types differ"]
    yield [f"{REFUSED}note: src/lib.rt:1:1: it is not proved that what the function ensures holds when it returns (`returns`)"]
    yield [f"{REFUSED}./proofs/{function.lstrip('.')}/Answers.antt:1:1: error: `returns`: record `After` has no field `if1`"]


SOURCE = """\
pub trait Class {
    fn is_of(n: u32) -> bool
        ensures { result ≡ accepts class n };
}

impl Class for Even {
    ghost class = { Even };

    fn is_of(n: u32) -> bool {
        n % 2 == 0
    }
}

impl From<Result<u32, Refusal>> for Shown {
    ghost from_gives = { λ r s. s ≡ shown_of r };

    fn from(answer: Result<u32, Refusal>) -> Shown {
        Shown { refusal: answer.err().number() }
    }
}

impl From<u32> for Other {
    ghost from_gives = { λ n o. o ≡ other_of n };

    fn from(n: u32) -> Other {
        Other { n: 1 }
    }
}

impl From<bool> for Third {
    ghost from_gives = { λ b t. t ≡ third_of (not b) };

    fn from(b: bool) -> Third {
        Third { n: 2 }
    }
}

#[tactic(auto, using(laws))]
pub fn show(n: u32) -> Shown
    ensures { result ≡ shown_of (Ok n) }
{
    Shown::from(Ok(number(n)))
}

pub fn other(n: u32) -> Other
    ensures { result ≡ other_of n }
{
    n.into()
}

pub fn number(n: u32) -> u32
    ensures { result ≡ n }
{
    n + 0
}

pub fn of_class<C: Class>(n: u32) -> Shown
    ensures { result ≡ shown_of (class_of C.class n) }
{
    Shown::from(class_at(C::is_of(n)))
}

pub fn feed(n: u32) -> Result<u32, Refusal>
    ensures { Feeds n
        (fed_of n result) (left_of result) }
{
    Ok(3)
}

pub fn accept(n: u32) -> u32
    ensures { Feeds n (fed_of n (Ok result)) }
{
    4
}

pub fn fed_of(n: u32, answer: Result<u32, Refusal>) -> Fed
    ensures { result ≡ fed_of n answer }
{
    Fed { rows: five() }
}

fn five() -> usize
    ensures { result ≡ 5 }
{
    5 + 0
}

fn left_of(answer: Result<u32, Refusal>) -> u32
    ensures { result ≡ left_of answer }
{
    6
}
"""
# An edit of this source: the function that it is named after, what it changes, where that is told, and the fault, if it has one.
SMALL = [
    ("show", "answer.err()", "answer.err()", None),
    ("show", "answer.err()", "fn from(answer", None),
    ("show", "n + 0", "n + 0", None),
    ("show", "Ok(number(n))", "#[tactic", None),
    ("other", "n: 1", "n: 1", None),
    ("of_class", "n % 2", "n % 2", None),
    ("is_of", "n % 2", "n % 2", None),
    ("feed", "rows: five()", "rows: five()", None),
    ("show", "n: 1", "n: 1", "show does not reach other_of"),
    ("show", "n: 2", "n: 2", "it changes what is no function's answer"),
    ("other", "n: 2", "n: 2", "it changes what is no function's answer"),
    ("show", "using(laws)", "#[tactic", "it changes what is no function's answer"),
    ("is_of", "{ Even }", "n % 2", "it changes what is no function's answer"),
    ("of_class", "n + 0", "n + 0", "of_class does not reach number"),
    ("of_class", "n: 1", "n: 1", "of_class does not reach other_of"),
    ("accept", "rows: five()", "rows: five()", "accept does not reach fed_of"),
    ("feed", "5 + 0", "5 + 0", "feed does not reach five"),
    ("fed_of", "Ok(3)", "Ok(3)", "fed_of does not reach feed"),
    ("feed", "6", "6", "feed does not reach left_of"),
]


def small_told(named, changed, at):
    """The fault of an edit of SOURCE, told at a text's line."""
    line = SOURCE[:SOURCE.index(at)].count("\n") + 1
    edit = Edited("small", {"src/lib.rt": SOURCE}, named, [("src/lib.rt", changed, changed + " ")])
    return edit.fault([f"{REFUSED}note: src/lib.rt:{line}:1: it is not proved that what the function ensures holds"])


def small_unseen():
    """The small edits that are not judged as they should be."""
    for named, changed, at, fault in SMALL:
        said = small_told(named, changed, at)
        if (said or "").partition(",")[0] != (fault or ""):
            yield f"{named}, of a change of `{changed}`: should be told as: {fault}; is told as: {said}"


def log():
    if name := os.environ.get("RT_CI_LOG"):
        return pathlib.Path(name).read_text()
    return subprocess.run(["rt", "must-fail"], cwd=ROOT, stdout=subprocess.PIPE, text=True).stdout


def main():
    told = {}
    for crate, label, what in LINE.findall(log()):
        told.setdefault((crate, label), []).append(what)
    tried, made, unseen, wrong = 0, 0, 0, list(small_unseen())
    for crate in sorted((ROOT / "crates").iterdir()):
        sources = {str(p.relative_to(crate)): p.read_text() for p in sorted((crate / "src").rglob("*.rt"))}
        wrong += [f"{crate.name}: a conversion gives no definition that is seen" for s in sources.values() for i in items(s) if not i.name]
        for path in edits(crate):
            edit = Edited(f"{crate.name}/{path.stem}", sources, function_of(path), changes(path))
            of = told.pop((crate.name, path.stem), [])
            tried += 1
            if fault := edit.fault(of):
                wrong.append(f"{edit.label}: {fault}")
                continue
            for lines in made_wrong(of, edit.place(of[0].removeprefix(REFUSED))):
                made, unseen = made + 1, unseen + (edit.fault(lines) is None)
    wrong += [f"{crate}/{label}: there is no such edit" for crate, label in told]
    for row in wrong:
        print("must_fail:", row)
    print(f"must_fail: {tried} wrong answers, {len(wrong)} not refused as they should be; {made} lines made wrong, {unseen} not seen; "
          f"{len(SMALL)} small edits judged")
    sys.exit(bool(wrong or unseen or not tried))


main()
