"""The machine code of vq_centidegrees, and the source of all that it calls: no division, loop, recursion or table of answers
(paper 02, (v)).

The machine code is that of target/staticlib/libvellanquor.a (or where VQ_LIB_DIR says) and goes through a list of what is known to
be harmless. That each fault is found is shown on machine_code.s and on small sources.
"""
import collections
import os
import pathlib
import re
import subprocess
import sys
import tempfile
from typing import NamedTuple

ROOT = pathlib.Path(__file__).resolve().parent.parent
CRATE, NAME = "gateway", "vq_centidegrees"

# -- Machine code

DIVIDE = r"i?div[bwlq]?|v?div[sp][sd]|fi?divr?p?[sl]?"
NOP = r"((data16|cs) )*nop[wl]?( .*)?|xchg +%ax,%ax"
KNOWN = (r"mov(abs)?[bwlq]?|mov[sz][bwl][wlq]|lea[wlq]?|(add|sub|imul|neg|shl|shr|sar|and|or|xor|cmp|test)[bwlq]?"
         r"|(set|cmov)[a-z]{1,3}|ret|endbr64")
PLAIN = r"((\$-?(0x)?[0-9a-f]+|%\w+)(,|$))*"


def is_nop(text):
    return re.fullmatch(NOP, text) is not None


def disassembled(file, name):
    """Address, instruction and whether it has a relocation, one by one, without what fills up behind; none if the function is not
    there just once."""
    command = ["objdump", "-d", "-r", "--no-show-raw-insn", str(file)]
    text = subprocess.run(command, check=True, capture_output=True, text=True).stdout
    found = re.findall(rf"^[0-9a-f]+ <{name}>:\n(.*?)\n(?:\n|\Z)", text, re.M | re.S)
    code = []
    for line in found[0].splitlines() if len(found) == 1 else []:
        if instruction := re.match(r" *([0-9a-f]+):\t(.*?)\s*(#.*)?$", line):
            code.append((int(instruction[1], 16), instruction[2], False))
        else:
            code[-1] = (*code[-1][:2], True)
    while code and is_nop(code[-1][1]):
        code.pop()
    return code


def fault(code):
    """What the machine code may not have, and the instruction; else "right"."""
    if not code:
        return "no instruction", "it is not there, or more than once"
    if code[-1][1] != "ret":
        return "no ret at its end", code[-1][1]
    places = {address for address, _, _ in code}
    for address, text, relocated in code:
        mnemonic, _, operands = text.partition(" ")
        what = None
        if re.fullmatch(DIVIDE, mnemonic):
            what = "a divide instruction"
        elif mnemonic.startswith("call"):
            what = "a call"
        elif mnemonic.startswith("j"):
            target = re.match(r" *([0-9a-f]+) <", operands)
            if not target:
                what = "an indirect jump"
            elif relocated or int(target[1], 16) not in places:
                what = "a jump out of the function"
            elif int(target[1], 16) <= address:
                what = "a jump backward"
        elif relocated:
            what = "an address of data"
        elif is_nop(text):
            pass
        elif not re.fullmatch(KNOWN, mnemonic):
            what = "an unknown instruction"
        elif not mnemonic.startswith("lea") and not re.fullmatch(PLAIN, operands.strip()):
            what = "a memory operand"
        if what:
            return what, text
    return "right", ""


def wrong_functions():
    """How many functions of machine_code.s have a fault; each must be told by its own comment."""
    source = ROOT / "tests" / "machine_code.s"
    expected = dict(re.findall(r"^(\w+):\s+# (.*)$", source.read_text(), re.M))
    with tempfile.TemporaryDirectory() as work:
        built = pathlib.Path(work) / "machine_code.o"
        subprocess.run(["cc", "-c", str(source), "-o", str(built)], check=True)
        for name, what in expected.items():
            told = fault(disassembled(built, name))[0]
            if told != what:
                sys.exit(f"machine_code: {name} of machine_code.s should be told as: {what}; is told as: {told}")
        if fault(disassembled(built, "absent"))[0] != "no instruction":
            sys.exit("machine_code: a function that is not there is told as right")
    wrong = [name for name, what in expected.items() if what != "right"]
    if not wrong or len(wrong) == len(expected):
        sys.exit("machine_code: machine_code.s has no right or no wrong function")
    return len(wrong)


# -- Source

FORBIDDEN = {r"/": "a division", r"%": "a remainder", r"\b(while|loop|for)\b": "a loop", r"\[": "an index"}
KEYWORDS = {"if", "match", "return", "in", "as"}


# A type of the crates', by its name or behind its crate's.
TYPE = r"(?:[a-z]\w*::)?[A-Z]\w*"
PARAMETER = re.compile(rf"\b(\w+): &?(?:mut )?(?:({TYPE})|Result<([\w:]+), ({TYPE})>)(?=[,)])")
BINDING = re.compile(r"\blet\b([^=]*)=|\|([^|\n]*)\||^(.*?)=>", re.M)


class Function(NamedTuple):
    """A function's body, followed by the constants that it names; and the types that the text says, of names and of the error at `?`."""
    body: str
    types: dict


def types_of(head, body, owner):
    """The types of `self`, of the parameters, and, where all of the body is a match of one, of what its Ok and its Err hold; but not of
    a name that is bound anew."""
    bound = collections.Counter(re.findall(r"\w+", " ".join(" ".join(parts) for parts in BINDING.findall(body))))
    head = re.split(r"\b(?:requires|ensures)\b", head)[0]
    parameters = PARAMETER.findall(head)
    types = {"self": owner} | {name: plain for name, plain, _, _ in parameters if plain and not bound[name]}
    matched = re.fullmatch(r"\s*match (\w+) \{(.*)\}\s*", body, re.S)
    for name, plain, right, wrong in parameters:
        if not plain and matched and matched[1] == name and body.count("match") == 1:
            arms = re.findall(r"\b(Ok|Err)\((\w+)\) =>", body)
            types |= {held: {"Ok": right, "Err": wrong}[case] for case, held in arms if bound[held] == 1}
    error = re.search(rf"-> Result<.*, ({TYPE})>", head)
    return types | ({"?": error[1]} if error else {})


def functions(text, indent, owner, constants):
    """The functions that stand this far in, by name; a name may have several."""
    parts = re.split(rf'^{indent}(?:pub )?(?:extern "C" )?fn (\w+)', text, flags=re.M)
    found = collections.defaultdict(list)
    for name, rest in zip(parts[1::2], parts[2::2]):
        body = re.search(rf"\{{$(.*?)^{indent}\}}$", rest, re.M | re.S)
        head, body = (rest[:body.start()], body[1]) if body else ("", rest)
        named = [constants[word] for word in re.findall(r"\b[A-Z][A-Z0-9_]*\b", body) if word in constants]
        found[f"{owner}::{name}" if owner else name].append(Function("\n".join([body, *named]), types_of(head, body, owner)))
    return found


def parsed(text):
    """The functions of a source, by their names, and its types' methods, by type and name."""
    text = re.sub(r"//.*|/\*.*?\*/", "", text)
    for crate, name in re.findall(r"^use (\w+)::(\w+);", text, re.M):
        text = re.sub(rf"(?<![\w:.]){name}" + (r"\b" if name[0].isupper() else r"(?=(?:::<[^()]*?>)?\s*\()"), f"{crate}::{name}", text)
    constants = dict(re.findall(r"^(?:pub )?const (\w+)[^=]*=(.*?);", text, re.M | re.S))
    found = functions(text, "", "", constants)
    for owner, block in re.findall(r"^impl [^{]*?(\w+) \{$(.*?)^\}$", text, re.M | re.S):
        for name, of_name in functions(block, "    ", owner, constants).items():
            found[name] += of_name
    return found


def called(crates, crate, function):
    """The functions that a function calls, by crate and name; None for a method of a type that the text does not say."""
    for found in re.finditer(r"((?:\w+::)+|\.)?(\w+)(?:::<[^()]*?>)?\s*\(", function.body):
        owner, name = found[1] or "", found[2]
        # A capital letter makes a value; wrapping sums and products are the processor's own.
        if name in KEYWORDS or name[0].isupper() or re.fullmatch(r"std::num::wrapping_(add|sub|mul)_\w+", owner + name):
            continue
        if owner == ".":
            receiver = re.search(r"(?<![\w.)\]?])(\w+)$", function.body[:found.start()])
            owner = function.types.get(receiver and receiver[1], "")
            if not re.fullmatch(TYPE, owner):
                yield None
                continue
            owner += "::"
        path = re.fullmatch(r"(?:([a-z]\w*)::)?((?:[A-Z]\w*::)?)", owner)
        yield (path[1] or crate, path[2] + name) if path else (owner + name, "")
    # Behind `?` stands a conversion to the error's type, if there is one.
    if "?" in function.body and "?" in function.types:
        *other, error = function.types["?"].split("::")
        if f"{error}::from" in crates.get(other[0] if other else crate, {}):
            yield other[0] if other else crate, f"{error}::from"


def source_fault(crates, crate, name, seen, path=()):
    """What the source of a function and of all that it calls may not have, else "right". Adds the functions to `seen`."""
    here = f"{crate}::{name}"
    if here in path:
        return f"{here} calls itself"
    of_name = crates.get(crate, {}).get(name, [])
    if not of_name:
        return f"{here} is not found"
    seen.add(here)
    for function in of_name:
        for pattern, what in FORBIDDEN.items():
            if re.search(pattern, function.body):
                return f"{what} in {here}"
        for place in called(crates, crate, function):
            told = source_fault(crates, *place, seen, (*path, here)) if place else f"a method in {here}"
            if told != "right":
                return told
    return "right"


RIGHT = {
    "f": "g(n) + h(n) // n / 11 % 2",
    "g": "if (n < 1) { return TWO; }\n n >> 8",
    "h": "Some(x.halved()) + Number::from(n)?",
    "halved": "self >> 1",
    "from": "match r {\n Ok(m) => m,\n Err(e) => e.halved(),\n }",
    "again": "self.halved()",
    "error": "n + 1",
}
WRONG = [
    ("a division in a::f", {"f": "n / 11"}),
    ("a division in b::h", {"h": "n / 11"}),
    ("a division in a::g", {"g": "HALF"}),
    ("a remainder in a::g", {"g": "n % 11"}),
    ("a loop in a::f", {"f": "for i in 0..n { }"}),
    ("a loop in a::g", {"g": "while n > 0 { }"}),
    ("a loop in b::h", {"h": "loop { }"}),
    ("an index in a::g", {"g": "ANSWERS[n]"}),
    ("a::f calls itself", {"f": "f(n)"}),
    ("a::f calls itself", {"g": "n + f(n)"}),
    ("a::g calls itself", {"g": "b::h(n)", "h": "a::g(n)"}),
    ("b::k is not found", {"g": "b::k(n)"}),
    ("a method in b::h", {"h": "n.divided(11)"}),
    ("a division in b::Number::halved", {"halved": "self / 2"}),
    ("a loop in b::Number::halved", {"g": "b::Number::halved(n)", "halved": "loop { }"}),
    ("b::Number::third is not found", {"g": "b::Number::third(n)"}),
    ("b::Number::third is not found", {"h": "x.third()"}),
    # A method of a type that the text does not say, though a type has one of that name.
    ("a method in b::h", {"h": "n.halved()"}),
    ("a method in b::h", {"h": "2.halved()"}),
    ("a method in b::h", {"h": "x.half.halved()"}),
    ("a method in b::h", {"h": "Some(x).halved()"}),
    ("a method in b::h", {"h": "let x = n;\n x.halved()"}),
    ("a method in b::h", {"h": "Some(|x| x.halved())"}),
    ("a method in b::h", {"h": "match r {\n Ok(m) => m.halved(),\n Err(e) => 0,\n }"}),
    ("a method in b::h", {"h": "match n {\n Ok(m) => 0,\n Err(e) => e.halved(),\n }"}),
    # Of two conversions to a type each is gone into, and the one to an error behind a `?`.
    ("a division in b::Number::from", {"from": "r / 2"}),
    ("a division in b::Number::from", {"again": "self / 2"}),
    ("a division in b::Error::from", {"error": "n / 2"}),
    # A call says a type parameter.
    ("a division in b::h", {"f": "b::h::<u32>(n)", "h": "n / 11"}),
]


def wrong_sources():
    """How many small sources have a fault; each must be told."""
    for expected, changed in [("right", {}), *WRONG]:
        body = RIGHT | changed
        parameters = "(n: u32, x: &Number, r: Result<u32, Number>) -> Result<u32, Error>"
        f, g, h = [f"\npub fn {name}{parameters}\n    ensures {{ n / 2 }}\n{{\n    {body[name]}\n}}\n" for name in ("f", "g", "h")]
        methods = [
            ("Half for Number", "halved(self) -> u32", body["halved"]),
            ("From<Result<u32, Number>> for Number", "from(r: Result<u32, Number>) -> Number", body["from"]),
            ("From<Half> for Number", "from(self) -> Number", body["again"]),
            ("From<u32> for Error", "from(n: u32) -> Error", body["error"]),
        ]
        impls = "".join(f"\nimpl {head} {{\n    fn {name} {{\n        {text}\n    }}\n}}\n" for head, name, text in methods)
        crates = {"a": parsed("use b::h;\nconst TWO: u32 = 2;\nconst HALF: u32 = TWO / 2;\n" + f + g), "b": parsed(h + impls)}
        told = source_fault(crates, "a", "f", set())
        if told != expected:
            sys.exit(f"machine_code: a source with {changed} should be told as: {expected}; is told as: {told}")
    return len(WRONG)


def main():
    wrong = wrong_functions() + wrong_sources()
    directory = os.environ.get("VQ_LIB_DIR")
    library = pathlib.Path(directory or ROOT / "target" / "staticlib") / "libvellanquor.a"
    if not directory and not library.exists():
        subprocess.run([str(ROOT / "host" / "archive.sh")], check=True)
    if not library.exists():
        sys.exit(f"machine_code: {library} is not there")
    code = disassembled(library, NAME)
    what, text = fault(code)
    if what != "right":
        sys.exit(f"machine_code: {NAME} has {what}: {text}")
    crates = {path.parent.parent.name: parsed(path.read_text()) for path in (ROOT / "crates").glob("*/src/lib.rt")}
    seen = set()
    told = source_fault(crates, CRATE, NAME, seen)
    if told != "right":
        sys.exit(f"machine_code: {told}")
    print(f"machine_code: {NAME}, {len(code)} instructions: no divide, no call, no loop, no table; "
          f"{len(seen)} functions of the source likewise; {wrong} wrong functions are found")


main()
