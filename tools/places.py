"""Counts the places that a design pass looks at, in crates/*/src, and lists them.

    python3 tools/places.py          the counts, a line for each kind
    python3 tools/places.py KIND     the places of one kind, a line each

It goes by the text: a place that it lists may be right as it is, and one that it misses is found by reading.
"""
import collections
import glob
import re
import sys

ENUM = re.compile(r"^(?:pub )?enum (\w+) \{\n(.*?)^\}", re.M | re.S)
VARIANT = re.compile(r"^    (\w+)(\(.*\)| \{|,)", re.M)
STRUCT = re.compile(r"^(?:pub )?struct (\w+)[^{;]*\{\n(.*?)^\}", re.M | re.S)
LOOP = re.compile(r"^(\s*)(?:'\w+: )?(?:while|loop)\b(.*)\{$")
STEP = re.compile(r"^\s*(\w+) [+-]= 1;$")
REQUIRES = re.compile(r"requires(?: \w+)? \{(.*?)\}\n\s*(?:ensures|requires|\{)", re.S)
FN = re.compile(r"^\s*(?:pub )?(?:extern \"C\" )?fn (\w+)[^(]*\((.*?)\)(?: ->|\n| \{)", re.M | re.S)
KINDS = re.compile(r"^(?:pub )?const (\w+): (?:u8|u16|u32|u64|usize|i32) = (?:\d{1,2}|\w+ \+.*|fields::\w+|u64::MAX|usize::MAX);", re.M)
EMPTY = {"Nothing", "Nowhere", "Nobody", "None", "Never", "Few", "Meets", "Blocked", "Inside", "Valid", "Wrong", "Wide", "End", "Failed", "Bad"}


def sources():
    for path in sorted(glob.glob("crates/*/src/**/*.rt", recursive=True)):
        with open(path, encoding="utf-8") as source:
            text = source.read()
        yield path[len("crates/"):].replace("/src/", "/"), text


def plain(text):
    return re.sub(r"//.*", "", text)


def enums(path, text):
    """Enums that are an Option or a Result by another name: one case says that there is no value."""
    for name, body in ENUM.findall(text):
        cases = VARIANT.findall(plain(body))
        refusal = [case for case, held in cases if case == "No"]
        empty = [case for case, held in cases if case in EMPTY]
        if refusal or (empty and len(cases) <= 4):
            yield f"{path} {name}"


def flags(path, text):
    """Structs with a flag beside values."""
    for name, body in STRUCT.findall(text):
        if re.search(r": bool,$", body, re.M):
            yield f"{path} {name}"


def kinds(path, text):
    """Constants that are numbers for kinds, or for no value."""
    if path.startswith(("text/fields", "text/output", "text/numbers", "query/table", "journal/records")):
        for name in KINDS.findall(text):
            yield f"{path} {name}"


def loops(path, text):
    """Loops that count an index by hand: a variable of the condition goes on by one."""
    lines = text.split("\n")
    function = ""
    for at, line in enumerate(lines):
        found = FN.match(line) or re.match(r"\s*(?:pub )?fn (\w+)", line)
        if found:
            function = found.group(1)
        loop = LOOP.match(line)
        if not loop:
            continue
        end = next(n for n in range(at + 1, len(lines)) if lines[n].startswith(loop.group(1) + "}"))
        steps = [STEP.match(body).group(1) for body in lines[at + 1:end] if STEP.match(body)]
        if any(re.search(rf"\b{step}\b", loop.group(2)) for step in steps):
            yield f"{path} {function}"


def walks(path, text):
    """Loops over the records of a log, place by place."""
    for line in text.split("\n"):
        if re.search(r"while records::whole_at", line):
            yield path


def casts(path, text):
    """Conversions by `as`."""
    for line in plain(text).split("\n"):
        for _ in re.findall(r"\bas (?:u8|u16|u32|u64|usize|i32|i64)\b", line):
            yield f"{path} {line.strip()}"


def handed_on(path, text):
    """Refusals handed on by hand, where `?` would do."""
    for line in text.split("\n"):
        if re.search(r"if let (?:\w+::)?(?:No|Err)\(", line):
            yield f"{path} {line.strip()}"


def facts(path, text):
    """A fact about one value in a `requires`; those that three functions or more have are listed."""
    for clause in REQUIRES.findall(text):
        for fact in re.findall(r"\b(Valid|InRange|Carried|Peak|Places|Sound|Sized|NearSized|Bounded|Walk|Ample) ", clause):
            yield f"{fact} {path}"


def beside(path, text):
    """Parameters that travel together: a list and its floor, an output and how much of it is filled."""
    for name, parameters in FN.findall(text):
        flat = " ".join(parameters.split())
        if re.search(r"&\[i32\], (?:floor|f|g|h): u(?:16|32)|out: &mut \[u8\], filled: usize", flat):
            yield f"{path} {name}"


COUNTS = [enums, flags, kinds, loops, walks, handed_on, casts, facts, beside]


def main():
    chosen = sys.argv[1:]
    for count in COUNTS:
        places = [place for path, text in sources() for place in count(path, text)]
        if not chosen:
            print(f"{len(places):5}  {count.__name__:10}  {count.__doc__}")
        elif count.__name__ == chosen[0]:
            tally = collections.Counter(places)
            for place, times in tally.items():
                print(place if times == 1 else f"{place} ({times})")


if __name__ == "__main__":
    main()
