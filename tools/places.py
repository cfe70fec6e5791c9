#!/usr/bin/env python3
"""Lists the places of crates/*/src that an older form of the language may stand behind, a number for each kind of
place, and counts them. `tools/places.py [TOP] [CRATE..]`; TOP is the top of a checkout, this one if not given.

1 flags, sentinels and numbers for what Option, Result or an enum says, and matches that `?` or `map` says
2 twins: functions and types of one shape that differ in names, types and constants
3 loops that count, or that walk what an iterator walks
4 equality, conversion and printing by hand
5 facts that stand in three or more contracts, and parameters that travel together through three or more functions
6 lengths beside buffers, and lists searched by hand
7 switches on which step to run
8 answers and invariants of proofs, for each crate
"""
import collections
import difflib
import pathlib
import re
import sys

TOP = pathlib.Path(sys.argv[1]) if len(sys.argv) > 1 else pathlib.Path(__file__).resolve().parent.parent
NAMES = sys.argv[2:] or sorted(p.name for p in (TOP / "crates").iterdir() if p.is_dir())

CONTRACT = re.compile(r"^\s*(//|ghost\b|ensures\b|requires\b)")

# what a line of code says, point by point
LINES = {
    1: [
        r"Option<(Fault|Refusal|Problem)>",
        r"Result<(bool|Option<&)",
        r"&mut \[.*-> bool",
        r"^\s*(pub(\(crate\))? )?fn \w+.*\[\w+\].*-> usize",
        r"\b(kind|layer|fault|code): u\d+",
        r"\b(auction|condition|exchange|letter): u8,$",
        r"^\s*(pub )?closed: bool",
        r"Err\((\w+)\) => Err\(\w+\)|Some\((\w+)\) => Err\(\w+\)|Err\(_\) => Err\(",
        r"Ok\((\w+|\(\))\) => Ok\(|None => (None|true|false|Ok\(None\)|return None)",
        r"\} else \{ (None|0|n|s\.len\(\)) \}",
    ],
    3: [
        r"^\s*for .* in .*\.\.",
        r"^\s*for \(\w+, \w+\) in .*enumerate\(\)",
        r"^\s*(while|loop)\b",
        r"\[\w+ \+ 1\]",
    ],
    4: [
        r"\bas (u8|u16|u32|u64|usize)\b",
        r"-> &'static str",
        r"else if \w+ == ",
        r"impl (Clone|Copy|PartialEq|PartialOrd|Eq|Ord|Default|Debug)\b",
        r"b >= |<= b\b|b == b'.' \|\||b'A' <= ",
        r"/ 10, .*% 10|/ 16\)|% 16\)",
        r"-> u8$",
    ],
    6: [
        r"\[\w+\], (n|len|size|left|count): ",
        r"^\s*(pub )?(len|size|count): (usize|u\d+),",
        r"^\s*for \w+ in [A-Z]+ \{",
        r"^(pub(\(crate\))? )?fn \w+.*\[\w+\].*-> usize",
    ],
    7: [
        r"match (verb|kind|step)\b",
        r"^pub enum Verb",
        r"\[fn\(",
    ],
}


def sources(name):
    return sorted((TOP / "crates" / name / "src").rglob("*.rt"))


def where(path, number):
    return f"{path.relative_to(TOP / 'crates')}:{number}".replace("/src/", "/")


def lines_of_point(point):
    for name in NAMES:
        for path in sources(name):
            for number, line in enumerate(path.read_text().splitlines(), 1):
                if not CONTRACT.match(line) and any(re.search(rule, line) for rule in LINES[point]):
                    yield where(path, number), line.strip()


def items(path):
    """The functions, impls and structs of a file: where, name, header, clauses, body."""
    lines = path.read_text().splitlines()
    for i, line in enumerate(lines):
        m = re.match(r"^(\s*)(pub(\(crate\))? )?(extern \"C\" )?(fn|struct|enum|impl) ?(.*)", line)
        if not m or (m.group(5) == "fn" and line.rstrip().endswith(";")):
            continue
        indent, kind = m.group(1), m.group(5)
        body, clauses = [], []
        for other in lines[i:]:
            clause = re.match(r"^\s*(ensures|requires)\b", other)
            (clauses if clause else body).append(other)
            if re.match(rf"^{indent}(\}}|\{{\}})", other) or (clause or other is line) and other.rstrip().endswith(";"):
                break
            if other is line and other.rstrip().endswith("}"):
                break
        yield where(path, i + 1), kind, m.group(6), clauses, body


def in_trait_impl(path, place):
    """Whether the item at a place stands in the impl of a trait."""
    above = path.read_text().splitlines()[: int(place.split(":")[1]) - 1]
    heads = [line for line in above if re.match(r"^(pub )?(impl|trait|fn|struct|enum)\b|^\}", line)]
    return bool(heads) and re.match(r"^impl\b.* for ", heads[-1]) is not None


WORDS = set("fn pub struct enum impl let mut if else match for in while loop return self Self Ok Err Some None true false as ensures ghost".split())


def shape(body):
    text = re.sub(r"//.*", "", "\n".join(body))
    tokens = re.findall(r"b?'[^']*'|\"[^\"]*\"|0x[0-9a-f]+|\w+|[^\s\w]", text)
    return tuple(t if t in WORDS or not re.match(r"[\w'\"]", t) else "_" for t in tokens)


def twins():
    """Items whose shape is that of another, or nearly: each with its nearest."""
    all_items = []
    for name in NAMES:
        for path in sources(name):
            for place, kind, header, _, body in items(path):
                form = shape(body)
                trait_impl = kind == "impl" and " for " in header
                inside = kind == "fn" and body[0].startswith(" ") and in_trait_impl(path, place)
                if len(form) >= 20 and (kind != "impl" or trait_impl) and not inside:
                    all_items.append((place, f"{kind} {header}", form))
    for place, header, form in all_items:
        best, nearest = 0, ""
        for other_place, other_header, other in all_items:
            if other_place != place and header.split()[0] == other_header.split()[0] and min(len(form), len(other)) > 0.6 * max(len(form), len(other)):
                ratio = difflib.SequenceMatcher(None, form, other, autojunk=False).ratio()
                one_crate = place.split("/")[0] == other_place.split("/")[0]
                one_file = place.split(":")[0] == other_place.split(":")[0]
                if ratio >= (0.85 if one_file else 0.92 if one_crate else 1) and ratio > best:
                    best, nearest = ratio, other_place
        if best:
            yield place, f"{header}   (as {nearest})"


def repeated():
    for name in NAMES:
        facts, pairs = collections.defaultdict(list), collections.defaultdict(list)
        for path in sources(name):
            for place, kind, header, clauses, _ in items(path):
                if kind != "fn":
                    continue
                for clause in clauses:
                    m = re.match(r"\s*(ensures|requires)( \w+)? \{ (.*) \}", clause)
                    for fact in re.split(r"\) × \(", m.group(3).strip("()")) if m else []:
                        facts[fact].append(place)
                params = re.findall(r"(\w+): ([^,)]*)", re.sub(r"^\w+<[^(]*>\(", "(", header.split("->")[0]))
                for i, one in enumerate(params):
                    for other in params[i + 1:]:
                        pairs[(one, other)].append(place)
        for fact, places in facts.items():
            if len(set(places)) >= 3:
                yield name, f"{len(set(places))} functions: {fact}"
        for (one, other), places in pairs.items():
            if len(set(places)) >= 3:
                yield name, f"{len(set(places))} functions: ({one[0]}: {one[1]}, {other[0]}: {other[1]})"


def answers():
    for name in NAMES:
        n = sum(len(re.findall(r"^pub ", p.read_text(), re.M)) for p in (TOP / "crates" / name / "proofs").rglob("*.antt") if p.name in ("Answers.antt", "Invariants.antt"))
        lemmas = sum(len(re.findall(r"^(pub )?[\w-]+ :", p.read_text(), re.M)) for p in (TOP / "crates" / name / "proofs").rglob("*.antt") if p.name not in ("Answers.antt", "Invariants.antt", "Lib.antt"))
        if n or lemmas:
            yield name, f"{n} answers and invariants, {lemmas} lemmas"


def main():
    found = {point: lines_of_point(point) for point in LINES}
    found.update({2: twins(), 5: repeated(), 8: answers()})
    for point in sorted(found):
        hits = list(found[point])
        print(f"point {point}: {len(hits)}")
        for place, text in hits:
            print(f"  {place}: {text}")


main()
