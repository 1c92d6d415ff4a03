"""Lists the places of the design pass: python3 tools/places.py [POINT..], at the top of the repository.

Each line that it prints is a candidate: a place of the point, or text that only looks like one. docs/DESIGN-PASS.md
says of each kind how many were places, how many were changed, and why the others stay.
"""

import collections
import pathlib
import re
import sys

FILES = sorted(
    path
    for path in pathlib.Path("crates").glob("*/src/**/*.rt")
    if path.is_file()
)


def sources():
    for path in FILES:
        yield path, path.read_text().split("\n")


def lines_with(pattern):
    wanted = re.compile(pattern)
    for path, lines in sources():
        for number, line in enumerate(lines, 1):
            if wanted.search(line):
                yield f"{path}:{number}: {line.strip()}"


def functions():
    """Each function: its file, line, parameters and the text from its name to its body."""
    for path, lines in sources():
        text = "\n".join(lines)
        for found in re.finditer(r"^ *(?:pub(?:\(crate\))? )?(?:const |extern \"C\" )*fn (\w+)[^\n]*?\(", text, re.M):
            end = re.compile(r"^ *\{ *$|;$|\{$", re.M).search(text, found.end())
            head = text[found.start() : end.end() if end else len(text)]
            yield path, text.count("\n", 0, found.start()) + 1, found.group(1), head


def point1():
    print("# enums")
    yield from lines_with(r"^\s*(pub(\(crate\))? )?enum \w+")
    print("# a bool that says whether a change was made")
    for path, line, name, head in functions():
        if "&mut" in head and re.search(r"-> bool", head):
            yield f"{path}:{line}: fn {name}"
    print("# numbers for kinds, refusals and rows")
    yield from lines_with(r"^\s*(pub(\(crate\))? )?(number|direction|resets|kind|tag|send|receive|row): (u8|usize),?$|: u8 = 255")
    print("# an error that is a tuple")
    yield from lines_with(r"-> Result<.*, \(")
    print("# an Ok, Err, Some or None that is handed on by a match")
    yield from lines_with(r"^\s*(Ok\((\w+)\) => (Ok\()?\2\)?,|Err\(\w+\) => (return )?Err\(.*\),?$|None => (None|false|true|0|Ok\(\(\)\)|b\"\"),?$|Some\((\w+)\) => \w+,$|Err\((\w+)\) => Some\(\w+\),)")


def point2():
    print("# names that stand in more than one file")
    names = collections.defaultdict(list)
    for path, line, name, head in functions():
        if not path.name.startswith("test"):
            names[name].append(f"{path}:{line}")
    for path, lines in sources():
        for number, line in enumerate(lines, 1):
            found = re.search(r"^\s*(?:pub(?:\(crate\))? )?(?:struct|enum|trait) (\w+)", line)
            if found:
                names[found.group(1)].append(f"{path}:{number}")
    for name, places in sorted(names.items()):
        if len({place.split(":")[0] for place in places}) > 1:
            yield f"{name}: {' '.join(places)}"
    print("# bodies that are the same but for names, numbers and types")
    shapes = collections.defaultdict(list)
    for path, lines in sources():
        text = "\n".join(lines)
        for found in re.finditer(r"^( *)(?:pub(?:\(crate\))? )?fn (\w+)", text, re.M):
            body = re.compile(rf"^{found.group(1)}\{{\n(.*?)^{found.group(1)}\}}", re.M | re.S).search(text, found.end())
            body = body or re.compile(rf"\{{\n(.*?)^{found.group(1)}\}}", re.M | re.S).search(text, found.end())
            if not body or body.group(1).count("\n") < 3:
                continue
            shape = re.sub(r"\b[A-Za-z_]\w*\b", lambda m: m.group() if m.group() in WORDS else "x", body.group(1))
            shape = re.sub(r"\s+", " ", re.sub(r"\d[\d_]*", "0", re.sub(r"b?\"[^\"]*\"", "s", shape)))
            shapes[shape].append(f"{path}:{text.count(chr(10), 0, found.start()) + 1}:{found.group(2)}")
    for places in sorted(shapes.values()):
        if len(places) > 1:
            yield " ".join(places)


WORDS = "let mut for in if else match return while loop true false Some None Ok Err as break ref".split()


def point3():
    yield from lines_with(r"^\s*for \w+ in .*\.\.|^\s*while |^\s*loop \{")


def point4():
    print("# equality, kind and conversion by hand")
    yield from lines_with(r"fn (same_\w+|alike|sends|finished|\w*_bytes?|number\w*|word_for|put_stop\w*|stop|closing_said|event|clocks?|layer_of|layer_byte|place)\(")
    print("# impl of a trait of conversion, comparison or printing")
    yield from lines_with(r"^\s*impl(<.*>)? (From|TryFrom|Into|PartialEq|Eq|Ord|PartialOrd|Clone|Copy|Default|fmt::Display|Display|Debug)\b")


def point5():
    print("# a fact in the contracts of three or more functions")
    facts = collections.defaultdict(list)
    groups = collections.defaultdict(list)
    for path, line, name, head in functions():
        crate = path.parts[1]
        for fact in set(re.findall(r"^\s*(?:requires)(?: \w+)? \{ (.*) \}$", head, re.M)):
            for part in re.split(r" × ", fact):
                facts[crate, re.sub(r"\b(old|now|entry|new)\b", "_", part.strip("()"))].append(f"{path.name}:{line}:{name}")
        inside = head[head.index("(") + 1 :].split(")")[0] if "(" in head else ""
        parameters = sorted(
            re.sub(r"\s+", " ", p.strip()).replace("mut ", "")
            for p in re.split(r",\s*", head[head.index("(") + 1 :].split(")\n")[0].split(") ->")[0].split(") {")[0].rstrip(")"))
            if ":" in p
        )
        for i, one in enumerate(parameters):
            for other in parameters[i + 1 :]:
                groups[crate, one, other].append(name)
    for (crate, fact), places in sorted(facts.items()):
        if len(set(places)) > 2:
            yield f"{crate}: {fact}: {' '.join(sorted(set(places)))}"
    print("# parameters that three or more functions take together")
    for (crate, one, other), names in sorted(groups.items()):
        if len(names) > 2:
            yield f"{crate}: {one}, {other}: {' '.join(names)}"


def point6():
    print("# a number beside a buffer, and buffers of a fixed length")
    yield from lines_with(r"^\s*(pub(\(crate\))? )?(count|len|used|first|rows): usize,$|^\s*(pub(\(crate\))? )?\w+: (&\S* ?mut )?\[+.*(; [\w ]+\])?,$|let mut \w+ = (no_\w+\(\)|\[.*; .*\]);")
    print("# slots that a function fills from the front")
    for path, line, name, head in functions():
        if re.search(r"slots: &mut \[", head):
            yield f"{path}:{line}: fn {name}"


def point7():
    yield from lines_with(r"match (asked|\w*\.?(kind|rows|margins|way|direction|task)\b|put|point|layer|case\.\w+)")


def main():
    chosen = sys.argv[1:] or list("1234567")
    for point in chosen:
        print(f"## point {point}")
        found = list(globals()[f"point{point}"]())
        for line in found:
            print(line)
        print(f"## {len(found)} lines")


main()
