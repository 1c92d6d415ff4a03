"""Respells this repository's own names in contracts, specs/ and proofs/, once, right after the toolchain's own script.

Run at the top of the repository. Words are in snake case and types in upper camel case. A dash stays only where it joins
the names of two functions, as in `length-held`. Functions of src/, labels, strings, inputs and outputs keep their names,
and so do the names that the check makes (goals, steps, `x-is`). It stops where two names would fall together."""
import os
import re
import sys

NAME = r"[^\s(){}\[\],;.\"`@]+"
OUTER = ("length", "drop", "take", "map", "get_or", "reverse", "set")  # functions that a lemma's left side begins with
GIVEN = re.compile(r"(returns|loop|invariant|decreases|overflow|bounds|slice|offset|nonzero|prove)-|.*-requires$|.*-init$|.*-preserved$|.*-smaller$|.*-(start|end)$")
# what the toolchain's own script has respelled before, for pages and edits, which it leaves alone
BEFORE = {"getD": "get_or", "ltb": "nat_lt", "leb": "nat_le", "bodyOf": "body_in", "moveOf": "move_under", "stepOf": "step_for", "wordFor": "word_of_number"}
BEFORE_SNAKE = """
    above-at after-push alike-refl all-both all-found all-own answerOf at-first at-place at-top back-from back-to bad-more below-fails below-more
    between-first by-kind by-turn by-way bytes-after bytesOf callOf clear-first cons-head cons-tail counted-is drop-head earlier-more edge-to edgeOf endOf
    ends-by every-here every-more every-true first-found first-passes found-part four-is four-same from-at g-within gather-none goes-on grows-then
    has-part has-room held-high held-low held-none highOf holds-by in-order in-row in-table inSet index-of joined-to kept-from kept-more kindOf labelOf
    labels-from least-by length-cut length-pairs length-whole less-none less-other lines-more list-cases low-same lowOf move-read moveLine moves-more
    near-next near-same next-here next-known next-small no-label no-place no-run noPart none-left not-taken number-small numberOf numbered-more of-mem
    of-parts offsetOf one-at one-from one-less one-more one-side only-one part-of partsIn past-end path-inside piece-bytes piece-is pieceOf piecesOf
    place-at place-same placeOf places-of placesOf position-absent pow-apart put-back put-other put-same right-by room-back row-back row-count row-ends
    row-is rowAt run-wider same-bool same-branch same-end same-here same-more same-place same-refl same-step same-way sends-none set-after set-found
    set-here set-walk setAt sets-same shown-by sized-same slot-next slotsOf some-same start-is start-small startSet stateOf table-at taken-at taken-none
    takes-none to-at too-many two-at two-back viewOf waits-there way-of way-same wayOf whole-from widthOf wordOf zero-in
"""
# names that would fall together with another, or with a function beside whose contract they stand
CHOSEN = {
    "Any-path": "AnyPathServes", "In-range": "RunsInRange", "Labels-suffice": "LabelsAlwaysSuffice",
    "acts-in": "acts_in_set", "action-of": "make_action", "timing-of": "make_timing", "led-from": "led_from_lem", "name-size": "name_size_lem",
    "state-size": "state_size_lem", "places-from": "places_numbered", "set-of": "set_of_part", "start-set": "start_set_of", "move-of": "move_of_action",
    "small-acts": "small_acts_lem", "small-places": "small_places_lem",
    "actingStates": "acting_states_of", "faultAt": "fault_of_point", "firstFailing": "first_failing_point", "firstOf": "first_with",
    "labelsAt": "labels_of_state", "layerOf": "layer_of_number", "ledFrom": "is_led_from", "moveIn": "move_in_set", "nameCount": "name_count_of",
    "noClash": "is_unclashed_list", "oneSide": "is_one_sided", "pieceCount": "piece_count_in", "placeAt": "make_place", "sameOffer": "is_same_offer",
    "sameTiming": "is_same_timing", "same-timing": "equal_timing", "sameLabels": "is_same_labels", "sameSide": "is_same_side", "setIn": "set_in_part",
    "slotBytes": "bytes_of_slot", "windowBytes": "bytes_of_window", "stopLine": "line_of_stop", "toldIfActing": "is_told_if_acting",
    "text-is": "text-is",  # a step of the check has this name too, but in the files below
    "set-kept": "set_kept",
    "actsIn": "acts_listed", "countsIn": "counts_read", "bodyIn": "body_read", "body_of": "body_in", "move_of": "move_under", "step_of": "step_for", "word_for": "word_of_number",
}

# words that only these files have in this sense
HERE = {
    "crates/book": {"firstOf": "first_of"},
    "crates/runs/specs/Run": {"tsBefore": "ts_before", "tsAfter": "ts_after"},
    "crates/console/specs/Told": {"text-is": "text_is"},
    "crates/console/proofs/Telling": {"text-is": "text_is"},
    "crates/console/": {"rowsIn": "rows_in", "rowsIn:": "rows_in:"},
}


def files(*endings):
    for folder, dirs, names in os.walk("."):
        dirs[:] = sorted(d for d in dirs if d not in ("out", ".git", "target"))
        for n in sorted(names):
            if n.endswith(endings):
                yield os.path.join(folder, n)


def defined():
    """The names that this repository's .antt files define, with the line's type; a field's name begins with a dot."""
    found, fields = {}, set()
    for path in files(".antt"):
        given = os.path.basename(path) in ("Answers.antt", "Choices.antt", "Invariants.antt")
        record = False
        for line in open(path, encoding="utf-8"):
            if re.match(r"(pub )?record ", line.strip()) and line[0] != " ":
                record = True
            elif line[0] not in " \n":
                record = False
            m = re.match(r"\s*(?:abbrev |unfoldable |pub )*((?:" + NAME + r" )+): (.*)", line)
            if not m or line.lstrip().startswith(("--", "let ", "elim ", "use ", "module ", "data ", "record ", "in ")):
                d = re.match(r"\s*(?:pub )?(?:data|record) (?:pub )?(" + NAME + ")", line)
                if d:
                    found[d.group(1)] = "type"
                continue
            for n in m.group(1).split():
                if given and re.match(r"(goal|need)\.", m.group(2)):
                    continue
                found.setdefault(n, m.group(2))
                if record:
                    fields.add(n)
    for path in files(".antt", ".rt"):
        for line in open(path, encoding="utf-8"):
            if re.match(r"\s*(pub )?(ghost )?use ", line):
                for alias in re.findall(r" as ([a-z]+[A-Z]\w*)", line):
                    found.setdefault(alias, "alias")
    return found, fields


def snake(name):
    name = re.sub(r"(?<=[a-z0-9])([A-Z])(?=[A-Z])", r"_\1", name)
    return re.sub(r"(?<=[a-z0-9])([A-Z])", lambda m: "_" + m.group(1).lower(), name)


def camel(name):
    return "".join(p[:1].upper() + p[1:] for p in name.split("-"))


def respelled(found):
    out = {}
    for n, type in found.items():
        if n in CHOSEN:
            new = CHOSEN[n]
        elif re.match(r"[A-Z]", n):
            new = camel(n) if "-" in n else n
        else:
            first, dash, rest = n.partition("-")
            head = snake(first)
            if dash and first in OUTER and rest in found:
                new = head + "-" + snake(rest).replace("-", "_")
            else:
                new = snake(n).replace("-", "_")
        if new != n:
            out[n] = new
    return out


def plain(text):
    """No import stands under one of the library's plain words: `All` there is another fact."""
    if "AllByRecursion as All" not in text:
        return text
    lines = text.replace("AllByRecursion as All", "AllByRecursion").split("\n")
    return "\n".join(x if x.lstrip().startswith("--") else re.sub(r"(?<![\w.'-])All(?![\w'-])", "AllByRecursion", x) for x in lines)


def turned(text, names, fields, all_dots, source=False):
    def one(m):
        word = m.group(2)
        path = re.search(r"(?:Rattle\.[\w.+-]*|\bspans)\Z", m.string[: m.start()])
        if word in names and (m.group(1) != "." or all_dots or word in fields or path):
            return m.group(1) + names[word]
        return m.group(0)

    out = []
    for line in text.split("\n"):
        if source and not re.match(r"\s*(pub )?(ghost|requires|ensures)\b", line):
            out.append(line)
            continue
        parts = re.split(r'("(?:[^"\\]|\\.)*")', line)
        for i in range(0, len(parts), 2):
            parts[i] = re.sub(r"(^|[\s(){}\[\],;.\"`@])(" + NAME + ")", one, parts[i])
        out.append("".join(parts))
    return "\n".join(out)


def main():
    found, fields = defined()
    names = respelled(found)
    taken = set()
    for path in files(".antt", ".rt"):
        taken.update(re.findall(NAME, open(path, encoding="utf-8").read()))
    clash = sorted(n for n in names if names[n] in taken)
    twice = sorted(n for n in names if list(names.values()).count(names[n]) > 1)
    made = sorted(n for n in names if GIVEN.match(n))
    for what, which in (("taken", clash), ("together", twice), ("like a name that the check makes", made)):
        if which:
            print(what + ":", " ".join(f"{n}>{names[n]}" for n in which))
    if "--list" in sys.argv:
        print(len(names), "names")
        for n in sorted(names):
            print(n, names[n])
        return
    # pages and edits have the names from before the toolchain's script, and `body_of`, `step_of` .. are functions there
    pages = {n: names[n] for n in names if n not in ("body_of", "move_of", "step_of", "word_for")} | {n: snake(n).replace("-", "_") for n in BEFORE_SNAKE.split()} | BEFORE
    for path in files(".antt", ".rt", ".edit", ".md"):
        old = open(path, encoding="utf-8").read()
        use = names if path.endswith((".antt", ".rt")) else pages
        dotted = fields
        for place, words in HERE.items():
            if path.startswith("./" + place):
                use, dotted = use | words, dotted | set(words)
        new = turned(plain(old) if path.endswith(".antt") else old, use, dotted, path.endswith((".md", ".edit")), path.endswith(".rt"))
        if new != old:
            open(path, "w", encoding="utf-8").write(new)


main()
