#!/usr/bin/env python3
"""Counts in crates/*/src the places of older forms that docs/DESIGN-PASS.md speaks of, and with --list names each.

usage: tools/count_forms.py [--list]      at the top of the repository
"""

import pathlib
import re
import sys
from collections import Counter, defaultdict

COMMENT = re.compile(r"^\s*//")
FN = re.compile(r"^ *(?:pub(?:\(crate\))? )?(?:extern \"C\" )?fn (\w+)(?:<[^>]*>)?\(", re.M)
# Outcomes spelled as enums of the repository's own: a value or a reason why there is none.
OUTCOMES = "Decoded Validated Verdict Written StepAnswer RunAnswer TurnAnswer ResumeAnswer Input".split()
# A field that says whether the fields beside it mean anything, or a refusal's number where 0 is none.
FLAG = re.compile(r"^\s+(?:pub )?(number|refusal|found|back|good|fresh|agree): (?:u8|bool),$")
NUMBERED = re.compile(r"\b(?:first|both|under|unless|differ)\(")
LOOP = re.compile(r"^\s*(?:let \w+ = )?(?:while|loop)\b")
# Conversions, copies and comparisons that std has under a name of its own.
BY_HAND = re.compile(r"^ *(?:pub(?:\(crate\))? )?fn (flag|word|high|low|byte_at|put_byte|least|larger|wide|known|clear|held|number_bytes|steps_of|"
                     r"byte_text|word_text|hex_digit|digit|sp_after|offset_from|mark_at|gather|begin_at|print|print_number|print_byte|print_bytes|"
                     r"\w*_number|values_of|registers_in|register_cells|registers_of|limits_in|record_in|record_cells|area_at|limits_of)\(")
# Names that fill up their array, arrays beside one another or with their length in a struct, and an index that goes with a buffer.
BESIDE = re.compile(r"^(?:pub )?const \w+: \[u8; 5\]|^    (?:pub )?(?:bytes|addresses|values|begins|needs|row): \[[^=]*\],$|"
                    r"fn \w+\(at: usize.*text: &mut|fn \w+\(buffer: &mut \[u8\], at: usize|fn \w+\(name: \[u8; 5\]")
SWITCH = re.compile(r"\bfn\(|\bBox<dyn|&dyn ")
# Functions that differ in such a part of their names are twins, and so are functions of one name in several programs.
PARTS = re.compile(r"(?<![a-z])(?:bytes?|words?|plain|after_72|after_90|72|90)(?![a-z])")
PROGRAMS = "_cases encodings recorded_steps".split()

def sources():
    for path in sorted(pathlib.Path("crates").glob("*/src/**/*.rt")):
        yield path, path.read_text().splitlines()


def signatures(path, lines):
    text = "\n".join(lines)
    for found in FN.finditer(text):
        depth, end = 1, found.end()
        while depth:
            depth += {"(": 1, ")": -1}.get(text[end], 0)
            end += 1
        inner = text[found.end():end - 1]
        names = [it.split(":")[0].replace("mut ", "").strip() for it in re.split(r",(?![^<(\[]*[>)\]])", inner) if it.strip()]
        head = text[end:text.find("\n{", end)] if "\n{" in text[end:] else ""
        yield found.group(1), text.count("\n", 0, found.start()) + 1, names, head


def count():
    places = defaultdict(list)
    facts = defaultdict(lambda: defaultdict(list))
    twins = defaultdict(list)
    for path, lines in sources():
        crate = path.parts[1]
        for at, line in enumerate(lines, 1):
            if COMMENT.match(line):
                continue
            where = f"{path}:{at}: {line.strip()[:100]}"
            if re.match(r"^(?:pub(?:\(crate\))? )?enum (?:%s)\b" % "|".join(OUTCOMES), line) or FLAG.match(line):
                places["1 outcomes and flags of the repository's own"].append(where)
            if NUMBERED.search(line):
                places["1 refusals combined as numbers, a line each"].append(where)
            if LOOP.match(line):
                places["3 loops counted by hand"].append(where)
            if BY_HAND.match(line):
                places["4 conversions, comparisons and printing by hand"].append(where)
            if BESIDE.search(line):
                places["6 arrays with a length or one another beside them"].append(where)
            if SWITCH.search(line):
                places["7 tables of functions"].append(where)
        for name, at, names, head in signatures(path, lines):
            alike = PARTS.sub("*", name)
            if "*" in alike and alike != "*":
                twins[(crate, str(path), alike)].append(f"{path}:{at}: {name}")
            if name != "main" and any(it in crate for it in PROGRAMS):
                twins[("programs", name)].append(f"{path}:{at}: {name}")
            if len(names) >= 6:
                places["5 functions of six and more parameters"].append(f"{path}:{at}: {name}({', '.join(names)})")
            for fact in set(re.findall(r"\(([^()]*(?:\([^()]*\)[^()]*)*[≤<≡][^()]*(?:\([^()]*\)[^()]*)*)\)|\{ ([^{}]*) \}", head)):
                fact = (fact[0] or fact[1]).strip()
                if "result" not in fact and fact:
                    facts[crate][fact].append(f"{path}:{at}: {name}")
    for crate in facts:
        for fact, users in facts[crate].items():
            if len(users) >= 3:
                places["5 facts in three and more contracts of a crate"].append(f"{crate}: {fact[:90]} ({len(users)})")
    for found in twins.values():
        if len(found) > 1:
            places["2 functions that look like twins"] += sorted(set(found) - set(places["2 functions that look like twins"]))
    return places


def main():
    for point, found in sorted(count().items()):
        print(f"{len(found):4} {point}")
        if "--list" in sys.argv:
            for it in found:
                print(f"       {it}")


if __name__ == "__main__":
    main()
