#!/usr/bin/env python3
"""Lists, for each point of docs/DESIGN-PASS.md, the places in crates/*/src/*.rt (the proofs for point 8).

python3 tools/design_places.py [FOLDER]     counts for the tree in FOLDER (the current one)
python3 tools/design_places.py [FOLDER] N   the places of point N
"""
import collections
import glob
import os
import re
import sys


def functions(text):
    """(name, parameters, contract, body) of each function."""
    for start in re.finditer(r"^ *(?:pub )?(?:extern \"C\" )?fn (\w+)", text, re.M):
        rest = text[start.end():]
        depth, at = 0, 0
        for at, c in enumerate(rest):
            depth += (c in "([<") - (c in ")]>" and rest[at - 1] != "-")
            if depth == 0 and c == ")":
                break
        parameters = rest[rest.index("(") + 1:at]
        names = re.findall(r"(?:^|,|\n)\s*(?:mut )?(&?(?:mut )?self|\w+(?=:))", parameters)
        body = rest[at:]
        open_ = re.search(r"(^|\n) *\{ *\n|\) *(->[^\n{]*)?\{", body)
        contract = body[:open_.start()] if open_ else body
        end = re.search(r"^%s\}" % re.match(r" *", start.group(0)).group(0), body, re.M)
        yield start.group(1), names, contract, body[open_.end() if open_ else 0:end.start() if end else None]


def lines(text, pattern):
    for i, line in enumerate(text.split("\n"), 1):
        code = line.split("//")[0]
        if re.search(pattern, code):
            yield i, line.strip()


KINDS = r"\benum (Place|Decoded|Reading)\b|\b(Place|Decoded|Reading)::\w+|-> (Place|Decoded|Reading)\b"
FLAGS = r"\bstruct (Next|Outcome)\b|65536,$|\bplace: usize,$|\bmark: u8\b"
NUMBERS = r"\bnumber: (u8|usize)\b|\brefused\(|\bnumber != 0\b|^\s*return [0-9]+;|\bkind: usize\b|\bgate_all\(t, [0-9]"
BY_HAND = (r"\bbyte_as_(u16|usize)\(|\btableau::copy\(|\bfn (low|high|smaller|earlier|larger|copy|move_row)\b|\bio::(write_all|print_decimal)\("
           r"|\{ [a-z]+: _( |,)|^\s*[a-z]+: _,$|% 256\) as u8|\bif (\w+) < (\w+) \{ (\w+) \} else \{ (\w+) \}")
TOGETHER = ["Tables d tables.now", "Reciprocal d m", "WideReciprocal d m", "n ≤ 64", "d ≤ 31", "3 ≤ d", "listed d ≡ true", "RunTables d n tables.now",
            "ShotsRoom w used out", "Bodies d n ops.now errors.now choices.now"]
BUFFERS = r"= \[0(u8|u16|usize)?; *[0-9]+\];|\b(starts|sizes|slots|counts|cursors|spare|marks): &(mut )?\[|\bcount: usize\b.*\blist\b|\blist: &mut \[u8\]"
SWITCHES = r"\bmatch (number|code|kind|k|b0) \{|\bcode (<|==) [0-9]"


def places(root):
    found = collections.defaultdict(list)
    shapes = collections.defaultdict(list)
    for name in sorted(glob.glob(os.path.join(root, "crates/*/src/*.rt"))):
        text = open(name, encoding="utf-8").read()
        short = os.path.relpath(name, root)[len("crates/"):]
        for point, pattern in ((1, KINDS), (1, FLAGS), (1, NUMBERS), (3, r"^\s*while "), (4, BY_HAND), (6, BUFFERS), (7, SWITCHES)):
            for i, line in lines(text, pattern):
                found[point].append(f"{short}:{i}: {line}")
        for function, names, contract, body in functions(text):
            if len(names) > 7:
                found[5].append(f"{short}: {function} has {len(names)} parameters")
            for fact in TOGETHER:
                if re.search(r"(?<!\w)" + re.escape(fact), contract):
                    found[5].append(f"{short}: {function} asks {fact}")
            shape = re.sub(r"\b[a-z_][a-z_0-9]*\b(?!::)", "x", re.sub(r"\b[0-9]\w*\b", "0", re.sub(r"//[^\n]*", "", body)))
            shape = re.sub(r"\b\w+::", "", shape)
            shape = re.sub(r"(x, )+x", "x", re.sub(r"\s+", " ", shape)).strip()
            if len(shape) > 18:
                shapes[shape].append(f"{short}: {function}")
    for group in shapes.values():
        if len(group) > 1:
            found[2].extend(f"{place}  (as {group[0]})" if k else place for k, place in enumerate(group))
    for name in sorted(glob.glob(os.path.join(root, "crates/*/proofs/**/*.antt"), recursive=True)):
        if os.path.basename(name) == "Proof.antt":
            found[8].append(os.path.relpath(name, root)[len("crates/"):])
    return found


def main():
    words = sys.argv[1:]
    point = int(words.pop()) if words and words[-1].isdigit() else None
    found = places(words[0] if words else ".")
    for n in range(1, 9):
        if point in (None, n):
            print(f"point {n}: {len(found[n])}")
            if point:
                print("\n".join(found[n]))


main()
