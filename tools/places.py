#!/usr/bin/env python3
"""Lists the places of crates/*/src that a design review looks at, by the points of docs/DESIGN-PASS.md.

    python3 tools/places.py [--counts] [--in CHECKOUT] [POINT ..]

It goes by the text alone: a row is a place to look at, not a verdict."""
import collections
import pathlib
import re
import sys

ARGS = sys.argv[1:]
ROOT = pathlib.Path(ARGS[ARGS.index("--in") + 1] if "--in" in ARGS else pathlib.Path(__file__).resolve().parent.parent)
WORD = re.compile(r"[A-Za-z_]\w*")
KEEP = {"if", "else", "while", "for", "in", "return", "match", "let", "mut", "fn", "pub", "true", "false", "as"}
FN = re.compile(r"^( *)(?:pub )?(?:extern \"C\" )?fn (\w+)(?:<[^>{]*>)?\(", re.M)


def sources():
    for path in sorted(ROOT.glob("crates/*/src/**/*.rt")):
        yield path.relative_to(ROOT), path.read_text()


def code(text):
    return re.sub(r"//.*", "", text)


def matching(text, start):
    depth = 0
    for i in range(start, len(text)):
        depth += {"(": 1, ")": -1}.get(text[i], 0)
        if depth == 0:
            return i
    return len(text)


def functions():
    """Path, name, parameters, signature with its clauses, body."""
    for path, text in sources():
        text = code(text)
        for m in FN.finditer(text):
            close = matching(text, m.end() - 1)
            head = re.compile(r"\n" + m.group(1) + r"\{\n|\{\n").search(text, close)
            if not head:
                continue
            end = text.find("\n" + m.group(1) + "}", head.start())
            params = re.sub(r"<[^<>]*>|\[[^\[\]]*\]|\([^()]*\)", "", text[m.end():close])
            names = [p for p in params.split(",") if p.strip()]
            yield path, m.group(2), names, text[close:head.start()], text[head.end():end]


def grep(pattern, where=lambda path: True):
    for path, text in sources():
        for no, line in enumerate(code(text).splitlines(), 1):
            if where(path) and re.search(pattern, line):
                yield f"{path}:{no}", line.strip()


def enums():
    yield from grep(r"^(pub )?enum ")


def flags():
    yield from grep(r"^    (pub )?\w+: bool,$")


def no_values():
    """Comments that say which number stands for none."""
    for path, text in sources():
        for no, line in enumerate(text.splitlines(), 1):
            if line.strip().startswith("//") and re.search(r"where (there is none|none (does|has))|past the last where|; n where none", line):
                yield f"{path}:{no}", line.strip()


def codes():
    """Functions that make a number of a case, or a case of a number."""
    for path, name, _, _, body in functions():
        if re.search(r"^\s*match \w+ (% 256 )?\{", body) and len(re.findall(r"(=> \d+,|\d+ => )", body)) > 1:
            yield f"{path} {name}", "by a match"


def twins():
    """Functions of four lines or more with bodies alike but for names and numbers."""
    groups = collections.defaultdict(list)
    for path, name, _, _, body in functions():
        rows = [re.sub(r"\s+", " ", r).strip() for r in body.splitlines() if r.strip()]
        if len(rows) >= 4:
            shape = WORD.sub(lambda m: m.group() if m.group() in KEEP else "w", "\n".join(rows))
            groups[re.sub(r"\b\d\w*", "0", shape)].append(f"{path} {name}")
    for rows in groups.values():
        if len(rows) > 1:
            yield " = ".join(rows), ""
    defined = collections.defaultdict(list)
    for place, line in grep(r"^(pub )?(const|fn) \w+"):
        defined[re.search(r"(?:const|fn) (\w+)", line).group(1)].append(place)
    for name, places in defined.items():
        if len(places) > 1 and name not in ("main", "run_case", "run_cases", "run_kind"):
            yield " = ".join(places), name


def loops():
    yield from grep(r"^\s*(while|loop)\b")


def by_hand():
    """Equality, sums, widening and conversions with functions of their own."""
    yield from grep(r"fn (equals|plus|wide|link_of|is_real|is_sided|in_form|is_sound|first_difference|keep_words|clear|both|\w*fault_number|answer_code|side_number|word_of|verdict_of|part_number|all_zero)\b")


def many_parameters():
    for path, name, params, _, _ in functions():
        if len(params) >= 6:
            yield f"{path} {name}", f"{len(params)} parameters"


def facts():
    """Facts that stand in the requires of three functions or more of a crate."""
    groups = collections.defaultdict(set)
    for path, name, _, head, _ in functions():
        for clause in re.findall(r"requires[^{]*\{ (.*) \}", head):
            for fact in clause.split(" × "):
                groups[(path.parts[1], fact.strip("() "))].add(name)
    for (crate, fact), names in sorted(groups.items()):
        if len(names) >= 3:
            yield f"{crate}: {fact}", ", ".join(sorted(names))


def arrays():
    yield from grep(r"(: &mut \[u\d+; ?\w+\]|= \[\d+(u\d+)?; ?\w+\];|type \w+ = \[u)")


def switches():
    yield from grep(r"^(pub )?fn .*\w+: bool[,)]|^    \w+: bool,$|fn run_kind|match kind \{")


def proofs():
    for crate in sorted((ROOT / "crates").iterdir()):
        files = sorted((crate / "proofs").rglob("*.antt")) if (crate / "proofs").exists() else []
        lines = sum(len([r for r in f.read_text().splitlines() if r.strip() and not r.strip().startswith("--")]) for f in files)
        if files:
            yield crate.name, f"{len(files)} files, {lines} lines"


POINTS = {
    "1": [enums, flags, no_values, codes], "2": [twins], "3": [loops], "4": [by_hand],
    "5": [many_parameters, facts], "6": [arrays], "7": [switches], "8": [proofs],
}


def main():
    asked = [a for a in ARGS if a in POINTS] or list(POINTS)
    for point in asked:
        for finder in POINTS[point]:
            rows = list(finder())
            print(f"{point} {finder.__name__}: {len(rows)}")
            if "--counts" not in ARGS:
                for place, what in rows:
                    print(f"    {place}  {what}".rstrip())


main()
