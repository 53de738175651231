#!/usr/bin/env python3
"""Brings the names of this repository's own definitions and lemmas to snake case, after the kit's port.py.

usage: python3 tools/respell.py            at the top of the repository, once, right after port.py
       python3 tools/respell.py --clash    prints the names that would fall together in a file, and writes nothing

Names of the library, of Rust source and of types and modules stay. A lemma that would have its function's name gets `_lem`.
"""
import collections
import os
import re
import sys

NAME = re.compile(r"(?<![\w'′-])[a-z_][\w'′]*(?:-[\w'′]+)*")
USE = re.compile(r"use ([\w.'+-]+)\.\{([^}]*)\}")
DECLARED = re.compile(r"^\s*(?:(?:pub|unfoldable|abbrev) )*([a-z][\w'′-]*) :(?!=)", re.M)
GHOST = re.compile(r"(^ghost use [^;]*;|\{[^{}]*(?:\{[^{}]*\}[^{}]*)*\}\s*$)", re.M)

# Lemmas whose snake case is a function's name in a file that has both.
LEMMAS = {
    "body-sound": "body_sound_lem",
    "body-total": "body_total_lem",
    "code-shown": "code_shown_lem",
    "code-sound": "code_sound_lem",
    "header-widths": "header_widths_lem",
    "line-shown": "line_shown_lem",
    "line-sound": "line_sound_lem",
    "side-text": "side_text_lem",
    "tic-length": "tic_length_lem",
    "words-judged": "words_judged_lem",
    "words-tried": "words_tried_lem",
    "worked-header": "worked_header_lem",
    "worked-lines": "worked_lines_lem",
    "worked-records": "worked_records_lem",
    "marks_then": "marks_then_lem",
    "word_number": "word_number_lem",
}


def snake(name):
    return re.sub(r"(?<=[a-z0-9])[A-Z]", lambda m: "_" + m.group().lower(), name).replace("-", "_").replace("′", "'")


def files(*ends):
    for folder, dirs, names in os.walk("crates"):
        dirs[:] = sorted(d for d in dirs if d != "out")
        for name in sorted(names):
            if name.endswith(ends):
                yield os.path.join(folder, name)


def read(path):
    with open(path, encoding="utf-8") as f:
        return f.read()


def own(module):
    return module.startswith("Rattle.") and os.path.isdir(os.path.join("crates", module.split(".")[1]))


def library_names():
    """What the files bring in from elsewhere."""
    found = set()
    for path in files(".antt", ".rt"):
        for m in USE.finditer(read(path)):
            if not own(m.group(1)):
                found |= {n.strip().split(" ")[0] for n in m.group(2).split(",")}
    return found


def declared_names():
    return {n for path in files(".antt") for n in DECLARED.findall(read(path))}


def clauses(text):
    """The parts of a .rt file that are antt: imports and clauses."""
    out, i, lines = [], 0, text.split("\n")
    at = 0
    for line in lines:
        s = line.lstrip()
        if s.startswith(("ghost use ", "requires ", "ensures ", "×", "→", "ghost ", "invariant ")):
            out.append((at, at + len(line)))
        at += len(line) + 1
    return out


def turn(text, change, path):
    def one(m):
        return change(m.group(), m.start() > 0 and text[m.start() - 1] == ".", path)
    return NAME.sub(one, text)


def turn_antt(text, change, path):
    lines = text.split("\n")
    for i, line in enumerate(lines):
        at = line.find("-- ")
        code, rest = (line, "") if at < 0 else (line[:at], line[at:])
        lines[i] = turn(code, change, path) + re.sub(r"`[^`]*`", lambda m: turn(m.group(), change, path), rest)
    return "\n".join(lines)


def turn_rt(text, change, path):
    for a, b in reversed(clauses(text)):
        text = text[:a] + turn(text[a:b], change, path) + text[b:]
    return text


def turn_edit(text, change, path):
    lines = text.split("\n")
    kind = next((l for l in lines if l.startswith("file: ")), "")
    for i, line in enumerate(lines):
        if line.startswith(("old: ", "new: ")) and kind.endswith(".antt"):
            lines[i] = turn(line, change, path)
        elif line.startswith(("old: ", "new: ")) and re.search(r"ghost use|requires|ensures", line):
            lines[i] = turn(line, change, path)
    return "\n".join(lines)


def clash(keep, declared):
    seen = collections.defaultdict(lambda: collections.defaultdict(set))
    for path in files(".antt", ".rt"):
        text = read(path)
        here = collections.defaultdict(set)

        def note(name, field, _):
            if not field:
                here[LEMMAS.get(name) or (name if name in keep else snake(name))].add(name)
            return name

        (turn_antt if path.endswith(".antt") else turn_rt)(text, note, path)
        if path.endswith(".rt"):
            for name in re.findall(r"\b([a-z]\w*)\s*:", text):
                here[name].add(name)
        for to, names in here.items():
            if len(names) > 1:
                seen[to][tuple(sorted(names))].add(path)
    for to, groups in sorted(seen.items()):
        for names, paths in groups.items():
            print(to, names, sorted(paths)[:3])


def main(argv):
    keep, declared = library_names(), declared_names()
    if "--clash" in argv:
        return clash(keep, declared)

    def change(name, field, path):
        if name in LEMMAS and not field:
            return LEMMAS[name]
        if name in keep and not (field and name in declared):
            return name
        if name not in declared and field and not path.endswith("Proof.antt"):
            return name
        return snake(name)

    for path in files(".antt", ".rt", ".edit"):
        text = read(path)
        turned = {"antt": turn_antt, "rt": turn_rt, "edit": turn_edit}[path.rsplit(".", 1)[1]](text, change, path)
        if turned != text:
            with open(path, "w", encoding="utf-8") as f:
                f.write(turned)
    names = declared_names()

    def cite(name, field, path):
        to = LEMMAS.get(name) or snake(name)
        return to if to in names else name

    for folder in (".", "docs", "docs/changes"):
        for name in sorted(os.listdir(folder)):
            path = os.path.join(folder, name)
            if name.endswith(".md"):
                text = read(path)
                turned = re.sub(r"`[^`\n]*`", lambda m: turn(m.group(), cite, path), text)
                if turned != text:
                    with open(path, "w", encoding="utf-8") as f:
                        f.write(turned)
    for path in files(".edit"):
        text = read(path)
        turned = "\n".join(re.sub(r"`[^`]*`", lambda m: turn(m.group(), cite, path), l) if l.startswith("#") else l for l in text.split("\n"))
        if turned != text:
            with open(path, "w", encoding="utf-8") as f:
                f.write(turned)


if __name__ == "__main__":
    raise SystemExit(main(sys.argv[1:]))
