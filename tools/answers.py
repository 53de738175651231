#!/usr/bin/env python3
"""Turns proofs that name each goal of the older kit (Proof.antt over a Tie) into Invariants.antt and Answers.antt.

usage: python3 tools/answers.py CRATE [FUNCTION..]      in the repository's top folder

The names of goals and steps come from `rt check --generated DIR --old-names`, which it runs with the proofs put aside.
What cannot be turned is printed. Goals whose answer was the search are left to the check.
"""
import json
import os
import re
import shutil
import subprocess
import sys
import tempfile

NAME = r"[A-Za-z_][\w'′₀-₉]*(?:-[\w'′₀-₉]+)*"


def norm(s):
    s = s.replace("-", "_").replace("_lem", "")
    return s[:1].lower() + s[1:] if s[:5] == "Line_" else s


def names_of(crate):
    where = os.path.join("crates", crate)
    out = tempfile.mkdtemp()
    aside = os.path.join(out, "proofs")
    proofs = os.path.join(where, "proofs")
    keep = [f for f in os.listdir(proofs) if f.endswith(".antt")]
    shutil.copytree(proofs, aside)
    for folder, dirs, files in os.walk(proofs):
        for f in files:
            if f == "Proof.antt":
                os.rename(os.path.join(folder, f), os.path.join(folder, f + ".aside"))
    try:
        r = subprocess.run(["rt", "check", "--generated", out + "/names", "--old-names"], cwd=where, capture_output=True, text=True)
    finally:
        for folder, dirs, files in os.walk(proofs):
            for f in files:
                if f.endswith(".aside"):
                    os.rename(os.path.join(folder, f), os.path.join(folder, f[:-6]))
    path = out + "/names/names.json"
    if not os.path.exists(path):
        print(r.stdout[-3000:], r.stderr[-2000:])
        raise SystemExit("no names")
    return json.load(open(path))


def atom(s, i):
    """The end of the argument that begins at or after i, and its text; None where there is none."""
    while i < len(s) and s[i] in " \n":
        i += 1
    if i >= len(s):
        return None
    if s[i] in "([{":
        d, j = 0, i
        while j < len(s):
            d += s[j] in "([{"
            d -= s[j] in ")]}"
            j += 1
            if d == 0:
                break
        while j < len(s) and s[j] == "." and re.match(r"\.[\w'-]", s[j:j + 2]):
            m = re.match(r"\.[\w'₀-₉-]+", s[j:])
            j += m.end()
        return j, s[i:j]
    m = re.match(r"[\w◌][\w'′₀-₉.-]*", s[i:])
    if not m or m.group() in ("in", "of", "where", "let"):
        return None
    return i + m.end(), m.group()


def inline(s, name, params, body):
    """Each call of the helper `name` in s, written out."""
    at = 0
    while True:
        m = re.compile(rf"(?<![\w.'-]){re.escape(name)}(?![\w'-])").search(s, at)
        if not m:
            return s
        i, args = m.end(), []
        while len(args) < len(params):
            a = atom(s, i)
            if a is None:
                break
            i = a[0]
            if a[1].startswith("{"):
                continue
            args.append(a[1])
        text = body
        rest = params[len(args):]
        to = {}
        for q, a in zip(params, args):
            to[q] = a
        text = re.sub(r"(?<![\w.'-])[A-Za-z_][\w'₀-₉]*(?![\w'-])", lambda k: to.get(k.group(), k.group()), text)
        text = re.sub(r"\((\w+)\)\.", r"\1.", text)
        if rest:
            text = "λ " + " ".join(rest) + ". " + text
        text = "(" + " ".join(text.split()) + ")"
        s = s[:m.start()] + text + s[i:]
        at = m.start() + len(text)


class Item:
    def __init__(self):
        self.notes, self.sign, self.unfold, self.body = [], [], [], []


def items(text):
    """Top-level items: comment lines, signature lines, unfolding lines, clauses."""
    uses, out, cur, notes = [], [], None, []
    for line in text.split("\n"):
        if line.startswith("use ") or (uses and not out and cur is None and line.startswith(" ")):
            uses.append(line)
            continue
        if line.startswith("--"):
            notes.append(line)
            cur = None
            continue
        m = re.match(rf"((?:pub |abbrev |unfoldable )*)({NAME}) :(?= |$)", line)
        if m:
            cur = Item()
            cur.notes, notes = notes, []
            cur.prefix, cur.name = m.group(1), m.group(2)
            cur.sign = [line]
            out.append(cur)
            cur.state = "sign"
            continue
        if cur is None:
            if line.strip():
                print("  stray:", line)
            continue
        if line.startswith("unfolding "):
            cur.unfold.append(line)
            cur.state = "body"
            continue
        if re.match(rf"{re.escape(cur.name)}\b", line):
            cur.state = "body"
        (cur.sign if cur.state == "sign" else cur.body).append(line)
    return uses, out


class Turn:
    def __init__(self, entry, path):
        self.entry, self.path = entry, path
        self.needs = {}
        for old, new in entry["needs"]:
            self.needs.setdefault(norm(old), new)
            self.needs.setdefault(norm(new), new)
        self.steps, self.fields, self.places = {}, {}, {}
        byname = entry["places_by_name"]
        for (old, parent, step, callee, facts), new in zip(entry["places"], byname):
            self.places[norm(old)] = new
            if step and step[0]:
                self.steps.setdefault(norm(step[0]), [])
                if step[1] not in self.steps[norm(step[0])]:
                    self.steps[norm(step[0])].append(step[1])
            if facts:
                self.fields.setdefault(step[1], {}).update(map(tuple, facts))
        self.loops = {norm(pair[0]): (pair[1], vs, ch) for (pair, vs), ch in zip(entry["loops"], entry["changed"])}
        self.goals, self.helpers, self.gives, self.trouble = {}, {}, {}, []
        self.callees = {norm(step[0]): callee for old, up, step, callee, facts in entry["places"] if step and step[0] and callee}
        self.params = entry["params"]
        self.arms = {}
        for arm in entry["arms"]:
            if arm:
                for field, old, way in arm[2]:
                    here = self.arms.setdefault((norm(old), tuple(way)), [])
                    if (arm[0], field) not in here:
                        here.append((arm[0], field))
        self.parent = {}
        for (old, up, step, callee, facts), new in zip(entry["places"], byname):
            self.parent[new] = self.places.get(norm(up)) if up else None

    def hops(self, low, high):
        n, at = 0, low
        while at != high:
            at = self.parent.get(at)
            n += 1
            if at is None:
                self.trouble.append(f"{high} is not above {low}")
                return 0
        return n

    def steps_in(self, text, me="c"):
        """Drops `.before`, and gives steps and their fields today's names."""
        contexts, called = {me, "c"}, {}
        for name, root, way in re.findall(rf"let (\w+) = (\w+)((?:\.(?:{NAME}|\d+))*) in", text):
            parts = [q for q in way[1:].split(".") if q and q != "before"]
            if root in contexts and not parts:
                contexts.add(name)
            elif root in contexts and len(parts) == 1 and norm(parts[0]) in self.callees:
                called[name] = self.callees[norm(parts[0])]
            elif name in contexts:
                contexts.discard(name)

        def news(callee, parts, i):
            """`.new.1.0`, by places, as `.new.NAME`."""
            params = self.params.get(callee)
            if params and len(parts) > i + 1 and parts[i] == "new" and parts[i + 1].isdigit():
                n, j = 0, i + 1
                while j < len(parts) and parts[j] == "1" and n < len(params) - 1:
                    n, j = n + 1, j + 1
                if n < len(params) - 1 and j < len(parts) and parts[j] == "0":
                    j += 1
                elif n < len(params) - 1:
                    return parts
                return parts[:i + 1] + [params[n]] + parts[j:]
            return parts

        def chain(m):
            parts = [q for q in m.group(2)[1:].split(".") if q != "before"]
            if m.group(1) in called:
                return ".".join([m.group(1), *news(called[m.group(1)], parts, 0)])
            if m.group(1) not in contexts:
                return ".".join([m.group(1), *m.group(2)[1:].split(".")])
            if not parts:
                return m.group(1)
            old = norm(parts[0])
            for n in range(len(parts) - 1, 0, -1):
                found = self.arms.get((old, tuple(parts[1:n + 1])))
                if found:
                    if len(found) > 1:
                        self.trouble.append(f"arm {m.group()} is one of {found}")
                    return ".".join([m.group(1), *found[0], *parts[n + 1:]])
            if old in self.steps:
                new = self.steps[old]
                if len(new) > 1:
                    self.trouble.append(f"step {parts[0]} is one of {new}")
                parts = news(self.callees.get(old), parts, 1)
                parts[0] = new[0]
                if len(parts) > 1:
                    parts[1] = self.fields.get(new[0], {}).get(parts[1], parts[1])
            return ".".join([m.group(1), *parts])

        return re.sub(rf"(?<![\w.'-])([A-Za-z_][\w'₀-₉]*)((?:\.(?:{NAME}|\d+))+)", chain, text)

    def helpers_in(self, text, goal, place=None, me="c"):
        """Gives each helper the context that it is of: in an answer by the goal, in a helper by steps up."""
        alias = {me} | set(re.findall(rf"let (\w+) = {me}(?:\.before)* in", text))
        for h, to in sorted(self.helpers.items(), key=lambda p: -len(p[0])):
            def one(m):
                if goal is not None:
                    return f"{h} (goal.at.{goal} c).{to}"
                n = self.hops(place, to)
                if n:
                    self.trouble.append(f"helper {h} in a helper, {n} steps up")
                up = me + ".BEFORE" * n
                return f"{h} {up}"
            names = "|".join(map(re.escape, sorted(alias, key=len, reverse=True)))
            for _ in range(4):
                new = re.sub(rf"(?<![\w.'-]){re.escape(h)} (?:(?:{names})(?:\.before)*(?![\w'.-])|\((?:{names})(?:\.before)*\))", one, text)
                if new == text:
                    break
                text = new
        return text


def turn(entry, path, fn_path):
    text = open(path).read()
    uses, its = items(text)
    t = Turn(entry, path)
    spec = None
    for it in its:
        sign = " ".join(l.strip() for l in it.sign)
        m = re.search(rf": tie\.Need-({NAME})", sign)
        it.kind = "own"
        if m:
            it.kind = "goal"
            key = norm(m.group(1))
            if key not in t.needs:
                it.kind = "lost"
                if "= search rules" not in "".join(it.body):
                    t.trouble.append(f"no goal {m.group(1)}")
            else:
                it.goal = t.needs[key]
        elif re.search(rf": tie\.(invariant|decreases)[-_]", sign):
            it.kind = "given"
        elif "tie.close" in "".join(it.body):
            it.kind = "spec"
        elif "tie." in sign or "tie." in "".join(it.body):
            m = re.match(rf".*?\((\w+) : tie\.({NAME})[^)]*\)", sign) or re.match(rf"(?:abbrev )?{NAME} : ()tie\.({NAME})", sign)
            it.kind = "helper"
            if m and norm(m.group(2)) in t.places:
                t.helpers[it.name] = it.place = t.places[norm(m.group(2))]
                m3 = re.match(rf"{re.escape(it.name)} (\w+)", "\n".join(it.body).strip())
                it.me = m3.group(1) if m3 else "c"
                m4 = re.search(rf"→ tie\.({NAME})[^→]*$", sign)
                if m4:
                    t.gives[it.name] = t.places.get(norm(m4.group(1)))
            else:
                t.trouble.append("helper " + it.name)
    given, answers, imports = [], [], set()
    for h in t.gives:
        t.helpers.pop(h, None)
    its = [it for it in its if it.name not in t.gives]

    def erase(s):
        for _ in range(6):
            for h in t.gives:
                s = re.sub(rf"(?<![\w.'-])\({re.escape(h)} (\w+)(?:\.before)*\)", r"\1", s)
                s = re.sub(rf"(?<![\w.'-])\({re.escape(h)} \((\w+)(?:\.before)*\)\)", r"\1", s)
                s = re.sub(rf"(?<![\w.'-]){re.escape(h)} (\w+)(?:\.before)*(?![\w'-])", r"\1", s)
                s = re.sub(rf"(?<![\w.'-]){re.escape(h)} \((\w+)(?:\.before)*\)", r"\1", s)
        return s

    for it in its:
        it.sign = erase("\n".join(it.sign)).split("\n")
        body = erase("\n".join(it.body).rstrip())
        it.body = body.split("\n")

    def clause(it):
        m = re.match(rf"{re.escape(it.name)}((?: \w[\w'₀-₉]*)*) =(.*)$", "\n".join(it.body).strip(), re.S)
        if not m or re.search(rf"^{re.escape(it.name)}\b", m.group(2), re.M) or re.search(r"\bwhere\b", m.group(2)):
            return None
        return m.group(1).split(), m.group(2).strip()

    def calls(it, h):
        return re.search(rf"(?<![\w.'-]){re.escape(h)}(?![\w'-])", "\n".join(it.sign + it.body))

    hs = [it for it in its if it.kind == "helper" and it.name in t.helpers]
    for _ in range(8):
        changed = False
        for h in [h for h in hs if h.kind != "gone"]:
            used_low = any(o is not h and calls(o, h.name) and getattr(o, "place", None) != h.place for o in hs)
            if not ("abbrev" in h.prefix or used_low):
                continue
            c = clause(h)
            if c is None:
                continue
            everywhere = "abbrev" in h.prefix
            said = re.match(rf".*?\((\w+) : tie\.[^)]*\)\s*→\s*(.*)$", "\n".join(h.sign), re.S)
            if not everywhere and len(c[0]) == 1 and said and ("omega" in c[1] or "search" in c[1] or "(cc)" in c[1]):
                goal_type = re.sub(rf"(?<![\w.'-]){said.group(1)}(?![\w'-])", c[0][0], said.group(2))
                c = (c[0], f"let it : ({goal_type}) = {c[1]} in it")
            for o in its:
                if o is h or not (everywhere or o in hs):
                    continue
                o.sign = [o.sign[0].split(" : ", 1)[0] + " : " + inline("\n".join(o.sign).split(" : ", 1)[1], h.name, *c)] if calls(o, h.name) else o.sign
                before = "\n".join(o.body)
                after = inline(before, h.name, *c)
                if after != before:
                    changed = True
                    o.body = after.split("\n")
                    for u in h.unfold:
                        if not everywhere and u not in o.unfold:
                            o.unfold.append(u)
            if everywhere:
                h.kind = "gone"
                t.helpers.pop(h.name)
        if not changed:
            break
    for it in its:
        body = "\n".join(it.body).rstrip()
        if it.kind == "given":
            m = re.search(rf": tie\.(invariant|decreases)[-_]({NAME})", it.sign[0])
            loop = norm(m.group(2))
            if loop not in t.loops:
                t.trouble.append(f"no loop {loop}")
                continue
            new, vs, ch = t.loops[loop]
            m2 = re.match(rf"{re.escape(it.name)}((?: [^\s=]+)*)\s*=(.*)", body, re.S)
            args = m2.group(1).split()
            rest = m2.group(2)
            want = len(vs) + sum(ch)
            if len(args) != want:
                t.trouble.append(f"{it.name} takes {len(args)}, not {want}")
                continue
            to = {}
            for a, v, c in zip(args, vs, ch):
                to[a] = ("l.initial." if c else "l.") + v
            for a, v in zip(args[len(vs):], [v for v, c in zip(vs, ch) if c]):
                to[a] = "l." + v
            rest = re.sub(rf"(?<![\w.'-]){NAME}(?![\w'])", lambda m: to.get(m.group(), m.group()), rest)
            n = f"{m.group(1)}-{new}"
            given += it.notes + [f"abbrev pub {n} : goal.{n}", f"{n} l ={rest}", ""]
        elif it.kind == "goal":
            if re.fullmatch(rf"{re.escape(it.name)} c(?: κs)? = search rules", body.strip()):
                continue
            b = t.steps_in(t.helpers_in(body, it.goal))
            b = re.sub(rf"^{re.escape(it.name)}(?= )", it.goal, b, flags=re.M)
            b = re.sub(rf"^({re.escape(it.goal)} c) κs =", r"\1 =", b)
            answers += it.notes + [f"pub {it.goal} : goal.{it.goal}"] + it.unfold + [b, ""]
        elif it.kind == "helper":
            sign = "\n".join(it.sign)

            def place(m):
                p = t.places.get(norm(m.group(1)))
                if p is None:
                    t.trouble.append("place " + m.group(1))
                    return m.group()
                imports.add(p)
                return p
            sign = re.sub(rf"tie\.({NAME})(?: invariant_\w+ decreases_\w+)*", place, sign)
            me = getattr(it, "me", "c")
            sign_me = re.match(r".*?\((\w+) : ", sign)
            if getattr(it, "place", None):
                body = t.helpers_in(body, None, it.place, me)
                if sign_me:
                    sign = t.helpers_in(sign, None, it.place, sign_me.group(1))
            out = [t.steps_in(sign, sign_me.group(1) if sign_me else "c")] + it.unfold + [t.steps_in(body, me), ""]
            answers += it.notes + [o.replace(".BEFORE", ".before") for o in out]
        elif it.kind == "gone":
            continue
        elif it.kind == "own":
            answers += it.notes + it.sign + it.unfold + [body, ""]
        elif it.kind == "lost" and "= search rules" not in body:
            answers += [f"-- LOST {it.name}"] + ["-- " + l for l in it.body]
    def tidy(s):
        """Drops doubled parentheses."""
        i = 0
        while True:
            i = s.find("((", i)
            if i < 0:
                return s
            a = atom(s, i)
            b = atom(s, i + 1)
            if a and b and a[1].endswith("))") and s[b[0]:b[0] + 1] == ")" and b[0] + 1 == i + len(a[1]):
                s = s[:i] + b[1] + s[b[0] + 1:]
            else:
                i += 1

    def own_name(s):
        """A second name of the context is written as the first."""
        while True:
            m = re.search(r"let (\w+) = (\w) in\s*", s)
            if not m or m.group(2) not in ("c", "l", "s") or m.group(1) == m.group(2):
                return s
            s = s[:m.start()] + re.sub(rf"(?<![\w.'-]){m.group(1)}(?![\w'-])", m.group(2), s[m.end():])

    given, answers = [tidy(x) for x in given], [own_name(tidy(x)) for x in answers]
    base = fn_path
    keep = []
    for u in "\n".join(uses).split("\nuse "):
        u = u if u.startswith("use ") else "use " + u
        if re.search(r"\.(Statement|Tie)\b", u):
            continue
        keep.append(u)
    folder = os.path.dirname(path)
    if given:
        text = "\n".join(keep + [f"use {base}.Given as goal", ""] + given)
        open(os.path.join(folder, "Invariants.antt"), "w").write(text.rstrip() + "\n")
    if answers:
        imp = [f"use {base}.Goals as goal"] + ([f"use {base}.Goals.{{{', '.join(sorted(imports))}}}"] if imports else [])
        text = "\n".join(keep + imp + [""] + answers)
        open(os.path.join(folder, "Answers.antt"), "w").write(text.rstrip() + "\n")
    os.remove(path)
    return t.trouble


def main(argv):
    crate = argv[0]
    names = names_of(crate)
    for key, entry in sorted(names.items()):
        m = re.match(rf"Rattle-{crate}-proofs\.(.*)\.Lts$", key)
        if not m:
            continue
        fn = m.group(1)
        path = os.path.join("crates", crate, "proofs", *fn.split("."), "Proof.antt")
        if not os.path.exists(path) or (argv[1:] and fn not in argv[1:]):
            continue
        if "tie.close" not in open(path).read():
            print(f"{fn}: by hand")
            continue
        for line in turn(entry, path, f"Rattle.{crate}.proofs.{fn}"):
            print(f"{fn}: {line}")


if __name__ == "__main__":
    raise SystemExit(main(sys.argv[1:]))
