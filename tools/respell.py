#!/usr/bin/env python3
"""Brings the names of this repository's definitions and lemmas to one spelling: words in snake case, types and modules in camel case.

usage: python3 tools/respell.py        at the top, once, right after the kit's port.py
       python3 tools/respell.py --list  prints each name and what it becomes, and writes nothing

A name is turned where a file of specs/ or proofs/ declares it (a definition, a lemma, a field, a constructor, a local) with a dash or a
capital inside, as `sum-ext` and `placeCount`. A name that a library declares is left alone, and so is whatever Rust reads: functions,
types, exported names, strings. Constructors that begin with a capital (`Open`, `Arrived`) keep it, since their small forms are words of
antt or names of definitions (`open`, `arrived`). It stops, and writes nothing, where two names would fall together in one file.
"""

import pathlib
import re
import subprocess
import sys

# Names whose plain spelling would fall together with another, or would not read as words.
CHOSEN = {
    "overACloseAndOpen": "over_a_close_and_open",
    "known-policy": "known_policy_lem",  # the lemma on `knownPolicy`
    "addsUp": "totals_add_up",  # the test; `adds-up` is the clause of the same meaning
}

TOP = pathlib.Path(__file__).resolve().parent.parent
LETTER = r"[A-Za-zα-ωΑ-Ω0-9_'ℕℤ]"
TOKEN = re.compile(rf"{LETTER}(?:{LETTER}|-(?={LETTER}))*")
DECLARED = re.compile(rf"^\s*(?:(?:abbrev|unfoldable|pub|ruleset)\s+)*((?:[^\s:(){{}};,]+\s+)*?[^\s:(){{}};,]+)\s+:(?:\s|$)")
LOCAL = re.compile(rf"(?:\blet\s+|[(|]\s*|λ\s*\(?)({TOKEN.pattern})")
LIBRARY = re.compile(r"^use (?!Rattle\.(?:time|rules|table|board|notebook)\.)[^{]*\{([^}]*)\}", re.M)


def tracked():
    names = subprocess.run(["git", "ls-files", "-z"], cwd=TOP, stdout=subprocess.PIPE, check=True).stdout.decode().split("\0")
    return [TOP / n for n in names if n and (TOP / n).is_file()]


def needs_turning(name):
    return name[:1].islower() and bool(re.search(r"-|[a-z0-9][A-Z]", name))


def turned(name):
    if name in CHOSEN:
        return CHOSEN[name]
    name = re.sub(r"(?<=[a-z0-9])(?=[A-Z])", "_", name.replace("-", "_"))
    return name.lower()


def code_of(text):
    """The text of an .antt file without its comments."""
    return re.sub(r"(?m)(?:^|(?<=\s))--(?=\s).*$", "", text)


def own_names(files, sources):
    own, foreign = set(), set()
    for p in sources:
        for line in re.findall(r"^ghost use .*$", p.read_text(), re.M):
            own.update(re.findall(rf" as ({TOKEN.pattern})", line))
    for p in files:
        code = code_of(p.read_text())
        for m in LIBRARY.finditer(code):
            for part in m.group(1).split(","):
                foreign.add(part.split(" as ")[0].strip())
                if " as " in part:
                    own.add(part.split(" as ")[1].strip())
        for line in code.splitlines():
            m = DECLARED.match(line)
            if m:
                own.update(m.group(1).split())
            own.update(LOCAL.findall(line))
        for m in re.finditer(rf"[{{(,;]\s*((?:{TOKEN.pattern}\s+)+):\s", code):
            own.update(m.group(1).split())
    return {n for n in own if needs_turning(n)} - foreign


def spell(text, names):
    return TOKEN.sub(lambda m: names.get(m.group(0), m.group(0)), text)


def spell_antt(text, names):
    out = []
    for line in text.split("\n"):
        m = re.search(r"(?:^|(?<=\s))--(?=\s|$)", line)
        code, comment = (line[: m.start()], line[m.start() :]) if m else (line, "")
        out.append(spell(code, names) + spell_prose(comment, names))
    return "\n".join(out)


def spell_prose(text, names):
    """In prose a name with a dash may be a word of English, so only names in backquotes and names with a capital inside are turned."""
    text = re.sub(r"`[^`\n]*`", lambda m: spell(m.group(0), names), text)
    return spell(text, {n: t for n, t in names.items() if "-" not in n})


def spell_rt(text, names):
    """Rust's own text has no such names outside of strings and comments: only clauses, `ghost` lines and comments are turned."""
    out, in_clause = [], False
    for line in text.split("\n"):
        words = line.strip()
        if words.startswith("//"):
            out.append(spell_prose(line, names))
            continue
        if words.startswith(("ghost ", "requires", "ensures")):
            in_clause = True
        out.append(spell(line, names) if in_clause else line)
        if in_clause and (words.endswith((";", "}")) or words == ""):
            in_clause = False
    return "\n".join(out)


def spell_edit(text, names):
    to_antt = re.search(r"^file: .*\.antt", text, re.M)
    return "\n".join(spell(l, names) if to_antt and l.startswith(("old:", "new:")) else l for l in text.split("\n"))


def main():
    files = tracked()
    antt = [p for p in files if p.suffix == ".antt" and p.name != "Proof.antt"]
    walks = [p for p in files if p.name == "Proof.antt"]
    names = {n: turned(n) for n in own_names(antt, [p for p in files if p.suffix == ".rt"])}

    fallen = []
    for p in antt:
        code = code_of(p.read_text())
        there = set(TOKEN.findall(code))
        by_new = {}
        for n in there:
            by_new.setdefault(names.get(n, n), set()).add(n)
        fallen += [f"{p.relative_to(TOP)}: {' and '.join(sorted(olds))} would both be {new}" for new, olds in sorted(by_new.items()) if len(olds) > 1]
    if "--list" in sys.argv:
        for n in sorted(names):
            print(n, names[n])
        print("\n".join(fallen))
        return
    if fallen:
        sys.exit("respell: nothing is written, for names fall together:\n" + "\n".join(fallen))

    ways = {".rt": spell_rt, ".edit": spell_edit, ".md": spell_prose}
    changed = 0
    for p in files:
        way = spell_antt if p in antt or p in walks else ways.get(p.suffix)
        if way is None:
            continue
        old = p.read_text()
        new = way(old, names)
        if new != old:
            p.write_text(new)
            changed += 1
    print(f"respell: {len(names)} names, {changed} files")


if __name__ == "__main__":
    main()
