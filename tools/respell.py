#!/usr/bin/env python3
"""Brings the names of this repository's own definitions, lemmas, fields and constructors to one spelling: words in snake case.

usage: tools/respell.py [--dry]      at the top of the repository, once, after the language's own script

A name is turned where a file of specs/ or proofs/ declares it: camelCase and kebab-case become snake_case. Types keep their
capital, a dash before a symbol stays, and so does each name that the toolchain makes or a library has. A word is turned in .antt
files, in the clauses and `ghost use` lines of .rt files, and between backticks in comments and pages; strings and prose stay. A
lemma that would have a definition's name takes `_lem`; any other names that would fall together stop the script. Files of specs/
that are named as a module that the toolchain makes are moved.
"""
import collections
import glob
import os
import re
import sys

# Lemmas that are spelled as a definition now, in these crates alone: what each is called there.
SET_APART = {
    ("column", "place_in"): "place_in_lem",
    ("restoring", "place_in"): "place_in_lem",
    ("explaining", "read_step"): "read_step_lem",
    ("twice", "data_is"): "data_is_lem",
    ("reasons", "in_order"): "in_order_lem",
    ("explain", "in_order"): "in_order_lem",
    ("layout", "sum_kept"): "sum_kept_lem",
}

# Words that stand already where nothing is meant by them but a step of a proof or the label of a clause.
STEPS = {"block_made", "is_free", "may_owe", "other_at", "row_of", "rows_left", "run_sound", "wrong_row"}

# Words with a number after them.
SPELLED = {"skipOf45": "skip_of_45"}

TOKEN = re.compile(r"[^\s(){}\[\],;.«»`]+")
MADE = re.compile(r"^(invariant|decreases|ghost|loop|Need|if|then|else|returns|in)-")


def antt():
    for part in ("specs", "proofs"):
        for p in sorted(glob.glob(f"crates/*/{part}/**/*.antt", recursive=True)):
            yield p


def turned(name):
    if name in SPELLED:
        return SPELLED[name]
    if name[0].isupper():
        return name
    n = re.sub(r"-(?=[\w])", "_", name)
    n = re.sub(r"(?<=[a-z0-9])([A-Z])", lambda m: "_" + m.group(1).lower(), n)
    return n


def comment_at(line, mark):
    """Where a comment begins in a line, or its length."""
    if line.startswith(mark):
        return 0
    at = line.find(" " + mark)
    return len(line) if at < 0 else at


def declared():
    names = collections.defaultdict(set)
    head = re.compile(r"\s*(?:(?:pub|abbrev|unfoldable|record|data|axiom|package|ruleset|mutual)\s+)*((?:[^\s(){}\[\],;.:]+\s+)+):\s+(\S+)")
    for p in antt():
        for line in open(p, encoding="utf-8"):
            if line.lstrip().startswith(("--", "let ", "in ")):
                continue
            m = head.match(line)
            if m and not m.group(2).startswith("tie.Need"):
                for n in m.group(1).split():
                    names[n].add(p)
            for n in re.findall(r"^\s*(?:pub )?use .*? as ([\w-]+)", line) + re.findall(r"[{,]\s*[^\s,]+ as ([\w-]+)", line):
                names[n].add(p)
    return names


def foreign(own_crates):
    """Each name that a file imports from a library, not from this repository."""
    out = collections.defaultdict(set)
    for p in list(antt()) + sorted(glob.glob("crates/*/src/**/*.rt", recursive=True)):
        text = open(p, encoding="utf-8").read()
        for m in re.finditer(r"(?m)^\s*(?:pub )?(?:ghost )?use ([^\s{]+)\.\{([^}]*)\}", text):
            parts = m.group(1).split(".")
            if parts[0] == "Rattle" and parts[1] in own_crates:
                continue
            for n in m.group(2).split(","):
                out[n.strip().split(" as ")[0]].add(p)
    return out


def words(text):
    return TOKEN.findall(text)


def turn_code(line, table, mark):
    at = comment_at(line, mark)
    code, comment = line[:at], line[at:]
    code = TOKEN.sub(lambda m: table.get(m.group(0), m.group(0)), code)
    return code + turn_ticks(comment, table)


def turn_ticks(text, table):
    return re.sub(r"`[^`]*`", lambda m: TOKEN.sub(lambda t: table.get(t.group(0), t.group(0)), m.group(0)), text)


def main():
    dry = "--dry" in sys.argv
    own = {os.path.basename(d) for d in glob.glob("crates/*")}
    names, others = declared(), foreign(own)
    table = {}
    for n in names:
        if MADE.match(n) or n in others:
            if n in others and turned(n) != n:
                print("a library's too:", n, sorted(names[n])[:2], sorted(others[n])[:2])
            continue
        new = turned(n)
        if new != n:
            table[n] = new
    # what is in use already, as a word anywhere in antt or in clauses
    used = collections.defaultdict(set)
    for p in antt():
        for line in open(p, encoding="utf-8"):
            code = re.sub(r"^(\s*(?:pub )?use )[^\s{]+", r"\1", line[: comment_at(line, "--")])
            for w in words(code):
                used[w].add(p)
    for old, new in sorted(table.items()):
        if new in others:
            print("a library has it:", old, new, sorted(names[old])[:3], sorted(others[new])[:3])
    apart = {new for _, new in SET_APART}
    back = collections.defaultdict(set)
    for old, new in table.items():
        back[new].add(old)
    together = []
    for new, olds in sorted(back.items()):
        # a lemma that would have a definition's name takes `_lem`
        kebab = [o for o in olds if "-" in o]
        taken = new in names or any("-" not in o for o in olds)
        if len(olds) == 1 and new not in used:
            continue
        for o in kebab if taken else []:
            table[o] = new + "_lem"
            if used[new + "_lem"]:
                together.append((new + "_lem", [o]))
        rest = [o for o in olds if o not in kebab]
        if kebab and not taken and used[new] and "--list" in sys.argv:
            print("look:", new, kebab, sorted(used[new])[:6])
        if len(rest) > 1 or (len(kebab) > 1) or (rest and used[new] and new not in STEPS and new not in apart):
            together.append((new, olds))
    for new, olds in together:
        print("falls together:", new, sorted(olds), sorted(used[new])[:4], [sorted(names[o])[:2] for o in olds], sorted(names.get(new, []))[:3])
    print(len(table), "names turned;", len(together), "fall together")
    if dry or together:
        for old, new in sorted(table.items()):
            if "--list" in sys.argv:
                print(old, new)
        return 1 if together else 0
    for p in sorted(glob.glob("crates/*/**/*", recursive=True)) + sorted(glob.glob("docs/**/*.md", recursive=True)) + ["README.md"]:
        if not os.path.isfile(p) or "/out/" in p:
            continue
        crate = p.split("/")[1] if p.startswith("crates/") else None
        own = dict(table)
        own.update({old: new for (c, old), new in SET_APART.items() if c == crate})
        if p.endswith(".antt"):
            turn = lambda line: turn_code(line, own, "--")
        elif p.endswith(".rt"):
            turn = lambda line: turn_code(line, own, "//")
        elif p.endswith(".md"):
            known = set(table.values()) | set(names)
            page = {w: turned(w) for w in {t for line in open(p, encoding="utf-8") for s in re.findall(r"`[^`]*`", line) for t in words(s)} if turned(w) in known}
            page.update(own)
            turn = lambda line: turn_ticks(line, page)
        else:
            continue
        with open(p, encoding="utf-8") as f:
            lines = f.readlines()
        with open(p, "w", encoding="utf-8") as f:
            f.writelines(turn(line) for line in lines)
    move()
    return 0


def move():
    """A module `specs.contracts` is made by the toolchain, so no file of specs/ is called Contracts."""
    for c in ("c_blocks", "group", "storing"):
        os.rename(f"crates/{c}/specs/Contracts.antt", f"crates/{c}/specs/ForContracts.antt")
        lib = f"crates/{c}/specs/Lib.antt"
        put(lib, open(lib, encoding="utf-8").read().replace("pub mod Contracts\n", "pub mod ForContracts\n"))
    for p in list(antt()) + glob.glob("crates/*/src/**/*.rt", recursive=True) + glob.glob("docs/**/*.md", recursive=True):
        text = open(p, encoding="utf-8").read()
        put(p, re.sub(r"(c_blocks|group|storing)(\.specs\.|/specs/)Contracts\b", r"\1\2ForContracts", text))


def put(path, text):
    with open(path, "w", encoding="utf-8") as f:
        f.write(text)


if __name__ == "__main__":
    raise SystemExit(main())
