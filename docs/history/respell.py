#!/usr/bin/env python3
"""Spells the repository's own definitions and lemmas as the library spells its own.

Types, records and statements are in upper camel case, everything else in snake case; a dash stays only where a lemma's
name joins a definition of ours to an operation on lists. Run it once at the top, after the toolchain's port.py. It reads
the declarations in specs/ and proofs/ of every crate, and rewrites their names wherever they stand in .antt files, in
clauses of .rt files and in the code of the pages of docs/. Clauses then name a bound's members as today: `P.state`, where
the older ones wrote the trait's name too, or in a function outside an impl nothing at all. It stops, with nothing
written, where two names would fall together.
"""
import collections
import pathlib
import re
import subprocess
import sys

NAME = r"[^\s(){}\[\],;:.«»`\"]+"
# what a lemma's name may join to a definition of ours by a dash
OPERATIONS = {"append", "length", "drop", "take"}
# fields that would fall together with a definition
FIELDS = {"last-reading": "from_last_reading", "ways-named": "ways_are_named", "ways-taken": "ways_are_taken"}

# parameters, and names given at an import
OTHERS = ("lowState", "lowDoes", "highState", "highDoes", "droppedDir", "queueWith")


def tracked(*patterns):
    out = subprocess.run(["git", "ls-files", "-z", "--", *patterns], capture_output=True, check=True).stdout
    return [pathlib.Path(p.decode()) for p in out.split(b"\0") if p and pathlib.Path(p.decode()).is_file()]


def declarations(text):
    """The names that a file declares, each with its kind: type, word (an abbrev), lemma, field or constructor."""
    lines = text.split("\n")
    inside, i = None, 0
    while i < len(lines):
        line = lines[i]
        i += 1
        m = re.match(rf"^(?:pub )?(record|data) ({NAME})", line)
        if m:
            inside = m.group(1)
            yield m.group(2), "type"
            continue
        m = re.match(rf"^((?:abbrev |unfoldable |pub )*)({NAME}) :(.*)$", line)
        if m and not line.startswith("use "):
            sig = m.group(3)
            while i < len(lines) and lines[i].startswith("    "):
                sig += " " + lines[i].strip()
                i += 1
            inside = None
            if re.match(r"\s*\w+\.[\w<-]", sig) and not re.search(r"[→ ]", sig.strip()):
                continue  # a goal, which the toolchain names
            if re.search(r"(→ |^\s*)Type 0\s*$", sig):
                yield m.group(2), "type"
            else:
                yield m.group(2), "word" if m.group(1).strip() not in ("", "pub") else "lemma"
            continue
        m = re.match(rf"^  (?:pub )?({NAME}(?: {NAME})*) :", line)
        if m and inside:
            for name in m.group(1).split():
                yield name, "field" if inside == "record" else "constructor"
            continue
        m = re.match(rf"^( +)(?:pub )?({NAME}) :", line)
        if m and any(l.startswith(m.group(1) + m.group(2) + " ") for l in lines[i:]):
            yield m.group(2), "lemma"  # in a section, or below its user's `where`
        elif line and not line.startswith((" ", "--")):
            inside = None


def snake(name):
    name = re.sub(r"(?<=[a-z0-9])([A-Z])", lambda m: "_" + m.group(1).lower(), name)
    return name.replace("-", "_")


def camel(name):
    return "".join(part[:1].upper() + part[1:] for part in re.split(r"[-_]", name))


def spelled(name, kinds, words):
    if "type" in kinds:
        return camel(name)
    first, _, last = name.rpartition("-")
    if kinds == {"lemma"} and last in OPERATIONS and snake(first) in words:
        return snake(first) + "-" + last
    return snake(name)


def members(text):
    """A .rt file with the members of Port named by the parameter that is bound."""
    text = re.sub(r"\b([A-Z])\.Port\.(state|sound|does)\b", r"\1.\2", text)
    function = re.compile(r"^(?:pub )?fn \w+<P: Port>\(.*?^\{$", re.M | re.S)
    bare = re.compile(r"(?<![.\w])(state|sound|does)\b(?! \{)")
    clause = re.compile(r"^( +(?:requires|ensures) )(.*)$", re.M)
    return function.sub(lambda f: clause.sub(lambda c: c[1] + bare.sub(r"P.\1", c[2]), f[0]), text)


def main():
    top = subprocess.run(["git", "rev-parse", "--show-toplevel"], capture_output=True, text=True, check=True).stdout.strip()
    if pathlib.Path.cwd() != pathlib.Path(top).resolve():
        sys.exit("respell: run it at the top of the repository")
    formal = tracked("crates/*/specs/*.antt", "crates/*/proofs/*.antt")
    kinds = collections.defaultdict(set)
    for p in formal:
        for name, kind in declarations(p.read_text()):
            kinds[name].add(kind)
    words = {snake(n) for n, k in kinds.items() if "word" in k}
    table = {n: spelled(n, k, words) for n, k in kinds.items()}
    table.update({n: s for n, s in FIELDS.items() if kinds.get(n) == {"field"}})
    # a lemma that would have its definition's name
    table.update({n: s + "_lem" for n, s in table.items() if kinds[n] == {"lemma"} and s in words})
    table = {n: s for n, s in table.items() if n != s}
    table.update({n: snake(n) for n in OTHERS})
    clash = sorted(f"{n} and {table[n]}" for n in table if table[n] in kinds and table[n] not in table)
    seen = collections.defaultdict(list)
    for n, s in table.items():
        seen[s].append(n)
    clash += sorted(" and ".join(ns) for ns in seen.values() if len(ns) > 1)
    if clash:
        sys.exit("respell: these would fall together: " + "; ".join(clash))
    token = re.compile(r"[^\s(){}\[\],;:.«»`\"]+")
    turn = lambda text: token.sub(lambda m: table.get(m.group(0), m.group(0)), text)
    count = 0
    for p in formal + tracked("crates/*/src/*.rt", "crates/*/src/**/*.rt"):
        text = p.read_text()
        new = members(turn(text)) if p.suffix == ".rt" else turn(text)
        if new != text:
            p.write_text(new)
            count += 1
    for p in tracked("docs/*.md", "README.md"):
        text = p.read_text()
        new = re.sub(r"(?<!`)`[^`\n]+`(?!`)|\*\*[^*\n]+\*\*", lambda m: turn(m.group(0)), text)
        if new != text:
            p.write_text(new)
            count += 1
    print(f"respell: {len(table)} names in {count} files")


if __name__ == "__main__":
    main()
