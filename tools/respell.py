#!/usr/bin/env python3
"""Brings the repository's own definitions and lemmas to the spelling of today's Rattle: words in snake case, types in camel case,
and a dash only between two names (as in `length-drop`), a plain word after `_`; a lemma that would have
a function's name gets `_lem`. Run once, at the top, after the toolchain's port.py.
Names of functions of src/, of types, of strings, inputs and outputs stay. It prints the names that it turned, and stops where two fall together.

usage: python3 tools/respell.py [--map FILE]     turns the files; --map writes the names, old and new, as JSON
"""
import glob
import json
import os
import re
import sys

TOKEN = re.compile(r"[^\s(){}\[\],.;«»|\"`]+")
# in code a sign may touch a word
CODE = re.compile(r"[^\s(){}\[\],.;«»|\"`*&:!=<>?]+")
HEAD = re.compile(r"^(?:(?:pub|abbrev|unfoldable)\s+)*(?:(data|record)\s+)?([^\s:(){}|]+)\s.*?:")
FIELD = re.compile(r"^\s+(?:pub\s+)?([a-z][^\s:(){}|]*)\s+:\s")
# words of a lemma's name that stand for what its statement writes as a sign or a constructor
SIGNS = {
    "append": {"++"}, "cons": {"∷"}, "nil": {"[]"}, "zero": {"0"}, "one": {"1"}, "suc": {"suc"}, "add": {"+"}, "sub": {"-"},
    "mul": {"*"}, "le": {"≤"}, "lt": {"<"}, "none": {"None"}, "some": {"Some"}, "true": {"true"}, "false": {"false"},
}
# functions that were spelled as types
LOWERED = {"KeptRows": "kept_rows", "OtherRows": "other_rows"}
CAMEL = re.compile(r"(?<=[a-z0-9])[A-Z]")


def files(kind):
    return sorted(p for p in glob.glob("crates/**/*." + kind, recursive=True) if "/out/" not in p)


def snake(word):
    return CAMEL.sub(lambda m: "_" + m.group(0).lower(), word) if word[:1].islower() else word


def definitions(path):
    """The names that a file defines, at its top or in a `module _ .. where`, with their statements, and the fields of its records with none."""
    lines = open(path, encoding="utf-8").read().split("\n")
    block = ""
    for i, line in enumerate(lines):
        if line.startswith(("--", "use ", "pub use ", "mod ", "pub mod ")):
            continue
        if line.strip() and not line.startswith(" "):
            block = line
        indent = "  " if block.startswith("module ") else ""
        m = HEAD.match(line[len(indent):]) if line.startswith(indent) else None
        if not m or " = " in line.split(":")[0]:
            m = FIELD.match(line)
            if m and re.match(r"(pub |abbrev )*(record|data) ", block):
                yield m.group(1), ""
            continue
        said = line
        for more in lines[i + 1:]:
            if not more.startswith(indent + " "):
                break
            said += " " + more.strip()
        # what answers a goal has the goal's name, which is Rattle's
        if "tie." in said or "statement M" in said:
            continue
        yield m.group(2), said.split(":", 1)[1]


def turned(name, said):
    if name in LOWERED:
        return LOWERED[name]
    words = set(TOKEN.findall(said))
    parts = name.split("-")
    new = snake(parts[0])
    for left, right in zip(parts, parts[1:]):
        named = all(p in words or words & SIGNS.get(p, set()) for p in (left, right))
        new += ("-" if named else "_") + snake(right)
    return new


def main():
    named, where, fields = {}, {}, set()
    for path in files("antt"):
        for name, said in definitions(path):
            if not said:
                fields.add(name)
            else:
                where.setdefault(name, set()).add(path)
            new = turned(name, said)
            # one name in two files: a dash stays where one of them keeps it
            if name in named and named[name] != new:
                new = max(named[name], new, key=lambda n: n.count("-"))
            named[name] = new
    together = {}
    for old in where:
        together.setdefault(named[old], []).append(old)
    # a lemma that would have its function's name
    for new, olds in sorted(together.items()):
        olds.sort(key=lambda o: (not any("/specs/" in p for p in where[o]), not CAMEL.search(o), o))
        for old in olds[1:]:
            named[old] = new + "_lem"
            print("a lemma:", old, named[old])
    names = {old: new for old, new in named.items() if old != new}
    bad = 0
    turned_to = {}
    for old in where:
        turned_to.setdefault(named[old], []).append(old)
    for new, olds in sorted(turned_to.items()):
        if len(olds) > 1:
            print("fall together:", new, olds)
            bad += 1
    for path in files("antt"):
        words = set(TOKEN.findall(open(path, encoding="utf-8").read()))
        for old in sorted(words & names.keys()):
            if names[old] in words and names[old] not in names:
                print("look:", path, old, names[old])
    if "--map" in sys.argv:
        json.dump(names, open(sys.argv[sys.argv.index("--map") + 1], "w"), indent=0, ensure_ascii=False, sort_keys=True)
    if bad and "--force" not in sys.argv:
        print(bad, "to be looked at; nothing was written")
        return 1
    one = re.compile(r"`[^`\n]*`")
    crates = set(os.listdir("crates"))
    for path in files("antt") + files("rt"):
        text = open(path, encoding="utf-8").read()
        # a library's name that one of ours shares
        theirs = set()
        for source, given in re.findall(r"use\s+([\w.+'◌-]+)\.\{([^}]*)\}", text):
            if source.split(".")[0] != "Rattle" or source.split(".")[1] not in crates:
                theirs.update(TOKEN.findall(given))
        swap = lambda t: t.group(0) if t.group(0) in theirs else names.get(t.group(0), t.group(0))
        out = []
        for line in text.split("\n"):
            code, mark, note = line, "", ""
            m = re.search(r"(?:^|\s)(--|//)(?:\s|$)", line)
            if m:
                code, note = line[:m.start(1)], line[m.start(1):]
            pieces = re.split(r'("(?:[^"\\]|\\.)*")', code)
            word = CODE if path.endswith(".rt") else TOKEN
            code = "".join(p if p.startswith('"') else word.sub(swap, p) for p in pieces)
            note = one.sub(lambda q: TOKEN.sub(swap, q.group(0)), note)
            note = TOKEN.sub(lambda t: names[t.group(0)] if t.group(0) in names and CAMEL.search(t.group(0)) else t.group(0), note)
            out.append(code + note)
        with open(path, "w", encoding="utf-8") as f:
            f.write("\n".join(out))
    # the library's choice by a test stands for our own, which was the same
    for path in files("antt") + files("rt"):
        text = open(path, encoding="utf-8").read()
        with open(path, "w", encoding="utf-8") as f:
            f.write(text.replace("Rattle.spec.specs.Choice.{", "Rattle.std.specs.Prelude.{").replace("pub mod Choice\n", ""))
    if os.path.exists("crates/spec/specs/Choice.antt"):
        os.remove("crates/spec/specs/Choice.antt")
    print(len(names), "names turned")
    return 0


raise SystemExit(main())
