#!/usr/bin/env python3
"""Brings the repository's own names in specs/, proofs/ and clauses to one spelling, and gives the crate hex a name of its own.

usage: python3 tools/respell.py [--names]     at the top, once, right after the kit's port.py

A word is in snake case, a type or a fact in upper camel case: page-at -> page_at, Commit-atomic -> CommitAtomic, is-push -> IsPush.
Names of the library, names that Rattle makes of the source (goals, steps, fields of c) and names of the source stay, and so do strings and
comments. The kit has a library named hex, so the crate of that name becomes hexadecimal. --names prints the table and changes nothing.
"""

import collections
import glob
import os
import re
import sys

WORD = r"[^\s(){}.;,@\"«»\[\]\\]+"
TOKEN = re.compile(r"--[^\n]*|\"(?:[^\"\\]|\\.)*\"|«[^»]*»|" + WORD)
SIGNATURE = re.compile(r"^\s*(?:(?:abbrev|unfoldable)\s+)?(?:pub\s+)?(?:(?P<kind>record|data|module)\s+)?(?P<name>%s)\s*(?P<rest>(?:[({].*)?:(?:\s.*)?)$" % WORD)
USE = re.compile(r"^\s*(?:ghost )?use ([^\s{]+)\.\{(.*)\}")
OWN = re.compile(r"Rattle\.(?:%s)\." % "|".join(re.findall(r"^(\w+)(?: \w+)*:", open(os.path.join(os.path.dirname(os.path.realpath(__file__)), "..", "crates.txt"), encoding="utf-8").read(), re.M)))
MADE = re.compile(r"\.(?:Goals|Given|declared|contracts)\b")
HYPHENS = re.compile(r"\w['₀-₉]*-\w")
RENAMED_CRATES = {"hex": "hexadecimal"}
# what the library's functions are called today, in the names of lemmas about them
RENAMED_WORDS = {"getD": "get_or", "putMid": "put_mid"}


def read(path):
    with open(path, encoding="utf-8") as it:
        return it.read()


def write(path, text):
    with open(path, "w", encoding="utf-8") as it:
        it.write(text)


def signatures(text):
    """(kind, name, indented, its type on one line) of each signature."""
    lines = [re.sub(r"--.*", "", l) for l in text.split("\n")]
    for i, line in enumerate(lines):
        m = SIGNATURE.match(line)
        if not m:
            continue
        indent = len(line) - len(line.lstrip())
        type_, j = m["rest"], i + 1
        while j < len(lines) and lines[j].strip() and len(lines[j]) - len(lines[j].lstrip()) > indent and not SIGNATURE.match(lines[j]):
            type_ += " " + lines[j].strip()
            j += 1
        yield m["kind"], m["name"], indent, type_.strip()


def from_elsewhere(line):
    """The names that a line brings in from the library, or that Rattle makes."""
    m = USE.match(line)
    if not m or (OWN.match(m[1] + ".") and not MADE.search(m[1])):
        return set()
    return {it.split(" as ")[0].strip() for it in m[2].split(",")}


def camel(name):
    return "".join(it[0].upper() + it[1:] for it in re.split("[-_]", name) if it)


def is_type(kind, name, type_):
    return kind in ("record", "data") or bool(re.search(r"(?:→|:)\s*Type [01](?:\s+where)?$", type_))


def main():
    os.chdir(os.path.join(os.path.dirname(os.path.realpath(__file__)), ".."))
    antts = sorted(glob.glob("crates/*/specs/**/*.antt", recursive=True) + glob.glob("crates/*/proofs/**/*.antt", recursive=True))
    texts = {it: read(it) for it in antts}
    types, declared, made = set(), collections.defaultdict(set), collections.defaultdict(set)
    for path, text in texts.items():
        for kind, name, indent, type_ in signatures(text):
            if re.match(r":\s*(goal|given|need)\.", type_):
                made[path].add(name)
            else:
                declared[name].add(path)
                if is_type(kind, name, type_):
                    types.add(name)

    def new_name(name):
        if name in types or name[0].isupper():
            return camel(name)
        return "_".join(RENAMED_WORDS.get(it, it) for it in name.split("-"))

    table = {}

    def turned(name):
        if not (HYPHENS.search(name) or name in types and "_" in name):
            return name
        new = new_name(name)
        if new != name:
            table[name] = new
        return new

    def turn(text, elsewhere, in_source, aliases=frozenset()):
        def one(m):
            t, at = m[0], m.start()
            if t.startswith("--") or t[0] in "\"«" or t in elsewhere:
                return t
            after_dot = at > 0 and text[at - 1] == "."
            if after_dot and (t not in declared or re.search(r"\b(goal|given|need)\.$", text[:at])):
                return t
            if in_source and t not in declared and t not in aliases:
                return t
            return turned(t)

        return TOKEN.sub(one, text)

    out = {}
    for path, text in texts.items():
        elsewhere = set(made[path])
        for line in text.split("\n"):
            elsewhere |= from_elsewhere(line)
        out[path] = turn(text, elsewhere, False)

    for path in sorted(glob.glob("crates/*/src/**/*.rt", recursive=True)):
        text, done, in_clause = read(path), [], False
        elsewhere, aliases = set(), set()
        for line in text.split("\n"):
            elsewhere |= from_elsewhere(line)
            if line.startswith("ghost use "):
                aliases |= set(re.findall(r" as (%s)" % WORD, line))
        for line in text.split("\n"):
            starts = re.match(r"\s*(pub\(?.*\)? )?(ghost|requires|ensures)\b", line)
            if starts or in_clause:
                done.append(turn(line, elsewhere, True, aliases))
                depth = sum(line.count(it) for it in "{(") - sum(line.count(it) for it in "})")
                open_ = depth if starts else open_ + depth
                in_clause = open_ > 0
            else:
                done.append(line)
        out[path] = "\n".join(done)

    if "--names" in sys.argv:
        for old, new in sorted(table.items()):
            print(old, new)
        return
    for path, text in out.items():
        for old, new in RENAMED_CRATES.items():
            text = re.sub(r"\bRattle\.%s\." % old, "Rattle.%s." % new, text)
            text = re.sub(r"^(\s*(?:pub )?use )%s(?=::|;)" % old, r"\g<1>" + new, text, flags=re.M)
        if text != (texts.get(path) or read(path)):
            write(path, text)
    lines = read("crates.txt").split("\n")
    for old, new in RENAMED_CRATES.items():
        if os.path.isdir("crates/" + old):
            os.rename("crates/" + old, "crates/" + new)
        lines = [it if it.startswith("#") else re.sub(r"(?<![\w-])%s(?![\w-])" % old, new, it) for it in lines]
    write("crates.txt", "\n".join(lines))
    print("respell: %d names" % len(table))


main()
