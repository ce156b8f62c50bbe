#!/usr/bin/env python3
"""Spells this repository's own definitions and lemmas as today's Rattle does: words in snake case, types in camel case, a prime as '.

usage: python3 tools/respell.py      at the top, once, after the toolchain's port.py

Names that the library defines, names that Rattle makes for goals, and functions of src/ keep their spelling.
It prints each name that it turned, and stops, with nothing written, where two names would fall together.
"""
import glob
import re
import sys

TOKEN = re.compile(r"(?<![\w'′-])[A-Za-zℕ_][\w'′₀-₉-]*")
DEFINED = re.compile(r"((?:(?:abbrev|unfoldable|pub|record|data|ruleset|mutual)\s+)*)([A-Za-zℕ_][\w'′₀-₉-]*)")
MEMBER = re.compile(r"\s+(?:pub )?([A-Za-z_][\w'′₀-₉-]*)\s*:\s")
USE = re.compile(r"^\s*(?:ghost |pub )?use ([\w.+'′·-]+?)\.\{(.*?)\}", re.S | re.M)
GOAL = re.compile(r"^(?:abbrev )?pub ([\w'′-]+) : goal\.", re.M)


def dashed(name):
    return "-" in name or "′" in name


def respelled(name):
    name = name.replace("′", "'")
    if not name[0].isupper():
        return name.replace("-", "_")
    first, *rest = name.split("-")
    return first + "".join(w[:1].upper() + w[1:] for w in rest)


def crates():
    return [p.split("/")[1] for p in glob.glob("crates/*/src")]


def texts(kinds):
    for kind in kinds:
        yield from sorted(glob.glob(f"crates/*/{kind}", recursive=True))


def read(path):
    with open(path, encoding="utf-8") as f:
        return f.read()


def imported(text, own_crates):
    """The names that a file takes from elsewhere than this repository."""
    names = set()
    for path, items in USE.findall(text):
        parts = path.split(".")
        if parts[0] == "Rattle" and len(parts) > 1 and parts[1] in own_crates:
            continue
        for item in items.split(","):
            names.update(w for w in item.replace(" as ", " ").split())
    return names


def defined(text):
    """The names that a file defines: at its top, and as fields or constructors."""
    top, members = set(), set()
    goals = set(GOAL.findall(text))
    for line in text.split("\n"):
        if line.startswith(("--", "use ", "pub use ", "pub mod ", "mod ", "unfolding ")):
            continue
        if line and not line[0].isspace():
            it = DEFINED.match(line)
            if it and it.group(2) not in goals:
                top.add(it.group(2))
        else:
            it = MEMBER.match(line)
            if it:
                members.add(it.group(1))
    return top, members


def main():
    own_crates = set(crates())
    antt = list(texts(["specs/**/*.antt", "proofs/**/*.antt"]))
    source = list(texts(["src/**/*.rt"]))
    tops, members = {}, set()
    for path in antt:
        tops[path], fields = defined(read(path))
        members |= fields
    own = {n for names in tops.values() for n in names if dashed(n)}
    members = {n for n in members if dashed(n)}
    bad, turned, new = [], {}, {}
    for path, names in tops.items():
        spelt = {}
        for n in names:
            other = spelt.setdefault(respelled(n), n)
            if other != n:
                bad.append(f"{path}: {other} and {n}")
    for path in antt + source:
        text = read(path)
        away = imported(text, own_crates)
        goals = set(GOAL.findall(text))
        is_source = path.endswith(".rt")
        here = {w for w in TOKEN.findall(text) if not dashed(w)}

        def turn(it):
            name, at = it.group(0), it.start()
            if not dashed(name):
                return name
            after_dot = at > 0 and text[at - 1] == "."
            if after_dot and name not in members | own:
                return name
            if not after_dot and (name in away or name in goals):
                return name
            if is_source and name not in own | members:
                return name
            spelt = respelled(name)
            if spelt in away:
                bad.append(f"{path}: {name} meets the library's {spelt}")
            if spelt in here and not after_dot:
                print(f"look: {path}: {name} becomes {spelt}, which the file also has")
            turned.setdefault(name, spelt)
            return spelt

        lines = []
        pos = 0
        for line in text.split("\n"):
            end = pos + len(line)
            cut = line.find("// " if is_source else "-- ")
            code_end = end if cut < 0 else pos + cut
            done, at = [], pos
            for it in TOKEN.finditer(text, pos, code_end):
                done += [text[at:it.start()], turn(it)]
                at = it.end()
            comment = TOKEN.sub(lambda it: respelled(it.group(0)) if it.group(0) in own else it.group(0), text[code_end:end])
            lines.append("".join(done) + text[at:code_end] + comment)
            pos = end + 1
        new[path] = "\n".join(lines)
    if bad:
        print("\n".join(sorted(set(bad))))
        return 1
    for path, text in new.items():
        if text != read(path):
            with open(path, "w", encoding="utf-8") as f:
                f.write(text)
    for name, spelt in sorted(turned.items()):
        print(f"{name} -> {spelt}")
    return 0


sys.exit(main())
