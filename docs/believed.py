#!/usr/bin/env python3
"""Counts the definitions that a reader has to believe.

    docs/believed.py [--list] [NAME..]

NAME is a public call of spread_host (run_day and replay, where none is given). From the words of its contract every
definition is followed that these words rest on, through the specs/ of all crates, and their lines are counted, comments,
blank lines and imports apart. What stands in the toolchain's library is not ours and not counted. --list prints each file
with its lines, the largest first.
"""
import glob
import os
import re
import sys

ROOT = os.path.dirname(os.path.dirname(os.path.abspath(__file__)))
HEAD = re.compile(r"^(?:(?:pub|abbrev|unfoldable|data|record|ghost)\s+)+(◌?[^\s:({]+)")
WORD = re.compile(r"[^\s(){}\[\];,]+")


def imports_of(text, start):
    """The names that a file imports, each with its module, and its aliases of modules."""
    names, aliases = {}, {}
    for path, rest in re.findall(start + r"use Rattle\.([\w.]+?)(?:\.\{([^}]*)\}| as .*?);?$", text, re.M):
        for name in rest.split(","):
            if name.strip():
                names[name.strip()] = path
    for path, braced, alias in re.findall(start + r"use Rattle\.([\w.]+?)(\.\{[^}]*\})? as (\w+);?$", text, re.M):
        aliases[alias] = path
    return names, aliases


def blocks_of(text):
    """The definitions of a file: each name with its lines."""
    found, name, is_mutual = {}, None, False
    for line in text.split("\n"):
        # definitions that cite each other stand two columns in, below a line of their own
        if re.match(r"(abbrev )?mutual$", line):
            name, is_mutual = None, True
            continue
        is_mutual = is_mutual and (not line.strip() or line.startswith("  "))
        line = line[2:] if is_mutual else line
        if not line.strip() or line.lstrip().startswith("--") or re.match(r"(pub )?use |infix|pub mod", line):
            name = name if line.startswith(" ") else None if not line.strip() else name
            continue
        head = HEAD.match(line)
        if head and not line.startswith(" "):
            name = head[1]
        if name:
            found.setdefault(name, []).append(line)
    return found


class Specs:
    """All definition files of the repository."""

    def __init__(self):
        self.files = {}
        for path in glob.glob(f"{ROOT}/crates/*/specs/**/*.antt", recursive=True):
            crate, inside = re.search(r"crates/(\w+)/specs/(.*)\.antt$", path).groups()
            with open(path, encoding="utf-8") as it:
                text = it.read()
            module = f"{crate}.specs.{inside.replace('/', '.')}"
            self.files[module] = (blocks_of(text), *imports_of(text, "^"))

    def reached(self, module, name, seen):
        """Adds a definition and all that it rests on."""
        blocks, names, aliases = self.files.get(module, ({}, {}, {}))
        if name not in blocks or (module, name) in seen:
            return
        seen.add((module, name))
        for word in {w for line in blocks[name] for w in WORD.findall(line)}:
            self.follow(word, module, blocks, names, aliases, seen)

    def follow(self, word, module, blocks, names, aliases, seen):
        for key in (word, f"◌{word}◌", *([word.split(".")[0]] if "." in word else [])):
            if key in blocks:
                self.reached(module, key, seen)
            elif key in names:
                self.reached(names[key], key, seen)
        first, _, last = word.partition(".")
        if first in aliases:
            self.reached(aliases[first], last, seen)


def contract_of(call):
    """The file in which a public call of spread_host stands, and the text of its contract."""
    for path in glob.glob(f"{ROOT}/crates/spread_host/src/*.rt"):
        with open(path, encoding="utf-8") as it:
            text = it.read()
        at = re.search(rf"^pub fn {call}\b.*?^\{{", text, re.M | re.S)
        if at:
            return text, at[0]
    sys.exit(f"docs/believed.py: spread_host has no public call {call}")


def main(words):
    is_list = "--list" in words
    calls = [it for it in words if it != "--list"] or ["run_day", "replay"]
    specs, seen = Specs(), set()
    for call in calls:
        text, contract = contract_of(call)
        names, aliases = imports_of(text, "^ghost ")
        for word in set(WORD.findall(contract)):
            specs.follow(word, "", {}, names, aliases, seen)
    lines = {}
    for module, name in seen:
        lines[module] = lines.get(module, 0) + len(specs.files[module][0][name])
    if is_list:
        for module in sorted(lines, key=lambda it: -lines[it]):
            print(f"{lines[module]:5} {module.replace('.specs.', '/specs/')}")
    print(f"{sum(lines.values())} lines, {len(seen)} definitions, {len(lines)} files: {', '.join(calls)}")


if __name__ == "__main__":
    main(sys.argv[1:])
