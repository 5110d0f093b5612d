#!/usr/bin/env python3
"""Brings the repository's own definitions and lemmas to the kit's spelling: words in snake case, types and modules in upper camel case.

usage: python3 tools/respell.py [--look]     at the top, once, right after the kit's own port script; --look only says what would fall together

Functions of src/, exported names, strings and comments stay as they are. Names that the kit makes (of goals, steps and
invariants) are not the repository's and stay too.
"""

import os
import re
import sys

TOKEN = re.compile(r"[^\s(){}.,;:\"]+")
DEFINED = re.compile(r"(?:(?:pub|abbrev|unfoldable|data|record|ruleset)\s+)*([^\s(){}.,;:\"]+)\s*:(?!:)\s*(.*)")
FIELD = re.compile(r"(?:[{;]\s*([^\s(){}.,;:\"]+) : |\blet ([^\s(){}.,;:\"]+) [:=])")
MADE = re.compile(r"^(?:goal|need|g|given)\.")

# What the kit's script said in a comment, and a method of the code that it took for a word of its library.
SAID = [
    ("crates/isa/specs/Immediates.antt", "pending: sign_extended,", "pending: sign-extended,"),
    ("crates/machine/src/loading.rt", "layout.pre(image.len())", "layout.accepts(image.len())"),
]


def files(top):
    for folder, dirs, names in os.walk(os.path.join(top, "crates")):
        dirs[:] = sorted(d for d in dirs if d not in ("out", "target"))
        for name in sorted(names):
            if name.endswith((".rt", ".antt")):
                yield os.path.join(folder, name)


def split_comment(line, mark):
    """The line's code and its comment; neither mark stands in a string of this repository's ghost text."""
    at = line.find(mark)
    return (line, "") if at < 0 else (line[:at], line[at:])


def definitions(text):
    """The names that a proof or specification file defines, local ones and fields too, and that the kit did not make."""
    for line in text.split("\n"):
        code, _ = split_comment(line, "--")
        if code.startswith("use "):
            continue
        m = DEFINED.match(code.strip())
        if m and not MADE.match(m.group(2)):
            yield m.group(1)
        for m in FIELD.finditer(code):
            yield m.group(1) or m.group(2)


def spelled(name):
    if name[0].isupper():
        return "".join(part[:1].upper() + part[1:] for part in re.split(r"[-_]", name))
    return re.sub(r"(?<=[\w'])-(?=[\w'])", "_", name)


def respelled(text, mark, turn):
    lines = []
    for line in text.split("\n"):
        code, comment = split_comment(line, mark)
        lines.append(TOKEN.sub(lambda m: turn.get(m.group(0), m.group(0)), code) + comment)
    return "\n".join(lines)


def main(look):
    top = os.getcwd()
    texts = {}
    for path in files(top):
        with open(path, encoding="utf-8") as f:
            texts[path] = f.read()
    turn, modules, kept = {}, {}, set()
    for path, text in texts.items():
        if not path.endswith(".antt"):
            continue
        for name in definitions(text):
            if spelled(name) != name:
                turn[name] = spelled(name)
            else:
                kept.add(name)
        folder, base = os.path.split(path)
        if os.path.basename(folder) in ("specs", "proofs") and "_" in base:
            modules[base[:-5]] = spelled(base[:-5])
    both = {}
    for old, new in turn.items():
        both.setdefault(new, []).append(old)
    for new, olds in sorted(both.items()):
        if len(olds) > 1 or new in kept:
            print(f"fall together: {olds} {'and ' + new if new in kept else ''}")
    for path, text in texts.items():
        mark = "//" if path.endswith(".rt") else "--"
        code = "\n".join(split_comment(l, mark)[0] for l in text.split("\n"))
        tokens = set(TOKEN.findall(code))
        for old in sorted(tokens & set(turn)):
            if turn[old] in tokens:
                print(f"look: {os.path.relpath(path, top)}: {old} and {turn[old]}")
    if look:
        print(f"{len(turn)} names, {len(modules)} modules")
        return
    for path, text in texts.items():
        mark = "//" if path.endswith(".rt") else "--"
        new = respelled(text, mark, turn | modules)
        for place, old, right in SAID:
            if os.path.relpath(path, top) == place:
                new = new.replace(old, right)
        if new != text:
            with open(path, "w", encoding="utf-8") as f:
                f.write(new)
    for path in list(texts):
        folder, base = os.path.split(path)
        if os.path.basename(folder) in ("specs", "proofs") and base[:-5] in modules:
            os.rename(path, os.path.join(folder, modules[base[:-5]] + ".antt"))
    print(f"{len(turn)} names, {len(modules)} modules")


if __name__ == "__main__":
    main("--look" in sys.argv[1:])
