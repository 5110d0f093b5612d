#!/usr/bin/env python3
"""Lists the places in src/ that may read like an older language, by kind.

    python3 tools/places.py            the count of each kind
    python3 tools/places.py KIND..     each place of these kinds, as file:line: text

A place is where to look, and no verdict. docs/DESIGN-PASS.md says what became of each.
"""
import collections
import glob
import re
import sys

SOURCES = sorted(glob.glob("crates/*/src/*.rt"))

# Kinds that one line shows, each a pattern.
BY_LINE = {
    "1 absence": r"^\s+(Nothing|None|Closed|Spent|Keep|Unused),$|^\s+Refused\(StepRefusal\),$",
    "1 refusal in an Option": r"Option<Refusal>",
    "1 number for a kind": r"\b(kind|side|loading|refusal|reference|number): u8\b",
    "1 error passed on by hand": r"Err\((\w+)\) => (return )?Err\(|Err\(_\) => Err\(|\} => return Err\(",
    "1 default by hand": r"(None|Err\(_\)) => (0|false|true|None|Ok\(default\)),",
    "1 error for nothing by hand": r"^\s*let (Some|Ok)\(.*\) = .* else \{$|None => Err\(",
    "3 loop": r"^\s*(for|while|loop)\b",
    "3 loop over numbers": r"^\s*for \w+ in .*\.\.",
    "4 match that answers true or false": r"=> true,|=> \w+::\w+.* => false",
    "4 equality by hand": r"^\s*(pub )?fn (is_)?same(_\w+)?[<(]",
    "4 conversion by hand": r"fn (numbered|number|operation|fault_of\w*|assembly_of|side_number|action_of|tally_of_step|reason|refused|granted|table|written|accepted)\b",
    "4 printing by hand": r"fn (show_\w+|\w+_name)\b",
    "6 length beside a buffer": r"\bcount: usize|\bn: usize\)|, steps: u16\)|\[Option<Mark>; 1024\]",
    "7 switch or table of functions": r"macro_rules!|\bfn\(|\bdyn\b|\bover_memory!",
}


def functions():
    """Each function of each source: its file, line, name, parameters and clauses."""
    head = re.compile(
        r"\bfn (\w+)(<[^>]*>)?\(([^{]*?)\)\s*(?:->[^{;]*?)?"
        r"((?:\s*(?:requires|ensures)\b[^\n]*(?:\n\s{6,}[^\n]*)*)*)\s*(?=\n\s*\{|;|\{)",
        re.S,
    )
    for path in SOURCES:
        text = re.sub(r"//[^\n]*", "", open(path).read())
        for found in head.finditer(text):
            line = text[: found.start()].count("\n") + 1
            yield path, line, found.group(1), parameters(found.group(3)), clauses(found.group(4))


def parameters(text):
    parts = re.split(r",(?![^<\[(]*[>\])])", text)
    return [re.sub(r"\s+", " ", part).strip() for part in parts if ":" in part]


def clauses(text):
    pattern = r"(requires|ensures)\s+(?:\w+\s+)?\{(.*?)\}(?=\s*(?:requires|ensures|$))"
    return [(kind, re.sub(r"\s+", " ", fact).strip()) for kind, fact in re.findall(pattern, text, re.S)]


def shared_facts(all_functions):
    """The facts that stand in the contracts of three or more functions of a crate."""
    places = collections.defaultdict(list)
    for path, line, name, _, facts in all_functions:
        for kind, fact in dict.fromkeys(facts):
            places[path.split("/")[1], kind, fact].append(f"{path}:{line}: {name}")
    return {key: found for key, found in places.items() if len(found) >= 3}


def companions(all_functions):
    """The pairs of parameters that travel together through four or more functions."""
    places = collections.defaultdict(list)
    for path, line, name, given, _ in all_functions:
        for i, first in enumerate(given):
            for second in given[i + 1 :]:
                places[first, second].append(f"{path}:{line}: {name}")
    return {key: found for key, found in places.items() if len(found) >= 4}


def twins():
    """Bodies of three lines or more of one function that are the same but for names and numbers."""
    places = collections.defaultdict(list)
    body = re.compile(r"^( *)(?:pub(?:\(crate\))? )?fn (\w+).*?^\1\{\n(.*?)^\1\}", re.S | re.M)
    brace = re.compile(r"^( *)(?:pub(?:\(crate\))? )?fn (\w+)[^\n]*\{\n(.*?)^\1\}", re.S | re.M)
    for path in SOURCES:
        text = re.sub(r"//[^\n]*", "", open(path).read())
        seen = set()
        for form in (brace, body):
            for found in form.finditer(text):
                inside = found.group(3)
                if found.group(2) in seen or inside.count("\n") < 3:
                    continue
                seen.add(found.group(2))
                shape = re.sub(r"\b[A-Za-z_]\w*\b|0x[0-9A-Fa-f_]+|\d+|\"[^\"]*\"", "x", inside)
                line = text[: found.start()].count("\n") + 1
                places[re.sub(r"\s+", " ", shape)].append(f"{path}:{line}: {found.group(2)}")
    return {shape: found for shape, found in places.items() if len(found) >= 2}


def kinds():
    listed = {}
    for kind, pattern in BY_LINE.items():
        listed[kind] = [
            f"{path}:{number}: {line.strip()}"
            for path in SOURCES
            for number, line in enumerate(open(path), 1)
            if re.search(pattern, line.rstrip("\n"))
        ]
    all_functions = list(functions())
    listed["2 functions of one shape"] = [p for found in twins().values() for p in found]
    listed["5 fact in three contracts"] = [
        f"{crate}: {kind} {fact} ({len(found)})"
        for (crate, kind, fact), found in shared_facts(all_functions).items()
    ]
    listed["5 parameters together"] = [
        f"{first}, {second} ({len(found)})"
        for (first, second), found in companions(all_functions).items()
    ]
    proofs = [p for p in glob.glob("crates/*/proofs/**/*.antt", recursive=True)]
    listed["8 file of proofs"] = sorted(proofs)
    listed["8 line of proofs"] = [line for path in proofs for line in open(path)]
    return listed


def main():
    listed = kinds()
    wanted = sys.argv[1:]
    for kind in sorted(listed):
        if not wanted:
            print(f"{len(listed[kind]):5}  {kind}")
        elif any(kind.startswith(word) for word in wanted):
            print(f"{kind}: {len(listed[kind])}")
            for place in listed[kind]:
                print(f"  {place}")


main()
