#!/usr/bin/env python3
"""Spells this repository's own definitions, lemmas, fields and cases as the library spells its own: words in snake case.

usage: python3 tools/respell.py [FOLDER]     at the top of the repository, after port.py of the kit; a second run changes nothing

A name that a file of specs/ or proofs/ declares and that does not begin with a capital gets underscores for its dashes and
for its inner capitals: rangesVerdict is ranges_verdict, refused-head is refused_head. Facts, types and modules keep their
capitals, and names that would fall together get another (OTHER, below). Turned are the .antt files, the clauses, ghost imports and comments of the .rt files, the must-fail edits, and
what README.md and docs/ cite in backticks. A name stays where a file has it from a library, as a label behind c. or tie.
in a function's proof, and everywhere if its new spelling is taken already. Notes of past landings stay.
"""

import os
import re
import sys

TOP = sys.argv[1] if len(sys.argv) > 1 else "."
NAME = r'[^\s(){}.;,@"«»:=\[\]|`↦]+'
TOKEN = re.compile(rf"(?<![^\s(){{}}.;,@\"«»:=\[\]|`↦]){NAME}")
DECLARED = re.compile(rf"(?m)^ *(?:(?:abbrev|unfoldable|pub|mutual|data|record)\s+)*({NAME})(?: [({{][^:=]*?[)}}])* :(?= )")
OWN_LINE = re.compile(r"(?m)^ *(?:pub )?(?:ghost )?use ([^\s;{]+)(?:\{([^}]*)\})?(?: as [^\s;]+)?;?")
CODE_LINE = re.compile(r"^\s*(ghost |requires|ensures|//)|λ|≡|⊎|×|≤")


def respelled(name):
    return OTHER.get(name) or re.sub(r"(?<=[a-z0-9])([A-Z])", lambda m: "_" + m[1].lower(), name).replace("-", "_")


def files(*endings):
    for folder, dirs, names in os.walk(os.path.join(TOP, "crates")):
        dirs[:] = sorted(d for d in dirs if d != "out")
        for it in sorted(names):
            if it.endswith(endings):
                yield os.path.join(folder, it)


def read(path):
    with open(path, encoding="utf-8") as f:
        return f.read()


def write(path, text):
    if text != read(path):
        with open(path, "w", encoding="utf-8") as f:
            f.write(text)


# Names that would meet a definition's: a field or lemma with a dash beside a definition with an inner capital.
OTHER = {
    "at-end": "at_the_end",
    "at-fpga": "at_each_fpga",
    "ends-from": "ends_behind",
    "first-in": "first_below",
    "head-long": "head_is_long",
    "line-from": "nets_from_line",
    "next-net": "next_net_among",
    "next-nets": "next_nets_among",
    "number-then": "number_then_append",
    "one-round": "only_one_round",
    "plan-checked": "plan_is_checked",
    "scratch-long": "scratch_is_long",
    "second-in": "second_below",
}
# Variables that a signature binds.
BOUND = {"planLength", "roomLength", "scratchLength"}
# Names that stand by themselves in a path or a comment only.
SURE = {"netsAt", "numbersOf", "sheetFault", "text-long"}

CRATES = set(os.listdir(os.path.join(TOP, "crates")))


def is_own(module):
    return module.startswith("Rattle.") and module.split(".")[1] in CRATES


def of_a_function(path):
    return os.path.basename(path) in ("Proof.antt", "Answers.antt", "Invariants.antt")


# Names that a file has from a library, which stay there.
def foreign(text):
    names = set()
    for module, items in OWN_LINE.findall(text):
        if not is_own(module):
            for it in (items or "").split(","):
                names.update(it.split(" as ")[0].split() + it.split(" as ")[-1].split())
    return names


def main():
    declared, local = {}, {}
    for path in files(".antt"):
        text = read(path)
        names = {it for it in DECLARED.findall(text) if respelled(it) != it and it[0].islower()}
        if of_a_function(path):
            local[path] = names
        else:
            for it in names:
                declared.setdefault(it, set()).add(path)
    # Names that would fall together: the new spelling is another declared name, or stands by itself in a file that has the old.
    taken = {}
    for path in files(".antt"):
        text = read(path)
        words = set(TOKEN.findall(text))
        bare = {m[0] for m in TOKEN.finditer(text) if text[m.start() - 1 : m.start()] != "." and text[m.end() : m.end() + 1] != "."}
        for it in words & set(declared):
            if respelled(it) in bare and it not in SURE:
                taken.setdefault(it, set()).add(path)
    rows, spelled = {it: respelled(it) for it in BOUND}, {}
    for it in sorted(declared):
        new = respelled(it)
        if new in declared or new in spelled or it in taken:
            print(f"left: {it}: {new} is there already ({', '.join(sorted(taken.get(it, declared[it])))})")
        else:
            rows[it] = spelled[new] = new

    def turn(text, stay, labels=False):
        def one(m):
            it = m[0]
            if it not in rows or it in stay:
                return it
            before = text[: m.start()]
            if labels and re.search(r"(?:^|[^\w.])(?:c|l|w|g|z|tie|goal)(?:\.[^\s.(){},;]+)*\.$", before[-400:]):
                return it
            return rows[it]

        return TOKEN.sub(one, text)

    for path in files(".antt"):
        text = read(path)
        stay = foreign(text)
        if of_a_function(path):
            stay |= {it for it in local[path] if it not in own_imports(text)}
        write(path, turn(text, stay, of_a_function(path)))
    for path in files(".rt"):
        text = read(path)
        stay = foreign(text)
        lines = []
        for line in text.split("\n"):
            camel = re.search(r"\b[a-z][a-z0-9]*[A-Z]", line)
            lines.append(turn(line, stay) if CODE_LINE.search(line) or camel else line)
        write(path, "\n".join(lines))
    for path in files(".edit"):
        lines = []
        for line in read(path).split("\n"):
            at = re.match(r"(old|new): ?", line)
            ghost = ".antt" in read(path) or re.search(r"\b[a-z][a-z0-9]*[A-Z]", line)
            lines.append(line[: at.end()] + turn(line[at.end() :], set()) if at and ghost else line)
        write(path, "\n".join(lines))
    pages = [os.path.join(TOP, "README.md")]
    pages += [os.path.join(TOP, "docs", it) for it in sorted(os.listdir(os.path.join(TOP, "docs"))) if it.endswith(".md") and not it.startswith("PORT")]
    for path in pages:
        write(path, re.sub(r"`[^`\n]+`", lambda m: turn(m[0], set()), read(path)))
    print(f"respell: {len(rows)} names")


def own_imports(text):
    names = set()
    for module, items in OWN_LINE.findall(text):
        if is_own(module):
            for it in (items or "").split(","):
                names.update(it.split())
    return names


main()
