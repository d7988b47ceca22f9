#!/usr/bin/env python3
"""Spells the repository's own definitions and lemmas in snake case: `lexSeparator` as `lex_separator`, `scan-other` as `scan_other`.

usage: tools/respell.py        at the top of the repository, once, after the toolchain's own script for an older repository

It goes by the names that the files of specs/ and proofs/ declare, with the fields of records and the constructors of data. Types, modules,
names that begin with a capital and the names that Rattle makes of the code (behind a dot) stay as they are. A name whose new spelling
stands in a file already that has the old one too is left, and said; a lemma that would have its definition's name gets `_lem`. In comments and in the pages only what stands in backticks is turned.
"""

import os
import re
import sys

NAME = r"[^\s(){}.;,@\"«»`]+"
SIGNATURE = re.compile(r"^(\s*)((?:(?:abbrev|unfoldable|pub|data|record|ruleset) )*)(" + NAME + r")((?: \{[^{}]*\})*) :(?= )")
# what an answer in a proof of a function is called is Rattle's or goes with the file
OF_A_FUNCTION = re.compile(r"/(Proof|Answers|Invariants)\.antt$")


# Lemmas that the toolchain's script turned already, and that would meet their definition: in which crates, and which.
MET = [
    ("stage_order", "goes_on"),
    ("columns column_laws", "fits_line"),
    ("message_structures", "left_over"),
    ("acceptance_laws column_laws round_trip_laws spelling_laws", "list_read"),
    ("judge", "too_long"),
]
OTHERS = {"in-message": "in_message_lem"}
# Definitions whose new spelling stood in proofs of functions alone, which are written anew.
TURNED = set("newAt refusedInput tooLongAtZero toldCompared toldJudged toldListed toldLocated toldShelved toldSlots toldStored toldSums".split())


def snake(name):
    return re.sub(r"(?<=[a-z0-9])[A-Z]", lambda m: "_" + m[0].lower(), name).replace("-", "_")


def is_to_turn(name):
    if "◌" in name or not re.match(r"[a-z]", name) or re.search(r"[^\w'₀-₉-]", name):
        return False
    return snake(name) != name and not name.endswith("-")


def files(top, ends):
    for folder, folders, names in os.walk(top):
        folders[:] = sorted(f for f in folders if f not in ("out", ".git", "target", "data"))
        for name in sorted(names):
            if name.endswith(ends):
                yield os.path.join(folder, name)


def read(path):
    with open(path, encoding="utf-8") as file:
        return file.read()


def declared():
    names, fields = {}, set()
    for path in files("crates", ".antt"):
        if OF_A_FUNCTION.search(path):
            continue
        within = None
        for name in re.findall(r" as (" + NAME + r")", "\n".join(l for l in read(path).splitlines() if re.match(r"\s*(pub )?use ", l))):
            names.setdefault(name, path)
        for line in read(path).splitlines():
            if re.match(r"\s*(?:\w+ )*(?:record|data) ", line) and line.rstrip().endswith("where"):
                within = (re.search(r"\b(record|data)\b", line)[1], len(line) - len(line.lstrip()))
                continue
            found = SIGNATURE.match(line)
            if line.strip() and within and len(line) - len(line.lstrip()) <= within[1] and not line.strip().startswith("--"):
                within = None
            if found and not line.strip().startswith("--"):
                names.setdefault(found[3], path)
                if within and within[0] == "record":
                    fields.add(found[3])
    return names, fields


def turned_code(text, turn, comment):
    """The text with each name turned that stands in code; in a comment only in backticks."""
    out = []
    for line in text.split("\n"):
        at = 0
        depth = line.find(comment)
        while depth > 0 and line[depth - 1] not in " \t":
            depth = line.find(comment, depth + 1)
        code, said = (line, "") if depth < 0 else (line[:depth], line[depth:])
        out.append(turned(code, turn) + ticked(said, turn))
    return "\n".join(out)


TOKEN = re.compile(r"\"(?:[^\"\\]|\\.)*\"|«[^»]*»|((?:" + NAME + r"\.)*)(" + NAME + r")")


def turned(code, turn):
    def one(m):
        if m[2] is None:
            return m[0]
        behind, name = m[1], m[2]
        # the parts of a path too, since a field may be followed by another
        parts = behind.split(".")[:-1] if behind else []
        if not parts and code[: m.start()].endswith("."):
            parts_before = [")"]
        else:
            parts_before = []
        qualified = bool(parts) and re.match(r"[A-Z]", parts[0])
        whole = parts + [name]
        result = []
        for i, part in enumerate(whole):
            first = i == 0 and not parts_before
            result.append(turn(part, "plain" if first else "path" if qualified else "field"))
        return ".".join(result)

    return TOKEN.sub(one, code)


def ticked(text, turn):
    return re.sub(r"`[^`\n]+`", lambda m: "`" + turned(m[0][1:-1], turn) + "`", text)


def main():
    for crates, name in MET:
        for path in (p for c in crates.split() for p in files(f"crates/{c}", ".antt")):
            text = read(path)
            now = turned_code(text, lambda word, where: word + "_lem" if word == name and where != "field" else word, "--")
            if now != text:
                with open(path, "w", encoding="utf-8") as file:
                    file.write(now)
    names, fields = declared()
    wanted = {n: snake(n) for n in names if is_to_turn(n)}
    wanted |= {n: OTHERS[n] for n in OTHERS if n in wanted}
    # a lemma that would have its definition's name
    for name, new in wanted.items():
        if "-" in name and (new in names or any(wanted.get(o) == new for o in names if o != name and "-" not in o)):
            wanted[name] = new + "_lem"
    tokens = {}
    sources = list(files("crates", (".antt", ".rt")))
    texts = {path: read(path) for path in sources}
    for path, text in texts.items():
        code = "\n".join(re.sub(r"(^|\s)(--|//).*", "", line) for line in text.splitlines())
        if path.endswith(".rt"):
            # a definition may have the name of the function that it is of, as in std: what counts is a parameter, a variable or a field
            old = set(re.findall(NAME, code))
            new = set(re.findall(r"(?:\b|\blet (?:mut )?)(\w+)(?=:[^:]| =[^=])|(?<=\.)(\w+)(?!\()", code))
            tokens[path] = {t for t in old if is_to_turn(t)} | {t for pair in new for t in pair}
        else:
            # a function's name in a path of the modules that Rattle makes is no definition either
            tokens[path] = set(re.findall(r"(?<![^\s(){};,@«»])" + NAME, re.sub(r"\bRattle\.[^\s;{]*", "", code)))
    left = {}
    for name, new in list(wanted.items()):
        for path in sources:
            if name in tokens[path] and new in tokens[path]:
                left.setdefault(name, path)
    by_new = {}
    for name, new in wanted.items():
        by_new.setdefault(new, []).append(name)
    for new, old in by_new.items():
        if len(old) > 1:
            for name in old:
                for path in sources:
                    if sum(o in tokens[path] for o in old) > 1:
                        left.setdefault(name, path)
    for name in TURNED & set(left):
        del left[name]
    for name in left:
        print(f"left: {name}: {left[name]} has {wanted[name]} too")
        del wanted[name]

    def turn(word, where):
        if word not in wanted:
            return word
        if where == "field" and word not in fields and not re.search(r"[a-z0-9][A-Z]", word):
            return word
        return wanted[word]

    count = 0
    for path in sources:
        now = turned_code(texts[path], turn, "--" if path.endswith(".antt") else "//")
        if now != texts[path]:
            count += 1
            with open(path, "w", encoding="utf-8") as file:
                file.write(now)
    new_names = set(names) | {w for w in wanted.values()}

    def turn_said(word, where):
        new = snake(word)
        return new if is_to_turn(word) and new in new_names and word not in new_names - set(wanted) else word

    for path in [*files("docs", ".md"), *(p for p in ("README.md", "CHANGELOG.md") if os.path.exists(p))]:
        text = read(path)
        now = ticked(text, turn_said)
        if now != text:
            count += 1
            with open(path, "w", encoding="utf-8") as file:
                file.write(now)
    print(f"{len(wanted)} names, {count} files")


if __name__ == "__main__":
    sys.exit(main())
