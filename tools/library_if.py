#!/usr/bin/env python3
"""Has the repository say `if b then x else y` by the library's operator, where it had one of its own in crates/lists/specs/Lists.antt.

usage: tools/library_if.py        at the top of the repository, once, after tools/respell.py

The library's binds as the own one did with all operators that stand beside it, but does not nest to the right by itself: each `else if` gets
its parentheses. What such a term computes to is the same.
"""

import os
import re
import sys

WORD = "if◌then◌else◌"
OWN = "Rattle.lists.specs.Lists"
TOKEN = re.compile(r"--[^\n]*|//[^\n]*|\"(?:[^\"\\]|\\.)*\"|[(){}\[\];,]|[^\s(){}\[\];,\"]+|\s+")
# What ends a term that stands behind `else`, beside a closing bracket.
ENDS = {"≡", "≢", "→", "×", "⊎", "↔", "=", "in", "then", "else", "|", "↦", ":", "⊲", "◂", "of", "∙"}


def files():
    for folder, folders, names in os.walk("crates"):
        folders[:] = sorted(f for f in folders if f not in ("out", "data"))
        for name in sorted(names):
            if name.endswith((".antt", ".rt")):
                yield os.path.join(folder, name)


def nested(text, code):
    """The text with parentheses around each `if` behind an `else`."""
    tokens = TOKEN.findall(text)
    out, stack = [], []  # stack: an entry for each open bracket, with the parentheses that are owed before its end, and the ifs that wait for `else`

    def close(at):
        # the parentheses go before the white space and comments that end the term
        while at > 0 and (out[at - 1].isspace() or out[at - 1].startswith(("--", "//"))):
            at -= 1
        return at

    owed, waits = 0, 0
    i = 0
    while i < len(tokens):
        t = tokens[i]
        if t in "([{" and len(t) == 1:
            stack.append((owed, waits))
            owed, waits = 0, 0
        elif t in ")]}" and len(t) == 1:
            at = close(len(out))
            out[at:at] = [")"] * owed
            owed, waits = stack.pop() if stack else (0, 0)
        elif t in (",", ";"):
            at = close(len(out))
            out[at:at] = [")"] * owed
            owed = waits = 0
        elif t.isspace():
            # a definition ends where a line begins at the left margin, or as a new clause or member
            if owed and not stack and "\n" in t:
                rest = "".join(tokens[i + 1 : i + 40])
                depth = len(t.rsplit("\n", 1)[1])
                blank = t.count("\n") > 1
                if not re.match(r"(else|then|[≡∙×⊎→+])", rest) and (blank or depth == 0 or re.match(r"(--|pub |abbrev |unfoldable |module |unfolding )", rest) or re.match(r"[^\s(){};,]+(?: [^=\n]*)? (?:=|:)(?:\s|$)", rest)):
                    at = close(len(out))
                    out[at:at] = [")"] * owed
                    owed = waits = 0
        elif t == "if":
            waits += 1
        elif t == "else":
            if waits == 0 and owed:
                pass
            waits = max(0, waits - 1)
            after = "".join(tokens[i + 1 : i + 3])
            m = re.match(r"\s+if\Z", after)
            out.append(t)
            i += 1
            if m:
                out.append(tokens[i])
                out.append("(")
                owed += 1
                i += 1
                continue
            continue
        elif owed and waits == 0 and t in ENDS:
            at = close(len(out))
            out[at:at] = [")"] * owed
            owed = 0
        out.append(t)
        i += 1
    at = close(len(out))
    out[at:at] = [")"] * owed
    return "".join(out)


def imported(text, ghost):
    """The imports with the word from the library."""
    found = False

    def one(m):
        nonlocal found
        names = [n.strip() for n in m[2].split(",")]
        if WORD not in names:
            return m[0]
        found = True
        names.remove(WORD)
        return f"{m[1]}use {OWN}.{{{', '.join(names)}}}{m[3]}" if names else ""

    text = re.sub(r"(?m)^((?:ghost )?)use " + re.escape(OWN) + r"\.\{([^}]*)\}(;?\n)", one, text)
    if not found:
        return text
    head = re.search(r"(?m)^" + ("ghost use" if ghost else "use") + r" Rattle\.std\.specs\.Prelude\.\{([^}]*)\}", text)
    if head:
        return text[: head.end(1)] + ", " + WORD + text[head.end(1) :]
    line = ("ghost use" if ghost else "use") + " Rattle.std.specs.Prelude.{" + WORD + "}" + (";" if ghost else "") + "\n"
    at = re.search(r"(?m)^" + ("ghost use " if ghost else "use "), text)
    at = at.start() if at else 0
    return text[:at] + line + text[at:]


def main():
    count = 0
    for path in files():
        with open(path, encoding="utf-8") as file:
            text = file.read()
        now = text
        if path.endswith("lists/specs/Lists.antt") and f"infixr 10 {WORD}" in text:
            now = re.sub(r"infixr 10 if◌then◌else◌\nabbrev pub if◌then◌else◌[^\n]*\n(?:if [^\n]*\n)+\n?", "", now)
            head = re.search(r"(?m)^use Rattle\.std\.specs\.Prelude\.\{([^}]*)\}", now)
            now = now[: head.end(1)] + ", " + WORD + now[head.end(1) :]
        ghost = path.endswith(".rt")
        now = imported(now, ghost)
        if re.search(r"\belse\s+if\b", now) and not ghost:
            now = nested(now, ghost)
        if now != text:
            count += 1
            with open(path, "w", encoding="utf-8") as file:
                file.write(now)
    print(f"{count} files")


if __name__ == "__main__":
    sys.exit(main())
