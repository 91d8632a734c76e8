#!/usr/bin/env python3
"""Calls the repository's own choice by a test `when◌then◌else◌`, which was `if◌then◌else◌`.

usage: python3 tools/respell-choice.py [ROOT]     a second run changes nothing

std has an operator of the old name, with another precedence, and a reader takes that name for std's.
The definition, its precedence and all texts stay as they are.
"""

import glob
import re
import sys

ROOT = sys.argv[1] if len(sys.argv) > 1 else "."
OLD, NEW = "if◌then◌else◌", "when◌then◌else◌"
TOKEN = re.compile(r"(?<![^\s(\[{,;])if(?=[\s(])")
CLAUSE = re.compile(r"\b(?:requires|ensures)\b\s*\w*\s*\{")


def in_antt(text):
    """Turns the code, line by line, up to a comment, and leaves quoted text."""
    lines = []
    for line in text.split("\n"):
        at = re.search(r"(?:^|(?<=\s))--(?=\s|$)", line)
        code, comment = (line[: at.start()], line[at.start() :]) if at else (line, "")
        parts = re.split(r'("(?:[^"\\]|\\.)*")', code)
        parts[::2] = [TOKEN.sub("when", it) for it in parts[::2]]
        lines.append("".join(parts) + comment)
    return "\n".join(lines)


def in_clauses(text):
    """Turns what stands in the braces of clauses."""
    out, at = "", 0
    for found in CLAUSE.finditer(text):
        if found.start() < at:
            continue
        end, deep = found.end(), 1
        while deep:
            deep += {"{": 1, "}": -1}.get(text[end], 0)
            end += 1
        out += text[at : found.end()] + TOKEN.sub("when", text[found.end() : end])
        at = end
    return out + text[at:]


def has(path):
    with open(path, encoding="utf-8") as it:
        text = it.read()
    return OLD in text or NEW in text


def main():
    changed = 0
    for path in sorted(glob.glob(f"{ROOT}/crates/*/s*/**/*", recursive=True) + glob.glob(f"{ROOT}/crates/*/proofs/**/*", recursive=True)):
        if path.endswith((".antt", ".rt")) and has(path):
            with open(path, encoding="utf-8") as it:
                old = it.read()
            new = in_antt(old) if path.endswith(".antt") else in_clauses(old)
            new = new.replace(OLD, NEW)
            if new != old:
                changed += 1
                with open(path, "w", encoding="utf-8") as it:
                    it.write(new)
    for path in sorted(glob.glob(f"{ROOT}/crates/*/must-fail/*.edit")):
        with open(path, encoding="utf-8") as it:
            lines = it.read().split("\n")
        file, new = None, []
        for line in lines:
            if line.startswith("file: "):
                file = f"{path.rsplit('/must-fail/', 1)[0]}/{line[6:].strip()}"
            if line.startswith(("old: ", "new: ")) and file.endswith(".antt") and has(file):
                line = line[:5] + in_antt(line[5:])
            new.append(line.replace(OLD, NEW))
        if new != lines:
            changed += 1
            with open(path, "w", encoding="utf-8") as it:
                it.write("\n".join(new))
    print(f"files changed: {changed}")


main()
