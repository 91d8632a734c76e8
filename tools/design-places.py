#!/usr/bin/env python3
"""Counts, in the code of all crates (crates/*/src), the places that docs/DESIGN-PASS.md counts, point by point.

usage: design-places.py [--list] [FOLDER]      FOLDER: the top of a checkout (this one)
With --list each place stands in a line of its own below its count."""
import glob
import os
import re
import sys

args = [it for it in sys.argv[1:] if it != "--list"]
listed = "--list" in sys.argv
top = args[0] if args else os.path.dirname(os.path.dirname(os.path.abspath(__file__)))
files = sorted(glob.glob(f"{top}/crates/*/src/**/*.rt", recursive=True))
text = {os.path.relpath(it, top)[len("crates/"):].replace("/src", ""): open(it).read() for it in files}


def code_of(t):
    """The text without comments and clauses."""
    t = re.sub(r"//[^\n]*", "", t)
    return re.sub(r"(?m)^\s*(requires|ensures|ghost)\b.*$", "", t)


code = {name: code_of(t) for name, t in text.items()}


def found(pattern, where=code, flags=re.M):
    return [f"{n}: {' '.join(m.group(0).split())}" for n, t in where.items() for m in re.finditer(pattern, t, flags)]


def functions():
    for name, t in code.items():
        for m in re.finditer(r"\bfn (\w+)[^{;]*?\{", t):
            depth, i = 1, m.end()
            while depth and i < len(t):
                depth += {"{": 1, "}": -1}.get(t[i], 0)
                i += 1
            yield name, m.group(1), t[m.start():m.end()], t[m.end():i]


def shape(head, body):
    """A function's tokens, with names, numbers and texts left open."""
    words = re.findall(r"[A-Za-z_]\w*|\d[\d_]*|b?\"[^\"]*\"|b?'[^']*'|\S", head + body)
    keep = {"fn", "let", "mut", "if", "else", "while", "for", "in", "return", "match", "as", "self", "Some", "None", "Ok", "Err"}
    return " ".join(w if w in keep or not re.match(r"[\w\"']|b[\"']", w) else "_" for w in words)


def report(name, places):
    print(f"{len(places):5} {name}")
    if listed:
        for it in places:
            print(f"        {it}")


all_functions = list(functions())
print("1. Option, Result, enums")
report("own enums of the shape of Option or Result", found(r"^pub enum (Verdict|Judged|Answer|FirstMove|Asked|Mended)\b"))
report("uses of their variants", found(r"\b(Verdict|Judged|Answer|FirstMove|Asked|Mended)::\w+"))
report("fields that say whether the other fields count", found(r"^\s+pub (stop|verdict): \w+|^pub struct (Keyword|Understood)\b"))
report("a place or a number of 0 for none: tests for it", found(r"if \w+(\.\w+)? [!=]= 0 \{\s+return \S+;|if \w+ == 0 \{\s+return 0;"))
report("named values for none", found(r"\b(NO_DIGIT|NO_RELATION|NO_ITEM|NO_NOTE|NO_STATE)\b"))
report("numbers for kinds: constants", found(r"^(pub )?const [A-Z_]+: usize = (\d+|b'.*' as usize);"))
report("numbers for refusals: constants", found(r"^(pub )?const [A-Z_]+: u8 = \d+;"))
print("2. Twins")
by = {}
for name, f, head, body in all_functions:
    if len((head + body).split()) > 18:
        by.setdefault(shape(head, body), []).append(f"{name}: {f}")
groups = [v for v in by.values() if len(v) > 1]
report("functions of one shape with another (names, numbers and texts left open)", [", ".join(v) for v in groups])
print(f"{sum(len(v) for v in groups):5} functions in these groups")
seen = {}
for name, f, head, body in all_functions:
    seen.setdefault(f, []).append(name)
report("names of private or shared helpers that stand in several crates", [f"{f}: {', '.join(v)}" for f, v in seen.items() if len({n.split('/')[0] for n in v}) > 1])
print("3. Loops")
report("while and loop", found(r"\b(while|loop)\b[^\n]*"))
report("for", found(r"\bfor \S+ in [^\n]*"))
print("4. Conversions and equality by hand")
report("functions that only convert", [f"{n}: {f}" for n, f, h, b in all_functions if f in ("wide", "bit", "in_numbers", "verdict_in_numbers", "asked_in_numbers", "move_in_numbers", "is_largest", "tell", "tell_mended", "bare", "valued")])
print("5. Parameters and facts that travel together")
report("functions of seven parameters and more", [f"{n}: {f} ({len(re.findall(r':', re.sub(r'->.*', '', h)))})" for n, f, h, b in all_functions if len(re.findall(r"\w\s*: ", re.sub(r"->.*", "", h, flags=re.S))) >= 7])
facts = {}
for n, t in text.items():
    for m in re.finditer(r"requires(?: \w+)? \{ (.*) \}", t):
        facts.setdefault(m.group(1), []).append(n)
report("facts in the requires of three functions and more", [f"{len(v)} times: {k}" for k, v in facts.items() if len(v) > 2])
print("6. Arrays as structs, parallel arrays")
report("the state of reading as an array of numbers", found(r"\[usize; STATE\]"))
report("rows of statements as an array of numbers", found(r"\[usize; ROW_PLACES\]"))
report("kinds and dues in two arrays", found(r"let (kinds|dues) ="))
print("7. Switches on which step to run")
report("functions that only choose a function by a number", [f"{n}: {f}" for n, f, h, b in all_functions if len(re.findall(r"if \w+ == \w+ \{\s*return \w+\(", b)) > 1])
print("8. Proofs")
for what in ("Answers", "Invariants"):
    its = glob.glob(f"{top}/crates/*/proofs/**/{what}.antt", recursive=True)
    print(f"{len(its):5} files {what}.antt, {sum(len(open(it).read().splitlines()) for it in its)} lines")
its = glob.glob(f"{top}/crates/*/proofs/**/*.antt", recursive=True)
print(f"{len(its):5} files of proofs in all, {sum(len(open(it).read().splitlines()) for it in its)} lines")
