#!/usr/bin/env python3
"""Lists the places of docs/DESIGN-PASS.md in the sources: places.py [FOLDER] [--list].

Tests (tests.rt) are left out. With --list each place is printed, with its file and line.
"""
import glob
import os
import re
import sys

ROWS = [
    ("1a enums", r"^\s*(pub(\([a-z]+\))? )?enum "),
    ("1b errors passed on by hand", r"Err\([a-z_]+\) => (return )?Err\(|Err\(_\) => (return )?Err\(|if let Err\(|Ok\(\(\)\) => Ok\("),
    ("1c options and results taken apart by let-else", r"let (Some|Ok)\(.*\) = .* else \{"),
    ("1d theorem functions that answer a number", r"^pub fn [a-z_]+(<[^>]*>)?\([^)]*\) -> u8$"),
    ("1e outcomes as bytes", r"outcome: u8"),
    ("2a loops that gather a set", r"^\s*[a-z_]+ = [a-z_]+\.with\("),
    ("2b loops that look for the first that fails", r"^\s*return Some\((v|k|core)\);"),
    ("3a loops over numbers", r"^\s*for .* in \(?[0-9]+\.\."),
    ("3b while loops", r"^\s*while "),
    ("3c counters", r"^\s*[a-z_.]+ \+= 1;"),
    ("4 answers true and false in a match", r"=> (true|false),?$"),
    ("5a slot below 16 in a requires", r"^\s*requires .*< 16"),
    ("5b at most 64 nodes in a requires", r"^\s*requires .*(length nodes\.now ≤ 64|Ranged|BranchesFew|Nested)"),
    ("5c at most 16 cores in a requires", r"^\s*requires .*≤ 16"),
    ("6a fixed buffers and lengths", r"^\s*(pub(\([a-z]+\))? )?(items: \[|len: usize)"),
    ("6b arrays by slot or by node in a signature or a field", r"(: |-> |&|&mut )\[[^\]]*; (16|64)\]"),
    ("7 function pointers, dyn and kinds passed to pick a step", r"\bdyn\b|: fn\(|kind: ArcKind"),
]


KEPT_WORDS = set(
    "fn let mut if else match for in while return pub crate self Self impl struct enum true false Some None Ok Err usize u8 u16 u32 "
    "u64 i64 bool ref as loop break continue where use mod const type trait".split()
)


def shapes(folder):
    """Functions of 14 tokens or more whose bodies differ in names and numbers alone."""
    groups = {}
    for path in sources(folder):
        with open(path, encoding="utf-8") as text:
            code = re.sub(r"//.*", "", text.read())
        for found in re.finditer(r"\bfn (\w+)", code):
            opening = re.compile(r"\n\s*\{\n|\) (?:-> [^\n{]+ )?\{\n").search(code, found.end())
            if not opening:
                continue
            end, depth = opening.end(), 1
            while end < len(code) and depth:
                depth += {"{": 1, "}": -1}.get(code[end], 0)
                end += 1
            tokens = re.findall(r"\w+|[^\w\s]", code[opening.end():end - 1])
            if len(tokens) < 14:
                continue
            shape = " ".join(
                t if t in KEPT_WORDS else "0" if t[0].isdigit() else "x" if t[0].isalnum() or t[0] == "_" else t for t in tokens
            )
            groups.setdefault(shape, []).append(f"{os.path.relpath(path, folder)} {found.group(1)}")
    return [group for group in groups.values() if len(group) > 1]


def sources(folder):
    for path in sorted(glob.glob(os.path.join(folder, "crates", "*", "src", "*.rt"))):
        if not path.endswith("tests.rt"):
            yield path


def main():
    args = [a for a in sys.argv[1:] if a != "--list"]
    folder = args[0] if args else "."
    show = "--list" in sys.argv
    for name, pattern in ROWS:
        found = []
        for path in sources(folder):
            with open(path, encoding="utf-8") as text:
                for number, line in enumerate(text, 1):
                    if line.lstrip().startswith("//"):
                        continue
                    if re.search(pattern, line.rstrip("\n")):
                        found.append((os.path.relpath(path, folder), number, line.strip()))
        print(f"{len(found):4}  {name}")
        if show:
            for path, number, line in found:
                print(f"        {path}:{number}: {line}")
    twins = shapes(folder)
    print(f"{len(twins):4}  2c groups of functions of one shape")
    if show:
        for group in twins:
            print("        " + ", ".join(group))
    answers = glob.glob(os.path.join(folder, "crates", "*", "proofs", "**", "Answers.antt"), recursive=True)
    invariants = glob.glob(os.path.join(folder, "crates", "*", "proofs", "**", "Invariants.antt"), recursive=True)
    lines = 0
    for path in glob.glob(os.path.join(folder, "crates", "*", "proofs", "**", "*.antt"), recursive=True):
        with open(path, encoding="utf-8") as text:
            lines += sum(1 for _ in text)
    print(f"{len(answers):4}  8a files of answers")
    print(f"{len(invariants):4}  8b files of invariants")
    print(f"{lines:4}  8c lines of proofs")


main()
