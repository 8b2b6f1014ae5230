#!/usr/bin/env python3
"""Brings the names that the specs and proofs declare to one spelling.

Types and facts go to upper camel case (Has-branch -> HasBranch), all else to
snake case (taken-kept -> taken_kept). Names of Rattle source, names that the
check makes (goals, steps, invariants) and names of the library stay.

usage: tools/respell.py [--dry] [FOLDER]
"""
import os
import re
import sys

WORD = r"[^\s(){}\[\];,.:→λ⌜⌝\"|↦=∷«»←`]"
TOKEN = re.compile(WORD + "+")


# Names that would fall together with a function or a variant of the source.
CHOSEN = {
    "div-up": "div_ceil",
    "work-ahead": "work_ahead_of",
    "first-bound": "first_bound_of",
    "first-bounds": "first_bounds_of",
    "caps-of": "caps_under",
    "Homes-are-openings": "AllHomesAreOpenings",
    "Mates-pair-up": "AllMatesPairUp",
    "Branches-count-up": "AllBranchesCountUp",
    "Arcs-are-lawful": "AllArcsAreLawful",
    "One-first-one-last": "AllHaveOneFirstOneLast",
    "Blocks-are-wired": "AllBlocksAreWired",
}


def antt_files(top, parts):
    for folder, _, names in sorted(os.walk(os.path.join(top, "crates"))):
        bits = os.path.relpath(folder, top).split(os.sep)
        if "out" in bits or len(bits) < 3 or bits[2] not in parts:
            continue
        for name in sorted(names):
            if name.endswith((".antt", ".rt")):
                yield os.path.join(folder, name)


def new_spelling(name, functions):
    if name in CHOSEN:
        return CHOSEN[name]
    if "-" not in name.strip("-"):
        return name
    if not re.fullmatch(r"[\w'-]+", name):
        return name
    if name[0].isupper() and name[0].isascii():
        return "".join(part[:1].upper() + part[1:] for part in name.split("-"))
    new = name.replace("-", "_")
    # a lemma that would have a function's name
    return new + "_lem" if new in functions else new


FUNCTION = re.compile(r"\b(?:fn|mod)\s+([a-z]\w*)")
ALIAS = re.compile(r"\bas\s+([A-Za-z][\w']*-[\w'-]*)")


DECLARED = re.compile(
    r"^(?P<indent>\s*)(?:infix\w* \d+ )?(?:abbrev\s+|unfoldable\s+|package\s+)?(?:pub\s+)?(?:record\s+|data\s+|ruleset\s+)?(?P<name>"
    + WORD + r"+)\s*(?:\([^=]*|\{[^=]*)?\s*:(?P<rest>.*)$"
)


def without_comment(line):
    return re.sub(r"(^|\s)--(\s.*|$)", r"\1", line)


def declared_in(path):
    names = set()
    for line in open(path, encoding="utf8"):
        line = without_comment(line.rstrip("\n"))
        m = DECLARED.match(line)
        if not m or "goal." in m["rest"].split("→")[-1] and m["rest"].strip().startswith("goal."):
            continue
        name = m["name"]
        if name in ("use", "let", "in", "where", "module", "_"):
            continue
        names.add(name)
    return names


def made_in(path):
    """the names of goals, invariants and measures that a proof file answers"""
    made = set()
    for line in open(path, encoding="utf8"):
        m = DECLARED.match(without_comment(line.rstrip("\n")))
        if m and m["rest"].strip().startswith("goal."):
            made.add(m["name"])
    return made


USE = re.compile(r"use\s+([^;{}\n]*?)\.?\{([^}]*)\}")


def foreign_in(text, own_crates):
    """the names that a file imports from outside the repository, or from a function's goals"""
    names = set()
    for path, items in USE.findall(text):
        head = path.split(".")
        own = head[0] == "Rattle" and len(head) > 1 and head[1] in own_crates
        if own and not path.endswith((".Goals", ".Given")):
            continue
        for item in items.split(","):
            names.add(re.split(r"\s+as\s+", item.strip())[0])
    return names


def turned(text, table, keep):
    def word(m):
        got = m.group(0)
        if got in keep:
            return got
        core = got.rstrip("'")
        return table.get(got, table[core] + got[len(core):] if core in table and got not in table else got)
    return TOKEN.sub(word, text)


def main():
    args = [a for a in sys.argv[1:] if a != "--dry"]
    dry = "--dry" in sys.argv
    top = args[0] if args else "."
    crates = {n for n in os.listdir(os.path.join(top, "crates"))}
    files = list(antt_files(top, ("specs", "proofs", "src")))
    declared, made, functions = set(), set(), set()
    for path in files:
        text = open(path, encoding="utf8").read()
        for _, items in USE.findall(text):
            declared |= set(ALIAS.findall(items))
        if path.endswith(".antt"):
            declared |= declared_in(path)
            made |= made_in(path)
        else:
            functions |= set(FUNCTION.findall(text))
    table = {}
    for name in sorted(declared - made):
        new = new_spelling(name, functions)
        if new != name:
            table[name] = new
    clash = 0
    back = {}
    for old, new in table.items():
        back.setdefault(new, []).append(old)
    for new, olds in sorted(back.items()):
        if len(olds) > 1:
            print("falls together:", olds, "->", new)
            clash += 1
    for path in files:
        text = open(path, encoding="utf8").read()
        keep = foreign_in(text, crates)
        words = set(TOKEN.findall(text))
        for old in words & set(table):
            if old not in keep and table[old] in words:
                print("in use already:", path, old, "->", table[old])
                clash += 1
        out = turned(text, table, keep)
        if path.endswith(".rt"):
            out = ghost_only(text, table, keep)
        if out != text and not dry:
            open(path, "w", encoding="utf8").write(out)
    pages = [os.path.join(top, "README.md")] + [os.path.join(top, "docs", n) for n in sorted(os.listdir(os.path.join(top, "docs"))) if n != "PORT.md"]
    for page in pages:
        if not os.path.isfile(page) or not page.endswith(".md"):
            continue
        text = open(page, encoding="utf8").read()
        out = re.sub(r"`[^`\n]+`", lambda m: turned(m.group(0), table, set()), text)
        if out != text and not dry:
            open(page, "w", encoding="utf8").write(out)
    for old, new in sorted(table.items()):
        if dry:
            print(f"{old}\t{new}")
    print(len(table), "names,", clash, "to look at", file=sys.stderr)


def ghost_only(text, table, keep):
    """a dash joins no name in Rust, so only the names of clauses can match: strings and comments stay"""
    out = []
    for part in re.split(r'("(?:\\.|[^"\\])*"|//[^\n]*)', text):
        out.append(part if part.startswith(('"', "//")) else turned(part, table, keep))
    return "".join(out)


main()
