#!/usr/bin/env python3
"""Respells the repository's own definitions and lemmas the way the installed Rattle spells its own: words in snake case,
types and facts in upper camel case. Run once at the top, right after the toolchain's port.py; a second run changes nothing.

    python3 tools/respell.py          # rewrites crates/, README.md and docs/
    python3 tools/respell.py --list   # prints each old name with its new one, and changes nothing

It renames what the files of specs/ and proofs/ declare, the fields of their records and the ghost fields of src/; a name of
the library that is spelled alike stays, since each file's imports say whose name it is. Goals keep the names that Rattle makes.
"""
import glob
import re
import sys

# Names whose plain respelling is taken. The library has `bit_and` and its kin as functions, so these lemmas on
# `bit (bit_and x y) i` are named by both calls, as the library names its own; a lemma that would have the name of the
# definition that it speaks of gets `_lem`, as the library's do.
BY_HAND = {
    "bit-and": "bit-bit_and",
    "bit-or": "bit-bit_or",
    "bit-xor": "bit-bit_xor",
    "care-of": "care_of_lem",
    "past-rows": "past_rows_lem",
    "past-slots": "past_slots_lem",
}

NAME = r"[^\s(){}\[\];,.:|\"`«»λ]+"
DECLARED = re.compile(
    r"^\s*(?:pub\s+)?(?:abbrev\s+|unfoldable\s+)?(?:pub\s+)?(record\s+|data\s+)?(?:pub\s+)?(" + NAME + r")(?:\s*\([^)]*\))*\s*:\s*(.*)$",
    re.M,
)
USED = re.compile(r"use\s+([^\s{};]+)\.\{([^}]*)\}")
TOKEN = re.compile(NAME)


def crates():
    return {folder.split("/")[1] for folder in glob.glob("crates/*/src")}


def new_spelling(name, is_type):
    if name in BY_HAND:
        return BY_HAND[name]
    if name in BY_HAND.values():
        return name
    if is_type or name[0].isupper():
        return "".join(part[:1].upper() + part[1:] for part in name.split("-"))
    snake = re.sub(r"(?<=[a-z0-9])([A-Z])", lambda m: "_" + m[1].lower(), name)
    return snake.replace("-", "_").replace("′", "'")


def declared(text):
    """The names that a file declares, goals aside: its definitions, lemmas and fields."""
    names = {}
    for kind, name, rest in DECLARED.findall(text):
        if rest.startswith("goal.") or name in ("use", "where", "module", "let") or name.startswith("--"):
            continue
        # a definition of a type ends in `Type 0`
        names[name] = bool(kind) or bool(re.search(r"→\s*Type 0\s*$|^Type 0\s*$", rest))
    return names


def ghost_fields(text):
    return set(re.findall(r"^\s+ghost ([A-Za-z_]+): \{", text, re.M))


def main():
    own = crates()
    antt = sorted(glob.glob("crates/*/specs/**/*.antt", recursive=True) + glob.glob("crates/*/proofs/**/*.antt", recursive=True))
    code = sorted(glob.glob("crates/*/src/**/*.rt", recursive=True))
    text = {f: open(f, encoding="utf-8").read() for f in antt + code}
    renamed = {}
    for f in antt:
        for name, is_type in declared(text[f]).items():
            new = new_spelling(name, is_type)
            if new != name:
                renamed[name] = new
    for f in code:
        for name in ghost_fields(text[f]):
            new = new_spelling(name, False)
            if new != name:
                renamed[name] = new
    # a new name that some file speaks of already, or that two old names would share
    seen = {}
    for f in antt + code:
        for token in TOKEN.findall(re.sub(r"--.*|//.*", "", text[f])):
            seen.setdefault(token, set()).add(f)
    by_new = {}
    for old, new in renamed.items():
        by_new.setdefault(new, []).append(old)
    for new, olds in sorted(by_new.items()):
        if len(olds) > 1:
            print(f"falls together: {new} from {sorted(olds)}", file=sys.stderr)
        elif new in seen:
            print(f"there already: {new} (for {olds[0]}) in {sorted(seen[new])}", file=sys.stderr)
    if "--list" in sys.argv[1:]:
        for old in sorted(renamed):
            print(f"{old} → {renamed[old]}")
        return
    for f in antt + code:
        library = set()
        for path, items in USED.findall(text[f]):
            parts = path.split(".")
            if not (parts[0] == "Rattle" and len(parts) > 1 and parts[1] in own):
                library |= {item.split(" as ")[-1].strip() for item in items.split(",")}

        def respelled(m):
            token = m[0]
            return token if token in library else renamed.get(token, token)

        # the text of a program's strings stays
        parts = re.split(r'("(?:\\.|[^"\\\n])*")', text[f]) if f.endswith(".rt") else [text[f]]
        write(f, text[f], "".join(part if i % 2 else TOKEN.sub(respelled, part) for i, part in enumerate(parts)))
    for f in ["README.md"] + sorted(glob.glob("docs/*.md")):
        page = open(f, encoding="utf-8").read()
        write(f, page, re.sub(r"`[^`\n]+`", lambda m: TOKEN.sub(lambda t: renamed.get(t[0], t[0]), m[0]), page))


def write(f, old, new):
    if new != old:
        open(f, "w", encoding="utf-8").write(new)


main()
