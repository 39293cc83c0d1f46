#!/usr/bin/env python3
"""Brings the definitions and lemmas of specs/ and proofs/ to today's spelling, once, after the kit's port.py.

usage: python3 tools/respell.py            at the top of the checkout

Functions, lemmas, fields and variables go into snake case; facts and types stay in upper camel case and lose
their dashes. A dash stays between two words that both name a definition, as in `length-padded`; any other
becomes an underscore. Two crates had names of libraries of the kit, and get others. Names that Rattle makes
(goals and their fields), names of the library, of src/ and strings stay. Nothing else changes.
"""

import collections
import os
import re
import subprocess
import sys

LETTER = r"A-Za-z\u0370-\u03ffℕℤ₀-₉"
TOKEN = re.compile(rf"[{LETTER}_][{LETTER}0-9_'\-+]*")
SIGNATURE = re.compile(r"^\s*((?:pub |abbrev |unfoldable |data |record )*)([^\s:(){}λ=\[\],]+)((?: [({].*)?) : (.*)$")
BINDER = re.compile(rf"[({{]((?:[{LETTER}_][{LETTER}0-9_'\-]* )+):")
LAMBDA = re.compile(r"λ ([^.]*)\.")
LET = re.compile(rf"\blet ([{LETTER}_][{LETTER}0-9_'\-]*)")
GOAL = re.compile(rf"\bgoal\.([{LETTER}0-9_'\-+]+)")
LIBRARY = ["core", "std", "std_alloc", "std_collections", "std_heap", "std_io", "logic"]
KIT = "/opt/rattle/rattle"

# Crates that were named as a library of the kit.
CRATES = {"bytes": "byte_strings", "md5": "md5_digest"}

# Names that the rule would give a name that stands already, or that say an older word of the library.
BY_HAND = {
    "getD-block": "slice_index-block",
    "low-bytes": "Octets-low_bytes",
    "step_of_lem": "step_of",
}


def files(root, endings):
    for folder, dirs, names in os.walk(os.path.join(root, "crates")):
        dirs[:] = sorted(d for d in dirs if d not in ("out", ".git"))
        for name in sorted(names):
            if name.endswith(endings):
                yield os.path.join(folder, name)


def read(path):
    with open(path, encoding="utf-8") as f:
        return f.read()


def bare(text):
    return re.sub(r"--.*", "", text)


def snake(word):
    return re.sub(r"([a-z0-9])([A-Z])", lambda m: m[1] + "_" + m[2].lower(), word)


def camel(word):
    return "".join(p[:1].upper() + p[1:] for p in word.split("-"))


def library():
    words = set()
    for top in LIBRARY:
        for folder, _, names in os.walk(os.path.join(KIT, top)):
            for name in names:
                if name.endswith(".antt"):
                    words |= set(TOKEN.findall(read(os.path.join(folder, name))))
    return words


def is_old(word):
    return "-" in word or (word[:1].islower() and re.search(r"[a-z0-9][A-Z]", word) is not None)


def found(root):
    """The names of this repository: definitions with their kind, variables; and the names that Rattle made."""
    defined, variables, made = {}, set(), set()
    for path in files(root, ".antt"):
        text = bare(read(path))
        for g in GOAL.findall(text):
            made.add(g)
        for line in re.findall(r"^use Rattle\.[\w.+'-]*\.(?:Goals|Given)\.\{([^}]*)\}", text, re.M):
            made |= set(TOKEN.findall(line))
        inside = None
        for line in text.split("\n"):
            if not line.strip() or line.lstrip().startswith("module "):
                inside = None
            if line.lstrip().startswith(("use ", "module ", "let ", "rw ", "elim ")):
                continue
            m = SIGNATURE.match(line)
            if m:
                words, name, _, kind = m.groups()
                if words.strip().endswith(("record", "data")) or "record" in words or "data" in words:
                    inside = "field"
                    defined.setdefault(name, "type")
                elif line.startswith((" ", "\t")) and inside:
                    if not kind.startswith("goal."):
                        defined.setdefault(name, "field")
                else:
                    if not line.startswith((" ", "\t")):
                        inside = None
                    if not kind.startswith("goal."):
                        defined.setdefault(name, "type" if name[:1].isupper() else "word")
            elif line and not line.startswith((" ", "\t")):
                inside = None
        for b in BINDER.findall(text):
            variables |= set(b.split())
        for b in LAMBDA.findall(text):
            variables |= set(TOKEN.findall(re.sub(r":[^)]*\)", ")", b)))
        variables |= set(LET.findall(text))
        variables |= set(re.findall(r"\bas ([\w'-]+)[,}]", text))
    for path in files(root, ".rt"):
        for line in read(path).split("\n"):
            if line.startswith("ghost use"):
                variables |= set(re.findall(r"\bas ([\w'-]+)[,}]", line))
    return defined, variables, made


def definitions(root):
    """What specs/ defines by abbrev, unfoldable, record or data: the names that a lemma's name joins."""
    words = set()
    for path in files(root, ".antt"):
        for m in re.finditer(r"^\s*(?:abbrev pub|unfoldable pub|abbrev|pub record|pub data) ([^\s:]+)", bare(read(path)), re.M):
            words.add(m[1])
    return words


def imported(root):
    words = set()
    for path in files(root, ".antt"):
        for line in re.findall(r"^use Rattle\.std\.[^{]*\{([^}]*)\}", read(path), re.M):
            words |= set(TOKEN.findall(line))
    return words


def mapping(root):
    std = library()
    defined, variables, made = found(root)
    known = {snake(n) for n in definitions(root)} | imported(root) & std
    renamed = {}
    for name in sorted(set(defined) | variables):
        if name in BY_HAND:
            renamed[name] = BY_HAND[name]
        elif not is_old(name) or name in std or (name in made and name not in defined):
            continue
        elif defined.get(name) == "type" or (name[:1].isupper() and name not in std):
            renamed[name] = camel(name)
        elif defined.get(name) != "word":
            renamed[name] = snake(name).replace("-", "_")
        else:
            parts = [snake(p) for p in name.split("-")]
            new = parts[0]
            for left, right in zip(parts, parts[1:]):
                joined = "-" if left in known and right in known and len(left) > 1 and len(right) > 1 else "_"
                new += joined + right
            renamed[name] = new
    return {a: b for a, b in renamed.items() if a != b}, defined, variables, made, std


def respelled(text, renamed):
    def word(m):
        name = m[0].rstrip("'")
        return renamed.get(name, name) + m[0][len(name):]

    return TOKEN.sub(word, text)


def outside_strings(text, change):
    parts = re.split(r"(\"(?:[^\"\\\n]|\\.)*\")", text)
    return "".join(p if i % 2 else change(p) for i, p in enumerate(parts))


def crates_renamed(text):
    for old, new in CRATES.items():
        text = re.sub(rf"\bRattle\.{old}\.", f"Rattle.{new}.", text)
        text = re.sub(rf"(?<![\w:.]){old}::", f"{new}::", text)
    return text


def turn(root):
    renamed = mapping(root)[0]
    for path in files(root, (".antt", ".rt", ".edit")):
        old = read(path)
        new = crates_renamed(outside_strings(old, lambda t: respelled(t, renamed)))
        if new != old:
            with open(path, "w", encoding="utf-8") as f:
                f.write(new)
    path = os.path.join(root, "crates.txt")
    lines = []
    for line in read(path).split("\n"):
        if not line.startswith("#"):
            line = " ".join(CRATES.get(w.rstrip(":"), w.rstrip(":")) + ":" * w.endswith(":") for w in line.split(" "))
        lines.append(line)
    with open(path, "w", encoding="utf-8") as f:
        f.write("\n".join(lines))
    for old, new in CRATES.items():
        subprocess.run(["git", "mv", f"crates/{old}", f"crates/{new}"], cwd=root, check=True)
    for crate in sorted(os.listdir(os.path.join(root, "crates"))):
        subprocess.run(["rt", "fmt"], cwd=os.path.join(root, "crates", crate), check=True, stdout=subprocess.DEVNULL)


if __name__ == "__main__":
    if sys.argv[1:] == ["--list"]:
        for a, b in sorted(mapping(".")[0].items()):
            print(a, "->", b)
    elif not sys.argv[1:]:
        turn(".")
    else:
        print(__doc__)
        raise SystemExit(2)
