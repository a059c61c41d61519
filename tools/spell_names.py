#!/usr/bin/env python3
"""Respells this repository's own antt names: words in snake case, a dash only between two names.

usage: tools/spell_names.py          rewrites crates/, docs/ and README.md, and prints each name that it respells
       tools/spell_names.py --list   prints the names by crate and writes nothing

What is respelled: definitions, lemmas, constructors and record fields of specs/ and proofs/, and variables in the lemma
files of proofs/. Functions of src/, names that the toolchain makes for goals, types, modules and strings stay. A dash stays
between two words that both name a definition, and a hyphen with a plain word becomes an underscore. Names of the pages that
the toolchain's own script respelled before are brought up to date in docs/ and README.md.
Run it once, right after that script.
"""

import os
import re
import subprocess
import sys

ROOT = subprocess.run(["git", "rev-parse", "--show-toplevel"], capture_output=True, text=True, check=True).stdout.strip()
WORD = r"[a-z][\wℤℕ']*(?:-[\wℤℕ']+)*"
TOKEN = re.compile(r"(?<![\w'.«-])(" + WORD + r")(?![\w'»-])|(?<=\.)(" + WORD + r")(?![\w'»-])")
# respelled by the toolchain's script; the pages still have the older names
PAGES = {"numberIn": "number_in", "linesOf": "lines_of", "numberOf": "number_of", "placeOf": "place_of", "sumOf": "sum_of", "moveOf": "move_of", "isNumber": "is_number", "parentOf": "parent_of", "isReached": "is_reached"}


# would fall together with another name
OTHERWISE = {"move-feed": "move_feed_lem", "no-feed": "no_feed_lem", "raises-after": "count_after"}


def files(*ends):
    out = subprocess.run(["git", "ls-files", "-co", "--exclude-standard"], cwd=ROOT, capture_output=True, text=True, check=True).stdout
    return sorted(f for f in out.split("\n") if f.endswith(ends) and os.path.isfile(os.path.join(ROOT, f)))


def read(path):
    with open(os.path.join(ROOT, path), encoding="utf-8") as f:
        return f.read()


def without_comments(text):
    return re.sub(r"--[^\n]*", "", text)


def imported_from_elsewhere(text):
    """The names that a file takes from the toolchain's libraries or from what the check makes of the code."""
    names = set()
    for module, items in re.findall(r"use ([\w.+·'-]+)\.\{([^}]*)\}", text):
        if re.match(r"Rattle\.(std|core)\b", module) or not module.startswith("Rattle.") or re.search(r"\.(Goals|Given|declared)\b", module):
            names |= {n.strip().split(" as ")[-1] for n in items.split(",")}
    return names


def is_lemma_file(path):
    return bool(re.fullmatch(r"crates/\w+/proofs/\w+\.antt", path))


def defined(path, text):
    """The definitions, constructors and record fields of a file."""
    names = set()
    for group in re.findall(r"(?m)^(?:abbrev |unfoldable |pub )*(" + WORD + r"(?: " + WORD + r")*) :(?! goal\.)", text):
        names |= set(group.split())
    for group in re.findall(r"(?m)^  (?:pub )?(" + WORD + r"(?: " + WORD + r")*) :", text):
        names |= set(group.split())
    return names


def own_names():
    """Per crate, the names that it defines and that want another spelling, with what they are in."""
    definitions, wanted, words = {}, {}, set()
    for path in files(".antt"):
        text = without_comments(read(path))
        crate = path.split("/")[1]
        in_folder = "/specs/" in path or is_lemma_file(path)
        found = defined(path, text) if in_folder else {n for n in re.findall(r"(?m)^(" + WORD + r") :(?! goal\.)", text)}
        for name in re.findall(r"(?m)^(?:abbrev |unfoldable |pub )*(" + WORD + r") :", text) if "/specs/" in path else []:
            words.add(name)
        outside = imported_from_elsewhere(text)
        words |= {n for n in outside if re.fullmatch(r"[a-z]\w*", n)}
        if is_lemma_file(path):
            for token in TOKEN.finditer(text):
                name = token.group(1) or token.group(2)
                if name not in outside and re.search(r"[A-Zℤ-]", name):
                    found.add(name)
        if in_folder:
            found |= {n for n in OTHERWISE if re.search(r"(?<![\w-])" + n + r"(?![\w-])", text)}
        if re.search(r"/proofs/\w", path) and not is_lemma_file(path):
            found |= set(re.findall(r"let (" + WORD + r") [:=]", text))
        for name in found - outside:
            definitions.setdefault(name, set()).add(crate)
    for name in definitions:
        if re.search(r"[A-Zℤ-]", name):
            wanted[name] = name
    return definitions, set(wanted), words


def snake(word):
    return re.sub(r"(?<=[a-z0-9'])([A-Zℤℕ])", r"_\1", word).lower()


def respelled(name, words):
    if name in OTHERWISE:
        return OTHERWISE[name]
    parts = name.split("-")
    out = snake(parts[0])
    for before, part in zip(parts, parts[1:]):
        out += ("-" if before in words and part in words else "_") + snake(part)
    return out


def change(text, names, strings=False):
    def one(m):
        name = m.group(1) or m.group(2)
        return names.get(name, name)

    if strings:
        return "".join(p if p.startswith('"') else TOKEN.sub(one, p) for p in re.split(r'("(?:[^"\\]|\\.)*")', text))
    return TOKEN.sub(one, text)


def main():
    definitions, wanted, words = own_names()
    names = {n: respelled(n, words) for n in sorted(wanted)}
    names = {n: to for n, to in names.items() if n != to}
    outside_all = set()
    together = []
    for path in files(".antt"):
        text = without_comments(read(path))
        outside = imported_from_elsewhere(text)
        outside_all |= outside
        here = {t.group(1) or t.group(2) for t in TOKEN.finditer(text)}
        news = {}
        for n in sorted(here & set(names)):
            if n in outside:
                together.append(f"{path}: {n} is a name of a library here")
            if names[n] in here or names[n] in news:
                together.append(f"{path}: {n} falls together with {names[n]}")
            news[names[n]] = n
    for line in together:
        print("look: " + line)
    for crate in sorted({c for n in names for c in definitions[n]}):
        print(f"{crate}: " + ", ".join(f"{n} → {names[n]}" for n in sorted(names) if crate in definitions[n]))
    if "--list" in sys.argv:
        return
    for path in files(".antt", ".rt", ".edit", ".md"):
        if path.startswith("docs/PORT"):
            continue
        old = read(path)
        if path.endswith(".md"):
            camel = {n: to for n, to in (PAGES | names).items() if re.search(r"[A-Z]", n)}
            new = change(old, camel)
        elif path.endswith(".antt"):
            new = change(old, names, True)
        else:
            camel = {n: to for n, to in names.items() if re.search(r"[A-Zℤ]", n)}
            new = change(old, camel, True)
        if new != old:
            with open(os.path.join(ROOT, path), "w", encoding="utf-8") as f:
                f.write(new)


main()
