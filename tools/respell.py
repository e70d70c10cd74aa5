#!/usr/bin/env python3
"""Spells the names that specs/ and proofs/ declare in snake case: lastEnd becomes last_end, each-at becomes each_at.

usage: tools/respell.py [FOLDER]     at the top of the repository (or of FOLDER), once, after the kit's port.py

A definition (a word of a contract) keeps the plain name. A lemma that would have a definition's name gets _lem after it, as the kit
names such lemmas. Types, facts and modules keep their capitals, functions of src/ and their fields keep their names, and so does what is
declared at a goal of a proof (tie.Need-..). Must-fail edits turn with the texts that they change.
"""

import collections
import os
import re
import sys

WORD = re.compile(r'[^\s(){}\[\].;,@"«»]+')
DECLARED = re.compile(r"^ *(?P<kinds>(?:(?:pub|abbrev|unfoldable|data|record|open|private) +)*)(?P<name>[^\s(){}.;,@\"«»]+)(?P<rest>(?: \{[^{}\n]*\})*(?: \([^()\n]*\))* : .*)$", re.M)
COMMENT = re.compile(r'(?<![^\s(){}.;,@"«»])--[^\n]*')
GHOST = re.compile(r"ghost\s+use\b[^;]*;|\b(?:requires|ensures)\*?\s*(?:\w+\s*)?\{|\bghost\s+\w+\s*[:=]\s*\{")


def files(top, ends):
    for folder, dirs, names in os.walk(os.path.join(top, "crates")):
        dirs[:] = sorted(d for d in dirs if d != "out")
        for name in sorted(names):
            if name.endswith(ends):
                yield os.path.join(folder, name)


def read(path):
    with open(path, encoding="utf-8") as f:
        return f.read()


def in_snake_case(name):
    words = re.sub(r"(?<=[a-z0-9])[A-Z]", lambda m: "_" + m[0].lower(), name)
    return words.replace("-", "_")


def names_of(top):
    """The names that are declared, each with its files, and those that are definitions."""
    where, words = collections.defaultdict(set), set()
    for path in files(top, ".antt"):
        in_proof = "/proofs/" in path and os.path.basename(path) in ("Proof.antt", "Answers.antt", "Invariants.antt")
        for m in DECLARED.finditer(COMMENT.sub("", read(path))):
            name, kinds = m["name"], m["kinds"].split()
            if not name[0].islower() and name[0] not in "μ":
                continue
            if re.match(r" : (tie|goal|stated)\.", m["rest"]):
                where[name].add("goal")
                continue
            where[name].add(path)
            if not in_proof and ("abbrev" in kinds or "unfoldable" in kinds or re.search("[a-z0-9][A-Z]", name)):
                words.add(name)
    return where, words


def table(top):
    where, words = names_of(top)
    new = {name: in_snake_case(name) for name in where if "goal" not in where[name]}
    for word in words:
        for name in where:
            if name != word and name not in words and new.get(name) == new.get(word, word):
                new[name] = new[name] + "_lem"
    return {old: to for old, to in new.items() if old != to}, where


USE = re.compile(r"\buse ([^\s;{]+)\.\{([^}]*)\}")


def without_kit(text, names, crates):
    """The names without those that this file brings in from the kit's libraries."""
    kit = set()
    for path, items in USE.findall(text):
        steps = path.split(".")
        if steps[0] != "Rattle" or steps[1] not in crates:
            kit.update(WORD.findall(items))
    return {old: to for old, to in names.items() if old not in kit}


def turned(text, names, modules=()):
    """Each word that is no field: it stands behind no dot, or behind a module."""

    def one(m):
        word = m[0]
        if word not in names:
            bare = word.rstrip("'")
            return names[bare] + word[len(bare) :] if bare in names and bare != word else word
        at = m.start()
        if at and text[at - 1] == ".":
            head = re.search(r"[\w'-]+$", text[max(0, at - 60) : at - 1])
            if not (head and (head[0][0].isupper() or head[0] in modules)) and word not in FIELDS:
                return word
        return names[word]

    return WORD.sub(one, text)


FIELDS = set()


SPAN = re.compile(r"`[^`\n]+`")
NOTE = re.compile(r"(?:--|//)[^\n]*")


def spans(text, names):
    """A comment's or a page's code spans: the words in them."""
    return SPAN.sub(lambda m: re.sub(r"[\w'-]+", lambda w: names.get(w[0], w[0]), m[0]), text)


def fields_of(top):
    """The names of fields of records that specs/ and proofs/ declare."""
    for path in files(top, ".antt"):
        inside = False
        for line in COMMENT.sub("", read(path)).splitlines():
            if re.match(r" *(pub )?record \S+.* where$", line):
                inside, depth = True, len(line) - len(line.lstrip())
            elif inside and line.strip():
                if len(line) - len(line.lstrip()) <= depth:
                    inside = False
                else:
                    m = DECLARED.match(line)
                    if m:
                        FIELDS.add(m["name"])


def turned_rt(text, names):
    """In a .rt file: ghost use items, clauses and ghost blocks."""
    out, at = [], 0
    while True:
        m = GHOST.search(text, at)
        if not m:
            out.append(text[at:])
            return "".join(out)
        out.append(text[at : m.start()])
        end = m.end()
        if not m[0].endswith(";"):
            depth = 1
            while depth:
                depth += {"{": 1, "}": -1}.get(text[end], 0)
                end += 1
        out.append(turned(text[m.start() : end], names))
        at = end


def main():
    top = sys.argv[1] if len(sys.argv) > 1 else "."
    all_names, _ = table(top)
    names = all_names
    fields_of(top)
    crates = set(os.listdir(os.path.join(top, "crates")))
    pages = [os.path.join(top, "README.md")] + [os.path.join(top, "docs", it) for it in sorted(os.listdir(os.path.join(top, "docs")))]
    for path in pages:
        if path.endswith(".md") and os.path.basename(path) != "PORT.md":
            text = read(path)
            to = spans(text, names)
            if to != text:
                with open(path, "w", encoding="utf-8") as f:
                    f.write(to)
    for path in files(top, (".antt", ".rt", ".edit")):
        text = read(path)
        names = without_kit(text, all_names, crates)
        if path.endswith(".antt"):
            to = turned(text, names, set(re.findall(r"\.(?:specs\.[\w.]+|proofs\.[A-Z]\w*) as (\w+)", text)))
        elif path.endswith(".rt"):
            to = turned_rt(text, names)
        elif re.search(r"^file: (specs|proofs)/", text, re.M):
            to = "\n".join(turned(it, names) if it.startswith(("old:", "new:")) else it for it in text.split("\n"))
        else:
            to = text
        if path.endswith((".antt", ".rt")):
            to = NOTE.sub(lambda m: spans(m[0], names), to)
        if to != text:
            with open(path, "w", encoding="utf-8") as f:
                f.write(to)


if __name__ == "__main__":
    main()
