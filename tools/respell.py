#!/usr/bin/env python3
"""Spells the repository's own definitions and lemmas as the libraries are spelled: words in snake case, types in upper camel case.

usage: tools/respell.py [--dry] FOLDER

A name that a file of specs/ or proofs/ declares and that is not so spelled is changed wherever it stands: in specs/ and proofs/, in the
clauses of src/, in must-fail/ and, between backticks, in the documents. In a lemma's name a dash joins two names, as in the libraries;
what specs/ declares has none. Functions of src/, exported names, strings, inputs and outputs keep theirs. A name that would fall together
with another one in some file is printed and left as it is.
"""
import glob
import os
import re
import sys

NAME = r'[^\s(){}.;,@"«»`]+'
DECLARED = re.compile(r"^\s*(?:(?:pub|abbrev|unfoldable)\s+)*((?:%s\s+)+):\s" % NAME)
TYPE = re.compile(r"^\s*(?:pub\s+)?(?:data|record)\s+(%s)" % NAME)
IN_FUNCTION = re.compile(r"crates/\w+/proofs/.*/(Proof|Answers|Invariants)\.antt$")
# What would fall together with a definition: three lemmas get their dash again, two fields another name.
APART = {
    "cut_short": "cut-short",
    "same_base": "same-base",
    "all_words": "all-words",
    "question-words": "asked_is",
    "own-list": "own_is",
}
MADE = re.compile(r"-(is|bits|end|fits)$")


def files(top):
    found = []
    for folder, _, names in os.walk(os.path.join(top, "crates")):
        if "/out" in folder:
            continue
        found += [os.path.join(folder, it) for it in names]
    return sorted(found)


def snake(name, joined):
    """Each part between dashes: a word goes into snake case; a part that begins with a capital names a type or a variant and stays."""
    parts = []
    for part in name.split("-"):
        if re.match(r"[^A-Z]*[a-z0-9]", part) and not part[0].isupper():
            part = re.sub(r"(?<=[a-z0-9])([A-Z])", lambda m: "_" + m[1].lower(), part)
        parts.append(part)
    return joined.join(parts)


def camel(name):
    return "".join(it[:1].upper() + it[1:] for it in re.split("[-_]", name))


def code(line):
    """The line without its comment."""
    at = line.find("--")
    return line if at < 0 else line[:at]


def declared(texts):
    new = {}
    for path, text in texts.items():
        if not path.endswith(".antt") or IN_FUNCTION.search(path):
            continue
        for line in text.split("\n"):
            line = code(line)
            kind = TYPE.match(line)
            if kind:
                if "-" in kind[1] or not kind[1][:1].isupper():
                    new[kind[1]] = camel(kind[1])
                continue
            names = DECLARED.match(line)
            if not names:
                continue
            for name in names[1].split():
                if name in ("pub", "abbrev", "unfoldable") or not re.search(r"\w", name):
                    continue
                if re.search(r"[<>=≤≡+*∷▹◌]", name):
                    continue
                if re.search(r"-$|^-", name) or name[:1].isupper() and "-" not in name:
                    continue
                to = snake(name, "_" if "/specs/" in path else "-")
                if to != name:
                    new[name] = to
    return new


def tokens(path, text):
    """The names of a text that stand behind no dot, those of comments and strings left out; of src/ the parameters and what it imports."""
    found = set()
    for line in text.split("\n"):
        if path.endswith(".antt"):
            found.update(re.findall(r"(?<![.])(?<![^\s(){}.;,@])" + NAME, code(line)))
        elif path.endswith(".rt"):
            line = re.sub(r"//.*", "", line)
            found.update(re.findall(r"\b(\w+):(?!:)", line))
            if line.startswith("ghost use"):
                found.update(re.findall(NAME, line))
    return found


def turned(path, text, new):
    made = IN_FUNCTION.search(path)

    def one(m):
        name = m[0]
        if made and MADE.search(name) and m.start() and m.string[m.start() - 1] == ".":
            return name
        if made and re.match(r"\.(ensures|result|now|new|exit)\b", m.string[m.end():]) and m.string[m.start() - 1] == ".":
            return name
        return new.get(name, name)

    lines = []
    for line in text.split("\n"):
        if path.endswith(".antt"):
            at = line.find("--")
            head, tail = (line, "") if at < 0 else (line[:at], line[at:])
            if made:
                goal = re.match(r"(pub )?(%s)( : \w+\.(?:Need|Goals|Given|goal)\b.*| : tie\..*| : goal\..*)" % NAME, head)
                if goal:
                    lines.append(line)
                    continue
            head = re.sub(NAME, one, head)
            tail = re.sub(NAME, lambda m: new.get(m[0], m[0]) if re.search(r"[a-z][A-Z]", m[0]) else m[0], tail)
            lines.append(head + tail)
        elif path.endswith(".rt"):
            parts = re.split(r'("[^"]*"|//.*)', line)
            for i in range(0, len(parts), 2):
                parts[i] = re.sub(NAME, one, parts[i])
            for i in range(1, len(parts), 2):
                if parts[i].startswith("//"):
                    parts[i] = re.sub(NAME, lambda m: new.get(m[0], m[0]) if re.search(r"[a-z][A-Z]", m[0]) else m[0], parts[i])
            lines.append("".join(parts))
        else:
            lines.append(re.sub(NAME, one, line))
    return "\n".join(lines)


def main():
    dry = "--dry" in sys.argv
    top = [it for it in sys.argv[1:] if it != "--dry"][0]
    texts = {}
    for path in files(top):
        if path.endswith((".antt", ".rt", ".edit")):
            texts[path] = open(path, encoding="utf-8").read()
    new = dict(declared(texts), **APART)
    words = {path: tokens(path, text) for path, text in texts.items()}
    apart = {}
    for old, to in new.items():
        apart.setdefault(to, []).append(old)
    for old, to in list(new.items()):
        others = [it for it in apart[to] if it != old]
        for path, here in words.items():
            if old not in APART and old in here and (to in here and to not in APART or any(it in here for it in others)):
                print("left: %s would be %s, which stands in %s" % (old, to, path))
                new.pop(old, None)
                break
    print("%d names" % len(new))
    if dry:
        for old in sorted(new):
            print(old, new[old])
        return
    changed = 0
    for path, text in texts.items():
        after = turned(path, text, new)
        if after != text:
            open(path, "w", encoding="utf-8").write(after)
            changed += 1
    for path in sorted(glob.glob(os.path.join(top, "docs/*.md")) + glob.glob(os.path.join(top, "README.md"))):
        text = open(path, encoding="utf-8").read()
        after = re.sub(r"`[^`\n]*`", lambda m: re.sub(NAME, lambda n: new.get(n[0], n[0]), m[0]), text)
        if after != text:
            open(path, "w", encoding="utf-8").write(after)
            changed += 1
    print("%d files" % changed)


main()
