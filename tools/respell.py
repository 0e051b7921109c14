#!/usr/bin/env python3
"""Spells the repository's own definitions, lemmas, fields and local names in snake case, as today's Rattle does.

usage: python3 tools/respell.py [--list]      at the top of the repository, once, after the kit's port.py

`heldNow` and `held-now` become `held_now`, a prime becomes an apostrophe; types, facts and modules keep their capitals.
What is respelled is what a text of specs/ or a lemma file of proofs/ declares (not a proof of one function, whose names are
made from the code), but for what it imports from the kit. The files of the source are turned in their clauses and ghost
lines alone: functions, fields, strings and outputs keep their names. --list prints the table and changes nothing.
"""

import collections
import os
import re
import sys

NAME = r"[^\s(){}.;,@\"«»]+"
WORD = re.compile(NAME.replace("@", "@`"))
COMMENT = re.compile(r"(?:^|(?<=\s))--(?=\s|-|$).*$", re.M)
BLOCK = re.compile(
    r"(?:requires|ensures)\s*\*?\s*(?:\w+\s*)?\{|\bghost\s+\w+\s*:\s*\{|\bghost\s+use\b[^;]*;|\bghost\s*\{"
)
HEAD = re.compile(
    r"(?m)^ *(?:(?:pub|abbrev|unfoldable|data|record|mutual|where|let|in|ruleset) +)*"
    r"(" + NAME + r"(?: +" + NAME + r")*)(?: *[({][^:\n]*:[^\n]*?[)}])* *:(?=\s)"
)
BOUND = re.compile(r"[({] *(" + NAME + r"(?: +" + NAME + r")*) *:(?=\s)")
LAMBDA = re.compile(r"λ *((?:\(?" + NAME + r"\)? *)+)\.")
LET = re.compile(r"\blet +(" + NAME + r") *[:=]")
EQUATION = re.compile(r"(?m)^ *(" + NAME + r")((?: +[^=\n]*)?) =(?=\s|$)")
USE = re.compile(r"\buse +([^\s;{]+)(?:\{((?:[^{}]|\{(?:[^{}]|\{[^{}]*\})*\})*)\})?")
# The front of a dotted name: a module, or the value whose field follows.
MODULE = re.compile(NAME + r"\.(?=[{\w◌#])")
# Quoted text, a comment, and what stands between.
PIECE = re.compile(r'"(?:[^"\\\n]|\\.)*"|(?<![^\s(){}.;,])--(?=[\s-]|$)[^\n]*|(?:(?!"|(?<![^\s(){}.;,])--(?=[\s-]|$)).)+|.', re.S)
ENGLISH = {"long-lived"}
OURS = None


def texts(root):
    for folder, dirs, files in os.walk(os.path.join(root, "crates")):
        dirs[:] = sorted(d for d in dirs if d != "out")
        for f in sorted(files):
            if f.endswith((".rt", ".antt")):
                yield os.path.join(folder, f)


def pages(root):
    yield os.path.join(root, "README.md")
    for folder, dirs, files in os.walk(os.path.join(root, "docs")):
        for f in sorted(files):
            if f.endswith(".md"):
                yield os.path.join(folder, f)


def read(path):
    with open(path, encoding="utf-8") as f:
        return f.read()


def old_spelling(word):
    """Whether a word has a dash between letters, a capital inside a word in small letters, or a prime."""
    if not re.match(r"[^\W\d_]", word):
        return False
    if word[0].isupper():
        return "-" in word and "_" not in word and not re.search(r"-[A-Z]", word)
    return bool(re.search(r"\w-\w", word) or re.search(r"[a-z0-9][A-Z]", word) or "′" in word)


def spelled(word):
    word = word.replace("′", "'")
    word = re.sub(r"(?<=\w)-(?=\w)", "_", word)
    if not word[0].isupper():
        word = re.sub(r"(?<=[a-z0-9])([A-Z])", lambda m: "_" + m[1].lower(), word)
        word = re.sub(r"_([A-Z])", lambda m: "_" + m[1].lower(), word)
    return word


def declared(text):
    text = COMMENT.sub("", text)
    found = set()
    for m in HEAD.finditer(text):
        found.update(m[1].split())
    for m in BOUND.finditer(text):
        found.update(m[1].split())
    for m in LAMBDA.finditer(text):
        found.update(WORD.findall(m[1]))
    for m in LET.finditer(text):
        found.add(m[1])
    for m in EQUATION.finditer(text):
        found.add(m[1])
        found.update(WORD.findall(m[2]))
    return found


def from_kit(text):
    """The names that a text imports from the kit's libraries."""
    found = set()
    for m in USE.finditer(text):
        if "::" in m[1] or m[1].startswith("Rattle.") and m[1].split(".")[1] in OURS:
            continue
        found.update(WORD.findall(m[2] or m[1].split(".")[-1]))
    return found


def lemma_file(path):
    """Whether a proof file is one of lemmas: not in the folder of a function's proof."""
    return "/proofs/" not in path or os.path.basename(path) not in ("Proof.antt", "Answers.antt", "Invariants.antt")


def table(root):
    ours, kit, words = set(), set(), {}
    for path in texts(root):
        text = read(path)
        kit |= from_kit(text)
        if path.endswith(".antt"):
            words[path] = set(WORD.findall(MODULE.sub("", COMMENT.sub("", text))))
        if path.endswith(".antt") and lemma_file(path):
            ours |= declared(text)
    rows = {w: spelled(w) for w in sorted(ours) if old_spelling(w) and w not in kit}
    rows = {w: n for w, n in rows.items() if n != w}
    return kept_apart(rows, words)


def kept_apart(rows, words):
    """A lemma that would be spelled as a definition that some file has beside it gets `_lem`, as the kit does it."""
    for _ in range(3):
        met = collections.defaultdict(set)
        for seen in words.values():
            here = collections.defaultdict(set)
            for w in seen:
                here[rows.get(w, w)].add(w)
            for n, ws in here.items():
                if len(ws) > 1:
                    met[n] |= ws
        if not met:
            return rows
        for n, ws in sorted(met.items()):
            old = sorted((w for w in ws if w in rows), key=lambda w: ("-" not in w, w))
            rows[old[0]] = n + "_lem"
            print(f"kept apart: {', '.join(sorted(ws))}: {old[0]} -> {n}_lem", file=sys.stderr)
    return rows


def turn(text, rows):
    """Each word that the table has, but for quoted text, and for English words in a comment."""
    rows = dict(rows)
    spoken = {w: n for w, n in rows.items() if w not in ENGLISH}
    return PIECE.sub(lambda m: m[0] if m[0][0] == '"' else turn_words(m[0], spoken if m[0][:2] == "--" else rows), text)


def turn_words(text, rows):
    return WORD.sub(lambda m: rows.get(m[0], m[0]), text)


def turn_page(text, rows):
    """The code spans of a page."""
    return re.sub(r"`[^`\n]+`", lambda m: turn(m[0], rows), text)


def turn_rt(text, rows):
    """Clauses and ghost lines."""
    out, at = [], 0
    for m in BLOCK.finditer(text):
        if m.start() < at:
            continue
        end = m.end()
        if m[0].endswith("{"):
            depth = 1
            while depth:
                depth += {"{": 1, "}": -1}.get(text[end], 0)
                end += 1
        out.append(text[at : m.start()])
        out.append(turn(text[m.start() : end], rows))
        at = end
    return "".join(out) + text[at:]


def main():
    global OURS
    root = os.getcwd()
    OURS = {d for d in os.listdir(os.path.join(root, "crates"))}
    rows = table(root)
    if "--list" in sys.argv:
        for w, n in rows.items():
            print(f"{w}\t{n}")
        return
    changed = 0
    for path in [*texts(root), *pages(root)]:
        text = read(path)
        kind = path.rsplit(".", 1)[1]
        new = {"antt": turn, "rt": turn_rt, "md": turn_page}[kind](text, rows)
        if new != text:
            with open(path, "w", encoding="utf-8") as f:
                f.write(new)
            changed += 1
    print(f"{len(rows)} names respelled in {changed} files")


if __name__ == "__main__":
    main()
