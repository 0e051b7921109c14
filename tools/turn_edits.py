#!/usr/bin/env python3
"""Turns the must-fail edits of an older commit to today's spelling.

usage: python3 tools/turn_edits.py COMMIT      at the top of the repository, where port.py and tools/respell.py have run

For each edit of COMMIT the files that it changes are written beside the ones that it is of, as it would leave them; port.py
and respell.py turn both; and what then differs between the two is the edit in today's spelling. A pair whose text stands as
it was, and still does the same, is kept. An edit that does not come over is named, and left as it was.
"""

import collections
import difflib
import glob
import os
import re
import shutil
import subprocess
import sys
import tempfile

HERE = os.path.dirname(os.path.realpath(__file__))
KIT = os.path.dirname(subprocess.run(["rt", "doc"], check=True, capture_output=True, text=True).stdout.strip())
PORT = os.path.join(KIT, "port", "port.py")


def read(path):
    with open(path, encoding="utf-8") as f:
        return f.read()


def write(path, text):
    with open(path, "w", encoding="utf-8") as f:
        f.write(text)


def parsed(text):
    """The lines of comment at the head, and for each file its pairs."""
    head, groups = [], []
    for line in text.splitlines():
        if line.startswith("file: "):
            groups.append((line[6:], []))
        elif line.startswith("old: "):
            groups[-1][1].append([line[5:], None])
        elif line.startswith("new:"):
            groups[-1][1][-1][1] = line[5:]
        elif not groups:
            head.append(line)
    return head, groups


def applied(text, pairs):
    for old, new in pairs:
        if text.count(old) != 1:
            return None
        text = text.replace(old, new)
    return text


def variant(file, n):
    stem, end = file.rsplit(".", 1)
    return f"{stem}Zz{n}.{end}" if end == "antt" else f"{stem}_zz{n}.{end}"


def pairs_of(old, new):
    """One pair for each line that differs; None where lines don't stand one for one."""
    a, b = old.split("\n"), new.split("\n")
    found = []
    for tag, i, j, k, m in difflib.SequenceMatcher(None, a, b, autojunk=False).get_opcodes():
        if tag == "equal":
            continue
        if j - i != m - k:
            return None
        found += [(x.strip(), y.strip()) for x, y in zip(a[i:j], b[k:m]) if x != y]
    return found


def main():
    commit = sys.argv[1]
    root = os.getcwd()
    top = tempfile.mkdtemp(prefix="edits-")
    work = os.path.join(top, "work")
    subprocess.run(["git", "worktree", "prune"], check=True)
    subprocess.run(["git", "clone", "-q", root, work], check=True)
    subprocess.run(["git", "-C", work, "checkout", "-q", commit], check=True)
    edits = sorted(glob.glob(os.path.join(work, "crates", "*", "must-fail", "*.edit")))
    made = collections.OrderedDict()
    for n, path in enumerate(edits):
        crate = os.path.dirname(os.path.dirname(path))
        head, groups = parsed(read(path))
        rows = []
        for file, pairs in groups:
            text = applied(read(os.path.join(crate, file)), pairs)
            if text is None:
                print(f"did not apply: {os.path.relpath(path, work)}")
                break
            beside = variant(file, n)
            write(os.path.join(crate, beside), text)
            rows.append((file, beside, pairs))
        made[path] = (crate, head, rows)
    git = ["git", "-C", work, "-c", "user.name=x", "-c", "user.email=x"]
    subprocess.run([*git, "add", "-A"], check=True)
    subprocess.run([*git, "commit", "-qm", "variants"], check=True)
    subprocess.run([sys.executable, PORT], cwd=work, check=False, stdout=subprocess.DEVNULL)
    subprocess.run([sys.executable, os.path.join(HERE, "respell.py")], cwd=work, check=True, stderr=subprocess.DEVNULL)
    kept = turned = 0
    for path, (crate, head, rows) in made.items():
        name = os.path.relpath(path, work)
        out = list(head)
        for file, beside, pairs in rows:
            old, new = read(os.path.join(crate, file)), read(os.path.join(crate, beside))
            if applied(old, pairs) == new:
                found = pairs
            else:
                found = pairs_of(old, new)
                if not found or applied(old, found) != new:
                    print(f"left: {name}: {file}: {found}")
                    break
            out.append(f"file: {file}")
            for x, y in found:
                out += [f"old: {x}", f"new: {y}".rstrip()]
        else:
            text = "\n".join(out) + "\n"
            kept += text == read(path)
            turned += text != read(path)
            write(os.path.join(root, name), text)
    print(f"{len(made)} edits: {kept} as they were, {turned} turned")
    shutil.rmtree(top)


if __name__ == "__main__":
    main()
