#!/usr/bin/env python3
"""Respells the names in must-fail edits, in the edits of tests/mutations and in the scripts of tests/corpus, as tools/respell.py did in the
files that they change.

usage: tools/respell_edits.py OLDTREE [ROOT]

OLDTREE is the tree as it was before tools/respell.py, since that tells which names turned. Run once. Lines `old:`, `new:` and `in:` turn as
code of the file that `file:` names, other lines as comments. Then it lists each `old:` text that does not stand once in its file.
"""

import os
import re
import sys

sys.path.insert(0, os.path.dirname(os.path.abspath(__file__)))
import respell

CODE = ("old:", "new:", "in:")


def edits(root):
    """Each edit with the crate that it changes, where its path tells it."""
    for path in respell.files(os.path.join(root, "crates"), (".edit",)):
        crate, folder, _ = os.path.relpath(path, os.path.join(root, "crates")).split(os.sep)[:3]
        if folder == "must-fail":
            yield path, crate
    for path in respell.files(os.path.join(root, "tests", "mutations", "edits"), (".edit",)):
        yield path, "rules"


def turned(text, crate, names, rows, ended):
    lines, file = [], ""
    for line in text.split("\n"):
        key, space, rest = line.partition(" ")
        if key == "crate:":
            crate = rest
        elif key == "file:":
            file = f"crates/{crate}/{rest}"
        elif key in CODE and file.endswith(".rt"):
            rest = respell.rust(rest, rows, ended, file)
        elif key in CODE:
            rest = respell.antt(rest, rows, ended, file, names)
        else:
            rest = respell.prose(rest, rows, ended, file)
        lines.append(key + space + rest)
    return "\n".join(lines)


def extent(text, within):
    """Where tests/mutations/run looks for the old text: in the declaration or clause that starts so, or anywhere for no name."""
    if within is None:
        return 0, len(text)
    found = re.search(rf"^ *(?:\w+ )*{re.escape(within)} .*?(?=^$|^ *-- |\Z)", text, re.MULTILINE | re.DOTALL)
    return found.span() if found else (0, 0)


def missing(text, crate, root):
    """The old texts that do not stand once in their file, as the pairs before them leave it."""
    texts, file, within, old = {}, "", None, ""
    for line in text.split("\n"):
        key, _, rest = line.partition(" ")
        if key == "crate:":
            crate = rest
        elif key == "file:":
            file, within = os.path.join(root, "crates", crate, rest), None
            if file not in texts:
                texts[file] = respell.read(file) if os.path.exists(file) else ""
        elif key == "in:":
            within = rest
        elif key == "old:":
            old = rest
        elif key == "new:":
            start, end = extent(texts[file], within)
            if texts[file].count(old, start, end) != 1:
                yield file, texts[file].count(old, start, end), old
            texts[file] = texts[file][:start] + texts[file][start:end].replace(old, rest) + texts[file][end:]


def main(argv):
    old, root = argv[0], argv[1] if len(argv) > 1 else "."
    every, inner = respell.declared(old)
    rows, ended = respell.table(every)
    changed = 0
    for path, crate in edits(root):
        was = respell.read(path)
        new = turned(was, crate, inner, rows, ended)
        for file, count, text in missing(new, crate, root):
            print(f"{os.path.relpath(path, root)}: stands {count} times in {os.path.relpath(file, root)}: {text}")
        changed += write(path, was, new)
    for name in ("theorems", "machine-theorems"):
        path = os.path.join(root, "tests", "corpus", name)
        was = respell.read(path)
        new = respell.code(was, rows, ended, path, inner, respell.WORD)
        changed += write(path, was, respell.prose(new, rows, ended, path))
    print(f"respell_edits: {len(rows)} names, {changed} files")
    return 0


def write(path, was, new):
    if new != was:
        with open(path, "w", encoding="utf-8") as f:
            f.write(new)
    return new != was


if __name__ == "__main__":
    raise SystemExit(main(sys.argv[1:]))
